//! The evidence beside the sheet's own answers, over generated requests.

use std::fmt::Write;
use std::fs::File;
use std::process::{Command, ExitCode};

use crate::evidence::{self, Answer, Reason};
use crate::request::{self, Request, Rule};

/// Splitmix64.
struct Random(u64);

impl Random {
    fn next(&mut self) -> u64 {
        self.0 = self.0.wrapping_add(0x9e37_79b9_7f4a_7c15);
        let mixed = (self.0 ^ (self.0 >> 30)).wrapping_mul(0xbf58_476d_1ce4_e5b9);
        let mixed = (mixed ^ (mixed >> 27)).wrapping_mul(0x94d0_49bb_1331_11eb);
        mixed ^ (mixed >> 31)
    }

    fn to(&mut self, most: u64) -> usize {
        (self.next() % (most + 1)) as usize
    }

    /// From -most to most.
    fn about(&mut self, most: i64) -> i64 {
        self.to(2 * most as u64) as i64 - most
    }
}

fn generate(random: &mut Random) -> Request {
    let rule = [Rule::OneAverage, Rule::Double, Rule::Middle][random.to(2)];
    let window = |random: &mut Random| match random.to(19) {
        0 => random.to(6000),
        1..4 => random.to(260),
        _ => random.to(7),
    };
    let (n, m) = (window(random), window(random));
    let bars = if random.to(9) == 0 { random.to(512) } else { random.to(40) };
    let (start, slope) = (random.about(100), random.about(3));
    let desk = if random.to(11) == 0 { [0, 17, 9999][random.to(2)] } else { 1 + random.to(15) };
    let kind = random.to(8);
    let prices = (0..bars as i64).map(|bar| match kind {
        0 => start,
        1 => start + slope * bar,
        2 => start + slope * (bar % 3),
        3 => random.about(1),
        4 => random.about(3),
        5 => 1000 + random.about(2),
        6 => random.about(1 << 24),
        7 => random.about((1 << 30) + 20),
        _ => (1 << 24) + random.about(2),
    });
    Request { desk, rule, n, m, prices: prices.collect() }
}

fn written(requests: &[Request]) -> String {
    let mut text = String::new();
    for Request { desk, rule, n, m, prices } in requests {
        let rule = *rule as usize + 1;
        writeln!(text, "{desk:4}{rule:4}{n:6}{m:6}{:6}", prices.len()).unwrap();
        for price in prices {
            writeln!(text, "{price:12}").unwrap();
        }
    }
    text
}

/// What the evidence makes of the requests, as the sheet prints it, with how many cells were decided by what.
fn answers(requests: &[Request], tally: &mut Tally) -> String {
    let mut text = String::new();
    let mut refused = [0; evidence::DESKS];
    for request in requests {
        let head = |refusal: usize, count: usize| {
            format!("{:4}{:4}{refusal:4}{count:6}\n", request.desk, request.rule as usize + 1)
        };
        match evidence::answer(request) {
            Answer::Refused { refusal, .. } => {
                if refusal != 15 {
                    refused[request.desk - 1] += 1;
                }
                text += &head(refusal, 0);
            }
            Answer::Empty { .. } => text += &head(0, 0),
            Answer::Cells => {
                text += &head(0, request.prices.len());
                for bar in 0..request.prices.len() {
                    let cell = evidence::cell(request, bar);
                    tally.count(&cell);
                    writeln!(text, "{:4}", cell.position).unwrap();
                }
            }
        }
    }
    for (desk, count) in (1..).zip(refused) {
        writeln!(text, "{desk:4}{count:12}").unwrap();
    }
    text
}

#[derive(Default)]
struct Tally {
    cells: usize,
    theorem: usize,
    rounding: usize,
    ties: usize,
}

impl Tally {
    fn count(&mut self, cell: &evidence::Cell) {
        self.cells += 1;
        self.theorem += (cell.reason == Reason::Theorem) as usize;
        self.rounding += (cell.reason == Reason::Rounding) as usize;
        self.ties += cell.tie as usize;
    }
}

/// Runs the program on generated requests, which stand in the file `input`, and compares every line.
pub fn run(program: &str, seed: u64, count: usize, input: &str) -> ExitCode {
    let mut random = Random(seed);
    let requests: Vec<Request> = (0..count).map(|_| generate(&mut random)).collect();
    let text = written(&requests);
    let (read, broken) = request::read(text.as_bytes());
    assert!(!broken && written(&read) == text, "the requests are not read as they were written");
    std::fs::write(input, &text).expect("the requests are not written");
    let run = Command::new(program).stdin(File::open(input).unwrap()).output().expect("the program does not run");
    let mut tally = Tally::default();
    let expected = answers(&read, &mut tally);
    let Tally { cells, theorem, rounding, ties } = tally;
    let got = String::from_utf8_lossy(&run.stdout);
    if let Some((line, (want, got))) = expected.lines().zip(got.lines()).enumerate().find(|(_, (a, b))| a != b) {
        eprintln!("explain: {input}: line {} of the sheet is '{got}', by the evidence '{want}'", line + 1);
        return ExitCode::from(1);
    }
    if got != expected || ties == 0 || rounding == 0 {
        eprintln!("explain: {input}: the sheet ends elsewhere, or there was no tie");
        return ExitCode::from(1);
    }
    println!(
        "explained {cells} cells of {count} requests, {theorem} by a theorem, {rounding} by rounding, {ties} ties"
    );
    ExitCode::SUCCESS
}
