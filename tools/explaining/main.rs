//! The whole-number evidence for one cell of a sheet: `tools/explain` and `tools/explain_compare` run this.

mod compare;
mod evidence;
mod request;

use std::io::{Write, stdout};
use std::process::ExitCode;

use evidence::Answer;
use request::{Request, Rule};

const USAGE: &str = "usage: tools/explain REQUESTS DESK BAR, where bars count from 0";

fn main() -> ExitCode {
    let words: Vec<String> = std::env::args().skip(1).collect();
    let words: Vec<&str> = words.iter().map(String::as_str).collect();
    match words[..] {
        ["--help"] => print(&format!("{USAGE}\n")),
        ["compare", program, seed, count, input] => match (seed.parse(), count.parse()) {
            (Ok(seed), Ok(count)) => compare::run(program, seed, count, input),
            _ => wrong("a seed and a count are numbers"),
        },
        [file, desk, bar] => match (std::fs::read(file), desk.parse(), bar.parse()) {
            (Err(error), _, _) => {
                eprintln!("explain: {file}: {error}");
                ExitCode::from(1)
            }
            (Ok(input), Ok(desk), Ok(bar)) => explain(&input, desk, bar),
            _ => wrong("a desk and a bar are numbers"),
        },
        _ => wrong("it takes three arguments"),
    }
}

fn wrong(why: &str) -> ExitCode {
    eprintln!("explain: {why}; {USAGE}");
    ExitCode::from(2)
}

fn print(text: &str) -> ExitCode {
    match stdout().write_all(text.as_bytes()) {
        Ok(()) => ExitCode::SUCCESS,
        Err(error) => {
            eprintln!("explain: writing: {error}");
            ExitCode::from(1)
        }
    }
}

/// Explains the bar's cell in each request of the desk.
fn explain(input: &[u8], desk: usize, bar: usize) -> ExitCode {
    let (requests, broken) = request::read(input);
    let mut text = String::new();
    let mut told = false;
    for (place, request) in requests.iter().enumerate().filter(|(_, request)| request.desk == desk) {
        told |= bar < request.prices.len();
        let (verdict, words) = verdict(request, bar);
        text += &format!("{}: {verdict}\n", headed(request, place + 1, bar));
        for line in words {
            text += &format!("    {line}\n");
        }
    }
    if broken {
        let place = requests.len() + 1;
        text += &format!("request {place} breaks its columns: the sheet refuses it with 10 and reads no further\n");
    }
    let printed = print(&text);
    if told { printed } else { wrong(&format!("no request of desk {desk} that is read has a bar {bar}")) }
}

fn headed(request: &Request, place: usize, bar: usize) -> String {
    let Request { desk, rule, n, m, prices, .. } = request;
    let windows = if *rule == Rule::Double { format!("n {n}, m {m}") } else { format!("n {n}") };
    let price = prices.get(bar).map_or(String::new(), |price| format!(", price {price}"));
    format!("desk {desk}, request {place}, {}, {windows}; bar {bar}{price}", rule.name())
}

fn verdict(request: &Request, bar: usize) -> (String, Vec<String>) {
    match evidence::answer(request) {
        Answer::Refused { refusal, why } => (format!("no cell: refused with {refusal}"), vec![why]),
        Answer::Empty { why } => ("no cell: answered with count 0".to_string(), vec![why]),
        Answer::Cells if bar >= request.prices.len() => {
            ("no cell: no such bar".to_string(), vec![format!("it has bars 0 to {}", request.prices.len() - 1)])
        }
        Answer::Cells => {
            let cell = evidence::cell(request, bar);
            let position = match cell.position {
                1 => "long (1)",
                -1 => "short (-1)",
                _ => "flat (0)",
            };
            (position.to_string(), cell.words)
        }
    }
}
