//! The tanh rule: Rust's tanh in hundredths, the recorded list of its thresholds, and the rule on that list. Where this
//! platform's tanh has the recorded thresholds, pure.rs itself must give the same cells.

use std::hint::black_box;
use std::sync::OnceLock;

use crate::call::Kind;
use crate::rng::Rng;
use crate::smoother::platform;

/// A threshold for each of 1 to 100 hundredths.
const STEPS: usize = 100;
/// How far around a threshold each pattern is tried.
const AROUND: u64 = 1_000;
/// How far from a threshold another platform's tanh may disagree.
const BESIDE: u64 = 2;
const SHOWN: usize = 20;

/// The recorded list: a line that says what it was recorded on, then the bits of each threshold.
const RECORDED: &str = include_str!("../tanh.hex");

/// The cell that pure.rs makes of a score. Behind `black_box` tanh is the C library's, and not the compiler's.
fn of_source(score: f64) -> f64 {
    (black_box(score).tanh() * 100.0).round() / 100.0
}

/// The smallest number above 0 whose tanh is k hundredths or more, by halving the patterns from 0.0 to 10.0.
fn threshold(k: usize) -> u64 {
    let reaches = |bits: u64| (black_box(f64::from_bits(bits)).tanh() * 100.0).round() >= k as f64;
    let (mut below, mut above) = (0, 10.0f64.to_bits());
    while below + 1 < above {
        let middle = below.midpoint(above);
        if reaches(middle) {
            above = middle;
        } else {
            below = middle;
        }
    }
    above
}

fn fresh() -> &'static [u64] {
    static LIST: OnceLock<Vec<u64>> = OnceLock::new();
    LIST.get_or_init(|| (1..=STEPS).map(threshold).collect())
}

fn recorded() -> &'static [u64] {
    static LIST: OnceLock<Vec<u64>> = OnceLock::new();
    LIST.get_or_init(|| {
        let word = |text: &str| u64::from_str_radix(text, 16).expect("tanh.hex: a word of 16 digits");
        let words: Vec<u64> = RECORDED.lines().skip(1).map(word).collect();
        assert_eq!(words.len(), STEPS, "tanh.hex: a line for each threshold");
        words
    })
}

/// Whether this platform's tanh has the recorded thresholds.
pub fn agrees() -> bool {
    fresh() == recorded()
}

/// The recorded threshold of k hundredths, from 1 to 100.
pub fn recorded_threshold(k: usize) -> u64 {
    recorded()[k - 1]
}

/// Document 02's cell of a score: the largest k whose threshold is at most the score's size, over 100, with its sign.
fn by_table(score: f64) -> f64 {
    let k = recorded().iter().filter(|bits| f64::from_bits(**bits) <= score.abs()).count();
    if score.is_nan() { score } else { (k as f64 / 100.0).copysign(score) }
}

/// The cells of `tanh_positions`, by the recorded list.
pub fn tanh_positions(series: &[f64], n: usize) -> Vec<f64> {
    let given = || pure::tanh_positions(series, n);
    if n == 0 || n > series.len() {
        return given();
    }
    let mean = |values: &[f64]| values.iter().sum::<f64>() / n as f64;
    let means: Vec<f64> = series.windows(n).map(mean).collect();
    let mut cells = vec![0.0; series.len()];
    for (last, cell) in means.windows(n).zip(cells.iter_mut().skip(2 * n - 2)) {
        let middle = mean(last);
        let squares = last.iter().map(|x| (x - middle) * (x - middle)).sum::<f64>();
        let width = (squares / (n - 1) as f64).sqrt();
        *cell = if width > 0.0 { by_table((last[n - 1] - middle) / width) } else { 0.0 };
    }
    if agrees() {
        let same = |(a, b): (&f64, &f64)| Kind::F64.same(a.to_bits(), b.to_bits());
        assert!(cells.iter().zip(&given()).all(same), "tanh_positions with n {n} differs from pure.rs");
    }
    cells
}

/// Prints the list that tanh.hex holds.
pub fn print_list() {
    println!("{}", platform());
    fresh().iter().for_each(|bits| println!("{bits:016x}"));
}

/// Prints the recorded thresholds as Rattle source: a constant table, each number in the fewest digits that give its
/// bits.
pub fn print_tables() {
    println!("// The thresholds of tanh, recorded by tools/tanh_table: that of k hundredths is entry k - 1.");
    println!("pub const THRESHOLDS: [f64; {STEPS}] = [");
    recorded().iter().for_each(|bits| println!("    {:?},", f64::from_bits(*bits)));
    println!("];");
}

/// Whether this is what the list was recorded on.
fn recorded_here() -> bool {
    Some(platform().as_str()) == RECORDED.lines().next()
}

/// Compares the recorded list with a fresh run; false if they differ on what it was recorded on.
pub fn check() -> bool {
    let differing = fresh().iter().zip(recorded()).filter(|(a, b)| a != b).count();
    println!("tanh table: {differing} of {STEPS} thresholds differ from a fresh run on {}", platform());
    if !recorded_here() {
        let there = RECORDED.lines().next().unwrap_or("");
        println!("tanh table: it was recorded on {there}, so a difference would be the platform's");
    }
    differing == 0 || !recorded_here()
}

/// What was seen of scores.
#[derive(Default)]
struct Tally {
    scores: u64,
    differ: usize,
    /// Those of them that are farther from a threshold than another platform's may be.
    far: usize,
}

impl Tally {
    /// The cell of a score by the recorded list against that of Rust's tanh; a difference is printed, the first few.
    fn try_score(&mut self, score: f64) {
        let (ours, source) = (by_table(score), of_source(score));
        self.scores += 1;
        if Kind::F64.same(ours.to_bits(), source.to_bits()) {
            return;
        }
        let size = score.abs().to_bits();
        self.differ += 1;
        self.far += recorded().iter().all(|bits| bits.abs_diff(size) > BESIDE) as usize;
        if self.differ <= SHOWN {
            println!("tanh of {score:?} ({:016x}): the table gives {ours:?}, Rust {source:?}", score.to_bits());
        }
    }
}

/// Compares the recorded list with Rust's tanh: every pattern around each threshold, of both signs, zeros, infinities
/// and NaN, and `count` random scores of three kinds with each seed. False if one differs on what it was recorded on,
/// and elsewhere if one differs that is not beside a threshold.
pub fn compare_scores(seeds: &[u64], count: usize) -> bool {
    let mut tally = Tally::default();
    for bits in recorded().iter().flat_map(|bits| bits - AROUND..=bits + AROUND) {
        tally.try_score(f64::from_bits(bits));
        tally.try_score(-f64::from_bits(bits));
    }
    for size in [0.0, f64::MIN_POSITIVE, 5e-324, f64::MAX, f64::INFINITY, f64::NAN] {
        tally.try_score(size);
        tally.try_score(-size);
    }
    for mut rng in seeds.iter().map(|seed| Rng::new(*seed)) {
        for turn in 0..count {
            tally.try_score(match turn % 3 {
                0 => f64::from_bits(rng.word()),
                1 => (rng.unit() - 0.5) * 7.0,
                _ => {
                    let near = recorded()[rng.below(STEPS)] as i64 + rng.between(-1 << 32, 1 << 32);
                    f64::from_bits(near as u64 | rng.word() << 63)
                }
            });
        }
    }
    println!("tanh: {} scores by the table and by Rust, {} differ", tally.scores, tally.differ);
    if tally.differ > 0 && !recorded_here() {
        println!("tanh: this is another platform; {} are more than {BESIDE} patterns from a threshold", tally.far);
    }
    tally.differ == 0 || !recorded_here() && tally.far == 0
}
