//! Why a cell is what it is, in whole numbers: sums of prices in ticks, never rounded.

use std::cmp::Ordering;

use crate::request::{Request, Rule};

pub const DESKS: usize = 16;
const LARGEST_VALUE: i64 = 1 << 30;
const LARGEST_TICK: i64 = 1 << 24;
const LONGEST_WINDOW: usize = 720;

/// What a request is answered.
pub enum Answer {
    Refused { refusal: usize, why: String },
    Empty { why: String },
    Cells,
}

/// What makes a cell what it is.
#[derive(Clone, Copy, Debug, PartialEq, Eq)]
pub enum Reason {
    BeforeFirst,
    Theorem,
    /// A sum of 0, where the definition is flat.
    Flat,
    /// A case of which the theorem does not speak: the rounded averages are compared.
    Rounding,
}

pub struct Cell {
    pub position: i32,
    pub reason: Reason,
    /// Whether the two whole numbers that the rule compares are equal.
    pub tie: bool,
    pub words: Vec<String>,
}

impl Rule {
    pub fn name(self) -> &'static str {
        match self {
            Rule::OneAverage => "one average",
            Rule::Double => "double",
            Rule::Middle => "middle",
        }
    }

    /// The theorem's name in crates/guarantees/specs/OnTicks.antt, and what it says.
    fn theorem(self) -> &'static str {
        match self {
            Rule::OneAverage => "single_on_ticks: the sign of n·n·price - D, where that and D are not 0",
            Rule::Double => {
                "double_on_ticks: +1 exactly where m times the short sum is at least n times the long one, else -1"
            }
            Rule::Middle => "mid_on_ticks: the sign of 2·S - (H + W), where that, H and W are not 0",
        }
    }
}

pub fn answer(request: &Request) -> Answer {
    let Request { desk, n, m, rule, prices } = request;
    let double = *rule == Rule::Double;
    if !(1..=DESKS).contains(desk) {
        return Answer::Refused { refusal: 15, why: format!("the desk is not one of 1 to {DESKS}") };
    }
    if let Some(bar) = prices.iter().position(|price| price.abs() > LARGEST_VALUE) {
        return Answer::Refused { refusal: 5, why: format!("the price of bar {bar} is beyond 1,073,741,824") };
    }
    if *n > LONGEST_WINDOW || double && *m > LONGEST_WINDOW {
        return Answer::Refused { refusal: 7, why: "a window is above 720".to_string() };
    }
    if prices.is_empty() || *n == 0 || double && *m == 0 {
        let why = if prices.is_empty() { "it has no bars" } else { "a window is 0" };
        return Answer::Empty { why: why.to_string() };
    }
    if double && n >= m {
        return Answer::Refused { refusal: 9, why: "n is not below m".to_string() };
    }
    Answer::Cells
}

/// The cell of a bar, of a request that is answered with cells.
pub fn cell(request: &Request, bar: usize) -> Cell {
    let Request { n, m, rule, .. } = *request;
    let first = match rule {
        Rule::Double => m - 1,
        Rule::OneAverage | Rule::Middle => 2 * n - 2,
    };
    if bar < first {
        let formula = if rule == Rule::Double { "m-1" } else { "2n-2" };
        let words = vec![format!("it is before bar {formula} = {first}, the first that has a position of its own")];
        return Cell { position: 0, reason: Reason::BeforeFirst, tie: false, words };
    }
    let sides = sides(request, bar);
    let Sides { left, right, mut words, flat, .. } = sides;
    let tie = left == right;
    words.push(match left.cmp(&right) {
        Ordering::Less => format!("{left} is less than {right}"),
        Ordering::Equal => format!("both are {left}"),
        Ordering::Greater => format!("{left} is greater than {right}"),
    });
    if let Some(why) = flat {
        words.push(why);
        return Cell { position: 0, reason: Reason::Flat, tie, words };
    }
    let beyond = request.prices.iter().any(|price| price.abs() > LARGEST_TICK);
    let silent = if beyond {
        Some("a price of this request is beyond 16,777,216")
    } else if sides.silent {
        Some("D is 0")
    } else if tie && rule != Rule::Double {
        Some("a tie")
    } else {
        None
    };
    if let Some(case) = silent {
        words.push(format!("{case}: the theorem does not speak of it, and the rounded averages decide"));
        let position = rounded(request, bar, &mut words);
        return Cell { position, reason: Reason::Rounding, tie, words };
    }
    if tie {
        words.push("a tie, which is long".to_string());
    }
    words.push(format!("theorem {}", rule.theorem()));
    Cell { position: if left < right { -1 } else { 1 }, reason: Reason::Theorem, tie, words }
}

/// The two whole numbers that a rule compares, and how they are made.
struct Sides {
    left: i128,
    right: i128,
    words: Vec<String>,
    /// Why the definition is flat here.
    flat: Option<String>,
    /// Whether the theorem is silent though there is no tie.
    silent: bool,
}

fn sides(request: &Request, bar: usize) -> Sides {
    let Request { n, m, rule, ref prices, .. } = *request;
    let (wide, long) = (n as i128, m as i128);
    let sum = |bar: usize, n: usize| prices[bar + 1 - n..=bar].iter().map(|price| *price as i128).sum::<i128>();
    let sums = |bar: usize| (bar + 1 - n..=bar).map(|at| sum(at, n));
    let from = bar + 1 - n;
    match rule {
        Rule::Double => {
            let (short, whole) = (sum(bar, n), sum(bar, m));
            let (left, right) = (long * short, wide * whole);
            let words = vec![
                format!("m times the short sum: {m} · {short} = {left}; {}", last(prices, bar, n)),
                format!("n times the long sum:  {n} · {whole} = {right}; {}", last(prices, bar, m)),
            ];
            Sides { left, right, words, flat: None, silent: false }
        }
        Rule::OneAverage => {
            let price = prices[bar] as i128;
            let (left, right) = (wide * wide * price, sums(bar).sum());
            let words = vec![
                format!("n·n·price: {n} · {n} · {price} = {left}"),
                format!("D: {right}, the sum of the window sums of bars {from} to {bar}"),
            ];
            Sides { left, right, words, flat: None, silent: right == 0 }
        }
        Rule::Middle => {
            let present = sum(bar, n);
            let (high, low) = (sums(bar).max().unwrap(), sums(bar).min().unwrap());
            let (left, right) = (2 * present, high + low);
            let words = vec![
                format!("2·S: 2 · {present} = {left}; {}", last(prices, bar, n)),
                format!(
                    "H + W: {high} + {low} = {right}, the highest and the lowest window sum of bars {from} to {bar}"
                ),
            ];
            let zero = [("H", high), ("W", low)].into_iter().find(|(_, sum)| *sum == 0);
            let flat = zero.map(|(name, _)| format!("{name} is 0, so a mean that the middle is made of is 0: flat"));
            Sides { left, right, words, flat, silent: false }
        }
    }
}

/// The last n prices, named and, where they are few, listed.
fn last(prices: &[i64], bar: usize, n: usize) -> String {
    let texts: Vec<String> = prices[bar + 1 - n..=bar].iter().map(i64::to_string).collect();
    match n {
        1 => format!("the last price, {}", texts[0]),
        2..=8 => format!("the last {n} prices, {}", texts.join(", ")),
        _ => format!("the last {n} prices"),
    }
}

/// The position by the rule's own operations, each rounded once. The sums of a window are whole and below 2^53.
fn rounded(request: &Request, bar: usize, words: &mut Vec<String>) -> i32 {
    let Request { n, m, rule, ref prices, .. } = *request;
    let mean = |bar: usize, n: usize| prices[bar + 1 - n..=bar].iter().sum::<i64>() as f64 / n as f64;
    let means = || (bar + 1 - n..=bar).map(|at| mean(at, n));
    let (left, right, flat) = match rule {
        Rule::Double => (mean(bar, n), mean(bar, m), false),
        Rule::OneAverage => {
            let average = means().sum::<f64>() / n as f64;
            (prices[bar] as f64, average, average == 0.0)
        }
        Rule::Middle => {
            let (high, low) = (means().fold(f64::MIN, f64::max), means().fold(f64::MAX, f64::min));
            (mean(bar, n), (high + low) / 2.0, high == 0.0 || low == 0.0)
        }
    };
    let names = match rule {
        Rule::Double => ["the short average", "the long one"],
        Rule::OneAverage => ["the price", "the doubly averaged price"],
        Rule::Middle => ["the mean", "the middle"],
    };
    let (position, why) = if flat {
        (0, "an average of 0 is flat")
    } else if left < right {
        (-1, "below is short")
    } else {
        (1, "not below is long")
    };
    words.push(format!("{} is {left}, {} {right}: {why}", names[0], names[1]));
    position
}
