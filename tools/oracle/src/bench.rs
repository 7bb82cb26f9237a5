//! Times per bar of the library and of pure.rs, in one run: outputs ready beforehand on our side, vectors on the
//! source's.

use crate::call::{Kind, Value};
use crate::catalogue::{self, Domain, Function, Line};
use crate::clock::by_turns;
use crate::edges::{modest, with_windows};
use crate::library::Lent;
use crate::limits::{SERIES_LIMIT, WINDOW_LIMIT};
use crate::rng::Rng;

const LENGTHS: &[usize] = &[512, SERIES_LIMIT];
const WINDOWS: &[usize] = &[2, 5, 20, 60, 250, WINDOW_LIMIT];
const PERIODS: &[usize] = &[2, 3, 4, 5, 20, 60, 250];

/// What the series of a table are made of, each from the same walk of whole numbers.
#[derive(Clone, Copy, PartialEq, Eq)]
pub enum Prices {
    /// Whole ticks near 100,000.
    Ticks,
    /// Hundredths near 1,000, most of them no whole ticks.
    Hundredths,
    /// Whole ticks on both sides of 0, as the differences of two prices are.
    Differences,
}

impl Prices {
    /// By the word that a command gives.
    pub fn named(word: &str) -> Option<Prices> {
        match word {
            "ticks" => Some(Prices::Ticks),
            "hundredths" => Some(Prices::Hundredths),
            "differences" => Some(Prices::Differences),
            _ => None,
        }
    }

    fn of(self, price: i64) -> f64 {
        match self {
            Prices::Ticks => price as f64,
            Prices::Hundredths => price as f64 / 100.0,
            Prices::Differences => (price - START) as f64,
        }
    }

    fn suit(self, function: &Function) -> bool {
        self != Prices::Hundredths || function.domain == Domain::Accepted
    }
}

/// Where the walk starts.
const START: i64 = 100_000;

/// One line of the table.
struct Row {
    name: &'static str,
    bars: usize,
    window: String,
    ours: f64,
    source: f64,
    ratio: f64,
}

impl Row {
    fn print(&self) {
        println!(
            "{:<24}{:>8}{:>10}{:>12.3}{:>12.3}{:>10.2}",
            self.name, self.bars, self.window, self.ours, self.source, self.ratio
        );
    }
}

/// Prints the table of the named functions, of all if none is named; its last line is the smallest ratio of source to
/// ours.
pub fn run(prices: Prices, names: &[&str]) {
    println!("{:<24}{:>8}{:>10}{:>12}{:>12}{:>10}", "function", "L", "window", "ours ns/bar", "source", "ratio");
    let mut rows: Vec<Row> = Vec::new();
    let asked = |function: &Function| names.is_empty() || names.contains(&function.name);
    for function in catalogue::exported().filter(|function| prices.suit(function) && asked(function)) {
        for bars in LENGTHS {
            for timing in timings(function, *bars) {
                let row = measure(function, *bars, timing, prices);
                row.print();
                rows.push(row);
            }
        }
    }
    if let Some(least) = rows.iter().min_by(|a, b| a.ratio.total_cmp(&b.ratio)) {
        println!("smallest ratio {:.2}: {}, L {}, window {}", least.ratio, least.name, least.bars, least.window);
    }
}

/// The window that a row names, where it has one, and all parameters.
struct Timing {
    window: Option<usize>,
    parameters: Vec<Value>,
}

impl Timing {
    /// One row for each of these windows that the series is long enough for.
    fn each(windows: &[usize], bars: usize, parameters: impl Fn(usize) -> Vec<Value>) -> Vec<Timing> {
        let fitting = windows.iter().copied().filter(|n| *n <= bars);
        fitting.map(|n| Timing { window: Some(n), parameters: parameters(n) }).collect()
    }

    /// One row.
    fn only(parameters: &[Value]) -> Vec<Timing> {
        vec![Timing { window: None, parameters: parameters.to_vec() }]
    }
}

/// What a function is timed with.
fn timings(function: &Function, bars: usize) -> Vec<Timing> {
    use Value::{Count, Real};
    let windows = |parameters: fn(usize) -> Vec<Value>| Timing::each(WINDOWS, bars, parameters);
    match function.name {
        "exponential_smoothing" => Timing::only(&[Real(0.1)]),
        "ultimate_smoother" => Timing::only(&[Real(20.0)]),
        "rsx_ss2" => Timing::only(&[Count(14), Count(10)]),
        "jurik_volty" => Timing::only(&[Count(20), Real(1.0)]),
        "ultimate_bands" => Timing::each(PERIODS, bars, |n| vec![Count(n), Real(2.0), Count(10)]),
        "ultimate_channel" => Timing::each(PERIODS, bars, |n| vec![Count(n), Real(2.0), Count(0), Real(0.0)]),
        "double_sma_positions" | "double_sma_ranges" => windows(|n| vec![Count(n / 2), Count(n)]),
        "mms_positions" => windows(|n| vec![Count(n), Count(n)]),
        "triple_sma_positions" => Timing::each(&WINDOWS[1..], bars, |n| vec![Count(n / 4), Count(n / 2), Count(n)]),
        "ultimate_oscillator" => windows(|n| vec![Count((n / 4).max(1)), Count(n / 2), Count(n), Count(0), Real(0.0)]),
        "boll_positions" | "boll_reverse_positions" => windows(|n| vec![Count(n), Real(1.5)]),
        "rsi_reverse_positions" => windows(|n| vec![Count(n), Real(70.0), Real(30.0), Real(50.0)]),
        "holt_winters" => windows(|n| vec![Count(n), Real(0.2), Real(0.1), Real(0.1)]),
        _ if function.has_window() => Timing::each(WINDOWS, bars, |n| with_windows(function, n)),
        _ => Timing::only(&modest(function)),
    }
}

/// Both sides on a walk of prices, by turns: the best time of each, and the ratio of the turns.
fn measure(function: &'static Function, bars: usize, timing: Timing, prices: Prices) -> Row {
    let call = function.call(series(function, bars, prices), timing.parameters);
    let library = function.library.unwrap();
    let mut outputs: Vec<Lent> = call.outputs.iter().map(|len| Lent::filled(function.kind, *len, 1)).collect();
    let mut work = Lent::filled(Kind::F64, call.work, 2);
    let mut ours = || assert_eq!(library(&call, &mut outputs, &mut work).count, bars as u64);
    let mut theirs = || (function.timed)(&call);
    let turns = by_turns(&mut ours, &mut theirs);
    let [ours, source] = turns.best.map(|time| time / bars as f64);
    let window = timing.window.map_or("-".to_string(), |n| n.to_string());
    Row { name: function.name, bars, window, ours, source, ratio: turns.ratio }
}

/// One walk of prices, with high and low around it and the close before where a function takes them.
fn series(function: &Function, bars: usize, prices: Prices) -> Vec<Vec<f64>> {
    let mut rng = Rng::new(0);
    let mut price = START;
    let mut step = || {
        price += rng.between(-40, 40);
        price
    };
    let close: Vec<i64> = (0..bars).map(|_| step()).collect();
    let line = |walk: &[i64]| walk.iter().map(|price| prices.of(*price)).collect::<Vec<f64>>();
    let mut beside = |sign: i64| close.iter().map(|price| price + sign * rng.between(0, 30)).collect::<Vec<i64>>();
    let of = |series: &Line| match series {
        Line::Price => line(&close),
        Line::High => line(&beside(1)),
        Line::Low => line(&beside(-1)),
        Line::CloseBefore => line(&[&close[..1], &close[..bars - 1]].concat()),
    };
    function.series.iter().map(of).collect()
}
