//! The functions of pure.rs that smooth, restated around the smoother of the recorded coefficients. In every call for
//! whose periods exp and cos give those coefficients on this machine, pure.rs itself must give the same cells.

use crate::call::{Kind, Lines};
use crate::close_before;
use crate::rng::Rng;
use crate::smoother::{LONGEST, agrees, by_table};

/// The words of one output's cells, or of three.
pub type Words = Vec<Vec<u64>>;

/// The smoother's own cells, for a period that is whole from 0 to 512.
pub fn ultimate_smoother(price: &[f64], period: f64) -> Words {
    let whole = period as usize;
    tied("ultimate_smoother", [whole, whole], by_table(price, whole), || pure::ultimate_smoother(price, period))
}

/// The strength of two exponential averages, of gains and of losses, smoothed.
pub fn rsx_ss2(close: &[f64], period: usize, smooth_period: usize) -> Words {
    let given = || pure::rsx_ss2(close, period, smooth_period);
    if period == 0 || smooth_period == 0 {
        return given().words();
    }
    let alpha = 1.0 / period as f64;
    let (mut gain, mut loss) = (0.0, 0.0);
    let mut strength = vec![f64::NAN; close.len()];
    for i in 1..close.len() {
        let change = close[i] - close[i - 1];
        let (up, down) = if change > 0.0 { (change, 0.0) } else { (0.0, -change) };
        gain = alpha * up + (1.0 - alpha) * gain;
        loss = alpha * down + (1.0 - alpha) * loss;
        strength[i] = if loss == 0.0 { 100.0 } else { 100.0 - (100.0 / (1.0 + gain / loss)) };
    }
    tied("rsx_ss2", [smooth_period, smooth_period], by_table(&strength, smooth_period), given)
}

/// The smoothed close, and above and below it a multiple of the smoothed average range.
/// Where the close before bar 0 is supplied, the source has no such call.
pub fn ultimate_channel(
    high: &[f64],
    low: &[f64],
    close: &[f64],
    period: usize,
    multiplier: f64,
    before: Option<f64>,
) -> Words {
    let given = || pure::ultimate_channel(high, low, close, period, multiplier);
    if high.is_empty() || period == 0 {
        return given().words();
    }
    let mut closes = vec![0.0];
    closes.extend(&close[..close.len() - 1]);
    let ranges = close_before::true_range(high, low, &closes, before);
    let mut average = vec![f64::NAN; ranges.len()];
    for i in period - 1..ranges.len() {
        average[i] = if i + 1 == period {
            ranges[..period].iter().fold(0.0, |sum, range| sum + range) / period as f64
        } else {
            (average[i - 1] * (period - 1) as f64 + ranges[i]) / period as f64
        };
    }
    let lines = around(by_table(close, period), multiplier, by_table(&average, period / 2));
    if before.is_some() { lines.words() } else { tied("ultimate_channel", [period, period / 2], lines, given) }
}

/// The smoothed close, and above and below it a multiple of the smoothed deviation of the last closes.
pub fn ultimate_bands(close: &[f64], period: usize, std_multiplier: f64, smooth_period: usize) -> Words {
    let given = || pure::ultimate_bands(close, period, std_multiplier, smooth_period);
    if period == 0 || smooth_period == 0 || close.len() < period {
        return given().words();
    }
    let mut deviations = vec![f64::NAN; close.len()];
    for i in period - 1..close.len() {
        deviations[i] = deviation(&close[i + 1 - period..=i]);
    }
    let lines = around(by_table(close, period), std_multiplier, by_table(&deviations, smooth_period));
    tied("ultimate_bands", [period, smooth_period], lines, given)
}

/// The root of the squares about the mean over one less than their number; 0 for one value.
fn deviation(values: &[f64]) -> f64 {
    let mean = values.iter().fold(0.0, |sum, x| sum + x) / values.len() as f64;
    let squares = values.iter().fold(0.0, |sum, x| sum + (x - mean) * (x - mean));
    if values.len() == 1 { 0.0 } else { (squares / (values.len() - 1) as f64).sqrt() }
}

/// The middle line, and those a multiple of the width above it and below it.
fn around(middle: Vec<f64>, multiplier: f64, width: Vec<f64>) -> (Vec<f64>, Vec<f64>, Vec<f64>) {
    let upper = middle.iter().zip(&width).map(|(x, w)| x + multiplier * w).collect();
    let lower = middle.iter().zip(&width).map(|(x, w)| x - multiplier * w).collect();
    (middle, upper, lower)
}

/// The restated cells; where the coefficients of these periods are this machine's, the source's must be the same.
fn tied<T: Lines>(name: &str, periods: [usize; 2], restated: T, source: impl FnOnce() -> T) -> Words {
    let words = restated.words();
    if periods.into_iter().all(agrees) {
        assert!(same(&words, &source().words()), "{name} at periods {periods:?} differs from pure.rs");
    }
    words
}

fn same(restated: &Words, source: &Words) -> bool {
    let same_line =
        |(a, b): (&Vec<u64>, &Vec<u64>)| a.len() == b.len() && a.iter().zip(b).all(|(a, b)| Kind::F64.same(*a, *b));
    restated.len() == source.len() && restated.iter().zip(source).all(same_line)
}

/// Runs each of them at every period, tied to pure.rs where the coefficients are this machine's.
pub fn check() {
    let mut rng = Rng::new(1);
    let mut walk = |bars: usize| -> Vec<f64> { (0..bars).map(|_| 100.0 + 10.0 * rng.unit()).collect() };
    let mut calls = 0;
    for period in 0..=LONGEST {
        for other in [1, 2, 3, 4, 5, 20, LONGEST] {
            let bars = period + 30;
            let (high, low, close) = (walk(bars), walk(bars), walk(bars));
            ultimate_smoother(&close, period as f64);
            rsx_ss2(&close, other, period);
            ultimate_channel(&high, &low, &close, period, 1.5, None);
            ultimate_bands(&close, period, 1.5, other);
            ultimate_bands(&close, other, 1.5, period);
            calls += 5;
        }
    }
    let left_out = (1..=LONGEST).filter(|period| !agrees(*period)).count();
    println!("restated functions: pure.rs gives the same cells in {calls} calls, {left_out} periods left out");
}
