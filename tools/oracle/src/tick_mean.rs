//! Document 01's tick mean with document 02's rounding: the window's sum over n to a whole tick, half to even.

use std::cmp::Ordering;

/// The cell of every bar of a series of whole ticks, 0 before bar n-1; no cell for a window of 0.
pub fn line(series: &[f64], n: usize) -> Vec<i64> {
    if n == 0 {
        return Vec::new();
    }
    let mut sum = 0;
    let mut cells = Vec::with_capacity(series.len());
    for (bar, tick) in series.iter().enumerate() {
        sum += *tick as i64 - if bar < n { 0 } else { series[bar - n] as i64 };
        cells.push(if bar + 1 < n { 0 } else { nearest(sum, n as i64) });
    }
    cells
}

/// sum / n to a whole number, half to even: the one below or the one above.
fn nearest(sum: i64, n: i64) -> i64 {
    let (below, left) = (sum.div_euclid(n), sum.rem_euclid(n));
    match (2 * left).cmp(&n) {
        Ordering::Less => below,
        Ordering::Equal => below + below.rem_euclid(2),
        Ordering::Greater => below + 1,
    }
}
