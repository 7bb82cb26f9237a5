//! Published tables, each with its prices, its window and its figures to two decimals. The cells of a call must round to
//! them. All are of StockCharts' ChartSchool: "Moving Averages - Simple and Exponential" (10 days), "Relative Strength
//! Index (RSI)" (14 days) and "Average True Range (ATR)" (the column of true ranges).

use crate::call::Call;
use crate::catalogue::Function;
use crate::edges::{modest, with_windows};
use crate::source;

/// Half of a figure's last digit, and a little for the sum's own rounding.
const TOLERANCE: f64 = 0.005_000_001;
/// The same where two prices are printed to two decimals too.
const TOLERANCE_OF_RANGES: f64 = 0.015_000_001;

const AVERAGED: [f64; 30] = [
    22.2734, 22.1940, 22.0847, 22.1741, 22.1840, 22.1344, 22.2337, 22.4323, 22.2436, 22.2933, 22.1542, 22.3926,
    22.3816, 22.6109, 23.3558, 24.0519, 23.7530, 23.8324, 23.9516, 23.6338, 23.8225, 23.8722, 23.6537, 23.1870,
    23.0976, 23.3260, 22.6805, 23.0976, 22.4025, 22.1725,
];
const SIMPLE: [f64; 21] = [
    22.22, 22.21, 22.23, 22.26, 22.31, 22.42, 22.61, 22.77, 22.91, 23.08, 23.21, 23.38, 23.53, 23.65, 23.71, 23.69,
    23.61, 23.51, 23.43, 23.28, 23.13,
];
const EXPONENTIAL: [f64; 21] = [
    22.22, 22.21, 22.24, 22.27, 22.33, 22.52, 22.80, 22.97, 23.13, 23.28, 23.34, 23.43, 23.51, 23.54, 23.47, 23.40,
    23.39, 23.26, 23.23, 23.08, 22.92,
];
const INDEXED: [f64; 33] = [
    44.3389, 44.0902, 44.1497, 43.6124, 44.3278, 44.8264, 45.0955, 45.4245, 45.8433, 46.0826, 45.8931, 46.0328,
    45.6140, 46.2820, 46.2820, 46.0028, 46.0328, 46.4116, 46.2222, 45.6439, 46.2122, 46.2521, 45.7137, 46.4515,
    45.7835, 45.3548, 44.0288, 44.1783, 44.2181, 44.5672, 43.4205, 42.6628, 43.1314,
];
const INDEX: [f64; 19] = [
    70.53, 66.32, 66.55, 69.41, 66.36, 57.97, 62.93, 63.26, 56.06, 62.38, 54.71, 50.42, 39.99, 41.46, 41.87, 45.46,
    37.30, 33.08, 37.77,
];

const HIGHS: [f64; 30] = [
    48.70, 48.72, 48.90, 48.87, 48.82, 49.05, 49.20, 49.35, 49.92, 50.19, 50.12, 49.66, 49.88, 50.19, 50.36, 50.57,
    50.65, 50.43, 49.63, 50.33, 50.29, 50.17, 49.32, 48.50, 48.32, 46.80, 47.80, 48.39, 48.66, 48.79,
];
const LOWS: [f64; 30] = [
    47.79, 48.14, 48.39, 48.37, 48.24, 48.64, 48.94, 48.86, 49.50, 49.87, 49.20, 48.90, 49.43, 49.73, 49.26, 50.09,
    50.30, 49.21, 48.98, 49.61, 49.20, 49.43, 48.08, 47.64, 41.55, 44.28, 47.31, 47.20, 47.90, 47.73,
];
/// The close before each bar; the first is not read.
const CLOSES_BEFORE: [f64; 30] = [
    0.00, 48.16, 48.61, 48.75, 48.63, 48.74, 49.03, 49.07, 49.32, 49.91, 50.13, 49.53, 49.50, 49.75, 50.03, 50.31,
    50.52, 50.41, 49.34, 49.37, 50.23, 49.24, 49.93, 48.43, 48.18, 46.57, 45.41, 47.77, 47.72, 48.62,
];
const RANGES: [f64; 30] = [
    0.91, 0.58, 0.51, 0.50, 0.58, 0.41, 0.26, 0.49, 0.60, 0.32, 0.93, 0.76, 0.45, 0.47, 1.10, 0.48, 0.35, 1.22, 0.65,
    0.96, 1.09, 0.93, 1.85, 0.86, 6.77, 2.52, 2.39, 1.19, 0.94, 1.06,
];

/// The call of a function's table, whose last cells are its figures.
pub fn call(function: &Function) -> Option<Call> {
    let (series, window, figures, tolerance): (Vec<&[f64]>, Option<usize>, &[f64], f64) = match function.name {
        "sma" => (vec![&AVERAGED], Some(10), &SIMPLE, TOLERANCE),
        "ema" => (vec![&AVERAGED], Some(10), &EXPONENTIAL, TOLERANCE),
        "wilder_rsi" => (vec![&INDEXED], Some(14), &INDEX, TOLERANCE),
        "true_range" => (vec![&HIGHS, &LOWS, &CLOSES_BEFORE], None, &RANGES, TOLERANCE_OF_RANGES),
        _ => return None,
    };
    let bars = series[0].len();
    let series = series.into_iter().map(<[f64]>::to_vec).collect();
    let parameters = window.map_or_else(|| modest(function), |n| with_windows(function, n));
    let call = function.call(series, parameters);
    let cells = source::expected(function, &call).cells.remove(0);
    let last = &cells[bars - figures.len()..];
    let same = last.iter().zip(figures).all(|(cell, figure)| (f64::from_bits(*cell) - figure).abs() <= tolerance);
    assert!(same, "{}: the source does not give the published figures", function.name);
    Some(call)
}
