//! Calls on which a rule has ties that rounding decides, or misses them by the last digit of a price.

use crate::call::{Call, Value};
use crate::catalogue::{Domain, Function, Line, Role};
use crate::edges::with_windows;
use crate::limits::{TICK_LIMIT, WINDOW_LIMIT};
use crate::nearly::nearly_averaged;
use crate::rng::Rng;
use crate::series::{series, within_limits};
use crate::table::answer;

pub fn ties(rng: &mut Rng, function: &Function, calls: &mut Vec<Call>) {
    if function.domain == Domain::Accepted {
        patterns(function, calls);
    }
    if function.name == "single_sma_positions" {
        averaged(rng, function, calls);
    }
    if function.name == "rank_positions" {
        half_ranks(function, calls);
    }
    if function.name == "tick_mean" {
        half_ticks(function, calls);
    }
    if function.series.len() == 1 && (function.name.ends_with("_positions") || function.name == "rolling_rank") {
        at_changes(rng, function, calls);
    }
}

/// Whole numbers that repeat, or change by equal steps, so that averages equal a price or each other but for rounding.
const PATTERNS: &[fn(i64) -> i64] = &[
    |_| 0,
    |bar| bar,
    |bar| -bar,
    |bar| bar % 2,
    |bar| bar % 12 / 6,
    |bar| (bar % 24 - 12).abs(),
    |bar| (bar % 97 == 96) as i64,
    |bar| bar / 40 % 2,
    |bar| bar * bar % 5,
];

/// A level and how many units are 1: hundredths, low and high; thirds; eighths; and units that are the last digit of a
/// price.
const SCALES: &[(i64, f64)] = &[
    (10_001, 100.0),
    (9_999_999_999, 100.0),
    (0, 100.0),
    (0, 3.0),
    (8_000_000_000, 8.0),
    ((1 << 53) - (1 << 20), (1 << 23) as f64),
];

/// Each pattern in each scale, as it is and with the sign turned at every second bar, so that sums are near 0. Highs are
/// a unit higher and lows a unit lower.
fn patterns(function: &Function, calls: &mut Vec<Call>) {
    for (n, turned) in [24, 60, 250].into_iter().flat_map(|n| [(n, false), (n, true)]) {
        for ((level, one), pattern) in SCALES.iter().flat_map(|scale| PATTERNS.iter().map(move |p| (scale, p))) {
            let units = |bar: i64| (level + pattern(bar)) * if turned && bar % 2 == 1 { -1 } else { 1 };
            let line = |more: i64| (0..2 * n + 21).map(|bar| (units(bar) + more) as f64 / one).collect();
            let of = |series: &Line| match series {
                Line::High => line(1),
                Line::Low => line(-1),
                Line::Price | Line::CloseBefore => line(0),
            };
            let series = function.series.iter().map(of).collect();
            calls.push(function.call(series, with_windows(function, n as usize)));
        }
    }
}

/// Whole ticks and hundredths in which at a bar n² times the price is the sum D of the window sums, or one beside it; the
/// bar is the last, or others follow.
fn averaged(rng: &mut Rng, function: &Function, calls: &mut Vec<Call>) {
    let windows = [13, 14, 15, 24, 60, 250, 363, 511, 600, WINDOW_LIMIT - 1, WINDOW_LIMIT];
    for (n, want) in windows.into_iter().flat_map(|n| [-1, 0, 1].map(|want| (n, want))) {
        for (one, after) in [(1.0, 0), (1.0, 12), (100.0, 0), (100.0, 12)] {
            let level = rng.between(-30_000, 30_000);
            let mut ticks: Vec<i64> = (0..2 * n + 3).map(|_| level + rng.between(-50, 50)).collect();
            nearly_averaged(&mut ticks, n, want);
            ticks.extend_from_within(..after);
            let series = ticks.iter().map(|x| *x as f64 / one).collect();
            calls.push(function.call(vec![series], with_windows(function, n)));
        }
    }
}

/// Ranks whose hundredfold lies in the middle of two whole numbers, or would but for rounding: from n 17 on, where 1 of
/// 16 means below gives -87.5, to n 401, where 199 of 400 give a number next to -0.5. After n prices of 0 come n-2 of 1,
/// so that the window sums rise from 0 by 1, and then a price that takes the sum to the count of those below it.
fn half_ranks(function: &Function, calls: &mut Vec<Call>) {
    let is_half = |n: usize, below: usize| 400 * below % (n - 1) == 0 && 400 * below / (n - 1) % 2 == 1;
    let pairs = (2..=401).flat_map(|n| (0..n).filter(move |below| is_half(n, *below)).map(move |below| (n, below)));
    for (n, below) in pairs {
        let last = below as f64 - (n - 2) as f64;
        let series = [vec![0.0; n], vec![1.0; n - 2], vec![last, 2.0, 0.5]].concat();
        calls.push(function.call(vec![series], with_windows(function, n)));
    }
}

/// The lower of two neighbouring ticks: of both signs, to the largest.
pub const LEVELS: &[i64] = &[-TICK_LIMIT, 1 - TICK_LIMIT, -4, -3, -2, -1, 0, 1, 2, 3, TICK_LIMIT - 2, TICK_LIMIT - 1];

/// Two neighbouring ticks by turns, so that the mean of an even number of bars lies halfway between them; one bar is by
/// so much more.
pub fn halfway(function: &Function, n: usize, bars: usize, level: i64, more: i64) -> Call {
    let mut ticks: Vec<i64> = (0..bars as i64).map(|bar| level + bar % 2).collect();
    ticks[bars / 2] = (ticks[bars / 2] + more).clamp(-TICK_LIMIT, TICK_LIMIT);
    function.call(vec![ticks.iter().map(|x| *x as f64).collect()], with_windows(function, n))
}

/// Means halfway between two ticks, and a tick beside that in the sum.
fn half_ticks(function: &Function, calls: &mut Vec<Call>) {
    for n in [2, 4, 6, 10, 60, 250, WINDOW_LIMIT] {
        for level in LEVELS {
            calls.extend([0, 1, -1].map(|more| halfway(function, n, 2 * n + 3, *level, more)));
        }
    }
}

/// Rules whose averages of averages may be taken by running sums, which round otherwise than sums afresh.
const AVERAGED_TWICE: &[&str] = &["single_sma_positions", "single_ema_positions", "triple_sma_positions"];

/// Series with a price at which the source's cell of that bar just changes: that price, the one next to it, and the
/// hundredths around it; with bars after it too.
fn at_changes(rng: &mut Rng, function: &Function, calls: &mut Vec<Call>) {
    let mut windows = vec![(2, 8), (3, 8), (5, 8), (13, 6), (24, 6), (60, 4), (250, 1)];
    if AVERAGED_TWICE.contains(&function.name) {
        windows.extend([(60, 24), (250, 6)]);
        windows.extend([(600, 2), (WINDOW_LIMIT, 2)]);
    }
    for (n, times) in windows {
        for turn in 0..times {
            let len = 2 * n.max(120) + 3 + (turn + turn / 6) % 4;
            let mut call = function.call(vec![changing(rng, function, turn, len)], with_windows(function, n));
            let multiple = function.roles.iter().position(|role| *role == Role::Multiple);
            if let Some(place) = multiple {
                call.parameters[place] = Value::Real(rng.pick(&[0.25, 0.5, 0.7, 1.0]));
            }
            let answered = answer(function, &call).count > 0;
            for price in if answered { changes(function, &call) } else { Vec::new() } {
                for end in [len % 2, 12.min(2 * n)] {
                    let mut series = call.series[0].clone();
                    series[len - 1] = price;
                    series.extend_from_within(len % 2..end);
                    calls.push(function.call(vec![series], call.parameters.clone()));
                }
            }
        }
    }
}

/// By turns a walk in hundredths, a series of any shape, zeros between prices below 0, of which the last price is one,
/// and a walk in hundredths of 1e-300.
fn changing(rng: &mut Rng, function: &Function, turn: usize, len: usize) -> Vec<f64> {
    let mut walk = |from: i64, one: f64| -> Vec<f64> {
        let mut hundredths = from;
        let mut step = || {
            hundredths += rng.between(-9, 9);
            hundredths as f64 / one
        };
        (0..len).map(|_| step()).collect()
    };
    match turn % 6 {
        2 => series(rng, function.domain, len),
        3 => {
            let mut prices = walk(-20_000, 100.0);
            prices.iter_mut().rev().skip(1).step_by(2).for_each(|price| *price = 0.0);
            prices
        }
        4 => walk(10_000, 1e302),
        turn => walk([10_000, -10_000][turn % 2], 100.0),
    }
}

/// The prices for the last bar of the call's series at which the source's last cell changes, one on either side, and the
/// hundredths around: of at most three changes between prices that are tried.
fn changes(function: &Function, call: &Call) -> Vec<f64> {
    let mut call = call.clone();
    let tried = spread_out(&call.series[0]);
    let mut cell = |price: f64| {
        *call.series[0].last_mut().unwrap() = price;
        *(function.source)(&call)[0].last().unwrap()
    };
    let tried: Vec<(f64, u64)> = tried.into_iter().map(|price| (price, cell(price))).collect();
    let parted = tried.windows(2).filter(|pair| pair[0].1 != pair[1].1).take(3);
    parted.flat_map(|pair| beside_change(pair[0], pair[1].0, &mut cell)).collect()
}

/// Some prices of a series in their order, with one below them and two above.
fn spread_out(series: &[f64]) -> Vec<f64> {
    let mut prices = series.to_vec();
    prices.sort_by(f64::total_cmp);
    prices.dedup();
    let (lowest, highest) = (prices[0], prices[prices.len() - 1]);
    let spread = (highest - lowest).max(1e-3);
    let some = prices.iter().copied().step_by(prices.len().div_ceil(12));
    let beyond = [highest + spread, highest + 9.0 * spread];
    std::iter::once(lowest - 3.0 * spread).chain(some).chain(beyond).map(within_limits).collect()
}

/// Halves the range of f64 from `low` to `high`, whose cells differ, down to two neighbours.
fn beside_change(low: (f64, u64), high: f64, cell: &mut impl FnMut(f64) -> u64) -> [f64; 4] {
    let (mut below, mut above) = (order(low.0), order(high));
    while below + 1 < above {
        let middle = below.midpoint(above);
        if cell(in_order(middle)) == low.1 {
            below = middle;
        } else {
            above = middle;
        }
    }
    let hundredths = in_order(below) * 100.0;
    [in_order(below), in_order(above), hundredths.floor() / 100.0, hundredths.ceil() / 100.0].map(within_limits)
}

/// The place of an f64 among all, in their order.
fn order(x: f64) -> i64 {
    let bits = x.to_bits() as i64;
    bits ^ ((bits >> 63) as u64 >> 1) as i64
}

/// The f64 at a place, with +0.0 for -0.0.
fn in_order(place: i64) -> f64 {
    f64::from_bits((place ^ ((place >> 63) as u64 >> 1) as i64) as u64) + 0.0
}
