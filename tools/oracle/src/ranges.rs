//! The two-average rule on prices known only within a range, our own: reckoned in whole numbers, and held against
//! pure.rs's double rule on every series inside the ranges, where they are few or only one.

use crate::call::{Call, Cell, Value};
use crate::catalogue::Function;
use crate::limits::{TICK_LIMIT, WINDOW_LIMIT};
use crate::nearly::{nearly_equal_means, window_sums};
use crate::rng::Rng;
use crate::source;

/// The most series that are listed.
const LISTED: usize = 1_024;

/// The cell of every bar of ranges of whole ticks; no cell where the answer is empty.
pub fn line(low: &[f64], high: &[f64], n: usize, m: usize) -> Vec<i32> {
    if n == 0 || m == 0 {
        return Vec::new();
    }
    let cells = reckoned(low, high, n, m);
    if let Some(series) = inside(low, high) {
        let lines: Vec<Vec<f64>> = series.iter().map(|series| pure::double_sma_positions(series, n, m)).collect();
        let at = |bar: usize| -> i32 {
            let signs = || lines.iter().map(|line| line[bar]);
            if signs().all(|sign| sign == lines[0][bar]) { lines[0][bar] as i32 } else { 2 }
        };
        let listed: Vec<i32> = (0..low.len()).map(at).collect();
        assert_eq!(cells, listed, "pure.rs on every series in {low:?} to {high:?}, windows {n} and {m}");
    }
    cells
}

/// By the worst and the best series of each bar: 0 before bar m-1.
fn reckoned(low: &[f64], high: &[f64], n: usize, m: usize) -> Vec<i32> {
    let ticks = |series: &[f64]| -> Vec<i64> { series.iter().map(|x| *x as i64).collect() };
    let sums = |series: &[f64]| (window_sums(&ticks(series), n), window_sums(&ticks(series), m));
    let ((low_short, low_long), (high_short, high_long)) = (sums(low), sums(high));
    let cell = |bar: usize| {
        if bar + 1 < m {
            return 0;
        }
        let (short, long) = (bar + 1 - n, bar + 1 - m);
        let gives_long = |last: i128, before: i128| m as i128 * last >= n as i128 * (last + before);
        let worst = gives_long(low_short[short], high_long[long] - high_short[short]);
        let best = gives_long(high_short[short], low_long[long] - low_short[short]);
        match (worst, best) {
            (true, true) => 1,
            (false, true) => 2,
            (false, false) => -1,
            (true, false) => panic!("the best series is not the best"),
        }
    };
    (0..low.len()).map(cell).collect()
}

/// Every series of whole ticks from low to high, where there are not too many.
fn inside(low: &[f64], high: &[f64]) -> Option<Vec<Vec<f64>>> {
    let mut all = vec![Vec::new()];
    for (low, high) in low.iter().zip(high) {
        let prices = *low as i64..=*high as i64;
        if all.len() as i64 * (high - low + 1.0) as i64 > LISTED as i64 {
            return None;
        }
        all = all.iter().flat_map(|series| prices.clone().map(|x| [&series[..], &[x as f64]].concat())).collect();
    }
    Some(all)
}

/// Calls with ranges that decide little or much.
pub fn edges(rng: &mut Rng, function: &Function, calls: &mut Vec<Call>) {
    if function.ranged {
        all_small_ranges(function, calls);
        few_series(rng, function, calls);
        ties(rng, function, calls);
        far_ends(rng, function, calls);
        one_bar_out_of_order(rng, function, calls);
    }
}

fn call(function: &Function, ranges: &[(i64, i64)], n: usize, m: usize) -> Call {
    let (low, high) = ranges.iter().map(|(low, high)| (*low as f64, *high as f64)).unzip();
    function.call(vec![low, high], [n, m].map(Value::Count).to_vec())
}

/// Two bars with n 1 and m 2 whose cells are known, and a low above its high at the last bar, with windows that are
/// refused or empty too.
pub fn cases(function: &Function) -> Vec<Call> {
    if !function.ranged {
        return Vec::new();
    }
    let known = [((5, 6), 2), ((6, 6), 1), ((4, 4), -1), ((5, 5), 2)];
    let known = known.map(|(last, cell)| {
        let call = call(function, &[(5, 6), last], 1, 2);
        let words = source::expected(function, &call).cells.remove(0);
        assert_eq!(words, [0, cell].map(Cell::word), "a known cell of 5..6, {last:?}");
        call
    });
    let windows = [(1, 2), (0, 2), (2, 1), (1, usize::MAX)];
    let refused = windows.map(|(n, m)| call(function, &[(5, 6), (7, 7), (6, 5)], n, m));
    known.into_iter().chain(refused).collect()
}

/// All ranges of up to four bars whose ends are three neighbouring ticks.
fn all_small_ranges(function: &Function, calls: &mut Vec<Call>) {
    const RANGES: [(i64, i64); 6] = [(5, 5), (5, 6), (5, 7), (6, 6), (6, 7), (7, 7)];
    for (len, n, m) in [(2, 1, 2), (3, 1, 2), (3, 1, 3), (3, 2, 3), (4, 1, 3), (4, 2, 3), (4, 3, 4)] {
        for choice in 0..RANGES.len().pow(len) {
            let ranges: Vec<(i64, i64)> = (0..len).map(|bar| RANGES[choice / RANGES.len().pow(bar) % 6]).collect();
            calls.push(call(function, &ranges, n, m));
        }
    }
}

/// Longer ranges that are a few ticks wide at a few bars, so that all series inside can be listed.
fn few_series(rng: &mut Rng, function: &Function, calls: &mut Vec<Call>) {
    for _ in 0..400 {
        let m = 2 + rng.below(9);
        let n = 1 + rng.below(m - 1);
        let spread = rng.pick(&[1, 2, 4, TICK_LIMIT - 3]);
        let mut ranges: Vec<(i64, i64)> = Vec::new();
        for bar in 0..m + rng.below(12) {
            let low = rng.between(-spread, spread);
            ranges.push((low, low + if bar % 3 == 2 { rng.between(0, 3) } else { 0 }));
        }
        calls.push(call(function, &ranges, n, m));
    }
}

/// Ranges whose worst or best series has a tie at the last bar, or misses it by one.
fn ties(rng: &mut Rng, function: &Function, calls: &mut Vec<Call>) {
    let windows = [2, 3, 5, 24, 60, 250, 363, WINDOW_LIMIT - 1, WINDOW_LIMIT];
    for (m, width) in windows.into_iter().flat_map(|m| [0, 1, 40, 1 << 22].map(|width| (m, width))) {
        for turn in 0..12 {
            let n = [1, m / 2, m - 1][turn % 3].max(1);
            let level = rng.pick(&[0, 1, -1]) * (TICK_LIMIT - (1 << 22) - 4 * 2_000);
            let mut ticks: Vec<i64> = (0..m + turn).map(|_| level + rng.between(-50, 50)).collect();
            nearly_equal_means(rng, &mut ticks, n, m);
            let recent = ticks.len() - n;
            let range = |(bar, tick): (usize, &i64)| {
                let more = rng.between(0, width);
                if (bar < recent) == (turn % 2 == 0) { (tick - more, *tick) } else { (*tick, tick + more) }
            };
            let ranges: Vec<(i64, i64)> = ticks.iter().enumerate().map(range).collect();
            calls.push(call(function, &ranges, n, m));
        }
    }
}

/// Ends at the largest ticks of both signs, with the longest windows.
fn far_ends(rng: &mut Rng, function: &Function, calls: &mut Vec<Call>) {
    const RANGES: [(i64, i64); 3] = [(-TICK_LIMIT, -TICK_LIMIT), (-TICK_LIMIT, TICK_LIMIT), (TICK_LIMIT, TICK_LIMIT)];
    for m in [WINDOW_LIMIT - 1, WINDOW_LIMIT] {
        for n in [1, 2, m / 2, m - 1] {
            for (old, recent) in RANGES.into_iter().flat_map(|old| RANGES.map(|recent| (old, recent))) {
                let mut ranges = vec![old; m - n];
                ranges.extend(vec![recent; n]);
                calls.push(call(function, &ranges, n, m));
            }
            for _ in 0..6 {
                let ranges: Vec<(i64, i64)> = (0..m + 30).map(|_| rng.pick(&RANGES)).collect();
                calls.push(call(function, &ranges, n, m));
            }
        }
    }
}

/// One bar whose low is above its high, by a tick or by all of them: the first, the last or any.
fn one_bar_out_of_order(rng: &mut Rng, function: &Function, calls: &mut Vec<Call>) {
    for (len, above) in [1, 2, 3, 8, 33].into_iter().flat_map(|len| [(len, 1), (len, 2 * TICK_LIMIT)]) {
        for (place, m) in (0..len).flat_map(|place| [0, 2, len + 2].map(|m| (place, m))) {
            let mut ranges: Vec<(i64, i64)> = (0..len).map(|_| (0, rng.between(0, 3))).collect();
            ranges[place] = (above - TICK_LIMIT, -TICK_LIMIT);
            calls.push(call(function, &ranges, 1, m));
        }
    }
}
