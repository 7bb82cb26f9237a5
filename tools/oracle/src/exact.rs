//! Demand 3 of document 01 on whole ticks: what the library's cells must be by whole-number arithmetic alone.

use std::fmt::Debug;

use crate::basket;
use crate::call::{Call, Value};
use crate::catalogue::{self, Function, Role};
use crate::generate;
use crate::limits::{TICK_LIMIT, WINDOW_LIMIT};
use crate::nearly::{nearly_averaged, nearly_equal_means, nearly_in_the_middle, window_sums};
use crate::rank_table;
use crate::rng::Rng;

const SHOWN: usize = 5;

/// A promise, and how often it was looked at.
struct Fact {
    name: &'static str,
    checked: usize,
    wrong: usize,
}

impl Fact {
    fn new(name: &'static str) -> Fact {
        Fact { name, checked: 0, wrong: 0 }
    }

    fn check(&mut self, holds: bool, what: impl Fn() -> String) {
        self.checked += 1;
        if !holds {
            self.wrong += 1;
            if self.wrong <= SHOWN {
                println!("{}: {}", self.name, what());
            }
        }
    }

    fn print(&self) {
        println!("{}: {} cells, {} wrong", self.name, self.checked, self.wrong);
    }
}

/// Each promise whose function is exported, on `series` series for each seed. True if none is broken.
pub fn run(seeds: &[u64], series: usize) -> bool {
    type Promise = (&'static str, &'static str, fn(&mut Rng, &Function, &mut Fact));
    let promises: &[Promise] = &[
        ("sma", "sma is nearest the true mean", sma),
        ("double_sma_positions", "double decides as whole sums do", double),
        ("single_sma_positions", "one average has the sign of n*n*price - D", one_average),
        ("double_sma_ranges", "ranges decide as the series inside do", ranges),
        ("mid_positions", "middle has the sign of 2S - (H + W)", middle),
        ("tick_mean", "tick_mean is nearest the true mean, half to even", tick_mean),
    ];
    let mut good = true;
    for (function, name, promise) in promises {
        let function = catalogue::named(function).unwrap();
        let mut fact = Fact::new(name);
        for seed in seeds.iter().filter(|_| function.library.is_some()) {
            let mut rng = Rng::new(*seed);
            (0..series).for_each(|_| promise(&mut rng, function, &mut fact));
        }
        if function.library.is_some() {
            fact.print();
        }
        good &= fact.wrong == 0;
    }
    good &= no_look_ahead(seeds, series) & rank_table::no_look_ahead(seeds, series);
    good & basket::promises(seeds, series)
}

/// The cells of each output that the library gives for a call, or none where it does not answer with all its bars.
fn cells(function: &Function, call: &Call) -> Option<Vec<Vec<u64>>> {
    let (answer, cells) = function.run(call);
    (answer.refusal == 0 && answer.count == call.bars() as u64).then_some(cells)
}

fn words_of_ticks(function: &Function, ticks: &[i64], windows: &[usize]) -> Vec<u64> {
    assert!(ticks.iter().all(|x| x.abs() <= TICK_LIMIT), "ticks beyond what is promised");
    let series = ticks.iter().map(|x| *x as f64).collect();
    let call = function.call(vec![series], windows.iter().map(|n| Value::Count(*n)).collect());
    cells(function, &call).expect("whole ticks and windows in range are answered").remove(0)
}

fn of_ticks(function: &Function, ticks: &[i64], windows: &[usize]) -> Vec<f64> {
    words_of_ticks(function, ticks, windows).into_iter().map(f64::from_bits).collect()
}

/// Ticks around a level: from all alike in size to a wide range, with room to shift each by twice the spread and a
/// window.
fn ticks(rng: &mut Rng, len: usize) -> Vec<i64> {
    let spread = rng.pick(&[1, 3, 40, 1_000, 1 << 20, 1 << 22]);
    let highest = TICK_LIMIT - 3 * spread - WINDOW_LIMIT as i64;
    let anywhere = rng.between(-highest, highest);
    let level = rng.pick(&[0, highest, -highest, anywhere]);
    (0..len).map(|_| level + rng.between(-spread, spread)).collect()
}

/// A window from 1 to the limit, of any size with equal chance.
fn window(rng: &mut Rng, limit: usize) -> usize {
    let bits = rng.below(limit.ilog2() as usize + 1);
    (1 + rng.below(2 << bits)).min(limit)
}

/// A fact's words for a bar that breaks it.
fn at(bar: usize, windows: &[usize], cell: impl Debug, ticks: &[i64]) -> String {
    format!("bar {bar}, windows {windows:?}, cell {cell:?}, last ticks {:?}", &ticks[bar.saturating_sub(8)..=bar])
}

fn sma(rng: &mut Rng, function: &Function, fact: &mut Fact) {
    let n = window(rng, WINDOW_LIMIT);
    let extra = 1 + rng.below(60);
    let ticks = ticks(rng, n + extra);
    let cells = of_ticks(function, &ticks, &[n]);
    for (sum, bar) in window_sums(&ticks, n).iter().zip(n - 1..) {
        fact.check(is_nearest(cells[bar], *sum, n), || at(bar, &[n], cells[bar], &ticks));
    }
}

/// Units of 2^-66 in which every mean here, and the numbers next to it, are whole.
const UNIT_BITS: i32 = 66;

fn units(x: f64) -> i128 {
    let (exponent, fraction) = ((x.to_bits() >> 52 & 0x7ff) as i32, (x.to_bits() & ((1 << 52) - 1)) as i128);
    let size = if x == 0.0 { 0 } else { (fraction | 1 << 52) << (exponent - 1075 + UNIT_BITS) };
    if x < 0.0 { -size } else { size }
}

/// Whether no f64 is nearer to sum / n than the cell, and of two as near it is the even one; 0 is +0.0.
fn is_nearest(cell: f64, sum: i128, n: usize) -> bool {
    if sum == 0 || cell == 0.0 {
        return sum == 0 && cell.to_bits() == 0;
    }
    let distance = |x: f64| (units(x) * n as i128 - (sum << UNIT_BITS)).abs();
    let even = cell.to_bits() & 1 == 0;
    [cell.next_up(), cell.next_down()].into_iter().all(|other| {
        let (here, there) = (distance(cell), distance(other));
        here < there || here == there && even
    })
}

fn double(rng: &mut Rng, function: &Function, fact: &mut Fact) {
    let m = window(rng, WINDOW_LIMIT).max(2);
    let n = 1 + rng.below(m - 1);
    let extra = rng.below(40);
    let mut ticks = ticks(rng, m + extra);
    nearly_equal_means(rng, &mut ticks, n, m);
    let cells = of_ticks(function, &ticks, &[n, m]);
    let (short, long) = (window_sums(&ticks, n), window_sums(&ticks, m));
    for (place, bar) in (m - 1..ticks.len()).enumerate() {
        let above = m as i128 * short[place + m - n] >= n as i128 * long[place];
        let want = if above { 1.0 } else { -1.0 };
        fact.check(cells[bar] == want, || at(bar, &[n, m], cells[bar], &ticks));
    }
}

/// At the last bar the cell has the sign that all series inside the ranges have, or is 2 where the worst and the best
/// one have each. Those two are given to pure.rs, and some between them.
fn ranges(rng: &mut Rng, function: &Function, fact: &mut Fact) {
    let m = window(rng, WINDOW_LIMIT).max(2);
    let n = 1 + rng.below(m - 1);
    let extra = rng.below(20);
    let mut low = ticks(rng, m + extra);
    nearly_equal_means(rng, &mut low, n, m);
    let width = rng.pick(&[0, 1, 3, 40]);
    let high: Vec<i64> = low.iter().map(|x| (x + rng.between(0, width)).min(TICK_LIMIT)).collect();
    let (bar, recent) = (low.len() - 1, low.len() - n);
    let worst = [&high[..recent], &low[recent..]].concat();
    let best = [&low[..recent], &high[recent..]].concat();
    let between = low.iter().zip(&high).map(|(low, high)| rng.between(*low, *high)).collect();
    let prices = |ticks: &[i64]| ticks.iter().map(|x| *x as f64).collect::<Vec<f64>>();
    let signs = [worst, best, between, low.clone(), high.clone()]
        .map(|series| pure::double_sma_positions(&prices(&series), n, m)[bar] as i64);
    let call = function.call(vec![prices(&low), prices(&high)], [n, m].map(Value::Count).to_vec());
    let cell = cells(function, &call).expect("ranges in order are answered")[0][bar] as i64;
    let holds = if cell == 2 { signs[..2] == [-1, 1] } else { signs == [cell; 5] };
    fact.check(holds, || format!("bar {bar}, windows {n} and {m}, cell {cell}, signs {signs:?}"));
}

fn one_average(rng: &mut Rng, function: &Function, fact: &mut Fact) {
    let n = window(rng, WINDOW_LIMIT);
    let extra = rng.below(20);
    let mut ticks = ticks(rng, 2 * n - 1 + extra);
    let want = rng.between(-1, 1);
    nearly_averaged(&mut ticks, n, want);
    let cells = of_ticks(function, &ticks, &[n]);
    let sums = window_sums(&ticks, n);
    for bar in 2 * n - 2..ticks.len() {
        let doubly: i128 = sums[bar + 2 - 2 * n..bar + 2 - n].iter().sum();
        let difference = (n * n) as i128 * ticks[bar] as i128 - doubly;
        assert!(
            bar + 1 < ticks.len() || n == 1 || difference == want as i128,
            "the last bar is not as near as it was made"
        );
        if difference != 0 && doubly != 0 {
            let sign = difference.signum() as f64;
            fact.check(cells[bar] == sign, || at(bar, &[n], cells[bar], &ticks));
        }
    }
}

fn middle(rng: &mut Rng, function: &Function, fact: &mut Fact) {
    let n = window(rng, WINDOW_LIMIT);
    let extra = rng.below(20);
    let mut ticks = ticks(rng, 2 * n - 1 + extra);
    nearly_in_the_middle(rng, &mut ticks, n);
    let cells = of_ticks(function, &ticks, &[n]);
    let sums = window_sums(&ticks, n);
    for bar in 2 * n - 2..ticks.len() {
        let recent = &sums[bar + 2 - 2 * n..bar + 2 - n];
        let (high, low) = (*recent.iter().max().unwrap(), *recent.iter().min().unwrap());
        let difference = 2 * recent[n - 1] - (high + low);
        if difference != 0 && high != 0 && low != 0 {
            let sign = difference.signum() as f64;
            fact.check(cells[bar] == sign, || at(bar, &[n], cells[bar], &ticks));
        }
    }
}

/// Of even windows the last mean lies halfway between two ticks.
fn tick_mean(rng: &mut Rng, function: &Function, fact: &mut Fact) {
    let n = window(rng, WINDOW_LIMIT);
    let extra = rng.below(60);
    let mut ticks = ticks(rng, n + extra);
    let sum: i64 = ticks[extra..].iter().sum();
    ticks[n + extra - 1] += n as i64 / 2 - sum.rem_euclid(n as i64);
    let cells = words_of_ticks(function, &ticks, &[n]);
    for (sum, bar) in window_sums(&ticks, n).iter().zip(n - 1..) {
        let cell = cells[bar] as i64;
        fact.check(is_nearest_tick(cell, *sum, n), || at(bar, &[n], cell, &ticks));
    }
}

/// Whether no whole number is nearer to sum / n than the cell, and of two as near it is the even one.
fn is_nearest_tick(cell: i64, sum: i128, n: usize) -> bool {
    let distance = |x: i64| (x as i128 * n as i128 - sum).abs();
    [cell - 1, cell + 1].into_iter().all(|other| {
        let (here, there) = (distance(cell), distance(other));
        here < there || here == there && cell % 2 == 0
    })
}

/// The functions of which document 01 says that they look ahead, or may start elsewhere when bars are added.
const LOOK_AHEAD: &[&str] = &["jurik_volty", "single_ema_positions"];

/// Two calls with equal bars up to a bar b have the same cells up to b in every output, though their later bars
/// differ.
fn no_look_ahead(seeds: &[u64], pairs: usize) -> bool {
    let mut good = true;
    for function in catalogue::exported().filter(|function| !LOOK_AHEAD.contains(&function.name)) {
        let mut fact = Fact::new(function.name);
        for seed in seeds {
            let mut rng = Rng::new(!seed);
            (0..pairs).for_each(|_| earlier_cells(&mut rng, function, &mut fact));
        }
        println!("{}: no look-ahead in {} pairs of calls, {} wrong", fact.name, fact.checked, fact.wrong);
        good &= fact.wrong == 0;
    }
    good
}

fn earlier_cells(rng: &mut Rng, function: &Function, fact: &mut Fact) {
    let whole = generate::any(rng, function);
    if whole.series.iter().any(|s| s.is_empty() || s.len() != whole.bars()) {
        return;
    }
    let shared = 1 + rng.below(whole.bars());
    let len = shared + rng.below(30);
    let mut other = generate::plain(rng, function, len, whole.parameters.clone());
    for (to, from) in other.series.iter_mut().zip(&whole.series) {
        to[..shared].copy_from_slice(&from[..shared]);
    }
    // Document 01 speaks of Holt-Winters from the season's last bar on.
    let season = function.values(&whole, |role| role == Role::Season).next();
    let first = season.map_or(0, |bars: usize| bars.saturating_sub(1));
    if let (Some(a), Some(b)) = (cells(function, &whole), cells(function, &other)) {
        let differs = |bar: &usize| a.iter().zip(&b).any(|(a, b)| !function.kind.same(a[*bar], b[*bar]));
        let wrong = (first..shared).find(differs);
        if first < shared {
            fact.check(wrong.is_none(), || format!("bar {wrong:?} of {shared} shared, {:?}", whole.parameters));
        }
    }
}
