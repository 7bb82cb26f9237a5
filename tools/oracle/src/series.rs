//! Series to try: values that are accepted, of many shapes, and values at and beyond the edges of refusal 5.

use crate::catalogue::{Domain, Function, Line};
use crate::limits::{SERIES_LIMIT, TICK_LIMIT, VALUE_LIMIT};
use crate::rng::Rng;

/// Values at and beyond the edges of refusal 5; the first few are accepted by some functions.
pub const DAMAGED: &[f64] = &[
    VALUE_LIMIT,
    -VALUE_LIMIT,
    16_777_216.0,
    -16_777_216.0,
    VALUE_LIMIT.next_up(),
    -VALUE_LIMIT.next_up(),
    16_777_217.0,
    -16_777_217.0,
    0.5,
    -2.5,
    5e-324,
    -0.0,
    f64::INFINITY,
    f64::NEG_INFINITY,
    f64::MAX,
    f64::NAN,
    f64::from_bits(0xfff0_0000_0000_0001),
];

/// How the values of a series are made.
#[derive(Clone, Copy, PartialEq)]
enum Shape {
    SmallTicks,
    WideTicks,
    LargeTicks,
    WalkOfTicks,
    FewValues,
    Flat,
    FlatThenStep,
    Rising,
    Falling,
    Alternating,
    MostlyZero,
    Cents,
    SmallSteps,
    Subnormal,
    UnitsApart,
    Large,
    MixedSizes,
}

/// Those of whole ticks first.
const SHAPES: &[Shape] = &[
    Shape::SmallTicks,
    Shape::WideTicks,
    Shape::LargeTicks,
    Shape::WalkOfTicks,
    Shape::FewValues,
    Shape::Flat,
    Shape::FlatThenStep,
    Shape::Rising,
    Shape::Falling,
    Shape::Alternating,
    Shape::MostlyZero,
    Shape::Cents,
    Shape::SmallSteps,
    Shape::Subnormal,
    Shape::UnitsApart,
    Shape::Large,
    Shape::MixedSizes,
];
const OF_TICKS: usize = 11;

/// A series of `len` values that a function of this domain accepts; some begin with zeros. Ticks may be whole, or
/// tenths, hundredths and thirds, which have the same ties but round.
pub fn series(rng: &mut Rng, domain: Domain, len: usize) -> Vec<f64> {
    let (shape, tick) = match domain {
        Domain::Accepted => (rng.pick(SHAPES), rng.pick(&[1.0, 1.0, 1.0, 1.0, 0.1, 0.01, 1.0 / 3.0])),
        Domain::WholeTicks => (rng.pick(&SHAPES[..OF_TICKS]), 1.0),
    };
    let mut values = of_shape(rng, shape, tick, len);
    if rng.one_in(12) {
        let zeros = rng.below(len + 1);
        values[..zeros].fill(0.0);
    }
    values
}

/// Ticks or hundredths without any order.
pub fn wide(rng: &mut Rng, domain: Domain, len: usize) -> Vec<f64> {
    let tick = if domain == Domain::Accepted { rng.pick(&[1.0, 0.01]) } else { 1.0 };
    of_shape(rng, Shape::WideTicks, tick, len)
}

/// Whole ticks, each near the one before.
pub fn walk(rng: &mut Rng, len: usize) -> Vec<f64> {
    of_shape(rng, Shape::WalkOfTicks, 1.0, len)
}

/// Whole ticks of any size without any order.
pub fn large(rng: &mut Rng, len: usize) -> Vec<f64> {
    of_shape(rng, Shape::LargeTicks, 1.0, len)
}

fn of_shape(rng: &mut Rng, shape: Shape, tick: f64, len: usize) -> Vec<f64> {
    let start = rng.between(-TICK_LIMIT + SERIES_LIMIT as i64 * 2, TICK_LIMIT - SERIES_LIMIT as i64 * 2);
    let few = [rng.between(-9, 9), rng.between(-9, 9), rng.between(-9, 9)];
    let base = (rng.unit() - 0.5) * 2.0 * rng.pick(&[1.0, 100.0, 1e6, VALUE_LIMIT / 2.0]);
    let step = rng.pick(&[1e-8, 0.5e-8, 1e-10, 0.25e-10]);
    let middle = rng.pick(&[0.0, 0.0, 1.0, base]);
    let turn = len - rng.below(len.clamp(1, 5));
    let mut walk = start;
    let value = |bar: usize| -> f64 {
        let ticks = match shape {
            Shape::SmallTicks => rng.between(-20, 20),
            Shape::WideTicks => rng.between(-5_000, 5_000),
            Shape::LargeTicks => rng.between(-TICK_LIMIT, TICK_LIMIT),
            Shape::WalkOfTicks => {
                walk = (walk + rng.between(-3, 3)).clamp(-TICK_LIMIT, TICK_LIMIT);
                walk
            }
            Shape::FewValues => rng.pick(&few),
            Shape::Flat => few[0],
            Shape::FlatThenStep => few[(bar + 1 >= turn) as usize],
            Shape::Rising => start + bar as i64,
            Shape::Falling => start - bar as i64,
            Shape::Alternating => [few[0], -few[0]][bar % 2],
            Shape::MostlyZero => few[1] * rng.one_in(8) as i64,
            Shape::Cents => return rng.between(-1_000_000, 1_000_000) as f64 / 100.0,
            Shape::SmallSteps => return middle + step * rng.between(-4, 4) as f64,
            Shape::Subnormal => return 5e-324 * rng.between(-40, 40) as f64,
            Shape::UnitsApart => return f64::from_bits(base.to_bits() ^ rng.word() & 3),
            Shape::Large => return VALUE_LIMIT * (1.0 - 2.0 * rng.unit()),
            Shape::MixedSizes => return of_any_size(rng.word()),
        };
        ticks as f64 * tick
    };
    (0..len).map(value).map(within_limits).collect()
}

/// Hundredths that come near a tie with the means of their last n means: flat, rising, a hundredth around a level, a
/// level that falls far, and walks whose last price is such a mean, or lies a few units beside it.
pub fn near_ties(rng: &mut Rng, len: usize, n: usize) -> Vec<Vec<f64>> {
    let level = rng.between(-1_000_000, 1_000_000);
    let line = |value: &mut dyn FnMut(i64) -> i64| -> Vec<f64> {
        (0..len as i64).map(|bar| within_limits(value(bar) as f64 / 100.0)).collect()
    };
    let mut walk = level;
    let walked = line(&mut |_| {
        walk += rng.between(-40, 40);
        walk
    });
    let tie = mean_of_means(&walked, n).to_bits();
    let beside = |units: u64| [&walked[..len - 1], &[within_limits(f64::from_bits(tie + units - 2))]].concat();
    let mut all: Vec<Vec<f64>> = (0..5).map(beside).collect();
    all.push(line(&mut |_| level));
    all.push(line(&mut |bar| level + bar));
    all.push(line(&mut |_| level + rng.between(-1, 1)));
    all.push(line(&mut |bar| if bar < n as i64 { 100_000_000_000 } else { level + rng.between(-40, 40) }));
    all
}

/// What the last price has to be to be the mean of its last n means: the price `back` bars before it counts as often as
/// windows of windows have it.
fn mean_of_means(series: &[f64], n: usize) -> f64 {
    let last = series.len() - 1;
    let times = |back: usize| (back + 1).min(2 * n - 1 - back) as f64;
    let others: f64 = (1..2 * n - 1).map(|back| series[last - back] * times(back)).sum();
    others / (n * n - 1) as f64
}

/// An accepted value of any size.
fn of_any_size(word: u64) -> f64 {
    let exponent = (word >> 53) % (1023 + 30);
    f64::from_bits((word & 0x800f_ffff_ffff_ffff) | exponent << 52)
}

/// The nearest value that is accepted; adding +0.0 turns -0.0 into it.
pub fn within_limits(x: f64) -> f64 {
    x.clamp(-VALUE_LIMIT, VALUE_LIMIT) + 0.0
}

/// The series of bars as a market has them: the close lies between low and high, often on one of them.
pub fn bars(rng: &mut Rng, function: &Function, len: usize) -> Vec<Vec<f64>> {
    let close = series(rng, function.domain, len);
    let (units, limit): (&[f64], f64) = match function.domain {
        Domain::Accepted => (&[0.0, 1e-8, 0.01, 1.0, 1.0, 40.0], VALUE_LIMIT),
        Domain::WholeTicks => (&[0.0, 1.0, 1.0, 40.0], TICK_LIMIT as f64),
    };
    let unit = rng.pick(units);
    let mut beside = |unit: f64| -> Vec<f64> {
        close.iter().map(|x| (x + unit * rng.below(4) as f64).clamp(-limit, limit) + 0.0).collect()
    };
    let line = |line: &Line| match line {
        Line::High => beside(unit),
        Line::Low => beside(-unit),
        Line::Price | Line::CloseBefore => close.clone(),
    };
    function.series.iter().map(line).collect()
}

/// A series made for each that a function takes; of ranges the lower value of each bar is the low.
pub fn for_each(function: &Function, mut make: impl FnMut() -> Vec<f64>) -> Vec<Vec<f64>> {
    let mut all: Vec<Vec<f64>> = function.series.iter().map(|_| make()).collect();
    if let ([low, high], true) = (&mut all[..], function.ranged) {
        low.iter_mut().zip(high).filter(|(low, high)| low > high).for_each(|(low, high)| std::mem::swap(low, high));
    }
    all
}

/// Puts one to three odd values into a series.
pub fn damage(rng: &mut Rng, series: &mut [f64]) {
    for _ in 0..1 + rng.below(3) {
        if !series.is_empty() {
            let place = rng.below(series.len());
            series[place] = rng.pick(DAMAGED);
        }
    }
}
