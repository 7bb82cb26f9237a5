//! Random calls: most short and plain, some damaged.

use crate::call::{Call, Value};
use crate::catalogue::{Function, Role};
use crate::limits::{PERIOD_LIMIT, WINDOW_LIMIT};
use crate::rng::Rng;
use crate::series::{DAMAGED, bars, damage, for_each, series, within_limits};

pub const ODD_WINDOWS: &[usize] =
    &[0, WINDOW_LIMIT - 1, WINDOW_LIMIT, WINDOW_LIMIT + 1, 1 << 31, 1 << 32, 1 << 63, usize::MAX];
pub const ODD_WHOLE_PERIODS: &[usize] = &[0, PERIOD_LIMIT - 1, PERIOD_LIMIT, PERIOD_LIMIT + 1, 1 << 32, usize::MAX];
pub const ODD_REALS: &[f64] = &[
    0.0,
    -0.0,
    1.0,
    -1.0,
    2.0,
    1e-12,
    1e300,
    -1e300,
    f64::MAX,
    f64::MIN,
    5e-324,
    f64::INFINITY,
    f64::NEG_INFINITY,
    f64::NAN,
];
pub const ODD_PERIODS: &[f64] =
    &[0.0, -0.0, 511.0, 512.0, 513.0, -1.0, 0.5, 511.5, 1e300, 5e-324, f64::INFINITY, f64::NEG_INFINITY, f64::NAN];
/// Flags that are not 0, some of which are where they are cut to fewer bits.
pub const FLAGS: &[usize] = &[1, 2, 256, 1 << 32, 1 << 63, usize::MAX];
/// Levels that an index of small ticks often has, too.
const LEVELS: &[f64] = &[0.0, 20.0, 25.0, 30.0, 50.0, 70.0, 75.0, 80.0, 100.0];

/// A length: mostly short.
pub fn length(rng: &mut Rng) -> usize {
    match rng.below(1000) {
        0..30 => rng.below(3),
        30..680 => 3 + rng.below(30),
        680..940 => 30 + rng.below(90),
        940..997 => 100 + rng.below(300),
        _ => 400 + rng.below(2_000),
    }
}

/// A window for a series of this length: mostly one that fits, often at the edge.
fn window(rng: &mut Rng, len: usize) -> usize {
    match rng.below(100) {
        0..40 => 1 + rng.below(len.clamp(1, 6)),
        40..70 => 1 + rng.below(len.clamp(1, 24)),
        70..85 => 1 + rng.below(len.clamp(1, WINDOW_LIMIT)),
        85..94 => (len + rng.below(5)).saturating_sub(2),
        94..97 => len / 2 + rng.below(3),
        _ => rng.pick(ODD_WINDOWS),
    }
}

/// A whole smoother period: mostly one of those whose lines are not all NaN.
fn whole_period(rng: &mut Rng, len: usize) -> usize {
    match rng.below(100) {
        0..60 => 1 + rng.below(6),
        60..80 => 1 + rng.below(len.clamp(1, PERIOD_LIMIT)),
        80..88 => rng.below(PERIOD_LIMIT + 1),
        88..95 => (len + rng.below(5)).saturating_sub(2),
        _ => rng.pick(ODD_WHOLE_PERIODS),
    }
}

/// The number that is usual for a parameter, or an unusual one.
fn real(rng: &mut Rng, usual: f64) -> f64 {
    match rng.below(100) {
        0..86 => usual,
        86..92 => (rng.unit() - 0.5) * 8.0,
        92..95 => f64::from_bits(rng.word()),
        _ => rng.pick(ODD_REALS),
    }
}

fn parameter(rng: &mut Rng, role: Role, len: usize) -> Value {
    match role {
        Role::Window | Role::Season => Value::Count(window(rng, len)),
        Role::WholePeriod => Value::Count(whole_period(rng, len)),
        Role::Period => Value::Real(match rng.below(100) {
            0..90 => rng.below(PERIOD_LIMIT + 1) as f64,
            90..93 => rng.unit() * 600.0,
            _ => rng.pick(ODD_PERIODS),
        }),
        Role::Weight => {
            let usual = rng.unit();
            Value::Real(real(rng, usual))
        }
        Role::Multiple => {
            let any = rng.unit() * 3.0;
            let usual = rng.pick(&[0.5, 0.8, 1.0, 1.5, 2.0, any, any]);
            Value::Real(real(rng, usual))
        }
        Role::Level => {
            let usual = rng.pick(LEVELS);
            Value::Real(real(rng, usual))
        }
        Role::CloseKnown => Value::Count(0),
        Role::CloseBefore => Value::Real(f64::NAN),
    }
}

/// Windows in rising order where the function wants that, and levels around 50, most of the time.
pub fn parameters(rng: &mut Rng, function: &Function, len: usize) -> Vec<Value> {
    let mut values: Vec<Value> = function.roles.iter().map(|role| parameter(rng, *role, len)).collect();
    if function.rising && !rng.one_in(8) {
        rise(function, &mut values);
    }
    if function.places(Role::is_level).next().is_some() && !rng.one_in(3) {
        let (upper, lower) = (rng.between(50, 80) as f64, rng.between(20, 50) as f64);
        let exit = rng.pick(&[50.0, 45.0, 55.0, upper, lower]);
        put(function, &mut values, Role::is_level, [upper, lower, exit].map(Value::Real));
    }
    values
}

/// Puts values in the places of the parameters whose role is as asked.
pub fn put(
    function: &Function,
    parameters: &mut [Value],
    asked: fn(Role) -> bool,
    values: impl IntoIterator<Item = Value>,
) {
    function.places(asked).zip(values).for_each(|(place, value)| parameters[place] = value);
}

/// Sorts the windows, and moves each that is not above the one before it to just above.
fn rise(function: &Function, parameters: &mut [Value]) {
    let mut windows: Vec<usize> = function.places(Role::is_window).map(|place| parameters[place].into()).collect();
    windows.sort();
    for place in 1..windows.len() {
        windows[place] = windows[place].max(windows[place - 1].saturating_add(1));
    }
    put(function, parameters, Role::is_window, windows.into_iter().map(Value::Count));
}

/// A call with enough room and nothing damaged; of several series half are bars as a market has them.
pub fn plain(rng: &mut Rng, function: &Function, len: usize, parameters: Vec<Value>) -> Call {
    let series = if function.series.len() > 1 && rng.one_in(2) {
        bars(rng, function, len)
    } else {
        for_each(function, || series(rng, function.domain, len))
    };
    function.call(series, parameters)
}

/// A random call: about one in four has something that document 01 refuses.
pub fn random(rng: &mut Rng, function: &Function) -> Call {
    let len = length(rng);
    let parameters = parameters(rng, function, len);
    let mut call = plain(rng, function, len, parameters);
    if rng.one_in(10) {
        let place = rng.below(function.series.len());
        damage(rng, &mut call.series[place]);
    }
    if function.series.len() > 1 && rng.one_in(16) {
        let place = rng.below(function.series.len());
        let other = length(rng);
        call.series[place].resize(other, 1.0);
    }
    call.outputs.iter_mut().for_each(|output| *output += rng.below(4));
    let place = rng.below(function.outputs);
    call.outputs[place] = room(rng, len);
    if function.work {
        call.work = room(rng, call.work);
    }
    call
}

/// A random call; where a function takes the close before bar 0, half of the calls supply it.
pub fn any(rng: &mut Rng, function: &Function) -> Call {
    let mut call = random(rng, function);
    if function.takes_close() && rng.one_in(2) {
        let close = close(rng, function, &call);
        supply(function, &mut call, rng.pick(FLAGS), close);
    }
    call
}

/// A close before bar 0: mostly near that bar, else of any kind, and some that are refused.
fn close(rng: &mut Rng, function: &Function, call: &Call) -> f64 {
    let place = rng.below(function.series.len());
    let near = call.series[place].first().copied().unwrap_or(1.0);
    match rng.below(10) {
        0..7 => within_limits(near + rng.pick(&[0.0, 0.01, 1.0]) * rng.between(-4, 4) as f64),
        7..9 => series(rng, function.domain, 1)[0],
        _ => rng.pick(DAMAGED),
    }
}

/// Supplies the close before bar 0, by a flag and a number.
pub fn supply(function: &Function, call: &mut Call, known: usize, close: f64) {
    put(function, &mut call.parameters, Role::is_close, [Value::Count(known), Value::Real(close)]);
}

/// The length of a slice where `need` cells are asked: as many, more, or too few.
pub fn room(rng: &mut Rng, need: usize) -> usize {
    match rng.below(100) {
        0..70 => need,
        70..92 => need + rng.below(20),
        92..97 => need.saturating_sub(1),
        _ => rng.below(need + 1),
    }
}
