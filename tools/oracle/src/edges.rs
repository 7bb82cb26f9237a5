//! Calls at each edge that document 01 names, on values of the seed's making: the same edges with every seed.

use crate::call::{Call, Value};
use crate::catalogue::{Domain, Function, Role};
use crate::generate::{FLAGS, ODD_PERIODS, ODD_REALS, ODD_WHOLE_PERIODS, ODD_WINDOWS, plain, put, supply};
use crate::limits::{PERIOD_LIMIT, SERIES_LIMIT, WINDOW_LIMIT};
use crate::ranges;
use crate::rng::Rng;
use crate::series::{DAMAGED, damage, for_each, large, near_ties, walk, wide};
use crate::ties::ties;

pub fn edges(rng: &mut Rng, function: &Function) -> Vec<Call> {
    let mut calls = Vec::new();
    every_place_damaged(rng, function, &mut calls);
    every_place_at_the_limit(rng, function, &mut calls);
    every_parameter(rng, function, &mut calls);
    all_small_windows(rng, function, &mut calls);
    every_period(rng, function, &mut calls);
    all_levels(rng, function, &mut calls);
    every_room(rng, function, &mut calls);
    unequal(rng, function, &mut calls);
    wide_windows(rng, function, &mut calls);
    ticks_of_long_windows(rng, function, &mut calls);
    zeros_first(rng, function, &mut calls);
    flat_stretches(function, &mut calls);
    multiples(rng, function, &mut calls);
    at_the_average(rng, function, &mut calls);
    pairs_of_faults(rng, function, &mut calls);
    long(rng, function, &mut calls);
    ties(rng, function, &mut calls);
    ranges::edges(rng, function, &mut calls);
    calls.extend([0, 1, 2, 7, 40].into_iter().flat_map(|len| closes(rng, function, len)));
    calls
}

/// Small parameters that the function takes.
pub fn modest(function: &Function) -> Vec<Value> {
    let value = |(place, role): (usize, &Role)| match role {
        Role::Window | Role::Season | Role::WholePeriod => Value::Count(2 + place),
        Role::Period => Value::Real(20.0),
        Role::Weight => Value::Real(0.25),
        Role::Multiple => Value::Real(0.5),
        Role::Level => Value::Real(50.0),
        Role::CloseKnown => Value::Count(0),
        Role::CloseBefore => Value::Real(f64::NAN),
    };
    let mut parameters: Vec<Value> = function.roles.iter().enumerate().map(value).collect();
    put(function, &mut parameters, Role::is_level, [70.0, 30.0, 50.0].map(Value::Real));
    parameters
}

/// Modest parameters but for one.
fn with_parameter(function: &Function, place: usize, value: Value) -> Vec<Value> {
    let mut parameters = modest(function);
    parameters[place] = value;
    parameters
}

/// The edges of one parameter for a series of this length; those of the close before bar 0 are in `closes`.
pub fn edge_values(role: Role, len: usize) -> Vec<Value> {
    let around = [len.wrapping_sub(1), len, len + 1, len + 2];
    let reals = |list: &[f64]| list.iter().map(|x| Value::Real(*x)).collect();
    let counts = |lists: &[&[usize]]| lists.concat().into_iter().map(Value::Count).collect();
    match role {
        Role::Window | Role::Season => {
            counts(&[&[1, 2, len / 2, len / 2 + 1, len.div_ceil(2) + 1], &around, ODD_WINDOWS])
        }
        Role::WholePeriod => counts(&[&[1, 2, 3, 4, 5], &around, ODD_WHOLE_PERIODS]),
        Role::Period => reals(ODD_PERIODS),
        Role::Weight | Role::Multiple | Role::Level => reals(ODD_REALS),
        Role::CloseKnown | Role::CloseBefore => Vec::new(),
    }
}

fn every_place_damaged(rng: &mut Rng, function: &Function, calls: &mut Vec<Call>) {
    for len in [1, 2, 3, 7, 8, 9, 33] {
        for series in 0..function.series.len() {
            for place in 0..len {
                for odd in DAMAGED {
                    let mut call = plain(rng, function, len, modest(function));
                    call.series[series][place] = *odd;
                    calls.push(call);
                }
            }
        }
    }
}

/// The largest value that is accepted and the next number, of both signs, in every place of series so long that their
/// values are tested several at a time: beside values of both signs and of one, and beside a parameter that is refused.
fn every_place_at_the_limit(rng: &mut Rng, function: &Function, calls: &mut Vec<Call>) {
    let largest = if function.domain == Domain::WholeTicks { DAMAGED[2] } else { DAMAGED[0] };
    // A role that no value makes a refusal of has none.
    let refused = |role: &Role| match role {
        Role::Window | Role::Season | Role::WholePeriod => Some(Value::Count(usize::MAX)),
        Role::Period | Role::Weight | Role::Multiple | Role::Level => Some(Value::Real(f64::INFINITY)),
        Role::CloseKnown | Role::CloseBefore => None,
    };
    let refused = function.roles.iter().map(refused).enumerate();
    let refused = refused.filter_map(|(place, value)| Some(with_parameter(function, place, value?)));
    let parameters: Vec<Vec<Value>> = std::iter::once(modest(function)).chain(refused.take(1)).collect();
    for (len, at) in (0..function.series.len()).flat_map(|at| (40..44).map(move |len| (len, at))) {
        for (place, parameters) in (0..len).flat_map(|place| parameters.iter().map(move |p| (place, p))) {
            for (turn, value) in [largest, -largest, largest.next_up(), -largest.next_up()].into_iter().enumerate() {
                let mut series = for_each(function, || wide(rng, function.domain, len));
                if (turn + place) % 4 == 0 {
                    series.iter_mut().flatten().for_each(|x| *x = x.abs());
                }
                series[at][place] = value;
                calls.push(function.call(series, parameters.clone()));
            }
        }
    }
}

/// Each parameter in turn at each of its edges, the others modest.
fn every_parameter(rng: &mut Rng, function: &Function, calls: &mut Vec<Call>) {
    for len in [0, 1, 2, 3, 4, 5, 8, 16, 17, 40] {
        for (place, role) in function.roles.iter().enumerate() {
            for value in edge_values(*role, len) {
                calls.push(plain(rng, function, len, with_parameter(function, place, value)));
            }
        }
    }
    for len in [WINDOW_LIMIT - 1, WINDOW_LIMIT, WINDOW_LIMIT + 1] {
        for n in [len - 1, len, len + 1] {
            calls.push(plain(rng, function, len, with_windows(function, n)));
        }
    }
}

/// Every choice of small windows and whole periods, from 0 on.
fn all_small_windows(rng: &mut Rng, function: &Function, calls: &mut Vec<Call>) {
    let places: Vec<usize> = function.places(Role::counts_bars).collect();
    let end: usize = [1, 13, 7, 5][places.len()];
    for len in [1, 4, 9, 30] {
        for choice in 0..end.pow(places.len() as u32) {
            let mut parameters = modest(function);
            for (digit, place) in places.iter().enumerate() {
                parameters[*place] = Value::Count(choice / end.pow(digit as u32) % end);
            }
            calls.push(plain(rng, function, len, parameters));
        }
    }
}

/// Every smoother period, on a series that is longer.
fn every_period(rng: &mut Rng, function: &Function, calls: &mut Vec<Call>) {
    for (place, role) in function.roles.iter().enumerate() {
        for period in 0..=PERIOD_LIMIT + 1 {
            let value = match role {
                Role::Period => Value::Real(period as f64),
                Role::WholePeriod => Value::Count(period),
                _ => continue,
            };
            calls.push(plain(rng, function, period.max(40) + 5, with_parameter(function, place, value)));
        }
    }
}

/// Every choice of three levels out of five, equal and reversed ones too.
fn all_levels(rng: &mut Rng, function: &Function, calls: &mut Vec<Call>) {
    let levels = [0.0, 30.0, 50.0, 70.0, 100.0];
    for choice in 0..levels.len().pow(3) {
        if function.places(Role::is_level).next().is_some() {
            let chosen = [choice % 5, choice / 5 % 5, choice / 25].map(|place| Value::Real(levels[place]));
            let mut parameters = with_windows(function, 1 + choice % 4);
            put(function, &mut parameters, Role::is_level, chosen);
            calls.push(plain(rng, function, 24, parameters));
        }
    }
}

/// Each output and the work of each length near the one asked, with and without another fault.
fn every_room(rng: &mut Rng, function: &Function, calls: &mut Vec<Call>) {
    let near = |need: usize| [0, need.saturating_sub(1), need, need + 1, need + 9];
    for len in [0, 1, 2, 5, 8, 64] {
        for (place, output) in (0..function.outputs).flat_map(|place| near(len).map(|output| (place, output))) {
            for work in if function.work { near(8 * len).to_vec() } else { vec![0] } {
                for damaged in [false, true] {
                    let mut call = plain(rng, function, len, modest(function));
                    if damaged {
                        damage(rng, &mut call.series[0]);
                    }
                    call.outputs[place] = output;
                    calls.push(Call { work, ..call });
                }
            }
        }
    }
}

/// Series of which one is shorter or longer than the others, also beyond the limit.
fn unequal(rng: &mut Rng, function: &Function, calls: &mut Vec<Call>) {
    for len in [0, 1, 5, SERIES_LIMIT] {
        for place in 0..function.series.len() {
            for other in [0, 1, len + 1, len + 2, SERIES_LIMIT + 1] {
                if function.series.len() > 1 {
                    let mut call = plain(rng, function, len, modest(function));
                    call.series[place].resize(other, 1.0);
                    calls.push(call);
                }
            }
        }
    }
}

/// One thing that is wrong with a call, or that makes its answer empty.
#[derive(Clone, Copy)]
enum Fault {
    /// The series at a place has another length.
    Length(usize, usize),
    /// The output at a place is a cell too short.
    Output(usize),
    Work,
    /// The series at a place has a NaN.
    Value(usize),
    /// The parameter at a place is another.
    Parameter(usize, Value),
    /// The close before bar 0 is supplied, and a NaN.
    Close,
    /// The low of the last bar is above its high.
    Order,
}

impl Fault {
    fn put(self, function: &Function, call: &mut Call) {
        match self {
            Fault::Length(place, length) => call.series[place].resize(length, 1.0),
            Fault::Output(place) => call.outputs[place] -= 1,
            Fault::Work => call.work = call.work.saturating_sub(1),
            Fault::Value(place) => call.series[place][0] = f64::NAN,
            Fault::Parameter(place, value) => call.parameters[place] = value,
            Fault::Close => supply(function, call, 1, f64::NAN),
            Fault::Order => {
                let high = call.series[1][call.series[1].len() - 1];
                *call.series[0].last_mut().unwrap() = high + 1.0;
            }
        }
    }
}

/// Each fault that a call of `len` bars can have.
fn faults(function: &Function, len: usize) -> Vec<Fault> {
    let mut faults = vec![Fault::Work];
    for place in 0..function.series.len() {
        faults.extend([Fault::Length(place, SERIES_LIMIT + 1), Fault::Length(place, len - 1), Fault::Value(place)]);
    }
    faults.extend((0..function.outputs).map(Fault::Output));
    for (place, role) in function.roles.iter().enumerate() {
        let values: &[Value] = match role {
            Role::Window | Role::Season => &[0, len + 2, WINDOW_LIMIT + 1].map(Value::Count),
            Role::WholePeriod => &[0, len + 2, PERIOD_LIMIT + 1].map(Value::Count),
            Role::Period => &[0.5, 513.0, f64::NAN].map(Value::Real),
            Role::Weight | Role::Multiple | Role::Level => &[Value::Real(f64::INFINITY)],
            Role::CloseKnown | Role::CloseBefore => &[],
        };
        faults.extend(values.iter().map(|value| Fault::Parameter(place, *value)));
    }
    faults.extend(function.takes_close().then_some(Fault::Close));
    faults.extend(function.ranged.then_some(Fault::Order));
    faults
}

/// Every two faults at once, so that the first in the table must be the one that is given.
fn pairs_of_faults(rng: &mut Rng, function: &Function, calls: &mut Vec<Call>) {
    const LEN: usize = 7;
    let faults = faults(function, LEN);
    for (place, first) in faults.iter().enumerate() {
        for second in &faults[place..] {
            let mut call = plain(rng, function, LEN, modest(function));
            first.put(function, &mut call);
            second.put(function, &mut call);
            calls.push(call);
        }
    }
}

/// Calls with the close before bar 0, where a function takes it: each flag with one close; then with the flag and
/// without it the edges of refusal 5; and closes above, below and on bar 0, which goes from 3 to 5 and closes at 4.
pub fn closes(rng: &mut Rng, function: &Function, len: usize) -> Vec<Call> {
    let flags = FLAGS.iter().map(|known| (*known, 100.25));
    let edges = [1, 0].into_iter().flat_map(|known| DAMAGED.iter().map(move |close| (known, *close)));
    let near = [9.0, 1.0, 3.0, 4.0, 5.0].map(|close| (1, close));
    let supplied: Vec<(usize, f64)> = flags.chain(edges).chain(near).collect();
    let call = |(known, close): (usize, f64)| {
        let mut call = plain(rng, function, len, modest(function));
        for (series, value) in call.series.iter_mut().zip([5.0, 3.0, 4.0]) {
            series.iter_mut().take(1).for_each(|first| *first = value);
        }
        supply(function, &mut call, known, close);
        call
    };
    if function.takes_close() { supplied.into_iter().map(call).collect() } else { Vec::new() }
}

/// Windows of some hundred bars, from where a rank just below the middle rounds to -0.0.
fn wide_windows(rng: &mut Rng, function: &Function, calls: &mut Vec<Call>) {
    for n in [63, 64, 65, 202, 204, 255, 256, 302, 402] {
        for _ in 0..3 {
            calls.push(plain(rng, function, 3 * n + 8, with_windows(function, n)));
        }
    }
}

/// Whole ticks with long windows, to the longest, and with cells of few bars.
fn ticks_of_long_windows(rng: &mut Rng, function: &Function, calls: &mut Vec<Call>) {
    for n in [363, 511, 600, WINDOW_LIMIT - 1, WINDOW_LIMIT].into_iter().filter(|_| function.has_window()) {
        for more in [0, 1, 20, 41] {
            let series = for_each(function, || walk(rng, 2 * n - 1 + more));
            calls.push(function.call(series, with_windows(function, n)));
        }
    }
}

/// Whole ticks that begin with as many zeros as a window has bars, or a few more or fewer, so that first means are 0.
fn zeros_first(rng: &mut Rng, function: &Function, calls: &mut Vec<Call>) {
    for (n, zeros) in [2, 5, 13, 14, 30].into_iter().flat_map(|n| [n - 1, n, n + 1, 2 * n + 3].map(|zeros| (n, zeros)))
    {
        for more in [3 * n, 3 * n + 1] {
            let mut series = for_each(function, || walk(rng, zeros + more));
            series.iter_mut().for_each(|series| series[..zeros].fill(0.0));
            calls.push(function.call(series, with_windows(function, n)));
        }
    }
}

/// Functions whose cells are made of gains and losses.
const OF_CHANGES: &[&str] = &["wilder_rsi", "rsx_ss2", "rsi_reverse_positions"];

/// A market without a change: from the first bar to the last, after a move, before one, and on both sides of one; in so
/// many bars that an average of n 2 has faded to 0. A move is a rise or a fall, of ticks or of the smallest number.
fn flat_stretches(function: &Function, calls: &mut Vec<Call>) {
    const BARS: usize = 1_100;
    let moves =
        [(5.0, 5.0), (0.0, 0.0), (0.0, 1.0), (1.0, 0.0), (7.25, 7.5), (-3.0, -3.01), (0.0, 5e-324), (5e-324, 0.0)];
    for (n, (from, to)) in [1, 2, 3, 14].into_iter().flat_map(|n| moves.map(|prices| (n, prices))) {
        for turn in [1, n, n + 1, 20, BARS - 1].into_iter().filter(|_| OF_CHANGES.contains(&function.name)) {
            let series = [vec![from; turn], vec![to; BARS - turn]].concat();
            calls.push(function.call(vec![series], with_windows(function, n)));
        }
    }
}

/// Multiples so small and so large that products and quotients with prices leave the range of f64.
fn multiples(rng: &mut Rng, function: &Function, calls: &mut Vec<Call>) {
    for (place, _) in function.roles.iter().enumerate().filter(|(_, role)| **role == Role::Multiple) {
        for multiple in [5e-324, 1e-308, 1e-305, 1e-300, 1e-160, 1e160, 1e300, f64::MAX] {
            for n in [2, 3, 5] {
                let mut parameters = with_windows(function, n);
                parameters[place] = Value::Real(multiple);
                let series = function.series.iter().map(|_| large(rng, 40)).collect();
                calls.push(function.call(series, parameters));
            }
        }
    }
}

/// Windows around those from which running sums decide, on hundredths with prices at their average or near it.
fn at_the_average(rng: &mut Rng, function: &Function, calls: &mut Vec<Call>) {
    if function.series.len() == 1 && function.domain == Domain::Accepted {
        for n in [24, 39, 40, 41, 60, 100, 250] {
            for series in near_ties(rng, 3 * n + 8, n) {
                calls.push(function.call(vec![series], with_windows(function, n)));
            }
        }
    }
}

/// The longest series, and one bar more, with short windows; the longest window where it just has a first cell.
fn long(rng: &mut Rng, function: &Function, calls: &mut Vec<Call>) {
    for len in [SERIES_LIMIT - 1, SERIES_LIMIT, SERIES_LIMIT + 1, SERIES_LIMIT + 4_000] {
        for n in [0, 2, 20, WINDOW_LIMIT + 1] {
            calls.push(plain(rng, function, len, with_windows(function, n)));
        }
    }
    calls.push(plain(rng, function, SERIES_LIMIT, with_windows(function, 250)));
    for len in [2 * WINDOW_LIMIT - 2, 2 * WINDOW_LIMIT - 1, 2 * WINDOW_LIMIT + 40] {
        calls.push(plain(rng, function, len, with_windows(function, WINDOW_LIMIT)));
    }
}

/// The longest series with the longest window. pure.rs sorts every window of `rolling_rank` anew, so fewer bars there.
pub fn extreme(rng: &mut Rng, function: &Function) -> Call {
    let len = if function.name == "rolling_rank" { 3 * WINDOW_LIMIT } else { SERIES_LIMIT };
    let series = for_each(function, || wide(rng, function.domain, len));
    function.call(series, with_windows(function, WINDOW_LIMIT))
}

/// Modest parameters but for the windows: the last is n, with smaller ones before it.
pub fn with_windows(function: &Function, n: usize) -> Vec<Value> {
    let mut parameters = modest(function);
    let mut window = n;
    for (value, role) in parameters.iter_mut().zip(function.roles).rev() {
        if role.is_window() {
            *value = Value::Count(window);
            window = window.div_ceil(2).saturating_sub(1).max(1);
        }
    }
    parameters
}
