//! A fixed sample of calls with their expected answers, as a text that a program without pure.rs can run.
//! tests/README.md has its form.

use crate::call::{Call, Kind, Value};
use crate::catalogue::{self, Function, Role};
use crate::edges::{closes, edge_values, modest, with_windows};
use crate::generate::{self, plain};
use crate::limits::{PERIOD_LIMIT, SERIES_LIMIT, TICK_LIMIT, WINDOW_LIMIT};
use crate::published;
use crate::ranges;
use crate::rng::Rng;
use crate::series::DAMAGED;
use crate::source;
use crate::ties::{LEVELS, halfway};

/// The longest series that is written out.
const LONGEST: usize = 60;
/// How many calls of a function are chosen for no edge.
const RANDOM: usize = 8;
/// How many bars a call at an edge has.
const LEN: usize = 7;

/// How a record gives its series and the cells that the call writes.
#[derive(Clone, Copy)]
enum Form {
    WrittenOut,
    ByRule,
}

/// Prints the number of calls, then each call, a line for each of its parts.
pub fn print() {
    let calls: Vec<Vec<String>> = catalogue::all().flat_map(records).collect();
    println!("calls {}", calls.len());
    calls.iter().flatten().for_each(|line| println!("{line}"));
}

/// The starred cases, a published table, small ranges and each edge, a few calls of any kind, those with the close
/// before bar 0, means halfway between ticks, and calls of long series by rule.
fn records(function: &'static Function) -> Vec<Vec<String>> {
    let mut rng = Rng::new(seed(function.name));
    let mut calls = starred(function);
    calls.extend(published::call(function));
    calls.extend(ranges::cases(function));
    calls.extend(short_edges(&mut rng, function));
    let random = std::iter::repeat_with(|| generate::random(&mut rng, function));
    calls.extend(random.filter(|call| call.series.iter().all(|s| s.len() <= LONGEST)).take(RANDOM));
    calls.extend(closes(&mut rng, function, LEN));
    calls.extend(half_ticks(function));
    let short = calls.iter().map(|call| record(function, call, Form::WrittenOut));
    let long = long(function);
    short.chain(long.iter().map(|call| record(function, call, Form::ByRule))).collect()
}

/// A seed of the name's own (FNV-1a): a new function changes no call of another.
fn seed(name: &str) -> u64 {
    name.bytes().fold(0xcbf2_9ce4_8422_2325, |hash, byte| (hash ^ u64::from(byte)).wrapping_mul(0x0100_0000_01b3))
}

/// The starred cases of document 01 that a function has; the source gives the cells that document 01 prints.
fn starred(function: &Function) -> Vec<Call> {
    use Value::{Count, Real};
    const NAN: f64 = f64::NAN;
    let cases: &[(&[f64], &[Value], &[f64])] = match function.name {
        "sma" => &[(&[1.0, 2.0, 4.0], &[Count(2)], &[NAN, 1.5, 3.0])],
        "double_sma_positions" => &[(&[10.0, 12.0, 12.0, 11.0], &[Count(1), Count(2)], &[0.0, 1.0, 1.0, -1.0])],
        "single_sma_positions" => &[(&[1.0, 3.0, 5.0], &[Count(2)], &[0.0, 0.0, 1.0])],
        "rank_positions" => &[(&[1.0, 2.0, 3.0], &[Count(2)], &[0.0, 0.0, 1.0]), (&[5.0], &[Count(1)], &[NAN])],
        "rolling_rank" => &[(&[3.0, 1.0, 2.0], &[Count(2)], &[0.0, 1.0, 2.0])],
        "mms_positions" => &[(&[1.0, 3.0, 2.0], &[Count(1), Count(2)], &[0.0, 1.0, -1.0])],
        "boll_reverse_positions" => &[(&[4.0, 4.0, 8.0], &[Count(2), Real(0.5)], &[0.0, 0.0, -1.0])],
        "ema" => &[(&[2.0, 4.0, 6.0, 10.0], &[Count(3)], &[NAN, NAN, 4.0, 7.0])],
        "holt_winters" => &[(&[4.0, 6.0], &[Count(1), Real(0.5), Real(0.0), Real(0.0)], &[4.0, 5.0])],
        "tick_mean" => &[(&[2.0, 3.0], &[Count(2)], &[0.0, 2.0])],
        _ => &[],
    };
    let call = |(series, parameters, cells): &(&[f64], &[Value], &[f64])| {
        let call = function.call(vec![series.to_vec()], parameters.to_vec());
        let given = source::expected(function, &call).cells.remove(0);
        let told = cells.iter().map(|cell| function.kind.word(*cell));
        let same = given.iter().zip(told).all(|(a, b)| function.kind.same(*a, b));
        assert!(same, "{}: the source does not give document 01's starred cells", function.name);
        call
    };
    cases.iter().map(call).collect()
}

/// Flat markets of `wilder_rsi`: whole, after a rise and a fall, and before one; with n 2 so long that the average gain
/// fades to 0.
fn flat_markets(function: &Function) -> Vec<Call> {
    let after = |first: f64, bars: usize| [vec![first], vec![1.0; bars - 1]].concat();
    let before = [vec![1.0; LEN], vec![2.0, 2.0]].concat();
    let series = [vec![5.0; 3], vec![1.0, 2.0, 2.0, 1.0, 4.0], after(0.0, LEN), after(2.0, LEN), before];
    let short = series.into_iter().flat_map(|series| [1, 2, 3].map(|n| (series.clone(), n)));
    let cases = short.chain([(after(0.0, 1_080), 2)]).filter(|_| function.name == "wilder_rsi");
    cases.map(|(series, n)| function.call(vec![series], with_windows(function, n))).collect()
}

/// The edges that a short series has: each parameter, each odd value in one place, each room, one series of another
/// length, a flat market.
fn short_edges(rng: &mut Rng, function: &Function) -> Vec<Call> {
    let mut calls = vec![plain(rng, function, 0, modest(function))];
    for place in 0..function.roles.len() {
        for value in edge_values(function.roles[place], LEN) {
            let mut parameters = modest(function);
            parameters[place] = value;
            calls.push(plain(rng, function, LEN, parameters));
        }
    }
    for (place, odd) in DAMAGED.iter().enumerate() {
        let mut call = plain(rng, function, LEN, modest(function));
        call.series[place % function.series.len()][place % LEN] = *odd;
        calls.push(call);
    }
    let full = plain(rng, function, LEN, modest(function));
    for place in 0..function.outputs {
        for length in [0, LEN - 1, LEN + 2] {
            let mut call = full.clone();
            call.outputs[place] = length;
            calls.push(call);
        }
    }
    if function.work {
        calls.extend([full.work - 1, full.work + 3].map(|work| Call { work, ..full.clone() }));
    }
    for place in 1..function.series.len() {
        let mut call = full.clone();
        call.series[place].pop();
        calls.push(call);
    }
    calls.extend(flat_markets(function));
    calls
}

/// Means of `tick_mean` halfway between two ticks: of short windows, and of the longest with the largest sums of both
/// signs.
fn half_ticks(function: &Function) -> Vec<Call> {
    let short = [2, 4].into_iter().flat_map(|n| LEVELS.iter().map(move |level| (n, *level)));
    let long = [-TICK_LIMIT, TICK_LIMIT - 1].map(|level| (WINDOW_LIMIT, level));
    let cases = short.chain(long).filter(|_| function.name == "tick_mean");
    cases.map(|(n, level)| halfway(function, n, n + 1, level, 0)).collect()
}

/// Calls of long series: the longest and one bar more; the longest window and one above it, on a series in which it has
/// all its means; the longest smoother period and one above it.
fn long(function: &Function) -> Vec<Call> {
    let call = |bars: usize, parameters: Vec<Value>| {
        let line = (0..function.series.len()).map(|series| by_rule(rule_of(function, series), bars)).collect();
        function.call(line, parameters)
    };
    let mut calls: Vec<Call> = [SERIES_LIMIT, SERIES_LIMIT + 1].map(|bars| call(bars, modest(function))).into();
    if function.has_window() {
        calls.extend([0, 1].map(|more| call(2 * WINDOW_LIMIT + 8, with_windows(function, WINDOW_LIMIT + more))));
    }
    for (place, role) in function.roles.iter().enumerate() {
        for period in [PERIOD_LIMIT, PERIOD_LIMIT + 1] {
            let mut parameters = modest(function);
            parameters[place] = match role {
                Role::Period => Value::Real(period as f64),
                Role::WholePeriod => Value::Count(period),
                _ => continue,
            };
            calls.push(call(2 * PERIOD_LIMIT, parameters));
        }
    }
    calls
}

/// By which rule a series that is not written out goes: both ends of ranges by one.
fn rule_of(function: &Function, series: usize) -> usize {
    if function.ranged { 0 } else { series }
}

/// The rule of a series that is not written out: from 1 to 10,007, each series a bar ahead of the one before it.
fn by_rule(place: usize, bars: usize) -> Vec<f64> {
    (place..place + bars).map(|i| (i * 7_919 % 10_007 + 1) as f64).collect()
}

/// A call and what it must leave, in the lines that tests/README.md gives.
fn record(function: &Function, call: &Call, form: Form) -> Vec<String> {
    let mut lines = vec![format!("call {}", function.name)];
    lines.extend(given(function, call, form));
    lines.extend(left(function, call, form));
    lines
}

/// What a call is given: series, parameters, and the lengths of its outputs and its work slice.
fn given(function: &Function, call: &Call, form: Form) -> Vec<String> {
    let series = call.series.iter().enumerate().map(|(place, series)| match form {
        Form::WrittenOut => {
            format!("in f64 {}{}", series.len(), text(series.iter().map(|x| one_nan(Kind::F64, x.to_bits()))))
        }
        Form::ByRule => format!("rule {} {}", series.len(), rule_of(function, place)),
    });
    let parameters = call.parameters.iter().map(|value| match value {
        Value::Count(n) => format!("whole {n}"),
        Value::Real(x) => format!("real {:x}", x.to_bits()),
    });
    let outputs = call.outputs.iter().map(|length| format!("out {} {length}", function.kind.name()));
    let work = function.work.then(|| format!("work {}", call.work));
    series.chain(parameters).chain(outputs).chain(work).collect()
}

/// What a call must leave: its answer, the cells that it writes, and how many work cells hold +0.0.
fn left(function: &Function, call: &Call, form: Form) -> Vec<String> {
    let expected = source::expected(function, call);
    let answer = format!("answer {} {}", expected.answer.refusal, expected.answer.count);
    let outputs = expected.cells.iter().map(|cells| {
        let words = cells.iter().map(|word| one_nan(function.kind, *word));
        match form {
            Form::WrittenOut => format!("cells{}", text(words)),
            Form::ByRule => format!("digest {:x}", digest(words)),
        }
    });
    let cleared = function.work.then(|| format!("cleared {}", expected.cleared));
    std::iter::once(answer).chain(outputs).chain(cleared).collect()
}

/// Words as text, a blank before each.
fn text(words: impl Iterator<Item = u64>) -> String {
    words.map(|word| format!(" {word:x}")).collect()
}

/// One word of many. The modulus is prime: were it a power of two, cells whose signs are wrong would cancel in pairs.
fn digest(words: impl Iterator<Item = u64>) -> u64 {
    const PRIME: u64 = 4_294_967_291;
    words.fold(0, |digest: u64, word| (digest * 2_654_435_761 + word % PRIME) % PRIME)
}

/// The word of a cell, with one word for every NaN.
fn one_nan(kind: Kind, word: u64) -> u64 {
    if kind.same(word, f64::NAN.to_bits()) { f64::NAN.to_bits() } else { word }
}
