//! The table of refusals of documents 01 and 02, read from the top, apart from the library.

use crate::call::{Answer, Call, Value};
use crate::catalogue::{Domain, Function, Role};

const LONGEST_SERIES: usize = 65_536;
const LONGEST_WINDOW: usize = 720;
const LONGEST_PERIOD: usize = 512;
const LARGEST_VALUE: f64 = 1_073_741_824.0;
const LARGEST_TICK: f64 = 16_777_216.0;

/// The first refusal that applies, the empty answer between 7 and 8, or as many cells as bars.
pub fn answer(function: &Function, call: &Call) -> Answer {
    let bars = call.bars();
    if call.series.iter().any(|s| s.len() > LONGEST_SERIES) {
        return Answer::refused(1);
    }
    if call.series.iter().any(|s| s.len() != bars) {
        return Answer::refused(2);
    }
    if call.outputs.iter().any(|length| *length < bars) {
        return Answer::refused(3);
    }
    if function.work && call.work < 8 * bars {
        return Answer::refused(4);
    }
    if !call.series.iter().flatten().all(|x| accepted(function.domain, *x)) {
        return Answer::refused(5);
    }
    if function.close_of(call).is_some_and(|close| !accepted(function.domain, close)) {
        return Answer::refused(5);
    }
    if function.ranged && call.series[0].iter().zip(&call.series[1]).any(|(low, high)| low > high) {
        return Answer::refused(11);
    }
    if function.values(call, Role::is_f64_parameter).any(|x: f64| !x.is_finite()) {
        return Answer::refused(6);
    }
    if function.roles.iter().zip(&call.parameters).any(|(role, value)| too_long(*role, *value)) {
        return Answer::refused(7);
    }
    if is_empty(function, call) {
        return Answer::cells(0);
    }
    if has_too_few_bars(function, call) {
        return Answer::refused(8);
    }
    if function.rising && !function.values(call, Role::is_window).is_sorted_by(|n: &usize, m| n < m) {
        return Answer::refused(9);
    }
    Answer::cells(bars)
}

/// How many work cells hold +0.0 after a call that was not refused.
pub fn cleared(function: &Function, call: &Call, answer: Answer) -> usize {
    if answer.refusal == 0 { function.work_for(call.bars()) } else { 0 }
}

/// Refusal 5 is for the values that are not accepted.
fn accepted(domain: Domain, x: f64) -> bool {
    let size = x.abs();
    let negative_zero = x == 0.0 && x.is_sign_negative();
    match domain {
        Domain::Accepted => size <= LARGEST_VALUE && !negative_zero,
        Domain::WholeTicks => size <= LARGEST_TICK && !negative_zero && x.fract() == 0.0,
    }
}

/// Refusal 7. A period of -0.0 is the whole number 0.
fn too_long(role: Role, value: Value) -> bool {
    match role {
        Role::Window | Role::Season => usize::from(value) > LONGEST_WINDOW,
        Role::WholePeriod => usize::from(value) > LONGEST_PERIOD,
        Role::Period => {
            let period = f64::from(value);
            !(0.0..=LONGEST_PERIOD as f64).contains(&period) || period.fract() != 0.0
        }
        Role::Weight | Role::Multiple | Role::Level | Role::CloseKnown | Role::CloseBefore => false,
    }
}

/// The empty answer. A window of 0 is none for `rolling_rank`; the period of `ultimate_smoother` is not an integer.
fn is_empty(function: &Function, call: &Call) -> bool {
    let bars = call.bars();
    let a_zero = function.name != "rolling_rank" && counts(function, call).contains(&0);
    let a_part = match function.name {
        "holt_winters" | "ultimate_bands" => counts(function, call)[0] > bars,
        _ => false,
    };
    bars == 0 || a_zero || a_part
}

/// Refusal 8.
fn has_too_few_bars(function: &Function, call: &Call) -> bool {
    match function.name {
        "triple_sma_positions" => counts(function, call)[2] > call.bars(),
        "ultimate_channel" => counts(function, call)[0] > call.bars() + 1,
        _ => false,
    }
}

/// The parameters that count bars, in order: windows, the season and integer smoother periods.
fn counts(function: &Function, call: &Call) -> Vec<usize> {
    function.values(call, Role::counts_bars).collect()
}
