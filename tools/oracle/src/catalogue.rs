//! One entry for each function of the library: everything else here goes by this list.
//!
//! An entry gives the function of the Rust bindings and the name, the source's, the series and the parameters with their
//! roles, the outputs, the type of their cells, `[work]` where there is a work slice, and how the expected cells are
//! reckoned; `timed` where a benchmark runs something else. A function counts as exported once include/tegbalowu.h
//! declares it.

use std::hint::black_box;

use crate::call::{Answer, Call, Cell, Kind, Lines, Value};
use crate::library::Lent;
use crate::{close_before, ranges, restated, tanh, tick_mean, wilder_rsi};

/// What a series is: how its values stand to those of the others.
#[derive(Clone, Copy, Debug, PartialEq, Eq)]
pub enum Line {
    /// The price, or the close of bars.
    Price,
    /// The highest price of each bar.
    High,
    /// The lowest price of each bar.
    Low,
    /// The close before each bar.
    CloseBefore,
}

/// What a parameter is in document 01's table. Refusals, the empty answer and the values that are tried go by this, and
/// not by the type that C passes.
#[derive(Clone, Copy, Debug, PartialEq, Eq)]
pub enum Role {
    /// An integer window: refusal 7 above the longest one.
    Window,
    /// The bars of a season, which is a window.
    Season,
    /// An integer smoother period: refusal 7 above 512.
    WholePeriod,
    /// A smoother period as f64: refusal 7 where it is not whole from 0 to 512.
    Period,
    /// The weight of a new value.
    Weight,
    /// What a deviation, a range or a line is multiplied by.
    Multiple,
    /// A level of an index from 0 to 100.
    Level,
    /// Whether the close before bar 0 is known: any number but 0 says so.
    CloseKnown,
    /// That close, which is looked at only then: refusal 5 by the test of a series' value.
    CloseBefore,
}

// The roles as the types that C passes.
type Window = usize;
type Season = usize;
type WholePeriod = usize;
type Period = f64;
type Weight = f64;
type Multiple = f64;
type Level = f64;
type CloseKnown = usize;
type CloseBefore = f64;

impl Role {
    /// Whether the longest window limits it.
    pub fn is_window(self) -> bool {
        matches!(self, Role::Window | Role::Season)
    }

    /// Whether it is a number of bars, which makes the answer empty where it is 0.
    pub fn counts_bars(self) -> bool {
        self.is_window() || self == Role::WholePeriod
    }

    /// Whether it is refusal 6 where it is not finite.
    pub fn is_f64_parameter(self) -> bool {
        matches!(self, Role::Period | Role::Weight | Role::Multiple | Role::Level)
    }

    pub fn is_level(self) -> bool {
        self == Role::Level
    }

    /// Whether it is of the close before bar 0, the flag or the number.
    pub fn is_close(self) -> bool {
        matches!(self, Role::CloseKnown | Role::CloseBefore)
    }

    /// The value that a word says.
    pub fn value(self, word: &str) -> Value {
        match self {
            Role::Window | Role::Season | Role::WholePeriod | Role::CloseKnown => {
                Value::Count(word.parse().expect("a whole number"))
            }
            Role::Period | Role::Weight | Role::Multiple | Role::Level | Role::CloseBefore => {
                Value::Real(word.parse().expect("a number"))
            }
        }
    }
}

/// Which values refusal 5 lets through.
#[derive(Clone, Copy, Debug, PartialEq, Eq)]
pub enum Domain {
    Accepted,
    WholeTicks,
}

pub struct Function {
    pub name: &'static str,
    pub series: &'static [Line],
    pub roles: &'static [Role],
    pub outputs: usize,
    pub kind: Kind,
    pub work: bool,
    pub domain: Domain,
    /// Refusal 11 where a low, the first series, is above its high, the second.
    pub ranged: bool,
    /// Refusal 9 where the windows do not rise strictly.
    pub rising: bool,
    /// The expected cells of a call that is answered.
    pub source: fn(&Call) -> Vec<Vec<u64>>,
    /// The cells of pure.rs itself where it has the function, for any call; else those of `source`.
    pub given: fn(&Call) -> Vec<Vec<u64>>,
    /// What a benchmark runs: the same, with nothing kept.
    pub timed: fn(&Call),
    pub library: Option<Exported>,
}

impl Function {
    /// The work cells that a call of this many bars asks for.
    pub fn work_for(&self, bars: usize) -> usize {
        if self.work { 8 * bars } else { 0 }
    }

    /// The places of the parameters whose role is as asked.
    pub fn places(&self, asked: fn(Role) -> bool) -> impl Iterator<Item = usize> {
        (0..self.roles.len()).filter(move |place| asked(self.roles[*place]))
    }

    /// The call's parameters whose role is as asked.
    pub fn values<'a, T: From<Value>>(&'a self, call: &'a Call, asked: fn(Role) -> bool) -> impl Iterator<Item = T> {
        self.places(asked).map(|place| call.parameters[place].into())
    }

    pub fn has_window(&self) -> bool {
        self.places(Role::is_window).next().is_some()
    }

    pub fn takes_close(&self) -> bool {
        self.places(Role::is_close).next().is_some()
    }

    /// The close before bar 0 that a call supplies.
    pub fn close_of(&self, call: &Call) -> Option<f64> {
        let known = self.values(call, |role| role == Role::CloseKnown).next()?;
        let close = self.values(call, |role| role == Role::CloseBefore).next()?;
        close_before::supplied(known, close)
    }

    /// Makes a call of the library, and gives its answer and the cells that it counts of each output.
    pub fn run(&self, call: &Call) -> (Answer, Vec<Vec<u64>>) {
        let mut outputs: Vec<Lent> = call.outputs.iter().map(|len| Lent::filled(self.kind, *len, 1)).collect();
        let mut work = Lent::filled(Kind::F64, call.work, 2);
        let answer = (self.library.expect("the function is exported"))(call, &mut outputs, &mut work);
        (answer, outputs.iter().map(|output| output.words()[..answer.count as usize].to_vec()).collect())
    }

    /// A call with just as much room as it asks for.
    pub fn call(&self, series: Vec<Vec<f64>>, parameters: Vec<Value>) -> Call {
        let bars = series[0].len();
        Call { series, parameters, outputs: vec![bars; self.outputs], work: self.work_for(bars) }
    }
}

/// A function of the library, by its Rust bindings, called on the memory lent for its outputs and its work slice.
pub type Exported = fn(&Call, &mut [Lent], &mut Lent) -> Answer;

pub fn all() -> impl Iterator<Item = &'static Function> {
    FUNCTIONS.iter()
}

pub fn exported() -> impl Iterator<Item = &'static Function> {
    FUNCTIONS.iter().filter(|f| f.library.is_some())
}

/// A function's place here, from 1. A new one goes to the end, so that `compare` makes the same calls of the others.
pub fn number(function: &Function) -> u64 {
    1 + FUNCTIONS.iter().position(|f| f.name == function.name).unwrap() as u64
}

pub fn named(name: &str) -> Option<&'static Function> {
    FUNCTIONS.iter().find(|f| f.name == name)
}

/// Names the series and the parameters of a call; what is timed need not look at all of them.
macro_rules! take {
    ($call:ident, [$($series:ident),+], [$($parameter:ident: $role:ident),*]) => {
        let mut _given = $call.series.iter();
        $(let $series: &[f64] = _given.next().unwrap();)+
        let mut _values = $call.parameters.iter();
        $(#[allow(unused_variables)] let $parameter: $role = (*_values.next().unwrap()).into();)*
    };
}

/// The last of one or two expressions.
macro_rules! last {
    ($only:expr) => {
        $only
    };
    ($first:expr, $second:expr) => {
        $second
    };
}

macro_rules! functions {
    ($($function:ident $name:literal {
        series: [$($series:ident: $line:ident),+],
        parameters: [$($parameter:ident: $role:ident),*],
        outputs: [$($output:ident),+],
        cells: $cell:ty,
        work: [$($work:ident)?],
        source: $source:expr $(; timed: $timed:expr)?
        $(, $field:ident: $value:expr)* $(,)?
    })*) => {
        static FUNCTIONS: &[Function] = &[$({
            fn lines(call: &Call) -> impl Lines {
                take!(call, [$($series),+], [$($parameter: $role),*]);
                $source
            }

            fn given(call: &Call) -> impl Lines {
                take!(call, [$($series),+], [$($parameter: $role),*]);
                last!($source $(, $timed)?)
            }

            #[cfg(exported = $name)]
            const LIBRARY: Option<Exported> = Some(|call, outputs, _work| {
                take!(call, [$($series),+], [$($parameter: $role),*]);
                let mut lent = outputs.iter_mut();
                $(let $output = lent.next().unwrap().cells::<$cell>();)+
                $(let $work = _work.cells::<f64>();)?
                tegbalowu::$function($($series,)+ $($parameter,)* $($output,)+ $($work)?).into()
            });
            #[cfg(not(exported = $name))]
            const LIBRARY: Option<Exported> = None;
            const WORK: &[&str] = &[$(stringify!($work))?];

            Function {
                name: $name,
                series: &[$(Line::$line),+],
                roles: &[$(Role::$role),*],
                outputs: [$(stringify!($output)),+].len(),
                kind: <$cell as Cell>::KIND,
                work: !WORK.is_empty(),
                source: |call| lines(call).words(),
                given: |call| given(call).words(),
                timed: |call| drop(black_box(given(call))),
                library: LIBRARY,
                $($field: $value,)*
                ..PLAIN
            }
        }),*];
    };
}

/// What holds where an entry says nothing else.
const PLAIN: Function = Function {
    name: "",
    series: &[],
    roles: &[],
    outputs: 1,
    kind: Kind::F64,
    work: false,
    domain: Domain::Accepted,
    ranged: false,
    rising: false,
    source: |_| Vec::new(),
    given: |_| Vec::new(),
    timed: |_| (),
    library: None,
};

functions! {
    sma "sma" {
        series: [series: Price], parameters: [n: Window], outputs: [out], cells: f64, work: [],
        source: pure::sma(series, n),
    }
    ema "ema" {
        series: [series: Price], parameters: [period: Window], outputs: [out], cells: f64, work: [],
        source: pure::ema(series, period),
    }
    exponential_smoothing "exponential_smoothing" {
        series: [series: Price], parameters: [alpha: Weight], outputs: [out], cells: f64, work: [],
        source: pure::exponential_smoothing(series, alpha),
    }
    double_sma_positions "double_sma_positions" {
        series: [series: Price], parameters: [n: Window, m: Window], outputs: [out], cells: f64, work: [],
        source: pure::double_sma_positions(series, n, m),
        rising: true,
    }
    ultimate_smoother "ultimate_smoother" {
        series: [price: Price], parameters: [period: Period], outputs: [out], cells: f64, work: [],
        source: restated::ultimate_smoother(price, period); timed: pure::ultimate_smoother(price, period),
    }
    true_range "true_range" {
        series: [high: High, low: Low, close_prev: CloseBefore],
        parameters: [close_known: CloseKnown, close_before: CloseBefore], outputs: [out], cells: f64, work: [],
        source: close_before::true_range(high, low, close_prev, close_before::supplied(close_known, close_before)),
    }
    single_sma_positions "single_sma_positions" {
        series: [series: Price], parameters: [n: Window], outputs: [out], cells: f64, work: [work],
        source: pure::single_sma_positions(series, n),
    }
    single_ema_positions "single_ema_positions" {
        series: [series: Price], parameters: [n: Window], outputs: [out], cells: f64, work: [work],
        source: pure::single_ema_positions(series, n),
    }
    mid_positions "mid_positions" {
        series: [series: Price], parameters: [n: Window], outputs: [out], cells: f64, work: [work],
        source: pure::mid_positions(series, n),
    }
    mms_positions "mms_positions" {
        series: [series: Price], parameters: [timeperiod: Window, window: Window], outputs: [out], cells: f64, work: [work],
        source: pure::mms_positions(series, timeperiod, window),
    }
    rank_positions "rank_positions" {
        series: [series: Price], parameters: [n: Window], outputs: [out], cells: f64, work: [work],
        source: pure::rank_positions(series, n),
    }
    wilder_rsi "wilder_rsi" {
        series: [series: Price], parameters: [n: Window], outputs: [out], cells: f64, work: [work],
        source: wilder_rsi::line(series, n),
    }
    rsx_ss2 "rsx_ss2" {
        series: [close: Price], parameters: [period: Window, smooth_period: WholePeriod],
        outputs: [out], cells: f64, work: [work],
        source: restated::rsx_ss2(close, period, smooth_period);
        timed: pure::rsx_ss2(close, period, smooth_period),
    }
    jurik_volty "jurik_volty" {
        series: [close: Price], parameters: [period: Window, power: Multiple], outputs: [out], cells: f64, work: [work],
        source: pure::jurik_volty(close, period, power),
    }
    ultimate_oscillator "ultimate_oscillator" {
        series: [high: High, low: Low, close: Price],
        parameters: [short_period: Window, med_period: Window, long_period: Window, close_known: CloseKnown, close_before: CloseBefore],
        outputs: [out], cells: f64, work: [work],
        source: {
            let before = close_before::supplied(close_known, close_before);
            close_before::ultimate_oscillator(high, low, close, [short_period, med_period, long_period], before)
        },
    }
    holt_winters "holt_winters" {
        series: [series: Price], parameters: [season_length: Season, alpha: Weight, beta: Weight, gamma: Weight],
        outputs: [out], cells: f64, work: [work],
        source: pure::holt_winters(series, season_length, alpha, beta, gamma),
    }
    triple_sma_positions "triple_sma_positions" {
        series: [series: Price], parameters: [m1: Window, m2: Window, m3: Window],
        outputs: [out], cells: i32, work: [work],
        source: pure::triple_sma_positions(series, m1, m2, m3),
        rising: true,
    }
    boll_positions "boll_positions" {
        series: [series: Price], parameters: [n: Window, k: Multiple], outputs: [out], cells: i32, work: [work],
        source: pure::boll_positions(series, n, k),
    }
    boll_reverse_positions "boll_reverse_positions" {
        series: [series: Price], parameters: [n: Window, k: Multiple], outputs: [out], cells: i32, work: [work],
        source: pure::boll_reverse_positions(series, n, k),
    }
    rsi_reverse_positions "rsi_reverse_positions" {
        series: [series: Price], parameters: [n: Window, rsi_upper: Level, rsi_lower: Level, rsi_exit: Level],
        outputs: [out], cells: i32, work: [work],
        source: pure::rsi_reverse_positions(series, n, rsi_upper, rsi_lower, rsi_exit),
    }
    rolling_rank "rolling_rank" {
        series: [series: Price], parameters: [window: Window], outputs: [out], cells: u64, work: [work],
        source: pure::rolling_rank(series, window),
    }
    tick_mean "tick_mean" {
        series: [series: Price], parameters: [n: Window], outputs: [out], cells: i64, work: [],
        source: tick_mean::line(series, n),
        domain: Domain::WholeTicks,
    }
    ultimate_bands "ultimate_bands" {
        series: [close: Price], parameters: [period: WholePeriod, std_multiplier: Multiple, smooth_period: WholePeriod],
        outputs: [middle, upper, lower], cells: f64, work: [work],
        source: restated::ultimate_bands(close, period, std_multiplier, smooth_period);
        timed: pure::ultimate_bands(close, period, std_multiplier, smooth_period),
    }
    ultimate_channel "ultimate_channel" {
        series: [high: High, low: Low, close: Price],
        parameters: [period: WholePeriod, multiplier: Multiple, close_known: CloseKnown, close_before: CloseBefore],
        outputs: [middle, upper, lower], cells: f64, work: [work],
        source: {
            let before = close_before::supplied(close_known, close_before);
            restated::ultimate_channel(high, low, close, period, multiplier, before)
        };
        timed: pure::ultimate_channel(high, low, close, period, multiplier),
    }
    double_sma_ranges "double_sma_ranges" {
        series: [low: Low, high: High], parameters: [n: Window, m: Window], outputs: [out], cells: i32, work: [],
        source: ranges::line(low, high, n, m),
        domain: Domain::WholeTicks,
        ranged: true,
        rising: true,
    }
    tanh_positions "tanh_positions" {
        series: [series: Price], parameters: [n: Window], outputs: [out], cells: f64, work: [work],
        source: tanh::tanh_positions(series, n); timed: pure::tanh_positions(series, n),
    }
}
