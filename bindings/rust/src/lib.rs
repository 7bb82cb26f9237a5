//! Averages and positions of a price series, from Rust: a safe function for each function of the C library, which
//! is proved to give the cells of its definition.
//!
//! A series has a value for each bar; bars count from 0. The caller lends the outputs, and a work slice to the
//! functions that take one ([`work_for`] makes it). A call is answered with the count of cells that it wrote at the
//! front of each output, or refused, and then it changes nothing. The count is the series' length, or 0 where that
//! length, a window or an integer period is 0, unless a function says otherwise. Cells from the count on keep their
//! values. The work slice's first `8 * series.len()` cells hold 0.0 after an answered call.
//!
//! Positions are +1 long, -1 short, 0 flat. A sign is +1 for +0.0 and above, so a tie is +1. No cell depends on a
//! later bar, unless a function says so.
//!
//! The cells are those of the floating-point environment with which a Rust program starts: rounding to nearest,
//! subnormal numbers not flushed to zero, exceptions masked.
//!
//! ```
//! use tegbalowu::{Refusal, double_sma_positions, single_sma_positions, sma, work_for};
//!
//! let prices = [10.0, 12.0, 12.0, 11.0];
//! let mut out = [0.0; 4];
//! assert_eq!(double_sma_positions(&prices, 1, 2, &mut out), Ok(4));
//! assert_eq!(out, [0.0, 1.0, 1.0, -1.0]);
//!
//! let mut work = work_for(prices.len());
//! assert_eq!(single_sma_positions(&prices, 2, &mut out, &mut work), Ok(4));
//! assert_eq!(out, [0.0, 0.0, 1.0, -1.0]);
//!
//! let refused = sma(&prices, 721, &mut out).unwrap_err();
//! assert_eq!(refused, Refusal::WindowTooLong);
//! assert_eq!(refused.number(), 7);
//! ```
#![warn(missing_docs)]

mod refusal;

pub use refusal::Refusal;

/// The bytes of output that [`sheet_text`] may need beyond one for each byte of its input: enough for every input.
pub const SHEET_ROOM: usize = 291;

/// A work slice for a series of so many bars: 8 cells for each.
pub fn work_for(bars: usize) -> Vec<f64> {
    vec![0.0; 8 * bars]
}

/// What a C function answers.
#[repr(C)]
struct Answer {
    refusal: u64,
    count: u64,
}

impl Answer {
    fn result(self) -> Result<usize, Refusal> {
        match (Refusal::numbered(self.refusal), self.count) {
            (None, count) => Ok(count as usize),
            (Some(refusal), 0) => Err(refusal),
            (Some(refusal), count) => unreachable!("refusal {} with count {count}", refusal.number()),
        }
    }
}

/// What a C function gives: an answer, where an entry names nothing else.
macro_rules! c_result {
    () => { Answer };
    ($result:ty) => { $result };
}

/// What the safe function gives.
macro_rules! safe_result {
    () => { Result<usize, Refusal> };
    ($result:ty) => { $result };
}

/// What the safe function makes of it.
macro_rules! result_of {
    ($given:ident) => { $given.result() };
    ($given:ident $result:ty) => { $given };
}

/// Declares the C functions and makes the safe ones. An entry has the C name, and then the safe function as Rust writes
/// it: its name, and the arguments in the C function's order. `&[T]` is a slice that is read and `&mut [T]` one that is
/// written, each a pointer and a length in C; every other argument is a number. The result is a call's answer, or the
/// number or struct of C's layout that the entry names.
macro_rules! functions {
    ($($(#[$words:meta])* $symbol:ident $name:ident(
        $($argument:ident: $(&[$read:ty])? $(&mut [$written:ty])? $($number:ident)?),* $(,)?
    ) $(-> $result:ty)?;)*) => {
        unsafe extern "C" {
            $(fn $symbol($(
                $($argument: *const $read, _: usize,)?
                $($argument: *mut $written, _: usize,)?
                $($argument: $number,)?
            )*) -> c_result!($($result)?);)*
        }

        $($(#[$words])*
        #[inline]
        pub fn $name($(
            $($argument: &[$read],)?
            $($argument: &mut [$written],)?
            $($argument: $number,)?
        )*) -> safe_result!($($result)?) {
            // The library assumes of its caller that a pointer is not null, also where the length after it is 0, that
            // it is aligned and points to as many cells as that length says, and that an output or a work slice
            // overlaps nothing else that is lent. The pointer and the length of a slice are so by the language, and a
            // `&mut` slice lent by safe code overlaps no other slice. Any numbers are allowed, every bit pattern is a
            // cell of its type, nothing is kept after the call, and a proved function does not unwind.
            let given = unsafe {
                $symbol($(
                    $(<[$read]>::as_ptr($argument), $argument.len(),)?
                    $(<[$written]>::as_mut_ptr($argument), $argument.len(),)?
                    $($argument as $number,)?
                )*)
            };
            result_of!(given $($result)?)
        })*
    };
}

#[cfg(test)]
mod forms;

functions! {
    /// The mean of the last `n` values, from bar n-1 on; NaN before. Refusals 1, 3, 5, 7.
    ///
    /// ```
    /// let mut out = [0.0; 3];
    /// assert_eq!(tegbalowu::sma(&[1.0, 2.0, 4.0], 2, &mut out), Ok(3));
    /// assert!(out[0].is_nan());
    /// assert_eq!(out[1..], [1.5, 3.0]);
    /// ```
    tegbalowu_sma sma(series: &[f64], n: usize, out: &mut [f64]);

    /// The exponential average: k times the value plus 1 - k times the cell before, where k is 2 / (period + 1). It
    /// starts at bar period-1 with the mean of the values so far; NaN before. Refusals 1, 3, 5, 7.
    ///
    /// ```
    /// let mut out = [0.0; 4];
    /// assert_eq!(tegbalowu::ema(&[2.0, 4.0, 6.0, 10.0], 3, &mut out), Ok(4));
    /// assert_eq!(out[2..], [4.0, 7.0]);
    /// ```
    tegbalowu_ema ema(series: &[f64], period: usize, out: &mut [f64]);

    /// `alpha` times the value plus 1 - alpha times the cell before, from bar 1 on; bar 0 is the value.
    /// Refusals 1, 3, 5, 6.
    tegbalowu_exponential_smoothing exponential_smoothing(series: &[f64], alpha: f64, out: &mut [f64]);

    /// The mean of the last `n` whole ticks, rounded to a whole tick, half to even, from bar n-1 on; 0 before.
    /// Refusals 1, 3, 5, 7.
    ///
    /// ```
    /// let mut out = [7; 2];
    /// assert_eq!(tegbalowu::tick_mean(&[2.0, 3.0], 2, &mut out), Ok(2));
    /// assert_eq!(out, [0, 2]);
    /// ```
    tegbalowu_tick_mean tick_mean(series: &[f64], n: usize, out: &mut [i64]);

    /// Ehlers' ultimate smoother, from bar 4 on; bars 0 to 3 copy the input. With period 0 every cell from bar 4 on is
    /// NaN. Refusals 1, 3, 5, 6, 7.
    tegbalowu_ultimate_smoother ultimate_smoother(price: &[f64], period: f64, out: &mut [f64]);

    /// Wilder's true range. `close_prev[i]` is the close before bar i, and `close_prev[0]` is not used, though it is
    /// checked. Where `close_known` is not 0, `close_before` is the close before bar 0, and refusal 5 is for it too;
    /// where it is 0, `close_before` is not looked at, and bar 0 is high less low. Refusals 1, 2, 3, 5.
    ///
    /// ```
    /// let mut out = [9.0; 2];
    /// assert_eq!(tegbalowu::true_range(&[5.0, 5.0], &[3.0, 3.0], &[0.0, 4.0], 0, 0.0, &mut out), Ok(2));
    /// assert_eq!(out, [2.0, 2.0]);
    /// assert_eq!(tegbalowu::true_range(&[5.0, 5.0], &[3.0, 3.0], &[0.0, 4.0], 1, 9.0, &mut out), Ok(2));
    /// assert_eq!(out, [6.0, 2.0]);
    /// ```
    tegbalowu_true_range true_range(
        high: &[f64], low: &[f64], close_prev: &[f64], close_known: usize, close_before: f64, out: &mut [f64]
    );

    /// Additive Holt-Winters smoothing: level plus trend plus seasonal part of each bar, from bar season_length on; the
    /// cells before copy the series. The level starts as the mean of the first `season_length` values and the trend as
    /// 0; `alpha`, `beta` and `gamma` weigh a new value in level, trend and seasonal part. The count is 0 also where
    /// the season is longer than the series. Refusals 1, 3, 4, 5, 6, 7.
    ///
    /// ```
    /// let mut out = [9.0; 2];
    /// let mut work = tegbalowu::work_for(2);
    /// assert_eq!(tegbalowu::holt_winters(&[4.0, 6.0], 1, 0.5, 0.0, 0.0, &mut out, &mut work), Ok(2));
    /// assert_eq!(out, [4.0, 5.0]);
    /// ```
    tegbalowu_holt_winters holt_winters(
        series: &[f64], season_length: usize, alpha: f64, beta: f64, gamma: f64, out: &mut [f64], work: &mut [f64]
    );

    /// Wilder's relative strength index, from bar n on; NaN before. Where the average loss is 0 it is 100, and 50 where
    /// the average gain is 0 too, as in a flat market. Refusals 1, 3, 4, 5, 7.
    ///
    /// ```
    /// let mut out = [9.0; 3];
    /// let mut work = tegbalowu::work_for(3);
    /// assert_eq!(tegbalowu::wilder_rsi(&[5.0, 5.0, 5.0], 2, &mut out, &mut work), Ok(3));
    /// assert!(out[1].is_nan());
    /// assert_eq!(out[2], 50.0);
    /// ```
    tegbalowu_wilder_rsi wilder_rsi(series: &[f64], n: usize, out: &mut [f64], work: &mut [f64]);

    /// The relative strength index of exponential averages with factor 1 / period, smoothed with `smooth_period`: NaN
    /// at bar 0, and the first four cells copy the index. Refusals 1, 3, 4, 5, 7.
    tegbalowu_rsx_ss2 rsx_ss2(close: &[f64], period: usize, smooth_period: usize, out: &mut [f64], work: &mut [f64]);

    /// A volatility: the sizes of the changes averaged exponentially twice with factor 2 / (period / 2 + 1), a step
    /// beyond each average by half its last change, times `power`, and that averaged with factor 2 / (period / 3 + 1)
    /// from the first value that is not 0 on; 0 at bars 0 and 1. Both divisions of the period are of whole numbers. An
    /// average is left out where all the values that it takes are equal, to the end of the series: a cell may depend on
    /// later bars. With a large power cells may be infinite or NaN. Refusals 1, 3, 4, 5, 6, 7.
    tegbalowu_jurik_volty jurik_volty(close: &[f64], period: usize, power: f64, out: &mut [f64], work: &mut [f64]);

    /// Ehlers' ultimate channel. `middle` is the ultimate smoother of the close; `upper` and `lower` are `multiplier`
    /// widths above and below it, a width being Wilder's average of true range from bar period-1 on, smoothed with
    /// period / 2. From period 5 on the outer lines are NaN at every bar. The close before bar 0 is as in
    /// [`true_range`]. Refusals 1 to 8: 8 where the period is above the series' length + 1.
    tegbalowu_ultimate_channel ultimate_channel(
        high: &[f64], low: &[f64], close: &[f64], period: usize, multiplier: f64, close_known: usize, close_before: f64,
        middle: &mut [f64], upper: &mut [f64], lower: &mut [f64], work: &mut [f64]
    );

    /// Bands about the ultimate smoother. `middle` is the smoother of the close with `period`; `upper` and `lower` are
    /// `std_multiplier` widths above and below it, a width being the deviation of the last period closes over period-1,
    /// smoothed with `smooth_period`. From period 5 on the outer lines are NaN at every bar. The count is 0 also where
    /// the series is shorter than the period. Refusals 1, 3, 4, 5, 6, 7.
    tegbalowu_ultimate_bands ultimate_bands(
        close: &[f64], period: usize, std_multiplier: f64, smooth_period: usize, middle: &mut [f64], upper: &mut [f64],
        lower: &mut [f64], work: &mut [f64]
    );

    /// Williams' ultimate oscillator: 100 (4a + 2b + c) / 7, where a, b and c are the sums of buying pressure over those
    /// of true range in the last `short_period`, `med_period` and `long_period` bars, and 0 where the range's sum is 0.
    /// NaN until the longest window is whole. The close before bar 0 is as in [`true_range`].
    /// Refusals 1, 2, 3, 4, 5, 7.
    tegbalowu_ultimate_oscillator ultimate_oscillator(
        high: &[f64], low: &[f64], close: &[f64], short_period: usize, med_period: usize, long_period: usize,
        close_known: usize, close_before: f64, out: &mut [f64], work: &mut [f64]
    );

    /// One average: the sign of the price less the doubly averaged price, from bar 2n-2 on; 0 before, and where that
    /// average is 0. Refusals 1, 3, 4, 5, 7.
    ///
    /// ```
    /// let mut out = [9.0; 3];
    /// let mut work = tegbalowu::work_for(3);
    /// assert_eq!(tegbalowu::single_sma_positions(&[1.0, 3.0, 5.0], 2, &mut out, &mut work), Ok(3));
    /// assert_eq!(out, [0.0, 0.0, 1.0]);
    /// ```
    tegbalowu_single_sma_positions single_sma_positions(series: &[f64], n: usize, out: &mut [f64], work: &mut [f64]);

    /// Double: the sign of the average of the last `n` values less that of the last `m`, from bar m-1 on; 0 before.
    /// Refusals 1, 3, 5, 7, 9: 9 where n is not below m.
    tegbalowu_double_sma_positions double_sma_positions(series: &[f64], n: usize, m: usize, out: &mut [f64]);

    /// Double on prices known only within a range, a low and a high for each bar. From bar m-1 on: +1 where every
    /// series of whole ticks from `low` to `high` gives +1 by the double rule, -1 where every one gives -1, 2 where both
    /// occur; 0 before. Refusals 1, 2, 3, 5, 11, 7, 9: 11 where a low is above its high, 9 where n is not below m.
    ///
    /// ```
    /// let mut out = [9; 2];
    /// assert_eq!(tegbalowu::double_sma_ranges(&[5.0, 5.0], &[6.0, 6.0], 1, 2, &mut out), Ok(2));
    /// assert_eq!(out, [0, 2]);
    /// ```
    tegbalowu_double_sma_ranges double_sma_ranges(
        low: &[f64], high: &[f64], n: usize, m: usize, out: &mut [i32]
    );

    /// Middle: the sign of the mean of the last `n` values less half of the highest plus the lowest of the last n such
    /// means, from bar 2n-2 on; 0 before, and where either is 0. Refusals 1, 3, 4, 5, 7.
    tegbalowu_mid_positions mid_positions(series: &[f64], n: usize, out: &mut [f64], work: &mut [f64]);

    /// Exponential: the sign of the price less the exponential average, with factor 2 / (n + 1), of the means of the
    /// last `n` values. It starts n-1 bars after the first mean that is not 0, or at bar n-1 where every mean is 0; 0
    /// before. So while every mean is 0 a cell depends on later bars. Refusals 1, 3, 4, 5, 7.
    tegbalowu_single_ema_positions single_ema_positions(series: &[f64], n: usize, out: &mut [f64], work: &mut [f64]);

    /// Triple: +1 where the mean of `m1` values is above its own mean over `m3` and its mean over m1 above that over
    /// `m2`, -1 where both are below, else 0; from bar m1+m3-2 on. Refusals 1, 3, 4, 5, 7, 8, 9: 8 where m3 is above
    /// the series' length, 9 unless m1 < m2 < m3.
    tegbalowu_triple_sma_positions triple_sma_positions(
        series: &[f64], m1: usize, m2: usize, m3: usize, out: &mut [i32], work: &mut [f64]
    );

    /// Bollinger's bands of the means of `n` values, from bar 2n-2 on: +1 where the mean is above the middle plus `k`
    /// deviations, -1 where it is below the middle less k deviations, each by more than 1e-10. The deviation is over
    /// n-1; n of 1 gives 0. Refusals 1, 3, 4, 5, 6, 7.
    tegbalowu_boll_positions boll_positions(series: &[f64], n: usize, k: f64, out: &mut [i32], work: &mut [f64]);

    /// Against those bands, with the deviation over n and no margin: above the upper band a flat position opens short,
    /// below the lower one it opens long; a long one closes above the middle, and a short one below it.
    /// Refusals 1, 3, 4, 5, 6, 7.
    ///
    /// ```
    /// let mut out = [9; 3];
    /// let mut work = tegbalowu::work_for(3);
    /// assert_eq!(tegbalowu::boll_reverse_positions(&[4.0, 4.0, 8.0], 2, 0.5, &mut out, &mut work), Ok(3));
    /// assert_eq!(out, [0, 0, -1]);
    /// ```
    tegbalowu_boll_reverse_positions boll_reverse_positions(
        series: &[f64], n: usize, k: f64, out: &mut [i32], work: &mut [f64]
    );

    /// Against the relative strength index of the means of `n` values: below `rsi_lower` a flat position opens long,
    /// else above `rsi_upper` it opens short; a long one closes above `rsi_exit`, and a short one below it. The index is
    /// made of up to n changes of the means, the present one left out, from bar 2n-1 on, and for n of 1 from bar 0; it
    /// is 100 where none of them is a loss. 0 before. Refusals 1, 3, 4, 5, 6, 7.
    tegbalowu_rsi_reverse_positions rsi_reverse_positions(
        series: &[f64], n: usize, rsi_upper: f64, rsi_lower: f64, rsi_exit: f64, out: &mut [i32], work: &mut [f64]
    );

    /// Min-max scaling: where the mean of `timeperiod` values stands between the lowest and the highest of the last
    /// `window` means, from -1 to 1, from bar timeperiod+window-2 on; 0 before, and where these are at most 1e-10
    /// apart. Refusals 1, 3, 4, 5, 7.
    ///
    /// ```
    /// let mut out = [9.0; 3];
    /// let mut work = tegbalowu::work_for(3);
    /// assert_eq!(tegbalowu::mms_positions(&[1.0, 3.0, 2.0], 1, 2, &mut out, &mut work), Ok(3));
    /// assert_eq!(out, [0.0, 1.0, -1.0]);
    /// ```
    tegbalowu_mms_positions mms_positions(
        series: &[f64], timeperiod: usize, window: usize, out: &mut [f64], work: &mut [f64]
    );

    /// Tanh: how many deviations the mean of the last n values lies above the mean of the last n such means, from bar
    /// 2n-2 on, and tanh of that rounded to hundredths, half away from zero, so that -0.0 is possible; 0 before. The
    /// deviation is over n-1; where it is not above 0, and with n of 1, the cell is 0. tanh is a recorded table.
    /// Refusals 1, 3, 4, 5, 7.
    ///
    /// ```
    /// let mut out = [9.0; 3];
    /// let mut work = tegbalowu::work_for(3);
    /// assert_eq!(tegbalowu::tanh_positions(&[1.0, 2.0, 4.0], 2, &mut out, &mut work), Ok(3));
    /// assert_eq!(out, [0.0, 0.0, 0.61]);
    /// ```
    tegbalowu_tanh_positions tanh_positions(series: &[f64], n: usize, out: &mut [f64], work: &mut [f64]);

    /// Rank: the share of the n-1 means before the present one that lie below it, moved from 0..1 to -1..1 and rounded
    /// to hundredths, half away from zero, so that -0.0 is possible; from bar 2n-2 on, 0 before. n = 1 gives NaN at
    /// every bar. Refusals 1, 3, 4, 5, 7.
    ///
    /// ```
    /// let mut out = [9.0; 3];
    /// let mut work = tegbalowu::work_for(3);
    /// assert_eq!(tegbalowu::rank_positions(&[1.0, 2.0, 3.0], 2, &mut out, &mut work), Ok(3));
    /// assert_eq!(out, [0.0, 0.0, 1.0]);
    /// ```
    tegbalowu_rank_positions rank_positions(series: &[f64], n: usize, out: &mut [f64], work: &mut [f64]);

    /// Each rank of [`rank_positions`] looked up in a table. `rows` has three numbers a row: from, to and a position.
    /// The first 16 rows are read; the others, and one or two numbers left over, are not looked at. A row covers the
    /// whole hundredths of rank from its first to its second number, both included, and nothing where the first exceeds
    /// the second. From bar 2n-2 on the cell is the position of the row that covers the rank; 0 before, and at every
    /// bar where n is 1, whose rank is NaN. The table is not looked at where the answer is empty.
    /// Refusals 1, 3, 4, 5, 7, 12, 13, 14.
    ///
    /// ```
    /// let rows = [-100, -1, -1, 0, 100, 1];
    /// let mut out = [9; 3];
    /// let mut work = tegbalowu::work_for(3);
    /// assert_eq!(tegbalowu::rank_table_positions(&[3.0, 1.0, 2.0], 2, &rows, &mut out, &mut work), Ok(3));
    /// assert_eq!(out, [0, 0, -1]);
    /// ```
    tegbalowu_rank_table_positions rank_table_positions(
        series: &[f64], n: usize, rows: &[i32], out: &mut [i32], work: &mut [f64]
    );

    /// Rolling rank: the place, from 1, in the sorted window of the first value less than 1e-8 away from the present
    /// one, from bar window-1 on; 0 before. A window of 0 gives 0 at every bar. Refusals 1, 3, 4, 5, 7.
    ///
    /// ```
    /// let mut out = [9; 3];
    /// let mut work = tegbalowu::work_for(3);
    /// assert_eq!(tegbalowu::rolling_rank(&[3.0, 1.0, 2.0], 2, &mut out, &mut work), Ok(3));
    /// assert_eq!(out, [0, 1, 2]);
    /// ```
    tegbalowu_rolling_rank rolling_rank(series: &[f64], window: usize, out: &mut [u64], work: &mut [f64]);

    /// The net position of 1 to 32 contracts with L bars each: for each bar the sum of weight times position. `series`
    /// has the contracts' prices one after another, `contracts` five numbers for each (its length L, rule, n, m and
    /// group), and `weights` its weight. Rule 1 is [`single_sma_positions`], 2 [`double_sma_positions`] and 3
    /// [`mid_positions`]; 1 and 3 ignore m. A contract is in one group of 32. The count is 33 * L: bar j of group g is
    /// cell (g - 1) * L + j, and that of all contracts 32 * L + j. A group without contracts is 0, and a contract whose
    /// own call has count 0 is flat. The work slice is `work_for(L)`: its first 8 * L cells hold 0.0 afterwards.
    /// Refusals, in this order: 10; 2 where the lengths are unequal or do not add up to the series'; 3 for an output
    /// under 33 * L; 4 for a work slice under 8 * L; 16; and then that of the first contract whose own call is refused,
    /// 1, 5, 7 or 9.
    ///
    /// ```
    /// // One average with n 2, weight 3, in group 1; double with n 1 and m 2, weight -2, in group 2.
    /// let series = [1.0, 3.0, 5.0, 12.0, 14.0, 13.0];
    /// let contracts = [3, 1, 2, 0, 1, 3, 2, 1, 2, 2];
    /// let mut out = [9; 33 * 3];
    /// let mut work = tegbalowu::work_for(3);
    /// assert_eq!(tegbalowu::basket(&series, &contracts, &[3, -2], &mut out, &mut work), Ok(99));
    /// assert_eq!(out[..9], [0, 0, 3, 0, -2, 2, 0, 0, 0]);
    /// assert_eq!(out[96..], [0, -2, 5]);
    /// ```
    tegbalowu_basket basket(
        series: &[f64], contracts: &[u64], weights: &[i64], out: &mut [i64], work: &mut [f64]
    );

    /// The sheet of the input: what the program `sheet` writes for these bytes, any bytes. The output's first bytes,
    /// as many as the count, are the whole sheet, refused requests and broken lines included. Refusal 3 where the
    /// output is shorter than `input.len() + SHEET_ROOM`.
    ///
    /// ```
    /// let input = b"   7   2     1     2     2\n          10\n          12\n";
    /// let mut out = vec![0; input.len() + tegbalowu::SHEET_ROOM];
    /// let count = tegbalowu::sheet_text(input, &mut out).unwrap();
    /// assert!(out[..count].starts_with(b"   7   2   0     2\n   0\n   1\n   1           0\n"));
    /// assert!(out[..count].ends_with(b"  16           0\n"));
    /// ```
    tegbalowu_sheet_text sheet_text(input: &[u8], out: &mut [u8]);
}
