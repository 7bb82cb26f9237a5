/*
 * Tegbalowu as C functions: averages and positions of a price series. Each function is proved to
 * give the cells of its definition.
 *
 * The call. A series has a value for each bar; bars count from 0. A call is answered or refused.
 * Answered: refusal is 0, and the first count cells of the output are written. The count is the
 * series' length, or 0 where that length is 0 or a window, an integer parameter, is 0. No cell
 * depends on a later bar, unless a function says so.
 * Refused: refusal says why, count is 0, and no cell changes.
 *
 * A cell left alone keeps its value: every cell from the count on, and every cell of a refused
 * call. The proofs know one NaN only, so this is proved up to the bits inside a NaN; that those
 * bits stay is compared, not proved.
 *
 * Any arguments are allowed. The first refusal that applies is given, and basket says its own order:
 *
 *   1  a series longer than 65,536
 *   2  series of unequal length
 *   3  an output shorter than the series
 *   4  a work slice shorter than 8 times the series
 *   5  a value that is not accepted; for tick_mean and double_sma_ranges one that is no whole tick
 *  11  double_sma_ranges: a low above its high at some bar
 *   6  a floating-point parameter that is not finite
 *   7  a window above 720; a smoother period that is not whole from 0 to 512
 *   8  triple_sma_positions: m3 above the series' length; ultimate_channel: a period above that
 *      length + 1
 *   9  double_sma_positions and double_sma_ranges: n not below m; triple_sma_positions: not
 *      m1 < m2 < m3
 *  10  basket: a count other than 1 to 32, not five numbers a contract, a group other than 1 to 32,
 *      another rule
 *  12  rank_table_positions: a number from -100 to 100 that two rows cover
 *  13  rank_table_positions: a number from -100 to 100 that no row covers
 *  14  rank_table_positions: a position other than -1, 0 and 1
 *  16  basket: a weight beyond 1,000 either way
 *
 * Accepted are finite values of magnitude at most 1,073,741,824, other than -0.0. A whole tick is an
 * accepted value without a fraction, of magnitude at most 16,777,216.
 *
 * The close before bar 0. true_range, ultimate_channel and ultimate_oscillator take it as
 * close_before, with a flag. Where close_known is not 0, bar 0 is reckoned from it as every other
 * bar from the close before, and refusal 5 is for it too, after the series. Where close_known is 0
 * it is unknown, and close_before is not looked at, whatever it is.
 *
 * A work slice is lent for the call's own use. Its first 8 * series_len cells hold +0.0 after an
 * answered call, and the others keep their values.
 *
 * What the caller must see to, since nothing checks it: a pointer is not null, also where the
 * length after it is 0; it is aligned for its type and points to as many cells as that length says;
 * an output or a work slice overlaps nothing else that is lent; no other thread writes to what is
 * lent while the call runs; and the floating-point environment is the one with which a C program
 * starts: rounding to nearest, subnormal numbers not flushed to zero, exceptions masked (linking
 * with -ffast-math changes that). Nothing is kept after the call, so calls that write to different
 * memory may run at the same time.
 *
 * Compile and link with what `pkg-config --cflags --libs tegbalowu` prints.
 */
#ifndef TEGBALOWU_H
#define TEGBALOWU_H

#include <stddef.h>
#include <stdint.h>

#ifdef __cplusplus
extern "C" {
#endif

/* The version of this header and of the library that it came with. */
#define TEGBALOWU_VERSION "0.1.0"

typedef struct {
    uint64_t refusal;
    uint64_t count;
} tegbalowu_answer;

/* Averages and other series. */

/*
 * The mean of the last n values, from bar n-1 on; NaN before. Refusals 1, 3, 5, 7.
 */
tegbalowu_answer tegbalowu_sma(const double *series, size_t series_len, size_t n, double *out, size_t out_len);

/*
 * The exponential average: k times the value plus 1 - k times the cell before, where k is
 * 2 / (period + 1). It starts at bar period-1 with the mean of the values so far; NaN before.
 * Refusals 1, 3, 5, 7.
 */
tegbalowu_answer tegbalowu_ema(const double *series, size_t series_len, size_t period, double *out, size_t out_len);

/*
 * alpha times the value plus 1 - alpha times the cell before, from bar 1 on; bar 0 is the value.
 * Refusals 1, 3, 5, 6.
 */
tegbalowu_answer tegbalowu_exponential_smoothing(const double *series, size_t series_len, double alpha, double *out,
                                                 size_t out_len);

/*
 * The mean of the last n whole ticks, rounded to a whole tick, half to even, from bar n-1 on; 0
 * before. Refusals 1, 3, 5, 7.
 */
tegbalowu_answer tegbalowu_tick_mean(const double *series, size_t series_len, size_t n, int64_t *out, size_t out_len);

/*
 * Additive Holt-Winters smoothing: level plus trend plus seasonal part of each bar, from bar
 * season_length on; the cells before copy the series. The level starts as the mean of the first
 * season_length values and the trend as 0; alpha, beta and gamma, of any finite size, weigh a new
 * value in level, trend and seasonal part. A season longer than the series is answered with
 * count 0. Refusals 1, 3, 4, 5, 6, 7.
 */
tegbalowu_answer tegbalowu_holt_winters(const double *series, size_t series_len, size_t season_length, double alpha,
                                        double beta, double gamma, double *out, size_t out_len, double *work,
                                        size_t work_len);

/*
 * Wilder's relative strength index, from bar n on; NaN before. Where the average loss is 0 it is
 * 100, and 50 where the average gain is 0 too, as in a flat market. Refusals 1, 3, 4, 5, 7.
 */
tegbalowu_answer tegbalowu_wilder_rsi(const double *series, size_t series_len, size_t n, double *out, size_t out_len,
                                      double *work, size_t work_len);

/*
 * The relative strength index of exponential averages with factor 1 / period, NaN at bar 0,
 * smoothed with smooth_period, from 0 to 512: the first four cells copy the index. A
 * smooth_period of 0 is answered with count 0. Refusals 1, 3, 4, 5, 7.
 */
tegbalowu_answer tegbalowu_rsx_ss2(const double *close, size_t close_len, size_t period, size_t smooth_period,
                                   double *out, size_t out_len, double *work, size_t work_len);

/*
 * A volatility: the sizes of the changes averaged exponentially twice with factor
 * 2 / (period / 2 + 1), a step beyond each average by half its last change, times power, and that
 * averaged with factor 2 / (period / 3 + 1) from the first value that is not 0 on; 0 at bars 0
 * and 1. Both divisions are of whole numbers, so that a factor can be 2 and the cells can grow. An
 * average is left out where all the values that it takes are equal, to the end of the series: a
 * cell may depend on later bars. Any finite power is taken; with a large one cells may be infinite
 * or NaN. Refusals 1, 3, 4, 5, 6, 7.
 */
tegbalowu_answer tegbalowu_jurik_volty(const double *close, size_t close_len, size_t period, double power,
                                       double *out, size_t out_len, double *work, size_t work_len);

/*
 * Rolling rank: the place, from 1, in the sorted window of the first value less than 1e-8 away
 * from the present one, from bar window-1 on; 0 before. A window of 0 is no empty answer here: it
 * gives 0 at every bar. Refusals 1, 3, 4, 5, 7.
 */
tegbalowu_answer tegbalowu_rolling_rank(const double *series, size_t series_len, size_t window, uint64_t *out,
                                        size_t out_len, double *work, size_t work_len);

/*
 * Wilder's true range; at bar 0, where the close before is unknown, high less low. close_prev[i] is
 * the close before bar i, and close_prev[0] is not used, though it is checked. Refusals 1, 2, 3, 5.
 */
tegbalowu_answer tegbalowu_true_range(const double *high, size_t high_len, const double *low, size_t low_len,
                                      const double *close_prev, size_t close_prev_len, size_t close_known,
                                      double close_before, double *out, size_t out_len);

/*
 * Ehlers' ultimate smoother, from bar 4 on; bars 0 to 3 copy the input. With period 0 every cell
 * from bar 4 on is NaN. Refusals 1, 3, 5, 6, 7.
 */
tegbalowu_answer tegbalowu_ultimate_smoother(const double *price, size_t price_len, double period, double *out,
                                             size_t out_len);

/*
 * Ehlers' ultimate channel. middle is the ultimate smoother of the close with period, from 0 to
 * 512; upper and lower are multiplier widths above and below it. A width is Wilder's average of
 * true range from bar period-1 on, NaN earlier, smoothed with period / 2. So with period 4 only
 * bar 3 of the outer lines is a number, and from period 5 on they are NaN at every bar; with
 * period 1 they are NaN from bar 4 on. Refusals 1 to 8.
 */
tegbalowu_answer tegbalowu_ultimate_channel(const double *high, size_t high_len, const double *low, size_t low_len,
                                            const double *close, size_t close_len, size_t period, double multiplier,
                                            size_t close_known, double close_before, double *middle, size_t middle_len,
                                            double *upper, size_t upper_len, double *lower, size_t lower_len,
                                            double *work, size_t work_len);

/*
 * Bands about the ultimate smoother, after Ehlers' ultimate bands. middle is the smoother of the
 * close with period; upper and lower are std_multiplier widths above and below it. A width is the
 * deviation of the last period closes over period-1, NaN before bar period-1 and 0.0 for period 1,
 * smoothed with smooth_period. So with period 4 only bar 3 of the outer lines is a number, and from
 * period 5 on they are NaN at every bar. Both periods go from 0 to 512; one of 0, and a period
 * above the bars, is answered with count 0. Refusals 1, 3, 4, 5, 6, 7.
 */
tegbalowu_answer tegbalowu_ultimate_bands(const double *close, size_t close_len, size_t period, double std_multiplier,
                                          size_t smooth_period, double *middle, size_t middle_len, double *upper,
                                          size_t upper_len, double *lower, size_t lower_len, double *work,
                                          size_t work_len);

/*
 * Larry Williams' ultimate oscillator: 100 (4a + 2b + c) / 7, where a, b and c are the sums of buying
 * pressure over those of true range in the last short_period, med_period and long_period bars, and
 * 0 where the range's sum is 0. NaN until the longest window is whole, so at every bar where one
 * exceeds the series. Buying pressure is the close less the smaller of the low and the close
 * before, at bar 0 its own close where that is unknown; its range is then high less low. The windows
 * need not rise. Refusals 1, 2, 3, 4, 5, 7.
 */
tegbalowu_answer tegbalowu_ultimate_oscillator(const double *high, size_t high_len, const double *low, size_t low_len,
                                               const double *close, size_t close_len, size_t short_period,
                                               size_t med_period, size_t long_period, size_t close_known,
                                               double close_before, double *out, size_t out_len, double *work,
                                               size_t work_len);

/*
 * Positions: +1 long, -1 short, 0 flat. A sign is +1 for +0.0 and above, so a tie is +1. Before the
 * first bar that is named the cells are 0.
 */

/*
 * One average: the sign of the price less the doubly averaged price, from bar 2n-2 on; 0 where that
 * average is 0. Refusals 1, 3, 4, 5, 7.
 */
tegbalowu_answer tegbalowu_single_sma_positions(const double *series, size_t series_len, size_t n, double *out,
                                                size_t out_len, double *work, size_t work_len);

/*
 * Double: the sign of the average of the last n values less that of the last m, from bar m-1 on.
 * Refusals 1, 3, 5, 7, 9.
 */
tegbalowu_answer tegbalowu_double_sma_positions(const double *series, size_t series_len, size_t n, size_t m,
                                                double *out, size_t out_len);

/*
 * Double on prices known only within a range, a low and a high for each bar. From bar m-1 on: +1
 * where every series of whole ticks from low to high gives +1 by the double rule, -1 where every
 * one gives -1, 2 where both occur. Where low equals high at every bar these are the cells of
 * tegbalowu_double_sma_positions. Refusals 1, 2, 3, 5, 11, 7, 9.
 */
tegbalowu_answer tegbalowu_double_sma_ranges(const double *low, size_t low_len, const double *high, size_t high_len,
                                             size_t n, size_t m, int32_t *out, size_t out_len);

/*
 * Triple: +1 where the mean of m1 values is above its own mean over m3 and its mean over m1 above
 * that over m2, -1 where both are below, else 0; from bar m1+m3-2 on. Refusals 1, 3, 4, 5, 7; 8
 * where m3 is above series_len; 9 unless m1 < m2 < m3.
 */
tegbalowu_answer tegbalowu_triple_sma_positions(const double *series, size_t series_len, size_t m1, size_t m2,
                                                size_t m3, int32_t *out, size_t out_len, double *work,
                                                size_t work_len);

/*
 * Exponential: the sign of price less the exponential average, with factor 2 / (n + 1), of the
 * means of the last n prices. It starts n-1 bars after the first mean that is not 0, or at bar n-1
 * where every mean is 0, with the mean of n means. So while every mean is 0 a cell depends on later
 * bars. Refusals 1, 3, 4, 5, 7.
 */
tegbalowu_answer tegbalowu_single_ema_positions(const double *series, size_t series_len, size_t n, double *out,
                                                size_t out_len, double *work, size_t work_len);

/*
 * Middle: the sign of the mean of the last n values less half of the highest plus the lowest of the
 * last n such means, from bar 2n-2 on; 0 where either is 0. Refusals 1, 3, 4, 5, 7.
 */
tegbalowu_answer tegbalowu_mid_positions(const double *series, size_t series_len, size_t n, double *out,
                                         size_t out_len, double *work, size_t work_len);

/*
 * Min-max scaling: where the mean of timeperiod values stands between the lowest and the highest
 * of the last window means, from -1 to 1, from bar timeperiod+window-2 on; 0 where these are at
 * most 1e-10 apart. Refusals 1, 3, 4, 5, 7.
 */
tegbalowu_answer tegbalowu_mms_positions(const double *series, size_t series_len, size_t timeperiod, size_t window,
                                         double *out, size_t out_len, double *work, size_t work_len);

/*
 * Tanh: how many deviations the mean of the last n values lies above the mean of the last n such
 * means, from bar 2n-2 on, and tanh of that rounded to hundredths, half away from zero, so that -0.0
 * is possible. The deviation is over n-1; where it is not above 0, and with n of 1, the cell is 0.
 * tanh is a recorded table. Refusals 1, 3, 4, 5, 7.
 */
tegbalowu_answer tegbalowu_tanh_positions(const double *series, size_t series_len, size_t n, double *out,
                                          size_t out_len, double *work, size_t work_len);

/*
 * Rank: the share of the n-1 means before the present one that lie below it, moved from 0..1 to
 * -1..1 and rounded to hundredths, half away from zero, so that -0.0 is possible; from bar 2n-2
 * on. n = 1 gives NaN at every bar. Refusals 1, 3, 4, 5, 7.
 */
tegbalowu_answer tegbalowu_rank_positions(const double *series, size_t series_len, size_t n, double *out,
                                          size_t out_len, double *work, size_t work_len);

/*
 * Each rank of rank_positions looked up in a table. rows is flat, three numbers a row: from, to and a
 * position. The first 16 rows are read; the others, and one or two numbers left over, are not looked
 * at. A row covers the whole hundredths of rank from the first to the second of its numbers, both
 * included, and nothing where the first exceeds the second. From bar 2n-2 on the cell is the position
 * of the row that covers the rank; 0 before, and at every bar where n is 1, whose rank is NaN. The
 * table is not looked at where the answer is empty. Refusals 1, 3, 4, 5, 7, 12, 13, 14.
 */
tegbalowu_answer tegbalowu_rank_table_positions(const double *series, size_t series_len, size_t n, const int32_t *rows,
                                                size_t rows_len, int32_t *out, size_t out_len, double *work,
                                                size_t work_len);

/*
 * Bollinger's bands of the means of n prices, from bar 2n-2 on: +1 where the mean is above the
 * middle plus k deviations, -1 where it is below the middle less k deviations, each by more than
 * 1e-10. The deviation is over n-1; n of 1 gives 0. Refusals 1, 3, 4, 5, 6, 7.
 */
tegbalowu_answer tegbalowu_boll_positions(const double *series, size_t series_len, size_t n, double k, int32_t *out,
                                          size_t out_len, double *work, size_t work_len);

/*
 * Against those bands, with the deviation over n and no margin: above the upper band a flat
 * position opens short, below the lower one it opens long; a long one closes above the middle,
 * and a short one below it. Refusals 1, 3, 4, 5, 6, 7.
 */
tegbalowu_answer tegbalowu_boll_reverse_positions(const double *series, size_t series_len, size_t n, double k,
                                                  int32_t *out, size_t out_len, double *work, size_t work_len);

/*
 * Against the relative strength index of the means of n prices: below rsi_lower a flat position
 * opens long, else above rsi_upper it opens short; a long one closes above rsi_exit, and a short
 * one below it. The index at bar i is made of the changes of the means at bars max(0, i-n) to i-1,
 * the present bar left out, and is 100 where none of them is a loss. It needs n-1 changes: from bar
 * 2n-1, and for n of 1 from bar 0. Before, the cells are 0. Refusals 1, 3, 4, 5, 6, 7.
 */
tegbalowu_answer tegbalowu_rsi_reverse_positions(const double *series, size_t series_len, size_t n, double rsi_upper,
                                                 double rsi_lower, double rsi_exit, int32_t *out, size_t out_len,
                                                 double *work, size_t work_len);

/* Baskets: contracts with weights. */

/*
 * The net position of 1 to 32 contracts with L bars each: for each bar the sum of weight times
 * position. series has the contracts' prices one after another, contracts five numbers for each (its
 * length L, rule, n, m and group), and weights its weight. Rule 1 is single_sma_positions, 2
 * double_sma_positions and 3 mid_positions; 1 and 3 ignore m. A contract is in one group of 32. The
 * count is 33 * L: bar j of group g is cell (g - 1) * L + j, and that of all contracts 32 * L + j. A
 * group without contracts is 0, and a contract whose own call has count 0 is flat. Of the work slice
 * the first 8 * L cells hold +0.0 afterwards. Positions are made on the stack, 32 KB at a time.
 * Refusals, in this order: 10; 2 where the lengths are unequal or do not add up to series_len; 3 for
 * an output under 33 * L; 4 for a work slice under 8 * L; 16; and then that of the first contract
 * whose own call is refused, 1, 5, 7 or 9.
 */
tegbalowu_answer tegbalowu_basket(const double *series, size_t series_len, const uint64_t *contracts,
                                  size_t contracts_len, const int64_t *weights, size_t weights_len, int64_t *out,
                                  size_t out_len, double *work, size_t work_len);

/* The sheet of sheet(1), for those who have the whole input in memory. */

/* The bytes of output that an input may need beyond one for each of its own: enough for every input. */
#define TEGBALOWU_SHEET_ROOM 291

/*
 * The sheet of the input: what sheet(1) writes for these bytes, any bytes. The first count bytes of
 * the output are the whole sheet, and later bytes stay. A request that is refused, and a line that
 * breaks its columns, are part of the sheet; the call itself has refusal 3 alone: an output shorter
 * than input_len + TEGBALOWU_SHEET_ROOM. It takes some 50 KB of stack.
 */
tegbalowu_answer tegbalowu_sheet_text(const uint8_t *input, size_t input_len, uint8_t *out, size_t out_len);

#ifdef __cplusplus
}
#endif

#endif
