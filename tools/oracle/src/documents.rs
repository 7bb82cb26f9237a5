//! What public documents say where the source does otherwise, each formula in f64 as it is published. docs/DIFFERENCES.md
//! names them, and says which were not held against a copy.

use crate::call::Call;

const NAN: f64 = f64::NAN;

/// The cells that a document gives for a call.
pub type Formula = fn(&Call) -> Vec<f64>;

pub fn named(name: &str) -> Option<Formula> {
    let formula: Formula = match name {
        "talib_sma" => |call| talib_sma(&call.series[0], call.parameters[0].into()),
        "talib_ema" => |call| talib_ema(&call.series[0], call.parameters[0].into()),
        "ehlers_smoother" => |call| ehlers_smoother(&call.series[0], call.parameters[0].into()),
        "ehlers_upper" => |call| ehlers_upper(&call.series[0], call.parameters[0].into(), call.parameters[1].into()),
        "forecast" => |call| forecast(&call.series[0], call.parameters[1].into()),
        "ewm_index" => |call| ewm_index(&call.series[0], call.parameters[0].into()),
        "ewm_volatility" => |call| ewm_volatility(&call.series[0], call.parameters[0].into()),
        "rolling_range" => |call| rolling_range(&call.series, call.parameters[0].into()),
        "williams_range" => |call| williams_range(&call.series),
        "bollinger" => |call| bollinger(&call.series[0], call.parameters[0].into(), call.parameters[1].into()),
        "bollinger_of_means" => {
            |call| bollinger_of_means(&call.series[0], call.parameters[0].into(), call.parameters[1].into())
        }
        _ => return None,
    };
    Some(formula)
}

/// TA-Lib's SMA: the newest value is added to a running total, the quotient taken, and then the oldest subtracted.
fn talib_sma(series: &[f64], n: usize) -> Vec<f64> {
    let mut total: f64 = series[..n - 1].iter().fold(0.0, |sum, x| sum + x);
    let mut cells = vec![NAN; n - 1];
    for (new, old) in series[n - 1..].iter().zip(series) {
        total += new;
        cells.push(total / n as f64);
        total -= old;
    }
    cells
}

/// TA-Lib's EMA: each step adds a part of the difference to the last cell.
fn talib_ema(series: &[f64], n: usize) -> Vec<f64> {
    let k = 2.0 / (n + 1) as f64;
    let mut last = series[..n].iter().fold(0.0, |sum, x| sum + x) / n as f64;
    let mut cells = vec![NAN; n - 1];
    cells.push(last);
    for x in &series[n..] {
        last += (x - last) * k;
        cells.push(last);
    }
    cells
}

/// Ehlers' ultimate smoother: pi has six digits, the cosine takes degrees, and three cells copy the input.
fn ehlers_smoother(price: &[f64], period: f64) -> Vec<f64> {
    let a1 = (-1.414 * 3.14159 / period).exp();
    let c2 = 2.0 * a1 * (1.414 * 180.0 / period).to_radians().cos();
    let c3 = -a1 * a1;
    let c1 = (1.0 + c2 - c3) / 4.0;
    let mut cells = price.to_vec();
    for i in 3..price.len() {
        cells[i] = (1.0 - c1) * price[i] + (2.0 * c1 - c2) * price[i - 1] - (c1 + c3) * price[i - 2]
            + c2 * cells[i - 1]
            + c3 * cells[i - 2];
    }
    cells
}

/// The upper line of Ehlers' ultimate bands: the smoothed close and a multiple of the root of the mean square of close
/// less smoothed close.
fn ehlers_upper(close: &[f64], period: usize, multiple: f64) -> Vec<f64> {
    let smooth = ehlers_smoother(close, period as f64);
    let squares: Vec<f64> = close.iter().zip(&smooth).map(|(x, s)| (x - s) * (x - s)).collect();
    let upper = |bar: usize| smooth[bar] + multiple * mean(&squares[bar + 1 - period..=bar]).sqrt();
    (0..close.len()).map(|bar| if bar + 1 < period { NAN } else { upper(bar) }).collect()
}

fn mean(values: &[f64]) -> f64 {
    values.iter().fold(0.0, |sum, x| sum + x) / values.len() as f64
}

/// Holt-Winters for a season of one bar, a trend of 0 and a seasonal part of 0: the forecast of a bar is the level before
/// it.
fn forecast(series: &[f64], alpha: f64) -> Vec<f64> {
    let mut level = series[0];
    let mut cells = vec![NAN];
    for x in &series[1..] {
        cells.push(level);
        level = alpha * x + (1.0 - alpha) * level;
    }
    cells
}

/// pandas' ewm(alpha, adjust = False).
fn ewm(values: &[f64], alpha: f64) -> Vec<f64> {
    let mut cells = vec![values[0]];
    for x in &values[1..] {
        cells.push(alpha * x + (1.0 - alpha) * cells[cells.len() - 1]);
    }
    cells
}

/// The source's volatility with power 1 by ewm alone, with no test for equal values; for a third average that starts at
/// bar 2.
fn ewm_volatility(close: &[f64], period: usize) -> Vec<f64> {
    let sizes: Vec<f64> = close.windows(2).map(|pair| (pair[1] - pair[0]).abs()).collect();
    let alpha = |span: usize| 2.0 / (span + 1) as f64;
    let twice = ewm(&ewm(&sizes, alpha(period / 2)), alpha(period / 2));
    let leaned: Vec<f64> = twice.windows(2).map(|pair| pair[1] + (pair[1] - pair[0]) * 0.5).collect();
    [vec![0.0; 2], ewm(&leaned, alpha(period / 3))].concat()
}

/// The relative strength index of gains and losses averaged by ewm from the first change on.
fn ewm_index(series: &[f64], period: usize) -> Vec<f64> {
    let changes: Vec<f64> = series.windows(2).map(|pair| pair[1] - pair[0]).collect();
    let average = |part: fn(f64) -> f64| {
        let parts: Vec<f64> = changes.iter().map(|change| part(*change)).collect();
        ewm(&parts, 1.0 / period as f64)
    };
    let (gains, losses) = (average(|change| change.max(0.0)), average(|change| (-change).max(0.0)));
    let index = |(gain, loss): (&f64, &f64)| 100.0 - 100.0 / (1.0 + gain / loss);
    std::iter::once(NAN).chain(gains.iter().zip(&losses).map(index)).collect()
}

/// The mean of the last n true ranges, as pandas' rolling mean.
fn rolling_range(bars: &[Vec<f64>], n: usize) -> Vec<f64> {
    let [high, low, close] = [&bars[0], &bars[1], &bars[2]];
    let range = |bar: usize| match bar {
        0 => high[0] - low[0],
        _ => (high[bar] - low[bar]).max((high[bar] - close[bar - 1]).abs()).max((low[bar] - close[bar - 1]).abs()),
    };
    let ranges: Vec<f64> = (0..high.len()).map(range).collect();
    (0..high.len()).map(|bar| if bar + 1 < n { NAN } else { mean(&ranges[bar + 1 - n..=bar]) }).collect()
}

/// Williams' range: from the smaller of low and close before to the larger of high and that close.
fn williams_range(bars: &[Vec<f64>]) -> Vec<f64> {
    let [high, low, close] = [&bars[0], &bars[1], &bars[2]];
    let range = |bar: usize| high[bar].max(close[bar - 1]) - low[bar].min(close[bar - 1]);
    std::iter::once(NAN).chain((1..high.len()).map(range)).collect()
}

/// Bollinger's bands: +1 where the price is above the mean of the last n prices by more than k deviations over n, -1
/// where it is below by more, else 0; NaN before there are n.
fn bollinger(series: &[f64], n: usize, k: f64) -> Vec<f64> {
    let side = |bar: usize| {
        let window = &series[bar + 1 - n..=bar];
        let middle = mean(window);
        let squares: Vec<f64> = window.iter().map(|x| (x - middle) * (x - middle)).collect();
        let width = k * mean(&squares).sqrt();
        let price = series[bar];
        if price > middle + width {
            1.0
        } else if price < middle - width {
            -1.0
        } else {
            0.0
        }
    };
    (0..series.len()).map(|bar| if bar + 1 < n { NAN } else { side(bar) }).collect()
}

/// The same with the means of n prices in place of the prices; NaN before there are n means.
fn bollinger_of_means(series: &[f64], n: usize, k: f64) -> Vec<f64> {
    let means: Vec<f64> = series.windows(n).map(mean).collect();
    [vec![NAN; n - 1], bollinger(&means, n, k)].concat()
}
