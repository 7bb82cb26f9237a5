//! Document 01's Wilder RSI with document 02's flat market, which pure.rs does not have: a plain loop, each operation
//! rounded once.

/// The cell of every bar, NaN before bar n; no cell for a window of 0.
pub fn line(series: &[f64], n: usize) -> Vec<f64> {
    if n == 0 {
        return Vec::new();
    }
    let mut cells = vec![f64::NAN; series.len()];
    if series.len() <= n {
        return cells;
    }
    let changes: Vec<f64> = series.windows(2).map(|pair| pair[1] - pair[0]).collect();
    let gains: Vec<f64> = changes.iter().map(|change| if *change > 0.0 { *change } else { 0.0 }).collect();
    let losses: Vec<f64> = changes.iter().map(|change| if *change < 0.0 { -*change } else { 0.0 }).collect();
    let mut gain = mean(&gains[..n]);
    let mut loss = mean(&losses[..n]);
    cells[n] = strength(gain, loss);
    for bar in n + 1..series.len() {
        // The change at a bar stands one place before it.
        gain = (gain * (n - 1) as f64 + gains[bar - 1]) / n as f64;
        loss = (loss * (n - 1) as f64 + losses[bar - 1]) / n as f64;
        cells[bar] = strength(gain, loss);
    }
    cells
}

/// The values added from left to right, over their number.
fn mean(values: &[f64]) -> f64 {
    let mut sum = 0.0;
    for value in values {
        sum += value;
    }
    sum / values.len() as f64
}

/// The cell of two averages.
fn strength(gain: f64, loss: f64) -> f64 {
    match (gain == 0.0, loss == 0.0) {
        (true, true) => 50.0,
        (false, true) => 100.0,
        (_, false) => 100.0 - 100.0 / (1.0 + gain / loss),
    }
}
