//! Calls that may supply the close before bar 0. pure.rs takes none: where one is supplied a bar that has it is put in
//! front of the series, and the cells that this bar has a part in are left out.

/// The close before bar 0: the number, where the flag is set.
pub fn supplied(known: usize, close: f64) -> Option<f64> {
    (known != 0).then_some(close)
}

/// True range; the series of closes has that of the bar before at the bar itself.
pub fn true_range(high: &[f64], low: &[f64], close_prev: &[f64], before: Option<f64>) -> Vec<f64> {
    match before {
        Some(close) if !high.is_empty() => {
            let closes = [&[close, close], &close_prev[1..]].concat();
            pure::true_range(&after(close, high), &after(close, low), &closes).split_off(1)
        }
        _ => pure::true_range(high, low, close_prev),
    }
}

/// The oscillator: from the bar on where the longest window is whole no window reaches the bar in front.
pub fn ultimate_oscillator(
    high: &[f64],
    low: &[f64],
    close: &[f64],
    windows: [usize; 3],
    before: Option<f64>,
) -> Vec<f64> {
    let [short, medium, long] = windows;
    match before {
        Some(first) if !high.is_empty() && !windows.contains(&0) => {
            let [high, low, close] = [high, low, close].map(|series| after(first, series));
            let mut cells = pure::ultimate_oscillator(&high, &low, &close, short, medium, long).split_off(1);
            let lead = short.max(medium).max(long) - 1;
            cells.iter_mut().take(lead).for_each(|cell| *cell = f64::NAN);
            cells
        }
        _ => pure::ultimate_oscillator(high, low, close, short, medium, long),
    }
}

/// A series with a bar in front.
fn after(first: f64, series: &[f64]) -> Vec<f64> {
    [&[first], series].concat()
}
