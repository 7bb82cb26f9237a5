//! Averages and positions of a short price series, from Rust: `tools/examples` builds and runs this.

use tegbalowu::{single_sma_positions, sma, tick_mean, work_for};

fn main() {
    let prices = [10.0, 12.0, 12.0, 11.0, 15.0, 14.0];
    let bars = prices.len();
    let mut out = [0.0; 6];
    let mut ticks = [0; 6];
    let mut work = work_for(bars);

    match sma(&prices, 3, &mut out) {
        Ok(count) => println!("sma of 3: {:?}", &out[..count]),
        Err(refusal) => println!("sma of 3 is refused: {refusal}"),
    }
    match tick_mean(&prices, 2, &mut ticks) {
        Ok(count) => println!("tick mean of 2: {:?}", &ticks[..count]),
        Err(refusal) => println!("tick mean of 2 is refused: {refusal}"),
    }
    match single_sma_positions(&prices, 2, &mut out, &mut work) {
        Ok(count) => println!("one average of 2: {:?}", &out[..count]),
        Err(refusal) => println!("one average of 2 is refused: {refusal}"),
    }

    println!("sma of 0: {:?}", sma(&prices, 0, &mut out));
    println!("sma of 721: {:?}", sma(&prices, 721, &mut out));
    println!("sma without room: {:?}", sma(&prices, 3, &mut out[..5]));
    println!("one average without work: {:?}", single_sma_positions(&prices, 2, &mut out, &mut work[..47]));
}
