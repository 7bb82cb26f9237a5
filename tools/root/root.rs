// Compares tegbalowu_square_root with Rust's f64::sqrt bit for bit, and times both in one run.
//
//     root compare COUNT SEED     COUNT random inputs of each of six kinds, and the edges of every exponent
//     root bench                  ns a call, throughput and latency, best of 1,000 short runs each
use std::hint::black_box;
use std::time::Instant;

#[link(name = "capi_leaves", kind = "static")]
extern "C" {
    fn tegbalowu_square_root(x: f64) -> f64;
}

fn ours(x: f64) -> f64 {
    // The function takes every f64.
    unsafe { tegbalowu_square_root(x) }
}

// The instruction behind a call, as ours is.
#[inline(never)]
fn hardware(x: f64) -> f64 {
    x.sqrt()
}

const FIRST: u64 = 1 << 52;

// xorshift64*
struct Random(u64);

impl Random {
    fn next(&mut self) -> u64 {
        self.0 ^= self.0 >> 12;
        self.0 ^= self.0 << 25;
        self.0 ^= self.0 >> 27;
        self.0.wrapping_mul(0x2545_f491_4f6c_dd1d)
    }
}

#[derive(Default)]
struct Tally {
    compared: u64,
    differ: u64,
}

impl Tally {
    fn bits(&mut self, bits: u64) {
        let x = f64::from_bits(bits);
        let (a, b) = (ours(x), hardware(x));
        self.compared += 1;
        if a.to_bits() != b.to_bits() && !(a.is_nan() && b.is_nan()) {
            self.differ += 1;
            if self.differ <= 10 {
                println!("differ at {bits:#018x}: ours {:#018x}, Rust {:#018x}", a.to_bits(), b.to_bits());
            }
        }
    }

    // An input with two neighbours either way.
    fn around(&mut self, bits: u64) {
        for d in 0..5 {
            self.bits(bits.wrapping_add(d).wrapping_sub(2));
        }
    }
}

// The f64 nearest n * 4 ^ k.
fn scaled(n: u128, k: i32) -> u64 {
    ((n as f64) * 2f64.powi(k) * 2f64.powi(k)).to_bits()
}

fn compare(count: u64, seed: u64) -> bool {
    let mut tally = Tally::default();
    // The edges of every exponent, of either sign.
    for field in 0..4096u64 {
        for digits in [0, FIRST / 2, FIRST - 1] {
            tally.around((field << 52) | digits);
        }
    }
    let mut random = Random(seed | 1);
    for _ in 0..count {
        // Any pattern; any number above zero; a subnormal number.
        tally.bits(random.next());
        tally.bits(random.next() >> 1);
        tally.bits(random.next() >> (12 + random.next() % 52));
        // The square of a root q of 53 digits, that of the middle q + 1/2 above it, and the square of a root of 26 digits, which is exact.
        let q = u128::from(FIRST + (random.next() >> 12));
        let k = (random.next() % 900) as i32 - 500;
        match random.next() % 3 {
            0 => tally.around(scaled(q * q, k)),
            1 => tally.around(scaled(q * q + q, k)),
            _ => tally.around(scaled((q >> 27) * (q >> 27), k)),
        }
    }
    println!("compared {} inputs (seed {seed}), {} differ", tally.compared, tally.differ);
    tally.differ == 0
}

// Best of 1,000 short runs, in ns a call: calls that do not wait for each other, and calls of which each waits for the one before.
fn timed(f: impl Fn(f64) -> f64, inputs: &[f64]) -> (f64, f64) {
    const ROUNDS: usize = 2;
    let calls = (ROUNDS * inputs.len()) as f64;
    let (mut free, mut chained) = (f64::MAX, f64::MAX);
    for _ in 0..1000 {
        let start = Instant::now();
        let mut sum = 0u64;
        for _ in 0..ROUNDS {
            for &x in inputs {
                sum = sum.wrapping_add(f(x).to_bits());
            }
        }
        black_box(sum);
        free = free.min(start.elapsed().as_nanos() as f64 / calls);
        let start = Instant::now();
        let mut last = 0u64;
        for _ in 0..ROUNDS {
            for &x in inputs {
                last = f(f64::from_bits(x.to_bits() ^ (last & 1))).to_bits();
            }
        }
        black_box(last);
        chained = chained.min(start.elapsed().as_nanos() as f64 / calls);
    }
    (free, chained)
}

fn bench() {
    let mut random = Random(1);
    let mut inputs = Vec::new();
    while inputs.len() < 4096 {
        let x = f64::from_bits(random.next() >> 1);
        if x.is_normal() {
            inputs.push(x);
        }
    }
    let (free, chained) = timed(ours, &inputs);
    let (hardware_free, hardware_chained) = timed(hardware, &inputs);
    println!("square root, ns a call      ours  hardware  ratio");
    println!("calls side by side        {free:6.1}    {hardware_free:6.1} {:6.1}", free / hardware_free);
    println!("each waits for the last   {chained:6.1}    {hardware_chained:6.1} {:6.1}", chained / hardware_chained);
}

fn main() {
    let words: Vec<String> = std::env::args().collect();
    let number = |i: usize| words.get(i).and_then(|w| w.parse().ok());
    match (words.get(1).map(String::as_str), number(2), number(3)) {
        (Some("compare"), Some(count), Some(seed)) => {
            if !compare(count, seed) {
                std::process::exit(1);
            }
        }
        (Some("bench"), None, None) => bench(),
        _ => {
            eprintln!("root compare COUNT SEED | root bench");
            std::process::exit(2);
        }
    }
}
