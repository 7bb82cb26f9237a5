//! The smoother's coefficients: pure.rs's two formulas, the recorded list of their values for periods
//! 1 to 512, and Ehlers' step on the recorded values.

use std::f64::consts::PI;
use std::sync::OnceLock;

pub const LONGEST: usize = 512;

/// The recorded list: a line that says what it was recorded on, then one for each period with the bits of a1 and b1.
const RECORDED: &str = include_str!("../smoother.hex");

/// a1 and b1 of one period.
#[derive(Clone, Copy, PartialEq)]
pub struct Pair {
    a1: u64,
    b1: u64,
}

/// pure.rs's two formulas, as `ultimate_smoother` has them.
fn formulas(period: f64) -> Pair {
    let a1 = (-1.414 * PI / period).exp();
    let b1 = 2.0 * a1 * (1.414 * 180.0 / period).to_radians().cos();
    Pair { a1: a1.to_bits(), b1: b1.to_bits() }
}

fn fresh() -> &'static [Pair] {
    static LIST: OnceLock<Vec<Pair>> = OnceLock::new();
    LIST.get_or_init(|| (1..=LONGEST).map(|period| formulas(period as f64)).collect())
}

fn recorded() -> &'static [Pair] {
    static LIST: OnceLock<Vec<Pair>> = OnceLock::new();
    LIST.get_or_init(|| {
        let word = |text: &str| u64::from_str_radix(text, 16).expect("smoother.hex: a word of 16 digits");
        let pairs: Vec<Pair> = (RECORDED.lines().skip(1))
            .map(|line| line.split_once(' ').expect("smoother.hex: two words a line"))
            .map(|(a1, b1)| Pair { a1: word(a1), b1: word(b1) })
            .collect();
        assert_eq!(pairs.len(), LONGEST, "smoother.hex: a line for each period");
        pairs
    })
}

/// Whether pure.rs's formulas give the recorded values of a period on this machine. Period 0 has none.
pub fn agrees(period: usize) -> bool {
    period == 0 || fresh()[period - 1] == recorded()[period - 1]
}

/// The recorded a1 of a period from 1 to 512.
pub fn recorded_a1(period: usize) -> u64 {
    recorded()[period - 1].a1
}

/// The cells of `ultimate_smoother` for a whole period from 0 to 512, from the recorded values.
pub fn by_table(price: &[f64], period: usize) -> Vec<f64> {
    let (a1, b1) = match period {
        0 => (f64::NAN, f64::NAN),
        _ => (f64::from_bits(recorded()[period - 1].a1), f64::from_bits(recorded()[period - 1].b1)),
    };
    let (c2, c3) = (b1, -a1 * a1);
    let c1 = (1.0 + c2 - c3) / 4.0;
    let mut us = price.to_vec();
    for i in 4..price.len() {
        us[i] = (1.0 - c1) * price[i] + (2.0 * c1 - c2) * price[i - 1] - (c1 + c3) * price[i - 2]
            + c2 * us[i - 1]
            + c3 * us[i - 2];
    }
    us
}

/// Prints the list that smoother.hex holds.
pub fn print_list() {
    println!("{}", platform());
    for pair in fresh() {
        println!("{:016x} {:016x}", pair.a1, pair.b1);
    }
}

/// Prints the recorded values as Rattle source: two constant tables, each number in the fewest digits that give its
/// bits.
pub fn print_tables() {
    println!("// The coefficients a1 and b1 of periods 1 to {LONGEST}, recorded by tools/smoother_table.");
    print_table("A1", "a1", |pair| pair.a1);
    print_table("B1", "b1", |pair| pair.b1);
}

fn print_table(name: &str, what: &str, part: fn(&Pair) -> u64) {
    println!("\n// {what} of period i + 1.\npub const {name}: [f64; {LONGEST}] = [");
    for pair in recorded() {
        println!("    {:?},", f64::from_bits(part(pair)));
    }
    println!("];");
}

/// Compares the recorded list with a fresh run; false if they differ on what it was recorded on.
pub fn check() -> bool {
    let (here, there) = (platform(), RECORDED.lines().next().unwrap_or(""));
    let differing = (1..=LONGEST).filter(|period| !agrees(*period)).count();
    println!("smoother table: {differing} of {LONGEST} periods differ from a fresh run on {here}");
    if here != there {
        println!("smoother table: it was recorded on {there}, so a difference would be the platform's");
    }
    differing == 0 || here != there
}

/// Platform, compiler and the C library whose exp and cos were run.
pub fn platform() -> String {
    format!(
        "{}-{}, {}, {}, {}",
        std::env::consts::ARCH,
        std::env::consts::OS,
        env!("ORACLE_RUSTC"),
        env!("ORACLE_LIBM"),
        fused()
    )
}

/// Whether the processor has FMA: glibc's exp has another form without it, which differs at period 230.
fn fused() -> &'static str {
    #[cfg(target_arch = "x86_64")]
    if std::arch::is_x86_feature_detected!("fma") {
        return "fma";
    }
    "no fma"
}
