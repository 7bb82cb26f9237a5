// Prints tests/leaves.txt (tests/README.md): for each of some thousand patterns x one line with x, is_nan, abs, signum,
// round and sqrt of x and its tanh in hundredths as Rust's f64 gives them, each as a word of 16 hexadecimal digits:
// is_nan as 0 or 1, and one word for every NaN that is given. The first line has the number of these lines, and the
// names of the leaves.
use std::hint::black_box;

// A line that says what it was recorded on, then the bits of each threshold of tanh.
const THRESHOLDS: &str = include_str!("../oracle/tanh.hex");

struct Random(u64);

impl Random {
    // splitmix64
    fn next(&mut self) -> u64 {
        self.0 = self.0.wrapping_add(0x9e37_79b9_7f4a_7c15);
        let mut z = self.0;
        z = (z ^ (z >> 30)).wrapping_mul(0xbf58_476d_1ce4_e5b9);
        z = (z ^ (z >> 27)).wrapping_mul(0x94d0_49bb_1331_11eb);
        z ^ (z >> 31)
    }
}

struct List(Vec<u64>);

impl List {
    // x and its neighbours
    fn near(&mut self, x: f64) {
        let bits = x.abs().to_bits();
        self.0.extend([bits.saturating_sub(1), bits, bits + 1]);
    }

    // x and its neighbours, each with both signs
    fn around(&mut self, x: f64) {
        self.near(x);
        let last = self.0.len() - 3;
        self.0.extend_from_within(last..);
        self.0[last + 3..].iter_mut().for_each(|b| *b |= 1 << 63);
    }
}

fn patterns() -> Vec<u64> {
    let mut list = List(Vec::new());
    let mut random = Random(2);
    // zeros, infinities, NaNs, the ends of the subnormal and the normal numbers
    for b in [0, 1, 0xf_ffff_ffff_ffff, 0x10_0000_0000_0000, 0x7fef_ffff_ffff_ffff, 0x7ff0_0000_0000_0000] {
        list.0.push(b);
        list.0.push(b | 1 << 63);
    }
    for b in [0x7ff0_0000_0000_0001, 0x7ff8_0000_0000_0000, 0x7ff8_0000_0000_0001, 0x7fff_ffff_ffff_ffff] {
        list.0.push(b);
        list.0.push(b | 1 << 63);
    }
    // halves and quarters near zero, and where the last place is a half, a whole or two
    for k in 0..32 {
        list.around(k as f64 * 0.5);
        list.around(k as f64 * 0.25);
    }
    for e in [50, 51, 52, 53, 54] {
        let p = (1u64 << e) as f64;
        for k in [-2.5, -1.5, -1.0, -0.5, 0.5, 1.0, 1.5, 2.5] {
            list.around(p + k);
        }
    }
    // powers of two: every one near 1, and some over the whole range
    for e in -30..=66 {
        list.around(2f64.powi(e));
    }
    for e in (-1074..=1023).step_by(40) {
        list.around(2f64.powi(e / 2) * 2f64.powi(e - e / 2));
    }
    // squares of whole numbers and of other numbers
    for _ in 0..150 {
        let k = (random.next() >> 38) as f64;
        list.near(k * k);
        let y = f64::from_bits((random.next() >> 12) | 0x3ff0_0000_0000_0000);
        list.near(y * y);
    }
    // subnormals, numbers with a fraction, whole numbers and a half, any pattern
    for _ in 0..300 {
        list.0.push(random.next() >> 12 >> (random.next() % 52));
        let sign = random.next() << 63;
        list.0.push(((random.next() >> 12) | (1021 + random.next() % 54) << 52) | sign);
        list.0.push(((random.next() >> 30) as f64 + 0.5).to_bits() | sign);
        list.0.push(random.next());
        list.0.push(random.next());
    }
    // the thresholds of tanh
    for bits in THRESHOLDS.lines().skip(1) {
        list.around(f64::from_bits(u64::from_str_radix(bits, 16).unwrap()));
    }
    list.0.sort();
    list.0.dedup();
    list.0
}

// The bits of an answer, with one word for every NaN.
fn one_nan(x: f64) -> u64 {
    if x.is_nan() { 0x7ff8_0000_0000_0000 } else { x.to_bits() }
}

fn main() {
    let patterns = patterns();
    println!("{} x is_nan magnitude sign round_to_whole square_root tanh_cell", patterns.len());
    for b in patterns {
        let x = black_box(f64::from_bits(b));
        let cell = (x.tanh() * 100.0).round() / 100.0;
        let [abs, signum, round, sqrt, cell] = [x.abs(), x.signum(), x.round(), x.sqrt(), cell].map(one_nan);
        let words = [b, x.is_nan() as u64, abs, signum, round, sqrt, cell];
        println!("{}", words.map(|w| format!("{w:016x}")).join(" "));
    }
}
