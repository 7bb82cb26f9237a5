//! Inputs for the sheet program: good ones, ones at each edge, and damaged ones.

use crate::limits::WINDOW_LIMIT;
use crate::rng::Rng;

/// Document 01's example.
pub const EXAMPLE: &str = "   7   2     1     2     4\n          10\n          12\n          12\n          11\n";

fn header(desk: usize, rule: usize, n: usize, m: usize, bars: usize) -> String {
    format!("{desk:4}{rule:4}{n:6}{m:6}{bars:6}\n")
}

fn lines(prices: impl Iterator<Item = i64>) -> String {
    prices.map(|price| format!("{price:12}\n")).collect()
}

/// A desk: mostly one of the sixteen, else one beside them or of four columns.
fn desk(rng: &mut Rng) -> usize {
    if rng.one_in(12) { rng.pick(&[0, 17, 9_999]) } else { 1 + rng.below(16) }
}

/// A request with this many bars of a walk of ticks, and windows that mostly fit.
pub fn request(rng: &mut Rng, bars: usize) -> String {
    let rule = 1 + rng.below(3);
    let n = rng.below(bars / 2 + 2);
    let m = n + rng.below(bars / 2 + 3);
    let desk = desk(rng);
    let spread = rng.pick(&[0, 1, 3, 100]);
    let mut price = rng.between(-300, 300);
    let mut step = |_| {
        price += rng.between(-spread, spread);
        price
    };
    let prices = lines((0..bars as i64).map(&mut step));
    header(desk, rule, n, m, bars) + &prices
}

/// A sheet of several requests, most of them short.
pub fn sheet(rng: &mut Rng, requests: usize) -> String {
    (0..requests)
        .map(|_| {
            let bars = if rng.one_in(12) { rng.below(513) } else { rng.below(24) };
            request(rng, bars)
        })
        .collect()
}

/// A sheet of at least this many bytes, as desks send them: full requests with usual windows.
pub fn large(rng: &mut Rng, bytes: usize) -> String {
    let mut text = String::new();
    while text.len() < bytes {
        let n = rng.pick(&[5, 10, 20, 60]);
        let m = n * rng.pick(&[2, 3, 4]);
        let bars = rng.pick(&[512, 512, 500, 250, 100]);
        let mut price = 100_000;
        text += &header(1 + rng.below(16), 1 + rng.below(3), n, m, bars);
        text += &lines((0..bars).map(|_| {
            price += rng.between(-40, 40);
            price
        }));
    }
    text
}

/// Inputs chosen for one edge each.
pub fn edges(rng: &mut Rng) -> Vec<Vec<u8>> {
    let mut texts: Vec<String> =
        vec![String::new(), "\n".into(), EXAMPLE.into(), format!("{EXAMPLE}\n"), EXAMPLE.repeat(3)];
    for (desk, rule, n, m, bars) in [
        (0, 1, 2, 0, 3),
        (0, 0, 0, 0, 0),
        (9999, 1, 0, 0, 0),
        (1, 2, 0, 5, 4),
        (1, 2, 5, 0, 4),
        (1, 2, 3, 3, 4),
        (1, 2, 4, 3, 4),
        (1, 2, 1, WINDOW_LIMIT, 4),
        (1, 2, 1, WINDOW_LIMIT + 1, 4),
        (1, 2, 999_999, 999_999, 4),
        (1, 1, WINDOW_LIMIT, 999_999, 4),
        (1, 1, WINDOW_LIMIT + 1, 0, 4),
        (1, 3, 999_999, 0, 0),
        (1, 3, 0, 0, 4),
        (1, 4, 1, 2, 4),
        (1, 9999, 1, 2, 4),
        (1, 1, 2, 0, 512),
        (1, 1, 2, 0, 513),
        (1, 3, 256, 0, 512),
        (1, 3, 257, 0, 512),
        (1, 2, 511, 512, 512),
        (1, 1, 2, 0, 999_999),
        (17, 3, 999_999, 0, 3),
        (17, 2, 3, 3, 3),
        (9999, 4, 1, 2, 3),
    ] {
        let text = header(desk, rule, n, m, bars) + &lines((0..bars.min(600) as i64).map(|_| rng.between(-9, 9)));
        texts.push(text.clone());
        texts.push(text + EXAMPLE);
    }
    // Each desk with a good request, a refused one and an empty one; and all of them in one sheet.
    let mut all = String::new();
    for desk in 0..=18 {
        let good = header(desk, 2, 1, 2, 2) + &lines([4, 5].into_iter());
        let refused = header(desk, 2, 2, 1, 1) + &lines([5].into_iter());
        let text = good + &refused + &header(desk, 1, 1, 0, 0) + &refused.repeat(desk);
        all += &text;
        texts.push(text);
    }
    texts.push(all);
    // Refusal 15 beside 10, 5, 7, 9 and an empty answer.
    for desk in [0, 1, 16, 17] {
        for (rule, n, m, price) in [
            (1, 1, 0, "           x"),
            (1, 1, 0, ""),
            (1, 1, 0, "  1073741825"),
            (1, WINDOW_LIMIT + 1, 0, "           5"),
            (2, 2, 2, "           5"),
            (3, 0, 0, "           5"),
        ] {
            let head = header(desk, rule, n, m, 1);
            texts.push(head.clone());
            texts.push(format!("{head}{price}\n"));
            texts.push(format!("{head}{price}\n{EXAMPLE}"));
        }
    }
    // More refused requests than a block holds.
    texts.push((0..3_000).map(|i| header(i % 18, 1 + i % 3, 999_999, 0, 0)).collect());
    for price in [
        "          -0",
        "         -00",
        "000000000007",
        "-00000000007",
        "           -",
        "          --",
        "         --1",
        "         - 1",
        "          1-",
        "          +1",
        "         1 2",
        "            ",
        "           x",
        "         1.5",
        "        1e01",
        "          \t1",
        "          1\r",
        "         1\r",
        "1073741824",
        "  1073741824",
        "  1073741825",
        " -1073741824",
        " -1073741825",
        "999999999999",
        "-99999999999",
        "           1 ",
        "          1",
        "",
        "\0\0\0\0\0\0\0\0\0\0\u{0}1",
        "          ١",
    ] {
        texts.push(format!("{}{:12}\n{price}\n{:12}\n", header(3, 1, 1, 0, 3), 4, 5));
        texts.push(format!("{EXAMPLE}{}{price}\n", header(3, 3, 1, 0, 1)));
    }
    for head in [
        "0007000200000100000200000",
        "   7   2     1     2      ",
        "   7   2     1           0",
        "   7   2           2     0",
        "       2     1     2     0",
        "   7         1     2     0",
        "   7   1     1           0",
        "  -7   2     1     2     0",
        "   7   2    -1     2     0",
        "   7   2     1     2    -0",
        "   7   2     1     2     0\r",
        "   7   2     1     2      0",
        "   7   2     1     2    0",
        "7      2     1     2     0",
        "   7   2 1         2     0",
    ] {
        texts.push(format!("{head}\n"));
        texts.push(format!("{head}0\n"));
        texts.push(format!("{EXAMPLE}{head}\n{EXAMPLE}"));
    }
    texts.push("1".repeat(300_000));
    texts.push(format!("{EXAMPLE}{}", " ".repeat(300_000)));
    texts.push(format!("{}{}\n", header(1, 1, 1, 1, 2), "1".repeat(5_000)));
    texts.into_iter().map(String::into_bytes).collect()
}

/// A good sheet with one to three bytes changed, left out or added.
pub fn damaged(rng: &mut Rng) -> Vec<u8> {
    let requests = 1 + rng.below(4);
    let mut bytes = sheet(rng, requests).into_bytes();
    for _ in 0..1 + rng.below(3) {
        let place = rng.below(bytes.len().max(1));
        let byte = rng.pick(b" 0159-+.\r\n\t\0x\xff");
        match rng.below(3) {
            0 if place < bytes.len() => bytes[place] = byte,
            1 if place < bytes.len() => drop(bytes.remove(place)),
            _ => bytes.insert(place.min(bytes.len()), byte),
        }
    }
    bytes
}
