//! Whole ticks changed so that a rule has a tie at the last bar, or misses it by one.

use crate::limits::TICK_LIMIT;
use crate::rng::Rng;

/// The sum of the last n at each bar from n-1 on, at place bar - (n-1).
pub fn window_sums(ticks: &[i64], n: usize) -> Vec<i128> {
    let mut before = vec![0i128];
    before.extend(ticks.iter().scan(0i128, |sum, x| {
        *sum += *x as i128;
        Some(*sum)
    }));
    (n..=ticks.len()).map(|end| before[end] - before[end - n]).collect()
}

/// Shifts the ticks so that at the last bar m times the short sum and n times the long one differ by at most their
/// common divisor.
pub fn nearly_equal_means(rng: &mut Rng, ticks: &mut [i64], n: usize, m: usize) {
    let (n, m, end) = (n as i64, m as i64, ticks.len());
    let (recent, earlier) = (end - n as usize, end - m as usize);
    let difference =
        |ticks: &[i64]| (m - n) * ticks[recent..].iter().sum::<i64>() - n * ticks[earlier..recent].iter().sum::<i64>();
    let divisor = common_divisor(m, n);
    let want = divisor * rng.between(-1, 1);
    let present = difference(ticks);
    let more = (0..n).find(|more| (present + more * (m - n) - want) % n == 0).unwrap();
    ticks[end - 1] += more;
    let shift = (difference(ticks) - want) / n;
    let (each, left) = (shift.div_euclid(m - n), shift.rem_euclid(m - n));
    for (place, tick) in ticks[earlier..recent].iter_mut().enumerate() {
        *tick += each + (place < left as usize) as i64;
    }
    assert_eq!(difference(ticks), want);
}

fn common_divisor(a: i64, b: i64) -> i64 {
    if b == 0 { a } else { common_divisor(b, a % b) }
}

/// Changes the last ticks so that n*n times the last one less D is `want`; a window of 1 is left, where both are the
/// price.
pub fn nearly_averaged(ticks: &mut [i64], n: usize, want: i64) {
    let last = ticks.len() - 1;
    let weight = |back: usize| (back + 1).min(2 * n - 1 - back) as i64;
    let others = |ticks: &[i64]| (1..2 * n - 1).map(|back| weight(back) * ticks[last - back]).sum::<i64>();
    if n == 1 {
        return;
    }
    let squares = (n * n - 1) as i64;
    ticks[last] = (others(ticks) + squares / 2).div_euclid(squares);
    let left = squares * ticks[last] - others(ticks) - want;
    ticks[last + 1 - n] += left.div_euclid(n as i64);
    match left.rem_euclid(n as i64) {
        0 => {}
        1 => ticks[last + 2 - 2 * n] += 1,
        rest => ticks[last + 1 - rest as usize] += 1,
    }
}

/// Changes the last tick so that twice the last sum is at most 1 from the highest plus the lowest sum before it, where
/// that tick is in range.
pub fn nearly_in_the_middle(rng: &mut Rng, ticks: &mut [i64], n: usize) {
    let last = ticks.len() - 1;
    let sums = window_sums(ticks, n);
    let (present, before) = sums.split_last().unwrap();
    let before = &before[before.len() - (n - 1)..];
    if let (Some(high), Some(low)) = (before.iter().max(), before.iter().min()) {
        let want = (high + low + rng.between(-1, 1) as i128).div_euclid(2);
        let tick = ticks[last] + (want - present) as i64;
        ticks[last] = tick.clamp(-TICK_LIMIT, TICK_LIMIT);
    }
}
