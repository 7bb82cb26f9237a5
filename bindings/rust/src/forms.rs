//! Functions of every form that an entry of `functions!` may have, defined here as the library's are in C.

use crate::{Answer, Refusal};

/// A struct of C's layout that a function gives.
#[repr(C)]
#[derive(Debug, PartialEq, Eq)]
pub struct Pair {
    first: u64,
    second: u64,
}

functions! {
    forms_read read(wide: &[u64], signed: &[i64], narrow: &[i32], bytes: &[u8], real: &[f64], out: &mut [i64]);

    forms_between between(series: &[f64], n: usize, rows: &[i32], known: usize, close: f64, out: &mut [u64]);

    forms_number number(bars: usize) -> usize;

    forms_pair pair(bars: usize, n: usize) -> Pair;

    forms_refuse refuse(refusal: u64);
}

/// The functions as a C program has them.
mod in_c {
    use super::{Answer, Pair};

    /// The cells that a C function is given by a pointer and a length.
    fn cells<'a, T>(from: *const T, len: usize) -> &'a [T] {
        unsafe { std::slice::from_raw_parts(from, len) }
    }

    fn write<T>(to: *mut T, len: usize, values: impl Iterator<Item = T>) -> Answer {
        let out = unsafe { std::slice::from_raw_parts_mut(to, len) };
        out.iter_mut().zip(values).for_each(|(cell, value)| *cell = value);
        Answer { refusal: 0, count: len as u64 }
    }

    #[unsafe(no_mangle)]
    extern "C" fn forms_read(
        wide: *const u64,
        wide_len: usize,
        signed: *const i64,
        signed_len: usize,
        narrow: *const i32,
        narrow_len: usize,
        bytes: *const u8,
        bytes_len: usize,
        real: *const f64,
        real_len: usize,
        out: *mut i64,
        out_len: usize,
    ) -> Answer {
        let sums = [
            cells(wide, wide_len).iter().map(|x| *x as i64).sum(),
            cells(signed, signed_len).iter().sum(),
            cells(narrow, narrow_len).iter().map(|x| i64::from(*x)).sum(),
            cells(bytes, bytes_len).iter().map(|x| i64::from(*x)).sum(),
            cells(real, real_len).iter().map(|x| *x as i64).sum(),
        ];
        write(out, out_len, sums.into_iter())
    }

    #[unsafe(no_mangle)]
    extern "C" fn forms_between(
        series: *const f64,
        series_len: usize,
        n: usize,
        rows: *const i32,
        rows_len: usize,
        known: usize,
        close: f64,
        out: *mut u64,
        out_len: usize,
    ) -> Answer {
        let (series, rows) = (cells(series, series_len), cells(rows, rows_len));
        write(out, out_len, [series[0] as u64, n as u64, rows[1] as u64, known as u64, close as u64].into_iter())
    }

    #[unsafe(no_mangle)]
    extern "C" fn forms_number(bars: usize) -> usize {
        8 * bars
    }

    #[unsafe(no_mangle)]
    extern "C" fn forms_pair(bars: usize, n: usize) -> Pair {
        Pair { first: bars as u64, second: n as u64 }
    }

    #[unsafe(no_mangle)]
    extern "C" fn forms_refuse(refusal: u64) -> Answer {
        Answer { refusal, count: 0 }
    }
}

#[test]
fn slices_of_every_type_are_read() {
    let mut out = [0; 5];
    let answer = read(&[1, 2], &[-3], &[-4, -5, -6], &[7; 4], &[8.0, 9.0], &mut out);
    assert_eq!((answer, out), (Ok(5), [3, -3, -15, 28, 17]));
}

#[test]
fn slices_and_numbers_stand_in_any_order() {
    let mut out = [0; 5];
    assert_eq!(between(&[1.0], 2, &[0, 3], usize::MAX, 5.0, &mut out), Ok(5));
    assert_eq!(out, [1, 2, 3, u64::MAX, 5]);
}

#[test]
fn nothing_is_lent() {
    assert_eq!(number(9), 72);
    assert_eq!(pair(3, 4), Pair { first: 3, second: 4 });
}

#[test]
fn refusals_go_by_their_numbers() {
    assert_eq!(refuse(0), Ok(0));
    assert_eq!(refuse(9), Err(Refusal::WindowsOutOfOrder));
    assert_eq!(refuse(u64::MAX), Err(Refusal::Unknown(u64::MAX)));
    for number in 1..100 {
        let refusal = refuse(number).unwrap_err();
        assert_eq!(refusal.number(), number);
        assert!(!refusal.to_string().is_empty());
    }
}
