//! Document 01's sheet program, read apart from the one in Rattle, with the standard library and pure.rs.

use std::io::{BufRead, Read, Result, Write};
use std::result::Result as Either;

use crate::call::Value;
use crate::catalogue::{self, Function, Role};
use crate::source;

const HEADER: &[usize] = &[4, 4, 6, 6, 6];
const PRICE: usize = 12;
const MOST_BARS: usize = 512;
const DESKS: usize = 16;
const FIELDS: [&str; 5] = ["desk", "rule", "n", "m", "bars"];

struct Request {
    desk: usize,
    rule: usize,
    n: usize,
    m: usize,
    prices: Vec<f64>,
}

/// Answers each request in turn; a line that breaks its columns is refusal 10, and nothing is read after it. Then come
/// the desks with their refused requests. Gives what is said of the broken line.
pub fn run(mut input: impl BufRead, mut output: impl Write) -> Result<Option<String>> {
    let mut refused = [0; DESKS];
    let mut lines = 0;
    let mut fault = None;
    while fault.is_none() && !input.fill_buf()?.is_empty() {
        match read_request(&mut input, &mut lines)? {
            Ok(request) => answer(request, &mut refused, &mut output)?,
            Err(words) => {
                print_head(&mut output, 0, 0, 10, 0)?;
                fault = Some(format!("line {lines}: {words}"));
            }
        }
    }
    for (desk, count) in (1..).zip(refused) {
        writeln!(output, "{desk:4}{count:12}")?;
    }
    output.flush()?;
    Ok(fault)
}

/// Prints the answer of one request, and counts it for its desk if the rule refuses it. A desk that is none of the
/// sixteen has refusal 15, whatever the rule says.
fn answer(request: Request, refused: &mut [usize; DESKS], output: &mut impl Write) -> Result<()> {
    if !(1..=DESKS).contains(&request.desk) {
        return print_head(output, request.desk, request.rule, 15, 0);
    }
    let function = rule(request.rule).expect("the rule was read");
    let windows = [request.n, request.m].map(Value::Count);
    let parameters = function.places(Role::is_window).zip(windows).map(|(_, window)| window).collect();
    let call = function.call(vec![request.prices], parameters);
    let expected = source::expected(function, &call);
    print_head(output, request.desk, request.rule, expected.answer.refusal, expected.answer.count)?;
    for cell in &expected.cells[0] {
        writeln!(output, "{:4}", f64::from_bits(*cell) as i64)?;
    }
    refused[request.desk - 1] += (expected.answer.refusal != 0) as usize;
    Ok(())
}

fn print_head(output: &mut impl Write, desk: usize, rule: usize, refusal: u64, count: u64) -> Result<()> {
    writeln!(output, "{desk:4}{rule:4}{refusal:4}{count:6}")
}

fn rule(number: usize) -> Option<&'static Function> {
    let name = match number {
        1 => "single_sma_positions",
        2 => "double_sma_positions",
        3 => "mid_positions",
        _ => return None,
    };
    catalogue::named(name)
}

/// A request's line and its prices, or why the last line that was read is broken. Counts the lines, that one too.
fn read_request(input: &mut impl BufRead, lines: &mut usize) -> Result<Either<Request, String>> {
    let line = match read_line(input, HEADER.iter().sum(), lines)? {
        Ok(line) => line,
        Err(words) => return Ok(Err(words)),
    };
    let mut fields = [0; 5];
    let mut start = 0;
    for ((field, width), name) in fields.iter_mut().zip(HEADER).zip(FIELDS) {
        let Some(value) = decimal(&line[start..start + width]) else {
            return Ok(Err(format!("{name}: not a decimal number in {width} columns")));
        };
        *field = value;
        start += width;
    }
    let [desk, number, n, m, bars] = fields.map(|x| x as usize);
    if rule(number).is_none() {
        return Ok(Err("rule: not 1, 2 or 3".into()));
    }
    if bars > MOST_BARS {
        return Ok(Err(format!("bars: more than {MOST_BARS}")));
    }
    let mut prices = Vec::with_capacity(bars);
    for _ in 0..bars {
        let line = match read_line(input, PRICE, lines)? {
            Ok(line) => line,
            Err(words) => return Ok(Err(words)),
        };
        let Some(ticks) = price(&line) else {
            return Ok(Err(format!("price: not a decimal number in {PRICE} columns")));
        };
        prices.push(ticks as f64);
    }
    Ok(Ok(Request { desk, rule: number, n, m, prices }))
}

/// A line of just this length with its line feed, which is left off, or why there is none.
fn read_line(input: &mut impl BufRead, length: usize, lines: &mut usize) -> Result<Either<Vec<u8>, String>> {
    *lines += 1;
    let mut line = Vec::with_capacity(length + 1);
    input.by_ref().take(length as u64 + 1).read_until(b'\n', &mut line)?;
    let ended = line.last() == Some(&b'\n');
    Ok(if line.len() <= length && !ended {
        Err("the input ends inside a request".into())
    } else if line.len() == length + 1 && ended {
        line.pop();
        Ok(line)
    } else {
        Err("another line length: a request has 26 columns, a price 12".into())
    })
}

/// A right-justified decimal: blanks, then digits to the last column. Leading zeros are digits like others.
/// Any other byte is not decimal, a carriage return and a sign too.
fn decimal(field: &[u8]) -> Option<i64> {
    let digits = after_blanks(field);
    if digits.is_empty() || !digits.iter().all(u8::is_ascii_digit) {
        return None;
    }
    std::str::from_utf8(digits).unwrap().parse().ok()
}

/// A decimal that may have a minus directly before its first digit; -0 is 0.
fn price(field: &[u8]) -> Option<i64> {
    match after_blanks(field).strip_prefix(b"-") {
        None => decimal(field),
        Some(digits) if digits.first().is_some_and(u8::is_ascii_digit) => decimal(digits).map(|size| -size),
        Some(_) => None,
    }
}

/// What follows the leading blanks; other white space is not a blank.
fn after_blanks(field: &[u8]) -> &[u8] {
    let blanks = field.iter().take_while(|byte| **byte == b' ').count();
    &field[blanks..]
}
