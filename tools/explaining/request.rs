//! A sheet's input, read by its columns.

#[derive(Clone, Copy, Debug, PartialEq, Eq)]
pub enum Rule {
    OneAverage,
    Double,
    Middle,
}

#[derive(Clone, Debug)]
pub struct Request {
    pub desk: usize,
    pub rule: Rule,
    pub n: usize,
    pub m: usize,
    pub prices: Vec<i64>,
}

const MOST_BARS: usize = 512;

/// The requests up to the first one that breaks its columns, and whether there is such a one.
pub fn read(mut input: &[u8]) -> (Vec<Request>, bool) {
    let mut requests = Vec::new();
    while !input.is_empty() {
        match request(&mut input) {
            Some(request) => requests.push(request),
            None => return (requests, true),
        }
    }
    (requests, false)
}

fn request(input: &mut &[u8]) -> Option<Request> {
    let mut header = line(input, 26)?;
    let mut field = |width| {
        let (columns, rest) = header.split_at(width);
        header = rest;
        number(columns)
    };
    let [desk, rule, n, m, bars] = [field(4)?, field(4)?, field(6)?, field(6)?, field(6)?];
    let rule = match rule {
        1 => Rule::OneAverage,
        2 => Rule::Double,
        3 => Rule::Middle,
        _ => return None,
    };
    if bars > MOST_BARS {
        return None;
    }
    let prices = (0..bars).map(|_| price(line(input, 12)?)).collect::<Option<_>>()?;
    Some(Request { desk, rule, n, m, prices })
}

/// The next line, of just this length; its line feed is left off.
fn line<'a>(input: &mut &'a [u8], length: usize) -> Option<&'a [u8]> {
    let (line, rest) = input.split_at_checked(length + 1)?;
    let columns = line.strip_suffix(b"\n")?;
    *input = rest;
    (!columns.contains(&b'\n')).then_some(columns)
}

fn price(columns: &[u8]) -> Option<i64> {
    match columns.trim_ascii_start().strip_prefix(b"-") {
        Some(digits) => Some(-(number(digits).filter(|_| digits[0] != b' ')? as i64)),
        None => Some(number(columns)? as i64),
    }
}

/// Blanks, and then digits to the last column.
fn number(columns: &[u8]) -> Option<usize> {
    let blanks = columns.iter().take_while(|byte| **byte == b' ').count();
    let digits = &columns[blanks..];
    if digits.is_empty() || !digits.iter().all(u8::is_ascii_digit) {
        return None;
    }
    str::from_utf8(digits).ok()?.parse().ok()
}
