//! A call of a library function and what comes back, apart from which function it is.

use tegbalowu::Refusal;

/// An integer parameter or an f64 parameter.
#[derive(Clone, Copy, Debug)]
pub enum Value {
    Count(usize),
    Real(f64),
}

impl From<Value> for usize {
    fn from(value: Value) -> usize {
        match value {
            Value::Count(n) => n,
            Value::Real(x) => panic!("{x} is not an integer parameter"),
        }
    }
}

impl From<Value> for f64 {
    fn from(value: Value) -> f64 {
        match value {
            Value::Real(x) => x,
            Value::Count(n) => panic!("{n} is not an f64 parameter"),
        }
    }
}

/// What the caller lends: series, parameters, and the lengths of the outputs and of the work slice.
#[derive(Clone, Debug)]
pub struct Call {
    pub series: Vec<Vec<f64>>,
    pub parameters: Vec<Value>,
    pub outputs: Vec<usize>,
    pub work: usize,
}

impl Call {
    /// The series' length; of series that differ, the first one's.
    pub fn bars(&self) -> usize {
        self.series[0].len()
    }
}

/// The refusal and the count of a call, as include/tegbalowu.h has them.
#[derive(Clone, Copy, Debug, PartialEq, Eq)]
pub struct Answer {
    pub refusal: u64,
    pub count: u64,
}

impl Answer {
    pub fn cells(count: usize) -> Answer {
        Answer { refusal: 0, count: count as u64 }
    }

    pub fn refused(refusal: u64) -> Answer {
        Answer { refusal, count: 0 }
    }
}

impl From<Result<usize, Refusal>> for Answer {
    fn from(result: Result<usize, Refusal>) -> Answer {
        result.map_or_else(|refusal| Answer::refused(refusal.number()), Answer::cells)
    }
}

/// What a call must leave: its answer, the first cells of each output, and how many work cells hold +0.0.
pub struct Expected {
    pub answer: Answer,
    pub cells: Vec<Vec<u64>>,
    pub cleared: usize,
}

/// A type of output cell, each cell being told as a word of 64 bits.
pub trait Cell: Copy {
    const KIND: Kind;
    fn word(self) -> u64;
}

#[derive(Clone, Copy, Debug, PartialEq, Eq)]
pub enum Kind {
    F64,
    I64,
    I32,
    U64,
}

impl Cell for f64 {
    const KIND: Kind = Kind::F64;
    fn word(self) -> u64 {
        self.to_bits()
    }
}

impl Cell for i64 {
    const KIND: Kind = Kind::I64;
    fn word(self) -> u64 {
        self as u64
    }
}

impl Cell for i32 {
    const KIND: Kind = Kind::I32;
    fn word(self) -> u64 {
        self as i64 as u64
    }
}

impl Cell for u64 {
    const KIND: Kind = Kind::U64;
    fn word(self) -> u64 {
        self
    }
}

/// pure.rs's rank that may be missing: 0 for none.
impl Cell for Option<usize> {
    const KIND: Kind = Kind::U64;
    fn word(self) -> u64 {
        self.map_or(0, |rank| rank as u64)
    }
}

/// What a function of the source gives: the cells of one output or of three, or their words.
pub trait Lines {
    fn words(self) -> Vec<Vec<u64>>;
}

impl<T: Cell> Lines for Vec<T> {
    fn words(self) -> Vec<Vec<u64>> {
        vec![self.into_iter().map(T::word).collect()]
    }
}

impl<T: Cell> Lines for (Vec<T>, Vec<T>, Vec<T>) {
    fn words(self) -> Vec<Vec<u64>> {
        [self.0, self.1, self.2].into_iter().flat_map(Lines::words).collect()
    }
}

impl Lines for Vec<Vec<u64>> {
    fn words(self) -> Vec<Vec<u64>> {
        self
    }
}

impl Kind {
    /// The type's name in a record.
    pub fn name(self) -> &'static str {
        match self {
            Kind::F64 => "f64",
            Kind::I64 => "i64",
            Kind::I32 => "i32",
            Kind::U64 => "u64",
        }
    }

    /// Whether two cells are the same, NaNs being one value.
    pub fn same(self, a: u64, b: u64) -> bool {
        a == b || self == Kind::F64 && f64::from_bits(a).is_nan() && f64::from_bits(b).is_nan()
    }

    /// The word of a cell with this value, which is cut to a whole number where the cells are.
    pub fn word(self, value: f64) -> u64 {
        if self == Kind::F64 { value.to_bits() } else { value as i64 as u64 }
    }

    /// A cell for a reader: its value, and the bits of an f64.
    pub fn show(self, word: u64) -> String {
        match self {
            Kind::F64 => format!("{:e} ({word:016x})", f64::from_bits(word)),
            _ => self.plain(word),
        }
    }

    /// A cell's value alone.
    pub fn plain(self, word: u64) -> String {
        match self {
            Kind::F64 => format!("{:?}", f64::from_bits(word)),
            Kind::I64 | Kind::I32 => format!("{}", word as i64),
            Kind::U64 => format!("{word}"),
        }
    }
}
