//! Memory lent to the library, with a known word in every cell and in guard cells around it.

use crate::call::Kind;

const GUARD: usize = 4;

/// Cells of one type.
pub enum Memory {
    F64(Vec<f64>),
    I64(Vec<i64>),
    I32(Vec<i32>),
    U64(Vec<u64>),
}

/// A type of cells that are lent.
pub trait Lend: Sized {
    fn in_memory(memory: &mut Memory) -> &mut Vec<Self>;
}

macro_rules! lend {
    ($($cell:ty, $kind:ident;)*) => {$(
        impl Lend for $cell {
            fn in_memory(memory: &mut Memory) -> &mut Vec<$cell> {
                match memory {
                    Memory::$kind(cells) => cells,
                    _ => panic!("the cells are of another type"),
                }
            }
        }
    )*};
}

lend! { f64, F64; i64, I64; i32, I32; u64, U64; }

/// The memory of one output or work slice; what it held before the call is known for each cell.
pub struct Lent {
    kind: Kind,
    memory: Memory,
    len: usize,
    salt: u64,
}

impl Lent {
    /// A slice of no cell yet, for cells of this kind.
    pub fn new(kind: Kind) -> Lent {
        let memory = match kind {
            Kind::F64 => Memory::F64(Vec::new()),
            Kind::I64 => Memory::I64(Vec::new()),
            Kind::I32 => Memory::I32(Vec::new()),
            Kind::U64 => Memory::U64(Vec::new()),
        };
        Lent { kind, memory, len: 0, salt: 0 }
    }

    pub fn filled(kind: Kind, len: usize, salt: u64) -> Lent {
        let mut lent = Lent::new(kind);
        lent.fill(len, salt);
        lent
    }

    /// Makes the slice `len` cells long and fills it, and its guards, with words of this salt.
    pub fn fill(&mut self, len: usize, salt: u64) {
        self.salt = salt;
        self.len = len;
        let words = (0..len + 2 * GUARD).map(|place| filling(salt, place));
        match &mut self.memory {
            Memory::F64(cells) => refill(cells, words.map(f64::from_bits)),
            Memory::I64(cells) => refill(cells, words.map(|word| word as i64)),
            Memory::I32(cells) => refill(cells, words.map(|word| word as i32)),
            Memory::U64(cells) => refill(cells, words),
        }
    }

    /// All cells but the guards.
    pub fn cells<T: Lend>(&mut self) -> &mut [T] {
        &mut T::in_memory(&mut self.memory)[GUARD..GUARD + self.len]
    }

    /// The words of all cells but the guards.
    pub fn words(&self) -> Vec<u64> {
        (GUARD..GUARD + self.len).map(|place| self.word(place)).collect()
    }

    /// The word at a place, guards counted.
    fn word(&self, place: usize) -> u64 {
        match &self.memory {
            Memory::F64(cells) => cells[place].to_bits(),
            Memory::I64(cells) => cells[place] as u64,
            Memory::I32(cells) => cells[place] as i64 as u64,
            Memory::U64(cells) => cells[place],
        }
    }

    /// Whether a place holds what it was filled with.
    fn untouched(&self, place: usize) -> bool {
        let filled = filling(self.salt, place);
        self.word(place) == if self.kind == Kind::I32 { filled as i32 as i64 as u64 } else { filled }
    }

    /// What is wrong if the first cells should be `first` and all else, guards too, as filled.
    pub fn differs(&self, first: impl ExactSizeIterator<Item = u64>) -> Option<String> {
        let end = GUARD + first.len();
        for (cell, want) in first.enumerate() {
            let got = self.word(GUARD + cell);
            if !self.kind.same(want, got) {
                return Some(format!("cell {cell} is {}, expected {}", self.kind.show(got), self.kind.show(want)));
            }
        }
        let mut others = (0..GUARD).chain(end..self.len + 2 * GUARD);
        let changed = others.find(|place| !self.untouched(*place));
        changed.map(|place| format!("cell {} was to stay as it was", place as isize - GUARD as isize))
    }
}

fn refill<T>(cells: &mut Vec<T>, with: impl Iterator<Item = T>) {
    cells.clear();
    cells.extend(with);
}

/// The word that a place holds before the call.
fn filling(salt: u64, place: usize) -> u64 {
    (place as u64 ^ salt).wrapping_mul(0x9e37_79b9_7f4a_7c15)
}
