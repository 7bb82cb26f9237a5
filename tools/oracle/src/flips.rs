//! Whether `compare` would notice a wrong library. A flip is one f64 operation or comparison of the library's code
//! exchanged for another. Each is made in the memory of a process of its own, which then makes the calls of `compare`.

use crate::call::{Call, Expected};
use crate::catalogue::{self, Function};
use crate::compare::{self, Trial};
use crate::source;
use std::fs;
use std::time::Instant;

const SEED: u64 = 1;

unsafe extern "C" {
    /// Places in the library's code are counted from here.
    #[link_name = "tegbalowu_sma"]
    static ORIGIN: u8;
    fn fork() -> i32;
    fn waitpid(process: i32, status: *mut i32, options: i32) -> i32;
    fn alarm(seconds: u32) -> u32;
    fn mprotect(address: usize, length: usize, protection: i32) -> i32;
    fn _exit(status: i32) -> !;
}

/// One instruction to exchange: a line of the list that tools/mutate makes.
struct Flip {
    /// Where the instruction stands, from `ORIGIN` on.
    place: isize,
    /// Which of its bytes is exchanged, and for what.
    at: isize,
    old: u8,
    new: u8,
    /// The exported functions that reach it.
    functions: Vec<String>,
    /// Symbol and instruction.
    words: String,
    noticed: bool,
    /// Whether some call comes to the place, of the calls that do not notice.
    reached: bool,
}

impl Flip {
    /// From 'place at old new functions symbol instruction', the functions with commas between them.
    fn read(line: &str) -> Flip {
        let parts: Vec<&str> = line.splitn(6, ' ').collect();
        let [place, at, old, new, functions, words] = parts[..] else { panic!("a flip without all its parts: {line}") };
        let byte = |digits| u8::from_str_radix(digits, 16).expect("a byte is two hexadecimal digits");
        Flip {
            place: place.parse().expect("a place is a number"),
            at: at.parse().expect("a place in an instruction is a number"),
            old: byte(old),
            new: byte(new),
            functions: functions.split(',').map(str::to_owned).collect(),
            words: words.to_owned(),
            noticed: false,
            reached: false,
        }
    }

    /// Puts the other instruction into this process's code, or one that no processor runs, and says whether that went
    /// well.
    fn make(&self, change: Change) -> bool {
        const PAGE: usize = 4_096;
        const READ_WRITE_RUN: i32 = 7;
        const NO_INSTRUCTION: u8 = 0x06;
        let first = (&raw const ORIGIN).wrapping_offset(self.place).cast_mut();
        let byte = first.wrapping_offset(self.at);
        let (page, end) = (first.addr() / PAGE * PAGE, byte.addr() + 1);
        // The pages hold the library's code, of which no other part is changed; this process has no other thread.
        unsafe {
            if mprotect(page, end - page, READ_WRITE_RUN) != 0 || byte.read() != self.old {
                return false;
            }
            match change {
                Change::Exchange => byte.write_volatile(self.new),
                Change::Trap => first.write_volatile(NO_INSTRUCTION),
            }
        }
        true
    }
}

#[derive(Clone, Copy)]
enum Change {
    Exchange,
    Trap,
}

/// The calls of one function, with what each must leave.
struct Calls {
    function: &'static Function,
    calls: Vec<(Call, u64, Expected)>,
}

impl Calls {
    fn new(function: &'static Function, calls: usize) -> Calls {
        let longest = std::iter::once((compare::longest(function, SEED), SEED));
        let calls = compare::seeded(function, SEED, calls).chain(longest);
        let with_expected = |(call, salt): (Call, u64)| {
            let expected = source::expected(function, &call);
            (call, salt, expected)
        };
        Calls { function, calls: calls.map(with_expected).collect() }
    }

    /// Whether one of the calls differs.
    fn differ(&self) -> bool {
        let mut trial = Trial::new(self.function);
        self.calls.iter().any(|(call, salt, expected)| trial.difference(call, *salt, expected).is_some())
    }

    /// Whether one differs in a process of its own, in which the flip's instruction is changed first. A crash is a
    /// difference, and so is a process that does not end in time.
    fn notice(&self, flip: &Flip, change: Change, seconds: u32) -> bool {
        const NOTICED: i32 = 0;
        const QUIET: i32 = 1;
        const NOT_MADE: i32 = 2;
        let mut status = 0;
        // The process runs one thread, and the one that is made from it ends here.
        unsafe {
            match fork() {
                0 => {
                    alarm(seconds);
                    let made = flip.make(change);
                    _exit(if !made {
                        NOT_MADE
                    } else if self.differ() {
                        NOTICED
                    } else {
                        QUIET
                    })
                }
                process => assert!(process > 0 && waitpid(process, &mut status, 0) == process, "no process"),
            }
        }
        assert!(status != NOT_MADE << 8, "the code cannot be changed, or has another instruction: {}", flip.words);
        status != QUIET << 8
    }
}

/// Tries each flip of the file with the calls of every function that reaches it, of those named or of all, until one
/// differs. Prints the flips that none notices, with those places to which no call comes, and 'N flips, M noticed'.
pub fn run(file: &str, calls: usize, names: &[&str]) -> bool {
    let list = fs::read_to_string(file).unwrap_or_else(|error| panic!("{file}: {error}"));
    let mut flips: Vec<Flip> = list.lines().map(Flip::read).collect();
    let wanted = |name: &str| names.is_empty() || names.contains(&name);
    flips.retain(|flip| flip.functions.iter().any(|name| wanted(name)));
    for function in catalogue::exported().filter(|function| wanted(function.name)) {
        let calls = Calls::new(function, calls);
        let start = Instant::now();
        assert!(!calls.differ(), "{} differs as it is", function.name);
        let seconds = 10 + 10 * start.elapsed().as_secs() as u32;
        let reached = |flip: &&mut Flip| !flip.noticed && flip.functions.iter().any(|name| name == function.name);
        for flip in flips.iter_mut().filter(reached) {
            flip.noticed = calls.notice(flip, Change::Exchange, seconds);
            flip.reached |= !flip.noticed && calls.notice(flip, Change::Trap, seconds);
        }
    }
    for flip in flips.iter().filter(|flip| !flip.noticed) {
        let reached = if flip.reached { "" } else { ", reached by no call" };
        println!("not noticed: {} in {}{reached}", flip.words, flip.functions.join(" "));
    }
    println!("{} flips, {} noticed", flips.len(), flips.iter().filter(|flip| flip.noticed).count());
    !flips.is_empty()
}
