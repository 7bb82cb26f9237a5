//! Feeds the sheet program inputs and compares each byte that it writes, and what it says of a line that breaks its
//! columns, with the oracle's own reading, and the library's `sheet_text` with both; and times the program.

use std::io::{Read, Write};
use std::os::fd::OwnedFd;
use std::os::unix::net::UnixDatagram;
use std::process::{Child, ChildStdin, Command, Stdio};

use crate::clock;
use crate::rng::Rng;
use crate::{sheet, sheet_inputs};

const SHOWN: usize = 5;
/// The sizes of the large inputs: whole, and piped in single bytes.
const WHOLE: usize = 6 << 20;
const IN_BYTES: usize = 3 << 20;

/// How an input is given to the program: whole or in pieces of at most this many bytes through a pipe, where several
/// may be read at once, or in blocks that are read one by one.
#[derive(Clone, Copy)]
enum Pieces {
    Whole,
    AtMost(usize),
    Blocks(usize),
}

/// What a run wrote to standard output and to standard error, and its exit status.
#[derive(PartialEq)]
struct Written {
    sheet: Vec<u8>,
    said: String,
    status: Option<i32>,
}

struct Comparison<'a> {
    program: &'a str,
    inputs: usize,
    differ: usize,
}

impl Comparison<'_> {
    fn check(&mut self, input: &[u8], pieces: Pieces) {
        let expected = expected(input);
        let written = run(self.program, input, pieces);
        let library = sheet_text(input);
        self.inputs += 1;
        if written != expected || library != expected.sheet {
            self.differ += 1;
            if self.differ <= SHOWN {
                let head = |bytes: &[u8]| String::from_utf8_lossy(&bytes[..bytes.len().min(300)]).into_owned();
                println!("input of {} bytes:\n{:?}", input.len(), head(input));
                for (whose, written) in [("expected", &expected), ("written", &written)] {
                    println!("{whose}:\n{:?}\n{:?}, {:?}", head(&written.sheet), written.said, written.status);
                }
                println!("sheet_text:\n{:?}", head(&library));
            }
        }
    }
}

/// By the oracle's own reading.
fn expected(input: &[u8]) -> Written {
    let mut sheet = Vec::new();
    let fault = sheet::run(input, &mut sheet).expect("memory is read and written");
    let status = Some(if fault.is_some() { 3 } else { 0 });
    let said = fault.map_or(String::new(), |words| format!("sheet: {words}\n"));
    Written { sheet, said, status }
}

/// By the library; later bytes must stay, and one byte less must be refused.
fn sheet_text(input: &[u8]) -> Vec<u8> {
    const FILLED: u8 = 0xa5;
    let room = input.len() + tegbalowu::SHEET_ROOM;
    let mut out = vec![FILLED; room + 16];
    assert_eq!(tegbalowu::sheet_text(input, &mut out[..room - 1]), Err(tegbalowu::Refusal::OutputTooShort));
    assert!(out.iter().all(|byte| *byte == FILLED), "a refused sheet_text wrote");
    let count = tegbalowu::sheet_text(input, &mut out[..room]).expect("there is room");
    assert!(out[count..].iter().all(|byte| *byte == FILLED), "sheet_text wrote behind the sheet");
    out.truncate(count);
    out
}

/// Every edge, damaged and good inputs, two inputs cut at each place, blocks of every size, and large inputs in pieces.
/// True if none differs.
pub fn compare(program: &str, seed: u64, damaged: usize) -> bool {
    let mut rng = Rng::new(seed);
    let mut comparison = Comparison { program, inputs: 0, differ: 0 };
    for input in sheet_inputs::edges(&mut rng) {
        comparison.check(&input, Pieces::Whole);
    }
    for _ in 0..damaged {
        comparison.check(&sheet_inputs::damaged(&mut rng), Pieces::Whole);
        comparison.check(sheet_inputs::sheet(&mut rng, 3).as_bytes(), Pieces::AtMost(40));
    }
    let cut = format!("{}{}", sheet_inputs::EXAMPLE, sheet_inputs::request(&mut rng, 9));
    for end in 0..=cut.len() {
        comparison.check(&cut.as_bytes()[..end], Pieces::Whole);
        comparison.check(&cut.as_bytes()[end..], Pieces::Whole);
    }
    for size in 1..=cut.len() {
        comparison.check(cut.as_bytes(), Pieces::Blocks(size));
        comparison.check(&sheet_inputs::damaged(&mut rng), Pieces::Blocks(size));
    }
    let large = sheet_inputs::large(&mut rng, WHOLE).into_bytes();
    comparison.check(&large, Pieces::Whole);
    comparison.check(&large, Pieces::AtMost(70_000));
    comparison.check(&large[..large.len() - 1], Pieces::Whole);
    comparison.check(&large[..IN_BYTES], Pieces::AtMost(1));
    let Comparison { inputs, differ, .. } = comparison;
    println!("compared {inputs} inputs of the sheet, {differ} differ");
    differ == 0
}

fn start(program: &str, words: &[&str], input: Stdio, output: Stdio, errors: Stdio) -> Child {
    let started = Command::new(program).args(words).stdin(input).stdout(output).stderr(errors).spawn();
    started.unwrap_or_else(|error| panic!("{program}: {error}"))
}

/// What the program writes for an input; it may stop reading before the input's end.
fn run(program: &str, input: &[u8], pieces: Pieces) -> Written {
    let (given, take) = UnixDatagram::pair().expect("a pair of sockets");
    let stdin = match pieces {
        Pieces::Blocks(_) => OwnedFd::from(take).into(),
        _ => Stdio::piped(),
    };
    let mut child = start(program, &[], stdin, Stdio::piped(), Stdio::piped());
    let stdin = child.stdin.take();
    let (mut sheet, mut said) = (Vec::new(), String::new());
    std::thread::scope(|scope| {
        scope.spawn(|| match (pieces, stdin) {
            (Pieces::AtMost(most), Some(stdin)) => feed(stdin, input, most),
            (Pieces::Blocks(size), _) => feed_blocks(given, input, size),
            (_, stdin) => feed(stdin.expect("a pipe"), input, input.len().max(1)),
        });
        child.stdout.take().unwrap().read_to_end(&mut sheet).expect("the program's output is read");
    });
    child.stderr.take().unwrap().read_to_string(&mut said).expect("what the program says is read");
    let status = child.wait().expect("the program ends").code();
    Written { sheet, said, status }
}

fn feed(mut stdin: ChildStdin, input: &[u8], most: usize) {
    for piece in input.chunks(most) {
        if stdin.write_all(piece).is_err() {
            return;
        }
    }
}

/// Each block is a datagram, so that a read takes one of them; one of no byte is the end.
fn feed_blocks(socket: UnixDatagram, input: &[u8], size: usize) {
    for block in input.chunks(size).chain([&[] as &[u8]]) {
        if socket.send(block).is_err() {
            return;
        }
    }
}

/// Times the program and the oracle's own reading on one large file; prints bytes a second and the ratio.
pub fn bench(program: &str, file: &str) {
    let text = sheet_inputs::large(&mut Rng::new(1), 24 << 20);
    std::fs::write(file, &text).unwrap_or_else(|error| panic!("{file}: {error}"));
    let own = std::env::current_exe().expect("the oracle's own path");
    let own = own.to_str().expect("a path of text");
    let seconds = |program: &str, words: &[&str]| {
        let input = std::fs::File::open(file).expect("the file just written");
        let before = clock::of_children();
        let mut child = start(program, words, input.into(), Stdio::null(), Stdio::inherit());
        assert!(child.wait().expect("the program ends").success());
        (clock::of_children() - before).as_secs_f64()
    };
    let (mut ours, mut plain) = (f64::INFINITY, f64::INFINITY);
    for _ in 0..5 {
        ours = ours.min(seconds(program, &[]));
        plain = plain.min(seconds(own, &["sheet"]));
    }
    let rate = |time: f64| text.len() as f64 / 1e6 / time;
    println!(
        "sheet: {:.1} MB/s; plain Rust over pure.rs: {:.1} MB/s; ratio {:.2}",
        rate(ours),
        rate(plain),
        plain / ours
    );
}
