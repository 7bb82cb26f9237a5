//! Runs calls through the library and through document 01's reading with pure.rs, and compares all they leave.

use crate::basket;
use crate::call::{Answer, Call, Expected, Kind};
use crate::catalogue::{self, Function};
use crate::edges::{edges, extreme};
use crate::generate;
use crate::library::Lent;
use crate::rank_table;
use crate::rng::Rng;
use crate::source;
use std::collections::BTreeMap;
use std::sync::atomic::{AtomicUsize, Ordering};
use std::thread;

const SHOWN: usize = 5;

/// What was seen of one function.
#[derive(Default)]
pub struct Tally {
    calls: usize,
    cells: u64,
    /// How many calls are refused with a number; 0 is for those that are answered.
    by_refusal: BTreeMap<u64, usize>,
    empty: usize,
    differ: usize,
}

impl Tally {
    /// Counts a call, and whether something differs, which is printed with the call, the first few of them.
    pub fn count(&mut self, name: &str, expected: &Expected, differs: Option<String>, call: impl Fn() -> String) {
        self.calls += 1;
        self.cells += expected.cells.iter().map(|line| line.len() as u64).sum::<u64>();
        *self.by_refusal.entry(expected.answer.refusal).or_default() += 1;
        self.empty += (expected.answer.refusal == 0 && expected.answer.count == 0) as usize;
        if let Some(what) = differs {
            self.differ += 1;
            if self.differ <= SHOWN {
                println!("{name}: {what}\n    {}", call());
            }
        }
    }

    fn print(&self, name: &str) {
        let refused = self.by_refusal.iter().filter(|(refusal, _)| **refusal != 0);
        let refused: String = refused.map(|(refusal, calls)| format!(" {refusal}:{calls}")).collect();
        println!(
            "{name}: {} calls, {} answered with {} cells, {} of them empty, refused{refused}, {} differ",
            self.calls,
            self.by_refusal.get(&0).unwrap_or(&0),
            self.cells,
            self.empty,
            self.differ
        );
    }
}

/// What a call left that is not as expected.
pub fn differs(answer: Answer, outputs: &[Lent], work: &Lent, expected: &Expected) -> Option<String> {
    if answer != expected.answer {
        return Some(format!("the answer is {answer:?}, expected {:?}", expected.answer));
    }
    let in_output = |(place, (output, cells)): (usize, (&Lent, &Vec<u64>))| {
        output.differs(cells.iter().copied()).map(|what| format!("output {place}: {what}"))
    };
    let in_outputs = outputs.iter().zip(&expected.cells).enumerate().find_map(in_output);
    let in_work = || work.differs((0..expected.cleared).map(|_| 0.0f64.to_bits()));
    in_outputs.or_else(|| in_work().map(|what| format!("work {what}")))
}

/// One function and the memory that it is lent, used again for each call.
pub struct Trial {
    function: &'static Function,
    outputs: Vec<Lent>,
    work: Lent,
    pub tally: Tally,
}

impl Trial {
    pub fn new(function: &'static Function) -> Trial {
        let outputs = (0..function.outputs).map(|_| Lent::new(function.kind)).collect();
        Trial { function, outputs, work: Lent::new(Kind::F64), tally: Tally::default() }
    }

    /// Makes one call both ways and counts it; a difference is printed, the first few of them.
    pub fn run(&mut self, call: &Call, salt: u64) {
        let expected = source::expected(self.function, call);
        let differs = self.difference(call, salt, &expected);
        self.tally.count(self.function.name, &expected, differs, || describe(call));
    }

    /// What a call leaves that is not as expected.
    pub fn difference(&mut self, call: &Call, salt: u64, expected: &Expected) -> Option<String> {
        for (place, (output, length)) in self.outputs.iter_mut().zip(&call.outputs).enumerate() {
            output.fill(*length, salt.wrapping_add(place as u64));
        }
        self.work.fill(call.work, !salt);
        let library = self.function.library.expect("only exported functions are compared");
        let answer = library(call, &mut self.outputs, &mut self.work);
        differs(answer, &self.outputs, &self.work, expected)
    }
}

/// A call in one line, with the first values of its series.
pub fn describe(call: &Call) -> String {
    let head = |s: &Vec<f64>| format!("{} bars {:?}", s.len(), &s[..s.len().min(24)]);
    let series: Vec<String> = call.series.iter().map(head).collect();
    format!("{:?}, outputs {:?}, work {}, {}", call.parameters, call.outputs, call.work, series.join("; "))
}

/// The calls of one function with a seed, each with the salt of what it is lent: its edges, and random calls up to
/// `calls` in all.
pub fn seeded(function: &'static Function, seed: u64, calls: usize) -> impl Iterator<Item = (Call, u64)> {
    let mut rng = rng_of(function, seed);
    let mut edges = edges(&mut rng, function).into_iter();
    (0..calls.max(edges.len())).map(move |_| {
        let call = edges.next().unwrap_or_else(|| generate::any(&mut rng, function));
        (call, rng.word())
    })
}

/// The longest series with the longest window, for a seed.
pub fn longest(function: &'static Function, seed: u64) -> Call {
    extreme(&mut rng_of(function, seed), function)
}

fn rng_of(function: &Function, seed: u64) -> Rng {
    Rng::new(seed.wrapping_add(catalogue::number(function) << 56))
}

/// One function: its largest call, then with each seed its edges and random calls up to `calls` in all.
fn tried(function: &'static Function, seeds: &[u64], calls: usize) -> Trial {
    let mut trial = Trial::new(function);
    trial.run(&longest(function, seeds[0]), seeds[0]);
    for (call, salt) in seeds.iter().flat_map(|seed| seeded(function, *seed, calls)) {
        trial.run(&call, salt);
    }
    trial
}

/// Every exported function, as many at a time as there are processors. True if none differs.
pub fn run(seeds: &[u64], calls: usize) -> bool {
    let functions: Vec<&'static Function> = catalogue::exported().collect();
    let next = AtomicUsize::new(0);
    let worker = || {
        let taken = std::iter::from_fn(|| functions.get(next.fetch_add(1, Ordering::Relaxed)));
        taken.map(|function| tried(function, seeds, calls)).collect::<Vec<Trial>>()
    };
    let mut trials: Vec<Trial> = thread::scope(|scope| {
        let processors = thread::available_parallelism().map_or(1, usize::from);
        let workers: Vec<_> = (0..processors).map(|_| scope.spawn(worker)).collect();
        workers.into_iter().flat_map(|worker| worker.join().expect("a worker ended early")).collect()
    });
    trials.sort_by_key(|trial| catalogue::number(trial.function));
    let mut tallies: Vec<(&str, Tally)> = trials.into_iter().map(|trial| (trial.function.name, trial.tally)).collect();
    tallies.extend(rank_table::compared(seeds, calls));
    tallies.extend(basket::compared(seeds, calls));
    tallies.iter().for_each(|(name, tally)| tally.print(name));
    let total: usize = tallies.iter().map(|(_, tally)| tally.calls).sum();
    let differ: usize = tallies.iter().map(|(_, tally)| tally.differ).sum();
    println!("compared {total} calls of {} functions, {differ} differ", tallies.len());
    differ == 0 && !tallies.is_empty()
}
