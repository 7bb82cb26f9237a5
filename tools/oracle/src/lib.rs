//! The library against pure.rs: see docs/COMPARING.md. Each command is run by a script in tools/.

mod basket;
mod bench;
mod call;
mod catalogue;
mod clock;
mod close_before;
mod compare;
mod differences;
mod documents;
mod edges;
mod exact;
mod flips;
mod generate;
mod library;
mod limits;
mod nearly;
mod published;
mod ranges;
mod rank_table;
mod record;
mod restated;
mod rng;
mod series;
mod sheet;
mod sheet_compare;
mod sheet_inputs;
mod smoother;
mod source;
mod table;
mod tanh;
mod tick_mean;
mod ties;
mod wilder_rsi;

use bench::Prices;
use std::io::{BufWriter, stdin, stdout};
use std::process::ExitCode;

const USAGE: &str = "usage: oracle compare CALLS SEED..   compare the library's calls and check its exactness
       oracle flips FILE CALLS [NAME..]   which of the listed flips show: for tools/mutate
       oracle bench ticks|hundredths|differences [NAME..]   the table of times
       oracle differences LIST PAGE   the inputs that docs/DIFFERENCES.md names
       oracle record                a sample of calls for a program to replay
       oracle sheet                 the sheet program, in Rust over pure.rs
       oracle sheet-compare PROGRAM SEED DAMAGED
       oracle sheet-bench PROGRAM FILE
       oracle smoother list|tables|check
       oracle tanh list|tables|check
       oracle tanh scores SCORES SEED..   compare the recorded thresholds with Rust's tanh
       oracle platform              what this was built with";

/// Runs the command that the program's arguments are.
pub fn run() -> ExitCode {
    let words: Vec<String> = std::env::args().skip(1).collect();
    let words: Vec<&str> = words.iter().map(String::as_str).collect();
    let good = match words.as_slice() {
        ["compare", calls, seeds @ ..] if !seeds.is_empty() => {
            let seeds: Vec<u64> = seeds.iter().map(|s| number(s)).collect();
            let calls = number(calls) as usize;
            exact::run(&seeds, calls / 50) & compare::run(&seeds, calls)
        }
        ["flips", file, calls, names @ ..] => flips::run(file, number(calls) as usize, names),
        ["bench", word, names @ ..] if Prices::named(word).is_some() => {
            told(|| bench::run(Prices::named(word).unwrap(), names))
        }
        ["differences", list, page] => differences::run(list, page),
        ["record"] => told(|| record::print()),
        ["sheet"] => sheet::run(stdin().lock(), BufWriter::new(stdout().lock())).is_ok(),
        ["sheet-compare", program, seed, damaged] => {
            sheet_compare::compare(program, number(seed), number(damaged) as usize)
        }
        ["sheet-bench", program, file] => told(|| sheet_compare::bench(program, file)),
        ["smoother", "list"] => told(|| smoother::print_list()),
        ["smoother", "tables"] => told(|| smoother::print_tables()),
        ["smoother", "check"] => smoother::check() && told(restated::check),
        ["tanh", "list"] => told(|| tanh::print_list()),
        ["tanh", "tables"] => told(|| tanh::print_tables()),
        ["tanh", "check"] => tanh::check(),
        ["tanh", "scores", scores, seeds @ ..] if !seeds.is_empty() => {
            let seeds: Vec<u64> = seeds.iter().map(|s| number(s)).collect();
            tanh::compare_scores(&seeds, number(scores) as usize)
        }
        ["platform"] => told(|| println!("{}", smoother::platform())),
        _ => {
            eprintln!("{USAGE}");
            return ExitCode::from(2);
        }
    };
    if good { ExitCode::SUCCESS } else { ExitCode::FAILURE }
}

/// A command that only prints ends well.
fn told(print: impl FnOnce()) -> bool {
    print();
    true
}

fn number(text: &str) -> u64 {
    text.parse().unwrap_or_else(|_| panic!("{text} is not a number"))
}
