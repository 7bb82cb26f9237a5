//! The inputs that docs/DIFFERENCES.md names, run by the source, by the library and by the formulas of documents. A list
//! has each of them with the words of the page that it bears out and the cells that they say; docs/COMPARING.md has its
//! form.

use std::fs;
use std::panic::{AssertUnwindSafe, catch_unwind, set_hook, take_hook};

use crate::call::{Call, Kind};
use crate::catalogue::{self, Function};
use crate::documents;
use crate::smoother::{LONGEST, agrees, recorded_a1};
use crate::tanh;

/// A section of the page: its title, its points and paragraphs, each in one line, and what the list has of them.
struct Section<'a> {
    title: &'a str,
    parts: Vec<String>,
    quoted: Vec<&'a str>,
}

impl<'a> Section<'a> {
    fn new(text: &'a str) -> Section<'a> {
        let (title, body) = text.split_once('\n').unwrap_or((text, ""));
        let mut parts = vec![String::new()];
        for line in body.lines() {
            if line.starts_with("- ") || line.is_empty() {
                parts.push(String::new());
            }
            let part = parts.last_mut().unwrap();
            *part = format!("{part} {}", line.trim()).trim().to_string();
        }
        Section { title, parts, quoted: Vec::new() }
    }

    /// The points that name inputs, without what the list has of them, where a digit is left.
    fn left(&self) -> impl Iterator<Item = String> {
        let general = ["Document:", "Source:", "We:", "Not verified"];
        let inputs = self.parts.iter().filter_map(|part| part.strip_prefix("- "));
        let inputs = inputs.filter(move |part| !general.iter().any(|start| part.starts_with(start)));
        let rest =
            inputs.map(|part| self.quoted.iter().fold(part.to_string(), |part, words| part.replace(words, "..")));
        rest.filter(|part| part.contains(|c: char| c.is_ascii_digit()))
    }
}

/// What a side gives for a call.
enum Outcome {
    Panics,
    Refused(u64),
    /// The cells of each output.
    Cells(Vec<Vec<u64>>),
}

impl Outcome {
    /// From the list's lines, one for each output.
    fn read(lines: &[&str], kind: Kind) -> Outcome {
        let cells = |line: &&str| numbers(line).into_iter().map(|x| kind.word(x)).collect();
        match lines {
            ["panics"] => Outcome::Panics,
            [line] if line.starts_with("refused ") => Outcome::Refused(numbers(&line[8..])[0] as u64),
            _ => Outcome::Cells(lines.iter().map(cells).collect()),
        }
    }

    fn of_source(function: &Function, call: &Call) -> Outcome {
        // Where exp, cos and tanh are not those of the recording the steps are restated around what is recorded.
        let own = (1..=LONGEST).all(agrees) && tanh::agrees();
        let source = if own { function.given } else { function.source };
        let hook = take_hook();
        set_hook(Box::new(|_| {}));
        let given = catch_unwind(AssertUnwindSafe(|| source(call)));
        set_hook(hook);
        given.map_or(Outcome::Panics, Outcome::Cells)
    }

    fn of_library(function: &Function, call: &Call) -> Outcome {
        let (answer, cells) = function.run(call);
        if answer.refusal == 0 { Outcome::Cells(cells) } else { Outcome::Refused(answer.refusal) }
    }

    fn is(&self, other: &Outcome, kind: Kind) -> bool {
        let same_line =
            |(a, b): (&Vec<u64>, &Vec<u64>)| a.len() == b.len() && a.iter().zip(b).all(|(a, b)| kind.same(*a, *b));
        match (self, other) {
            (Outcome::Panics, Outcome::Panics) => true,
            (Outcome::Refused(a), Outcome::Refused(b)) => a == b,
            (Outcome::Cells(a), Outcome::Cells(b)) => a.len() == b.len() && a.iter().zip(b).all(same_line),
            _ => false,
        }
    }

    fn show(&self, kind: Kind) -> String {
        let line = |cells: &Vec<u64>| cells.iter().map(|word| kind.plain(*word)).collect::<Vec<_>>().join(" ");
        match self {
            Outcome::Panics => "panics".to_string(),
            Outcome::Refused(number) => format!("refused {number}"),
            Outcome::Cells(lines) => lines.iter().map(line).collect::<Vec<_>>().join(" | "),
        }
    }
}

/// Numbers with blanks between them; X*COUNT is X so many times.
fn numbers(text: &str) -> Vec<f64> {
    let number = |word: &str| -> f64 { word.parse().unwrap_or_else(|_| panic!("{word} is not a number")) };
    let repeated = |word: &str| match word.split_once('*') {
        Some((x, times)) => vec![number(x); number(times) as usize],
        None => vec![number(word)],
    };
    text.split_whitespace().flat_map(repeated).collect()
}

/// A part of the list between empty lines: what stands first in each line, and the rest of it.
struct Case<'a> {
    lines: Vec<(&'a str, &'a str)>,
}

impl<'a> Case<'a> {
    fn new(text: &'a str) -> Case<'a> {
        let lines = text.lines().filter(|line| !line.starts_with('#'));
        Case { lines: lines.map(|line| line.split_once(' ').unwrap_or((line, ""))).collect() }
    }

    /// The lines that begin with one of these words.
    fn all(&self, words: &[&str]) -> Vec<&'a str> {
        self.lines.iter().filter(|(first, _)| words.contains(first)).map(|(_, rest)| *rest).collect()
    }

    fn only(&self, word: &str) -> Option<&'a str> {
        self.all(&[word]).first().copied()
    }

    fn call(&self) -> Option<(&'static Function, Call)> {
        let (name, parameters) = self.only("call").map(|call| call.split_once(' ').unwrap_or((call, "")))?;
        let function = catalogue::named(name).unwrap_or_else(|| panic!("no function {name}"));
        let words: Vec<&str> = parameters.split_whitespace().collect();
        assert_eq!(words.len(), function.roles.len(), "the parameters of {name}");
        let values = function.roles.iter().zip(words).map(|(role, word)| role.value(word)).collect();
        let mut call = function.call(self.all(&["in"]).into_iter().map(numbers).collect(), values);
        if let Some([output, work]) = self.only("lend").map(numbers).as_deref() {
            call.outputs.fill(*output as usize);
            call.work = *work as usize;
        }
        Some((function, call))
    }

    /// What is not as the list says.
    fn wrong(&self) -> Vec<String> {
        let mut wrong = Vec::new();
        for a1 in self.all(&["a1"]) {
            let (period, bits) = a1.split_once(' ').expect("a period and bits");
            let recorded = format!("{:016x}", recorded_a1(period.parse().expect("a period")));
            if recorded != bits {
                wrong.push(format!("a1 of period {period} is {recorded}"));
            }
        }
        for threshold in self.all(&["threshold"]) {
            let (k, bits) = threshold.split_once(' ').expect("hundredths and bits");
            let recorded = format!("{:016x}", tanh::recorded_threshold(k.parse().expect("hundredths")));
            if recorded != bits {
                wrong.push(format!("the threshold of {k} hundredths is {recorded}"));
            }
        }
        let Some((function, call)) = self.call() else { return wrong };
        let mut hold = |side: &str, want: Outcome, given: Outcome, kind: Kind| {
            if !given.is(&want, kind) {
                wrong.push(format!("{side} gives {}, and not {}", given.show(kind), want.show(kind)));
            }
        };
        let kind = function.kind;
        let source = self.all(&["source", "both"]);
        if !source.is_empty() {
            hold("the source", Outcome::read(&source, kind), Outcome::of_source(function, &call), kind);
        }
        let library = self.all(&["library", "both"]);
        if !library.is_empty() {
            hold("the library", Outcome::read(&library, kind), Outcome::of_library(function, &call), kind);
        }
        for document in self.all(&["document"]) {
            let (name, cells) = document.split_once(' ').expect("a formula and its cells");
            let formula = documents::named(name).unwrap_or_else(|| panic!("no formula {name}"));
            let given = Outcome::Cells(vec![formula(&call).into_iter().map(f64::to_bits).collect()]);
            hold(name, Outcome::read(&[cells], Kind::F64), given, Kind::F64);
        }
        wrong
    }
}

/// Runs the list, and holds its words against the page. True if all is as both say, and the page names no input that the
/// list does not have.
pub fn run(list: &str, page: &str) -> bool {
    let read = |file: &str| fs::read_to_string(file).unwrap_or_else(|error| panic!("{file}: {error}"));
    let (list, page) = (read(list), read(page));
    let mut sections: Vec<Section> = page.split("\n## ").skip(1).map(Section::new).collect();
    let (mut present, mut cases, mut wrong) = (None, 0, Vec::new());
    for case in list.split("\n\n").map(Case::new) {
        if let Some(title) = case.only("section") {
            present = sections.iter().position(|section| section.title == title);
            wrong.extend(present.is_none().then(|| format!("the page has no section '{title}'")));
        }
        for words in case.all(&["page"]) {
            match present.map(|place| &mut sections[place]) {
                Some(section) if section.parts.iter().any(|part| part.contains(words)) => section.quoted.push(words),
                _ => wrong.push(format!("the page does not say there '{words}'")),
            }
        }
        cases += case.call().is_some() as usize;
        wrong.extend(case.wrong().into_iter().map(|what| format!("{}: {what}", case.only("call").unwrap_or(""))));
    }
    for section in &sections {
        wrong.extend(section.left().map(|part| format!("'{}' names an input that is not run: {part}", section.title)));
    }
    wrong.iter().for_each(|what| println!("differences: {what}"));
    println!("differences: {cases} calls for {} sections of the page, {} wrong", sections.len(), wrong.len());
    wrong.is_empty() && cases > 0
}
