//! `basket`, our own: contracts with weights, and the sums of weight times pure.rs's position, by group and in all. A
//! call has a table and weights, for which an entry of the catalogue has no place.

use crate::call::{Answer, Call, Expected, Kind, Value};
use crate::catalogue::{self, Domain, Function};
use crate::compare::{Tally, differs};
use crate::generate;
use crate::library::Lent;
use crate::limits::{SERIES_LIMIT, WINDOW_LIMIT};
use crate::rng::Rng;
use crate::series::{DAMAGED, damage, series, walk};
use crate::table;

const NAME: &str = "basket";
const MOST_CONTRACTS: usize = 32;
const GROUPS: u64 = 32;
/// The rows of an output: the groups', and that of the whole.
const ROWS: usize = 33;
const LARGEST_WEIGHT: i64 = 1_000;
/// The bars for which the library makes positions at a time.
const PART_BARS: usize = 4_096;
/// The sheet's rules, 1 to 3.
const RULES: [&str; 3] = ["single_sma_positions", "double_sma_positions", "mid_positions"];

/// A contract by its prices, its row of the table and its weight.
#[derive(Clone, Debug)]
struct Contract {
    prices: Vec<f64>,
    rule: u64,
    n: u64,
    m: u64,
    group: u64,
    weight: i64,
}

/// What the caller lends: slices, and the lengths of the output and of the work slice.
#[derive(Clone)]
struct Basket {
    series: Vec<f64>,
    contracts: Vec<u64>,
    weights: Vec<i64>,
    out: usize,
    work: usize,
}

type Exported = fn(&Basket, &mut Lent, &mut Lent) -> Answer;

#[cfg(exported = "basket")]
const LIBRARY: Option<Exported> = Some(|basket, out, work| {
    let Basket { series, contracts, weights, .. } = basket;
    tegbalowu::basket(series, contracts, weights, out.cells(), work.cells()).into()
});
#[cfg(not(exported = "basket"))]
const LIBRARY: Option<Exported> = None;

/// Lends contracts with just as much room as they ask for.
fn lend(contracts: &[Contract]) -> Basket {
    let bars = contracts.first().map_or(0, |contract| contract.prices.len());
    let row = |c: &Contract| [c.prices.len() as u64, c.rule, c.n, c.m, c.group];
    Basket {
        series: contracts.iter().flat_map(|contract| contract.prices.iter().copied()).collect(),
        contracts: contracts.iter().flat_map(row).collect(),
        weights: contracts.iter().map(|contract| contract.weight).collect(),
        out: ROWS * bars,
        work: 8 * bars,
    }
}

// What a call must leave.

/// A rule's function.
fn rule_of(rule: u64) -> &'static Function {
    catalogue::named(RULES[rule as usize - 1]).unwrap()
}

impl Contract {
    /// The call of its rule alone, with just as much room as it asks for.
    fn call(&self) -> Call {
        let rule = rule_of(self.rule);
        let windows = [self.n, self.m].map(|window| Value::Count(window as usize));
        rule.call(vec![self.prices.clone()], windows[..rule.roles.len()].to_vec())
    }

    fn answer(&self) -> Answer {
        table::answer(rule_of(self.rule), &self.call())
    }

    /// Its positions: none where the call of its rule has no cells.
    fn positions(&self) -> Vec<i64> {
        if self.answer().count == 0 {
            return Vec::new();
        }
        let whole = |word: u64| match f64::from_bits(word) {
            1.0 => 1,
            -1.0 => -1,
            0.0 => 0,
            other => panic!("{other} is no position"),
        };
        (rule_of(self.rule).source)(&self.call()).remove(0).into_iter().map(whole).collect()
    }
}

impl Basket {
    /// The refusals before the contracts are looked at, one after the other; 0 for none.
    fn refusal(&self) -> u64 {
        let count = self.weights.len();
        let rows = || self.contracts.chunks_exact(5);
        if !(1..=MOST_CONTRACTS).contains(&count) || self.contracts.len() != 5 * count {
            return 10;
        }
        if rows().any(|row| !(1..=GROUPS).contains(&row[4]) || !(1..=RULES.len() as u64).contains(&row[1])) {
            return 10;
        }
        let bars = self.contracts[0] as u128;
        let sum: u128 = rows().map(|row| row[0] as u128).sum();
        if rows().any(|row| row[0] as u128 != bars) || sum != self.series.len() as u128 {
            2
        } else if (self.out as u128) < ROWS as u128 * bars {
            3
        } else if (self.work as u128) < 8 * bars {
            4
        } else if self.weights.iter().any(|weight| weight.unsigned_abs() > LARGEST_WEIGHT as u64) {
            16
        } else {
            0
        }
    }

    /// The contracts of a basket that has none of those refusals.
    fn contracts(&self) -> Vec<Contract> {
        let bars = self.contracts[0] as usize;
        let part = |place: usize| self.series[place * bars..(place + 1) * bars].to_vec();
        let rows = self.contracts.chunks_exact(5).zip(&self.weights).enumerate();
        rows.map(|(place, (row, weight))| Contract {
            prices: part(place),
            rule: row[1],
            n: row[2],
            m: row[3],
            group: row[4],
            weight: *weight,
        })
        .collect()
    }

    fn answer(&self) -> Answer {
        match self.refusal() {
            0 => {
                let refused = self.contracts().iter().map(Contract::answer).find(|answer| answer.refusal > 0);
                refused.unwrap_or(Answer::cells(ROWS * self.contracts[0] as usize))
            }
            refusal => Answer::refused(refusal),
        }
    }
}

/// The rows of groups 1 to 32 and of the whole, one after another.
fn nets(contracts: &[Contract], bars: usize) -> Vec<i64> {
    let mut nets = vec![0; ROWS * bars];
    for contract in contracts {
        for (bar, position) in contract.positions().into_iter().enumerate() {
            for row in [contract.group as usize - 1, ROWS - 1] {
                nets[row * bars + bar] += contract.weight * position;
            }
        }
    }
    nets
}

fn expected(basket: &Basket) -> Expected {
    let answer = basket.answer();
    if answer.refusal > 0 {
        return Expected { answer, cells: vec![Vec::new()], cleared: 0 };
    }
    let bars = basket.contracts[0] as usize;
    let cells = nets(&basket.contracts(), bars).into_iter().map(|net| net as u64).collect();
    Expected { answer, cells: vec![cells], cleared: 8 * bars }
}

fn describe(basket: &Basket) -> String {
    let head = &basket.series[..basket.series.len().min(24)];
    let Basket { contracts, weights, out, work, .. } = basket;
    let bars = basket.series.len();
    format!("contracts {contracts:?}, weights {weights:?}, output {out}, work {work}, {bars} prices {head:?}")
}

// Baskets to try.

/// A weight: at the limits, none, or any.
fn weight(rng: &mut Rng) -> i64 {
    let any = rng.between(-LARGEST_WEIGHT, LARGEST_WEIGHT);
    rng.pick(&[LARGEST_WEIGHT, -LARGEST_WEIGHT, 0, 1, -1, any, any, any])
}

/// A window that a rule does not look at.
fn ignored(rng: &mut Rng) -> u64 {
    rng.pick(&[0, 1, 5, WINDOW_LIMIT as u64 + 1, 1 << 32, 1 << 63, u64::MAX])
}

/// A contract that its rule answers, perhaps with no cells.
fn contract(rng: &mut Rng, bars: usize) -> Contract {
    loop {
        let rule = 1 + rng.below(RULES.len()) as u64;
        let windows = generate::parameters(rng, rule_of(rule), bars);
        let mut windows = windows.into_iter().map(|window| usize::from(window) as u64);
        let n = windows.next().unwrap();
        let m = windows.next().unwrap_or_else(|| ignored(rng));
        let group = 1 + rng.below(GROUPS as usize) as u64;
        let prices = series(rng, Domain::Accepted, bars);
        let made = Contract { prices, rule, n, m, group, weight: weight(rng) };
        if made.answer().refusal == 0 {
            return made;
        }
    }
}

fn shuffle<T>(rng: &mut Rng, all: &mut [T]) {
    (1..all.len()).rev().for_each(|last| all.swap(last, rng.below(last + 1)));
}

/// Groups anew: one for all, one for each, two, or any.
fn regroup(rng: &mut Rng, contracts: &mut [Contract]) {
    let mut each: Vec<u64> = (1..=GROUPS).collect();
    shuffle(rng, &mut each);
    let groups = rng.pick(&[1, 2, GROUPS as usize]);
    let any = rng.one_in(2);
    for (place, contract) in contracts.iter_mut().enumerate() {
        contract.group = if any { each[rng.below(groups)] } else { each[place % groups] };
    }
}

/// Contracts of so many bars that are answered.
fn contracts(rng: &mut Rng, count: usize, bars: usize) -> Vec<Contract> {
    let mut made: Vec<Contract> = (0..count).map(|_| contract(rng, bars)).collect();
    regroup(rng, &mut made);
    if rng.one_in(6) {
        made.iter_mut().for_each(|contract| contract.weight = LARGEST_WEIGHT);
    }
    made
}

/// How many contracts: mostly few.
fn count(rng: &mut Rng) -> usize {
    match rng.below(10) {
        0 => 1,
        1..8 => 1 + rng.below(6),
        8 => 1 + rng.below(MOST_CONTRACTS),
        _ => MOST_CONTRACTS,
    }
}

/// Any basket: two of three are answered.
fn any(rng: &mut Rng) -> Basket {
    let bars = generate::length(rng).min(200);
    let count = count(rng);
    let mut made = contracts(rng, count, bars);
    let faults = faults();
    let number = [0, 0, 0, 0, 0, 0, 0, 0, 1, 1, 1, 2][rng.below(12)];
    let mut chosen: Vec<&Fault> = (0..number).map(|_| &faults[rng.below(faults.len())]).collect();
    if !rng.one_in(20) {
        // A series too long is long to compare.
        chosen.retain(|fault| fault.refusal != 1);
    }
    if rng.one_in(20) {
        let place = rng.below(count);
        damage(rng, &mut made[place].prices);
    }
    let mut basket = faulty(&made, &chosen);
    if chosen.is_empty() {
        basket.out = generate::room(rng, basket.out);
        basket.work = generate::room(rng, basket.work);
    }
    basket
}

/// What is wrong with a basket, and the refusal that it has for that alone.
struct Fault {
    refusal: u64,
    change: Change,
}

enum Change {
    Contracts(fn(&mut Vec<Contract>)),
    Slices(fn(&mut Basket)),
}

/// The contracts with these faults.
fn faulty(contracts: &[Contract], faults: &[&Fault]) -> Basket {
    let mut contracts = contracts.to_vec();
    for fault in faults {
        if let Change::Contracts(change) = fault.change {
            change(&mut contracts);
        }
    }
    let mut basket = lend(&contracts);
    for fault in faults {
        if let Change::Slices(change) = fault.change {
            change(&mut basket);
        }
    }
    basket
}

/// The first contract changed, and the last.
fn first(contracts: &mut [Contract], change: impl Fn(&mut Contract)) {
    contracts.first_mut().into_iter().for_each(change);
}

fn last(contracts: &mut [Contract], change: impl Fn(&mut Contract)) {
    contracts.last_mut().into_iter().for_each(change);
}

/// A number of the first row of the table changed, and of the last.
fn in_first(basket: &mut Basket, place: usize, to: impl Fn(u64) -> u64) {
    basket.contracts.chunks_exact_mut(5).take(1).for_each(|row| row[place] = to(row[place]));
}

fn in_last(basket: &mut Basket, place: usize, to: impl Fn(u64) -> u64) {
    basket.contracts.chunks_exact_mut(5).last().into_iter().for_each(|row| row[place] = to(row[place]));
}

/// The double rule with these windows.
fn double(contract: &mut Contract, n: u64, m: u64) {
    (contract.rule, contract.n, contract.m) = (2, n, m);
}

/// Each refusal, in the first contract and in the last.
fn faults() -> Vec<Fault> {
    use Change::{Contracts, Slices};
    const BEYOND: u64 = WINDOW_LIMIT as u64 + 1;
    let none = |basket: &mut Basket| (basket.contracts, basket.weights) = (Vec::new(), Vec::new());
    let changes: Vec<(u64, Change)> = vec![
        (10, Slices(none)),
        (10, Contracts(|all| all.resize(MOST_CONTRACTS + 1, all[0].clone()))),
        (10, Slices(|basket| basket.contracts.truncate(basket.contracts.len().saturating_sub(1)))),
        (10, Slices(|basket| basket.contracts.push(1))),
        (10, Slices(|basket| basket.weights.truncate(basket.weights.len().saturating_sub(1)))),
        (10, Slices(|basket| basket.weights.push(0))),
        (10, Contracts(|all| first(all, |c| c.group = 0))),
        (10, Contracts(|all| last(all, |c| c.group = 0))),
        (10, Contracts(|all| first(all, |c| c.group = GROUPS + 1))),
        (10, Contracts(|all| last(all, |c| c.group = GROUPS + 1))),
        (10, Contracts(|all| last(all, |c| c.group = (1 << 32) + 1))),
        (10, Contracts(|all| last(all, |c| c.group = u64::MAX))),
        (10, Slices(|basket| in_first(basket, 1, |_| 0))),
        (10, Slices(|basket| in_last(basket, 1, |_| 0))),
        (10, Slices(|basket| in_first(basket, 1, |_| 4))),
        (10, Slices(|basket| in_last(basket, 1, |_| 4))),
        (10, Slices(|basket| in_last(basket, 1, |_| (1 << 32) + 1))),
        (2, Slices(|basket| in_first(basket, 0, |bars| bars.wrapping_add(1)))),
        (2, Slices(|basket| in_last(basket, 0, |bars| bars.wrapping_add(1)))),
        (2, Slices(|basket| in_last(basket, 0, |_| u64::MAX))),
        (2, Slices(|basket| basket.contracts.chunks_exact_mut(5).for_each(|row| row[0] ^= 1 << 63))),
        (2, Slices(|basket| basket.series.push(1.0))),
        (2, Slices(|basket| basket.series.truncate(basket.series.len().saturating_sub(1)))),
        (2, Slices(|basket| basket.series.clear())),
        (3, Slices(|basket| basket.out = basket.out.saturating_sub(1))),
        (3, Slices(|basket| basket.out = basket.out / ROWS * (ROWS - 1))),
        (3, Slices(|basket| basket.out = 0)),
        (4, Slices(|basket| basket.work = basket.work.saturating_sub(1))),
        (4, Slices(|basket| basket.work = 0)),
        (16, Contracts(|all| first(all, |c| c.weight = LARGEST_WEIGHT + 1))),
        (16, Contracts(|all| last(all, |c| c.weight = LARGEST_WEIGHT + 1))),
        (16, Contracts(|all| last(all, |c| c.weight = -LARGEST_WEIGHT - 1))),
        (16, Contracts(|all| last(all, |c| c.weight = i64::MAX))),
        (16, Contracts(|all| last(all, |c| c.weight = i64::MIN))),
        (1, Contracts(|all| all.iter_mut().for_each(|c| c.prices.resize(SERIES_LIMIT + 1, 1.0)))),
        (5, Contracts(|all| first(all, |c| c.prices.last_mut().into_iter().for_each(|x| *x = f64::NAN)))),
        (5, Contracts(|all| last(all, |c| c.prices.last_mut().into_iter().for_each(|x| *x = -0.0)))),
        (5, Contracts(|all| last(all, |c| c.prices.first_mut().into_iter().for_each(|x| *x = f64::INFINITY)))),
        (7, Contracts(|all| first(all, |c| (c.rule, c.n) = (1, BEYOND)))),
        (7, Contracts(|all| last(all, |c| (c.rule, c.n) = (1, u64::MAX)))),
        (7, Contracts(|all| last(all, |c| (c.rule, c.n) = (3, BEYOND)))),
        (7, Contracts(|all| first(all, |c| double(c, BEYOND, 2)))),
        (7, Contracts(|all| last(all, |c| double(c, 2, u64::MAX)))),
        (7, Contracts(|all| last(all, |c| double(c, 0, BEYOND)))),
        (9, Contracts(|all| first(all, |c| double(c, 2, 2)))),
        (9, Contracts(|all| last(all, |c| double(c, 3, 2)))),
    ];
    changes.into_iter().map(|(refusal, change)| Fault { refusal, change }).collect()
}

/// Each fault alone, and every two at once.
fn with_faults(rng: &mut Rng) -> Vec<Basket> {
    let faults = faults();
    let made = contracts(rng, 3, 4);
    let alone = |fault: &Fault| {
        let basket = faulty(&made, &[fault]);
        assert_eq!(basket.answer().refusal, fault.refusal, "{}", describe(&basket));
        basket
    };
    let mut all: Vec<Basket> = faults.iter().map(alone).collect();
    for (place, one) in faults.iter().enumerate() {
        all.extend(faults[place + 1..].iter().map(|other| faulty(&made, &[one, other])));
    }
    all
}

/// Lengths whose sum is that of the series only where it is cut to 64 bits.
fn with_lengths_beyond(rng: &mut Rng) -> Vec<Basket> {
    let mut all = Vec::new();
    for count in 2..=MOST_CONTRACTS {
        let made = contracts(rng, count, 3);
        let mut basket = lend(&made);
        // An odd number has an inverse; a power of two in the count leaves a length beside it.
        let power = 1u64 << (count as u64).trailing_zeros();
        let odd = count as u64 / power;
        let inverse = (0..6).fold(odd, |x, _| x.wrapping_mul(2u64.wrapping_sub(odd.wrapping_mul(x))));
        let high = if power > 1 { (1 << 63) / (power / 2) } else { 0 };
        let one = power as usize;
        for (bars, sum) in [(inverse, one), (inverse.wrapping_add(high), one), (3 + high, 3 * count), (high, 0)] {
            basket.contracts.chunks_exact_mut(5).for_each(|row| row[0] = bars);
            basket.series = vec![1.0; sum];
            (basket.out, basket.work) = (ROWS * sum, 8 * sum);
            all.push(basket.clone());
        }
    }
    all
}

/// Contracts of every rule with this window, in a basket of so many bars.
fn of_window(rng: &mut Rng, n: u64, bars: usize) -> Vec<Contract> {
    let mut made = contracts(rng, 4, bars);
    for (contract, rule) in made.iter_mut().zip([1, 3, 2, 1]) {
        contract.prices = if rng.one_in(2) { walk(rng, bars) } else { series(rng, Domain::Accepted, bars) };
        contract.weight = rng.pick(&[1, -1, 7, LARGEST_WEIGHT]);
        (contract.rule, contract.n) = (rule, n);
        contract.m = if rule == 2 { (n + 1).min(WINDOW_LIMIT as u64) } else { ignored(rng) };
        if rule == 2 && n >= contract.m {
            contract.n = contract.m - 1;
        }
    }
    made
}

/// Lengths at the ends of the parts in which positions are made, where a part begins 2n-2 bars early, and beside them.
fn at_parts(rng: &mut Rng) -> Vec<Basket> {
    let mut all = Vec::new();
    for n in [1, 2, 3, 250, WINDOW_LIMIT] {
        let step = PART_BARS - (2 * n - 2);
        for bars in (0..3).flat_map(|parts| [0, 1, 2].map(|beside| PART_BARS + parts * step + beside - 1)) {
            all.push(lend(&of_window(rng, n as u64, bars)));
        }
    }
    all
}

/// Short and long ones: no bar and one, every count of contracts, each with its own group, and the longest series with
/// every rule; empty contracts between others, and a window too long where there is no bar.
fn of_sizes(rng: &mut Rng) -> Vec<Basket> {
    let mut all: Vec<Basket> = Vec::new();
    for count in 1..=MOST_CONTRACTS {
        for bars in [0, 1, 2, 9] {
            let mut made = contracts(rng, count, bars);
            all.push(lend(&made));
            made.iter_mut().enumerate().for_each(|(place, contract)| contract.group = GROUPS - place as u64);
            all.push(lend(&made));
            made.iter_mut().step_by(2).for_each(|contract| contract.n = 0);
            all.push(lend(&made));
            made[count - 1].n = u64::MAX;
            all.push(lend(&made));
        }
    }
    all.extend([SERIES_LIMIT - 1, SERIES_LIMIT].map(|bars| lend(&of_window(rng, 13, bars))));
    all.push(lend(&of_window(rng, WINDOW_LIMIT as u64, SERIES_LIMIT)));
    let mut beyond = of_window(rng, 5, 8);
    beyond.iter_mut().for_each(|contract| contract.prices.resize(SERIES_LIMIT + 1, 2.0));
    all.push(lend(&beyond));
    beyond[3].weight = -LARGEST_WEIGHT - 1;
    all.push(lend(&beyond));
    all
}

/// Each odd value in every place of the last of some contracts, and in the first of them.
fn with_odd_values(rng: &mut Rng) -> Vec<Basket> {
    let made = contracts(rng, 4, 6);
    let mut all = Vec::new();
    for odd in DAMAGED {
        for (contract, bar) in [0, 3].into_iter().flat_map(|contract| (0..6).map(move |bar| (contract, bar))) {
            let mut made = made.clone();
            made[contract].prices[bar] = *odd;
            all.push(lend(&made));
        }
    }
    all
}

/// The longest series in 32 contracts with the longest window.
fn largest(rng: &mut Rng) -> Basket {
    let mut made = Vec::new();
    while made.len() < MOST_CONTRACTS {
        made.extend(of_window(rng, WINDOW_LIMIT as u64, SERIES_LIMIT));
    }
    lend(&made)
}

// Comparing.

/// The function and the memory that it is lent, used again for each call.
struct Trial {
    library: Exported,
    outputs: Vec<Lent>,
    work: Lent,
    tally: Tally,
}

impl Trial {
    fn new(library: Exported) -> Trial {
        let outputs = vec![Lent::new(Kind::I64)];
        Trial { library, outputs, work: Lent::new(Kind::F64), tally: Tally::default() }
    }

    fn answer(&mut self, basket: &Basket, salt: u64) -> Answer {
        self.outputs[0].fill(basket.out, salt);
        self.work.fill(basket.work, !salt);
        (self.library)(basket, &mut self.outputs[0], &mut self.work)
    }

    /// Makes one call both ways and counts it.
    fn run(&mut self, basket: &Basket, salt: u64) {
        let expected = expected(basket);
        let answer = self.answer(basket, salt);
        let differs = differs(answer, &self.outputs, &self.work, &expected);
        self.tally.count(NAME, &expected, differs, || describe(basket));
    }

    /// The rows of contracts that the library answers.
    fn rows(&mut self, contracts: &[Contract]) -> Option<Vec<Vec<i64>>> {
        let bars = contracts[0].prices.len();
        let answered = self.answer(&lend(contracts), 1) == Answer::cells(ROWS * bars);
        let cells = self.outputs[0].cells::<i64>();
        (answered && bars > 0).then(|| cells.chunks_exact(bars).map(<[i64]>::to_vec).collect())
    }
}

/// The largest call, then with each seed the edges, and random calls up to `calls` in all. None where the library does
/// not have the function.
pub fn compared(seeds: &[u64], calls: usize) -> Option<(&'static str, Tally)> {
    let mut trial = Trial::new(LIBRARY?);
    trial.run(&largest(&mut Rng::new(!seeds[0])), seeds[0]);
    for seed in seeds {
        let mut rng = Rng::new(seed.rotate_left(24));
        let edges = [with_faults, with_lengths_beyond, at_parts, of_sizes, with_odd_values];
        let mut made = 0;
        for basket in edges.into_iter().flat_map(|edges| edges(&mut rng)).collect::<Vec<Basket>>() {
            made += 1;
            trial.run(&basket, rng.word());
        }
        let mut random = Rng::new(*seed);
        (made..calls).for_each(|_| trial.run(&any(&mut random), random.word()));
    }
    Some((NAME, trial.tally))
}

/// What is promised of two calls, and of a basket's rows, on baskets for each seed. True if nothing is wrong.
pub fn promises(seeds: &[u64], baskets: usize) -> bool {
    type Promise = (&'static str, fn(&mut Rng, &mut Trial) -> Option<bool>);
    let promises: [Promise; 4] = [
        ("no look-ahead in pairs of calls", no_look_ahead),
        ("the groups add up to the whole in calls", adds_up),
        ("the same nets however listed and grouped in pairs of calls", rearranged),
        ("positions are those of the rules' own calls in calls", own_calls),
    ];
    let Some(library) = LIBRARY else { return true };
    let mut good = true;
    for (words, promise) in promises {
        let mut trial = Trial::new(library);
        let held = |seed: &u64| {
            let mut rng = Rng::new(!seed);
            (0..baskets).filter_map(|_| promise(&mut rng, &mut trial)).collect::<Vec<bool>>()
        };
        let held: Vec<bool> = seeds.iter().flat_map(held).collect();
        let wrong = held.iter().filter(|holds| !**holds).count();
        println!("{NAME}: {words}: {}, {wrong} wrong", held.len());
        good &= wrong == 0;
    }
    good
}

/// Contracts of a bar at least.
fn some(rng: &mut Rng) -> Vec<Contract> {
    let bars = 1 + generate::length(rng).min(200);
    let count = count(rng);
    contracts(rng, count, bars)
}

/// Of two calls with equal bars up to a bar and equal rules, windows, groups and weights, the cells up to it.
fn no_look_ahead(rng: &mut Rng, trial: &mut Trial) -> Option<bool> {
    let whole = some(rng);
    let shared = 1 + rng.below(whole[0].prices.len());
    let bars = shared + rng.below(30);
    let other: Vec<Contract> = whole
        .iter()
        .map(|contract| {
            let mut prices = series(rng, Domain::Accepted, bars);
            prices[..shared].copy_from_slice(&contract.prices[..shared]);
            Contract { prices, m: if contract.rule == 2 { contract.m } else { ignored(rng) }, ..contract.clone() }
        })
        .collect();
    let (one, other) = (trial.rows(&whole)?, trial.rows(&other)?);
    Some(one.iter().zip(&other).all(|(a, b)| a[..shared] == b[..shared]))
}

fn adds_up(rng: &mut Rng, trial: &mut Trial) -> Option<bool> {
    let rows = trial.rows(&some(rng))?;
    let (whole, groups) = rows.split_last()?;
    Some((0..whole.len()).all(|bar| groups.iter().map(|group| group[bar]).sum::<i64>() == whole[bar]))
}

/// Listed in another order the rows are the same; grouped anew too, the last is.
fn rearranged(rng: &mut Rng, trial: &mut Trial) -> Option<bool> {
    let mut made = some(rng);
    let rows = trial.rows(&made)?;
    shuffle(rng, &mut made);
    let listed = trial.rows(&made)?;
    regroup(rng, &mut made);
    let grouped = trial.rows(&made)?;
    Some(rows == listed && rows.last() == grouped.last())
}

/// The whole is the sum of weight times the cell of the rule's own call, as the library answers it.
fn own_calls(rng: &mut Rng, trial: &mut Trial) -> Option<bool> {
    let made = some(rng);
    let mut sums = vec![0; made[0].prices.len()];
    for contract in &made {
        let (answer, cells) = rule_of(contract.rule).run(&contract.call());
        assert_eq!(answer.refusal, 0, "a contract that is answered");
        sums.iter_mut().zip(&cells[0]).for_each(|(sum, cell)| *sum += contract.weight * f64::from_bits(*cell) as i64);
    }
    Some(trial.rows(&made)?.last() == Some(&sums))
}
