//! `rank_table_positions`, our own: pure.rs's ranks looked up in a desk's table. A call has rows, for which an entry of
//! the catalogue has no place; all else of it is a call of `rank_positions`.

use crate::call::{Answer, Call, Expected, Kind, Value};
use crate::catalogue::{self, Function};
use crate::compare::{Tally, describe, differs};
use crate::edges::{edges, extreme};
use crate::generate;
use crate::library::Lent;
use crate::rng::Rng;
use crate::table;

const NAME: &str = "rank_table_positions";
/// Rows that are read.
const ROWS: usize = 16;
/// The ranks in whole hundredths.
const RANKS: std::ops::RangeInclusive<i32> = -100..=100;
/// Positions that are refused.
const UNKNOWN: &[i32] = &[2, -2, 3, 100, i32::MAX, i32::MIN];

/// A row: from, to and the position.
type Row = [i32; 3];

/// A call of `rank_positions`, and the rows.
struct Lookup {
    call: Call,
    rows: Vec<i32>,
}

type Exported = fn(&Lookup, &mut Lent, &mut Lent) -> Answer;

#[cfg(exported = "rank_table_positions")]
const LIBRARY: Option<Exported> = Some(|lookup, out, work| {
    let n = lookup.call.parameters[0].into();
    tegbalowu::rank_table_positions(&lookup.call.series[0], n, &lookup.rows, out.cells(), work.cells()).into()
});
#[cfg(not(exported = "rank_table_positions"))]
const LIBRARY: Option<Exported> = None;

/// The function whose ranks are looked up.
fn ranks() -> &'static Function {
    catalogue::named("rank_positions").unwrap()
}

// What a call must leave.

/// The rows that are read: the first ones, and no unfinished one.
fn read(rows: &[i32]) -> Vec<Row> {
    rows.chunks_exact(3).take(ROWS).map(|row| [row[0], row[1], row[2]]).collect()
}

fn covers(row: &Row, rank: i32) -> bool {
    (row[0]..=row[1]).contains(&rank)
}

/// The table's refusal, 0 where it is taken.
fn refusal(rows: &[Row]) -> u64 {
    let count = |rank| rows.iter().filter(|row| covers(row, rank)).count();
    if RANKS.into_iter().any(|rank| count(rank) > 1) {
        12
    } else if RANKS.into_iter().any(|rank| count(rank) == 0) {
        13
    } else if rows.iter().any(|row| !(-1..=1).contains(&row[2])) {
        14
    } else {
        0
    }
}

/// The source's cell in whole hundredths: a hundredfold cell may lie beside a whole number, and is rounded back to it.
fn hundredths(cell: u64) -> Option<i32> {
    let cell = f64::from_bits(cell);
    (!cell.is_nan()).then(|| (cell * 100.0).round() as i32)
}

/// The positions of an answered call. A NaN and the bars that the source does not rank are not looked up.
fn positions(call: &Call, rows: &[Row]) -> Vec<u64> {
    let n: usize = call.parameters[0].into();
    let position = |(bar, cell): (usize, &u64)| match hundredths(*cell) {
        Some(rank) if bar >= 2 * n - 2 => rows.iter().find(|row| covers(row, rank)).expect("a row covers it")[2],
        _ => 0,
    };
    let cells = &(ranks().source)(call)[0];
    cells.iter().enumerate().map(|cell| position(cell) as i64 as u64).collect()
}

fn expected(lookup: &Lookup) -> Expected {
    let rows = read(&lookup.rows);
    let earlier = table::answer(ranks(), &lookup.call);
    let refused = if earlier.count > 0 { refusal(&rows) } else { 0 };
    let answer = if refused > 0 { Answer::refused(refused) } else { earlier };
    let cells = if answer.count > 0 { positions(&lookup.call, &rows) } else { Vec::new() };
    Expected { answer, cells: vec![cells], cleared: table::cleared(ranks(), &lookup.call, answer) }
}

// Tables to try.

fn position(rng: &mut Rng) -> i32 {
    rng.between(-1, 1) as i32
}

fn shuffle(rng: &mut Rng, rows: &mut [Row]) {
    (1..rows.len()).rev().for_each(|last| rows.swap(last, rng.below(last + 1)));
}

/// Boundaries: ranks that the call has, each beside the next row or in it, and others.
fn boundaries(rng: &mut Rng, call: &Call) -> Vec<i32> {
    let usual = table::answer(ranks(), call).count > 0 && call.bars() < 1_000;
    let cells = if usual { (ranks().source)(call).remove(0) } else { Vec::new() };
    let near: Vec<i32> = cells.into_iter().filter_map(hundredths).collect();
    let count = rng.pick(&[0, 1, 1, 2, 2, 3, 5, 9, 14]);
    let boundary = |_| match rng.below(3) {
        0 if !near.is_empty() => near[rng.below(near.len())] + rng.between(0, 1) as i32,
        1 => rng.pick(&[-99, -98, -1, 0, 1, 50, 99, 100]),
        _ => rng.between(-99, 100) as i32,
    };
    let mut found: Vec<i32> = (0..count).map(boundary).filter(|rank| (-99..=100).contains(rank)).collect();
    found.sort();
    found.dedup();
    found
}

/// Rows that cover each rank once, in order; the outer ends lie anywhere beyond.
fn parts(rng: &mut Rng, boundaries: &[i32]) -> Vec<Row> {
    let least = rng.pick(&[-100, -100, -101, -1_000_000, i32::MIN]);
    let most = rng.pick(&[100, 100, 101, 1_000_000, i32::MAX]);
    let starts = std::iter::once(least).chain(boundaries.iter().copied());
    let ends = boundaries.iter().map(|start| start - 1).chain([most]);
    starts.zip(ends).map(|(from, to)| [from, to, position(rng)]).collect()
}

/// A row that covers no rank: an empty one, or one beyond the ranks.
fn idle(rng: &mut Rng) -> Row {
    let some = rng.between(-150, 150) as i32;
    let [from, to] = rng.pick(&[
        [some, some - 1],
        [i32::MAX, i32::MIN],
        [100, -100],
        [1, 0],
        [101, i32::MAX],
        [i32::MIN, -101],
        [101, 101],
    ]);
    [from, to, position(rng)]
}

/// A table that is taken, in any order.
fn complete(rng: &mut Rng, call: &Call) -> Vec<Row> {
    let boundaries = boundaries(rng, call);
    let mut rows = parts(rng, &boundaries);
    let more = rng.pick(&[0, 0, 1, 3, ROWS]).min(ROWS - rows.len());
    (0..more).for_each(|_| rows.push(idle(rng)));
    if !rng.one_in(3) {
        shuffle(rng, &mut rows);
    }
    rows
}

/// The rows with one rank left out of the row that has it.
fn without(rows: &[Row], rank: i32) -> Vec<Row> {
    let mut left = Vec::new();
    for row in rows {
        if covers(row, rank) {
            let lower = rank.checked_sub(1).map(|to| [row[0], to, row[2]]);
            let upper = rank.checked_add(1).map(|from| [from, row[1], row[2]]);
            left.extend(lower.into_iter().chain(upper).filter(|row| row[0] <= row[1]));
        } else {
            left.push(*row);
        }
    }
    left
}

/// One change to a table, which may be refused then.
fn changed(rng: &mut Rng, rows: &mut Vec<Row>) {
    let rank = rng.between(-101, 101) as i32;
    let place = rng.below(rows.len().max(1));
    match rng.below(8) {
        0 => *rows = without(rows, rank),
        1 => rows.insert(place, [rank, rank, position(rng)]),
        2 if !rows.is_empty() => rows[place][2] = rng.pick(UNKNOWN),
        3 => rows.insert(place, [5, 4, rng.pick(UNKNOWN)]),
        4 if !rows.is_empty() => rows[place][rng.below(2)] += rng.pick(&[1, 0]),
        5 if !rows.is_empty() => {
            rows.remove(place);
        }
        6 => rows.push([rank, rng.between(-101, 101) as i32, rng.between(-2, 2) as i32]),
        _ => rows.insert(place, idle(rng)),
    }
}

/// The numbers of the rows, with none, one or two of an unfinished row after them; behind the last that is read any.
fn flat(rng: &mut Rng, rows: &[Row]) -> Vec<i32> {
    let mut numbers: Vec<i32> = rows.concat();
    if rows.len() == ROWS && rng.one_in(2) {
        let more = rng.below(14);
        numbers.extend((0..more).map(|_| rng.pick(&[-100, 100, 0, 1, 7, i32::MIN, i32::MAX])));
    } else {
        let unfinished = rng.below(3);
        numbers.extend((0..unfinished).map(|_| rng.pick(&[-100, 100, 0, 7])));
    }
    numbers
}

/// Any table: most are taken, and the others a change or two away.
fn any_table(rng: &mut Rng, call: &Call) -> Vec<i32> {
    let mut rows = complete(rng, call);
    match rng.below(20) {
        0..12 => {}
        12..16 => changed(rng, &mut rows),
        16..18 => (0..2).for_each(|_| changed(rng, &mut rows)),
        18 => rows.truncate(rng.below(ROWS)),
        _ => {
            let end = |rng: &mut Rng| rng.pick(&[-100, -101, 100, 101, 0, -1, 1, i32::MIN, i32::MAX]);
            rows = (0..rng.below(21)).map(|_| [end(rng), end(rng), rng.between(-2, 2) as i32]).collect();
        }
    }
    flat(rng, &rows)
}

/// Tables at each edge: each rank left out and covered twice; a wrong position in each of 16 rows, of every kind; and
/// a table of 20 rows cut after each number.
fn edge_tables() -> Vec<Vec<i32>> {
    let halves = [[-100, -1, -1], [0, 100, 1]];
    let mut tables = vec![halves.to_vec(), vec![halves[1], halves[0]]];
    for rank in -102..=102 {
        tables.push(without(&halves, rank));
        tables.push([halves[0], [rank, rank, 0], halves[1]].to_vec());
        tables.push([[i32::MIN, rank, 1], [rank, i32::MAX, -1]].to_vec());
    }
    let last = ROWS as i32 - 1;
    let steps = |row: i32| [-100 + 13 * row, if row == last { 100 } else { -88 + 13 * row }, row % 3 - 1];
    let full: Vec<Row> = (0..=last).map(steps).collect();
    for (row, unknown) in (0..ROWS).flat_map(|row| UNKNOWN.iter().map(move |unknown| (row, *unknown))) {
        let mut rows = full.clone();
        rows[row][2] = unknown;
        tables.push(rows.clone());
        rows.remove(row);
        tables.push(rows);
        let mut rows = [[7, 6, 0]; ROWS];
        rows[..2].copy_from_slice(&halves);
        rows[row.max(2)][2] = unknown;
        tables.push(rows.to_vec());
    }
    let mut tables: Vec<Vec<i32>> = tables.into_iter().map(|rows| rows.concat()).collect();
    let long = [full.concat(), vec![-100, 100, 1, 7, 7, 9, 0, 0, 0, 1, 2, 3]].concat();
    tables.extend((0..=long.len()).map(|end| long[..end].to_vec()));
    tables
}

/// Calls that look at a table, and calls that do not: each of these has every edge table.
fn small_calls() -> Vec<Call> {
    let call = |series: &[f64], n: usize| ranks().call(vec![series.to_vec()], vec![Value::Count(n)]);
    vec![call(&[3.0, 1.0, 2.0], 2), call(&[5.0], 1), call(&[1.0, 2.0], 5), call(&[1.0, 2.0, 3.0], 0), call(&[], 2)]
}

// Comparing.

/// The function and the memory that it is lent, used again for each call.
struct Trial {
    library: Exported,
    outputs: Vec<Lent>,
    work: Lent,
    tally: Tally,
}

impl Trial {
    fn new(library: Exported) -> Trial {
        let outputs = vec![Lent::new(Kind::I32)];
        Trial { library, outputs, work: Lent::new(Kind::F64), tally: Tally::default() }
    }

    fn answer(&mut self, lookup: &Lookup, salt: u64) -> Answer {
        self.outputs[0].fill(lookup.call.outputs[0], salt);
        self.work.fill(lookup.call.work, !salt);
        (self.library)(lookup, &mut self.outputs[0], &mut self.work)
    }

    /// Makes one call both ways and counts it.
    fn run(&mut self, lookup: &Lookup, salt: u64) {
        let expected = expected(lookup);
        let answer = self.answer(lookup, salt);
        let differs = differs(answer, &self.outputs, &self.work, &expected);
        let words = || format!("rows {:?}, {}", lookup.rows, describe(&lookup.call));
        self.tally.count(NAME, &expected, differs, words);
    }

    /// The cells of a call that is answered with all its bars.
    fn cells(&mut self, lookup: &Lookup) -> Option<Vec<u64>> {
        let answer = self.answer(lookup, 1);
        let whole = answer == Answer::cells(lookup.call.bars());
        whole.then(|| self.outputs[0].words()[..lookup.call.bars()].to_vec())
    }
}

/// The largest call, then with each seed the edges of tables, those of `rank_positions` with any table, and random
/// calls up to `calls` in all. None where the library does not have the function.
pub fn compared(seeds: &[u64], calls: usize) -> Option<(&'static str, Tally)> {
    let mut trial = Trial::new(LIBRARY?);
    let mut rng = Rng::new(!seeds[0]);
    let call = extreme(&mut rng, ranks());
    trial.run(&Lookup { rows: any_table(&mut rng, &call), call }, seeds[0]);
    for seed in seeds {
        let mut rng = Rng::new(seed.rotate_left(32));
        let small = small_calls();
        let tables = edge_tables();
        let at_edges = small.iter().flat_map(|call| tables.iter().map(move |rows| (call.clone(), Some(rows.clone()))));
        let usual = edges(&mut rng, ranks()).into_iter().map(|call| (call, None));
        let first: Vec<(Call, Option<Vec<i32>>)> = at_edges.chain(usual).collect();
        let more = calls.saturating_sub(first.len());
        let mut lookup = |call: Call, rows: Option<Vec<i32>>| {
            let rows = rows.unwrap_or_else(|| any_table(&mut rng, &call));
            trial.run(&Lookup { call, rows }, rng.word());
        };
        first.into_iter().for_each(|(call, rows)| lookup(call, rows));
        let mut random = Rng::new(*seed);
        (0..more).for_each(|_| lookup(generate::any(&mut random, ranks()), None));
    }
    Some((NAME, trial.tally))
}

/// Two calls with equal bars up to a bar b and equal rows read have the same cells up to b, though their later bars
/// differ, and the numbers behind the rows read. True if none is wrong.
pub fn no_look_ahead(seeds: &[u64], pairs: usize) -> bool {
    let Some(library) = LIBRARY else { return true };
    let mut trial = Trial::new(library);
    let (mut made, mut wrong) = (0, 0);
    for seed in seeds {
        let mut rng = Rng::new(!seed);
        for _ in 0..pairs {
            let whole = generate::any(&mut rng, ranks());
            if whole.bars() == 0 {
                continue;
            }
            let shared = 1 + rng.below(whole.bars());
            let len = shared + rng.below(30);
            let mut other = generate::plain(&mut rng, ranks(), len, whole.parameters.clone());
            other.series[0][..shared].copy_from_slice(&whole.series[0][..shared]);
            let rows = complete(&mut rng, &whole);
            let [rows, others] = [flat(&mut rng, &rows), flat(&mut rng, &rows)];
            let cells = trial.cells(&Lookup { call: whole, rows });
            if let (Some(a), Some(b)) = (cells, trial.cells(&Lookup { call: other, rows: others })) {
                made += 1;
                wrong += (a[..shared] != b[..shared]) as usize;
            }
        }
    }
    println!("{NAME}: no look-ahead in {made} pairs of calls, {wrong} wrong");
    wrong == 0
}
