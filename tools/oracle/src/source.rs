//! What a call must leave: document 01's table for the answer, pure.rs for the cells.

use crate::call::{Call, Expected};
use crate::catalogue::Function;
use crate::table;

pub fn expected(function: &Function, call: &Call) -> Expected {
    let answer = table::answer(function, call);
    let cleared = table::cleared(function, call, answer);
    let cells = if answer.refusal == 0 { (function.source)(call) } else { vec![Vec::new(); function.outputs] };
    let counted = cells.len() == function.outputs && cells.iter().all(|line| line.len() as u64 == answer.count);
    assert!(counted, "{} gives another number of cells than document 01", function.name);
    Expected { answer, cells, cleared }
}
