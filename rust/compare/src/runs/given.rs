//! The cases of `data/runs.tsv`, whose answers neither implementation made.

use super::tally::{Call, Tally};
use crate::lent::Call as _;
use crate::text::{cases, plan_after, unhex};

pub(crate) const RUNS: &str = include_str!("../../data/runs.tsv");

/// One line of the file.
struct Case {
    note: &'static str,
    card: Vec<u8>,
    plan: Vec<u8>,
    inputs: Vec<u8>,
    faulty: u8,
    table: Vec<u8>,
    lent: usize,
    answer: &'static str,
}

/// Has both implementations run every given call and counts the answers.
///
/// Panics at the first answer that is not the one stated.
pub fn given_runs() -> Tally {
    let mut tally = Tally::default();
    let mut plan = Vec::new();
    for fields in cases(RUNS) {
        let case = parse(fields, plan);
        let call = Call {
            card: &case.card,
            plan: &case.plan,
            inputs: &case.inputs,
            faulty: case.faulty,
            table: &case.table,
            lent: case.lent,
        };
        let made_by = format_args!("data/runs.tsv, {}", case.note);
        call.held_to(case.answer, made_by);
        // They are alike by now; this looks at the rest of the memory and counts.
        tally.compare(&call, made_by);
        plan = case.plan;
    }
    tally
}

/// `before` is the plan of the case before.
fn parse(fields: Vec<&'static str>, before: Vec<u8>) -> Case {
    let [note, card, plan, inputs, faulty, table, lent, answer] = fields[..] else {
        panic!("a case has eight fields: {fields:?}");
    };
    Case {
        note,
        card: unhex(card),
        plan: plan_after(before, plan),
        inputs: unhex(inputs),
        faulty: faulty.parse().expect("a set as a number"),
        table: unhex(table),
        lent: lent.parse().expect("a length"),
        answer,
    }
}
