//! The cases of `data/loads.tsv`, whose answers neither implementation made, and the plans of
//! the other data files.

use super::tally::Tally;
use crate::plans::{held, Compared, PLANS};
use crate::runs::RUNS;
use crate::text::{cases, plan_after, unhex};

/// Asks both implementations about every given load and counts the answers.
///
/// Panics at the first answer that is not the one stated.
pub fn given_loads() -> Tally {
    const LOADS: &str = include_str!("../../data/loads.tsv");
    held(LOADS, "data/loads.tsv")
}

/// Asks about every card and plan of `data/plans.tsv` and `data/runs.tsv`, and counts the
/// answers for each file.
pub fn other_given_plans() -> [Tally; 2] {
    [PLANS, RUNS].map(|file| {
        let mut tally = Tally::default();
        let mut plan = Vec::new();
        for fields in cases(file) {
            // Card and plan come after the note in both of them.
            let [note, card, plan_field, ..] = fields[..] else {
                panic!("a case has a card and a plan: {fields:?}");
            };
            plan = plan_after(plan, plan_field);
            let _ = tally.compare(&unhex(card), &plan, format_args!("{note}"));
        }
        tally
    })
}
