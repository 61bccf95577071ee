//! The cases of `data/writes.tsv`, whose answers neither implementation made, and the cards of the
//! other data files.

use super::tally::{plain, Tally};
use crate::text::{cases, hex, unhex};
use crate::{cards, converted, plans, runs};
use agreement::PLAN_LIMIT;
use reference::Unwritten;

const WRITES: &str = include_str!("../../data/writes.tsv");

/// Has both implementations write a plan for every given card, and counts the answers.
///
/// Panics at the first answer that is not the one stated.
pub fn given_plans() -> Tally {
    let mut tally = Tally::default();
    for fields in cases(WRITES) {
        let [note, card, stated] = fields[..] else {
            panic!("a case has three fields: {fields:?}");
        };
        let card = unhex(card);
        for (who, answer) in answers(&card) {
            let answer = plain(&answer);
            assert!(
                answer == stated,
                "{who} does not answer as stated\n  card    {} ({note})\n  stated  {stated}\
                 \n  answer  {answer}",
                hex(&card)
            );
        }
        // They are alike by now; this looks at the plans themselves and counts.
        tally.compare(&card, format_args!("data/writes.tsv, {note}"));
    }
    tally
}

/// What both answer if there is room for every plan.
fn answers(card: &[u8]) -> [(&'static str, Result<usize, Unwritten>); 2] {
    let mut lent = vec![0; PLAN_LIMIT];
    let library = converted::written(agreement::write_plan(card, &mut lent));
    let reference = reference::write_plan(card, &mut lent);
    [("library", library), ("reference", reference)]
}

/// Has both write a plan for every card of `data/cards.tsv`, `data/plans.tsv` and
/// `data/runs.tsv`, and counts the answers for each file.
pub fn other_given_cards() -> [Tally; 3] {
    [cards::CARDS, plans::PLANS, runs::RUNS].map(|file| {
        let mut tally = Tally::default();
        // The card comes after the note in all of them.
        for fields in cases(file) {
            tally.compare(&unhex(fields[1]), format_args!("{}", fields[0]));
        }
        tally
    })
}
