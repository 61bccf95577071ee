//! The cases of `data/quicks.tsv`, whose answers neither implementation made, and the cards
//! of the other data files.

use super::tally::{Answer, Tally};
use crate::converted;
use crate::text::{cases, hex, plain, unhex};
use crate::{cards, plans, runs};

pub(crate) const QUICKS: &str = include_str!("../../data/quicks.tsv");

/// One line of the file.
struct Case {
    note: &'static str,
    card: Vec<u8>,
    answer: &'static str,
}

/// Asks both implementations about every given card and counts the answers.
///
/// Panics at the first answer that is not the one stated.
pub fn given_quicks() -> Tally {
    let mut tally = Tally::default();
    for case in cases(QUICKS).map(parse) {
        let library = converted::quick(agreement::quick_test(&case.card));
        check("library", &case, library);
        check("reference", &case, reference::quick_test(&case.card));
        // They are alike by now; this asks the library's other functions and counts.
        tally.compare(&case.card, format_args!("data/quicks.tsv, {}", case.note));
    }
    tally
}

/// Asks about every card of `data/cards.tsv`, `data/plans.tsv` and `data/runs.tsv`, and
/// counts the answers for each file.
pub fn other_given_cards() -> [Tally; 3] {
    [cards::CARDS, plans::PLANS, runs::RUNS].map(|file| {
        let mut tally = Tally::default();
        // The card comes after the note in all of them.
        for fields in cases(file) {
            tally.compare(&unhex(fields[1]), format_args!("{}", fields[0]));
        }
        tally
    })
}

fn check(who: &str, case: &Case, answer: Answer) {
    let answer = plain(&answer);
    assert!(
        answer == case.answer,
        "{who} does not answer as stated\n  card    {} ({})\n  stated  {}\n  answer  {answer}",
        hex(&case.card),
        case.note,
        case.answer
    );
}

fn parse(fields: Vec<&'static str>) -> Case {
    let [note, card, answer] = fields[..] else {
        panic!("a case has three fields: {fields:?}");
    };
    Case {
        note,
        card: unhex(card),
        answer,
    }
}
