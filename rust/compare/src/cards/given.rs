//! The cases of `data/cards.tsv`, whose answers neither implementation made.

use super::answers::Answers;
use super::tally::Tally;
use crate::text::{cases, hex, unhex};

pub(crate) const CARDS: &str = include_str!("../../data/cards.tsv");

/// What stands for an answer that is not stated.
const NOT_STATED: &str = "-";

/// One line of the file.
struct Case {
    note: &'static str,
    card: Vec<u8>,
    read: &'static str,
    split: &'static str,
}

/// Asks both implementations about every given card and counts the answers.
///
/// Panics at the first answer that is not the one stated.
pub fn given_cards() -> Tally {
    let mut tally = Tally::default();
    for case in cases(CARDS).map(parse) {
        check("library", &case, &Answers::of_library(&case.card));
        check("reference", &case, &Answers::of_reference(&case.card));
        // They are alike by now; this counts.
        tally.compare(&case.card, format_args!("data/cards.tsv, {}", case.note));
    }
    tally
}

fn check(who: &str, case: &Case, answers: &Answers) {
    let is_stated = |stated: &str, answer: String| stated == NOT_STATED || stated == answer;
    assert!(
        is_stated(case.read, answers.plain_read()) && is_stated(case.split, answers.plain_split()),
        "{who} does not answer as stated\n  card    {} ({})\n  stated  {}; {}\n  answer  {answers}",
        hex(&case.card),
        case.note,
        case.read,
        case.split
    );
}

fn parse(fields: Vec<&'static str>) -> Case {
    let [note, card, read, split] = fields[..] else {
        panic!("a case has four fields: {fields:?}");
    };
    Case {
        note,
        card: unhex(card),
        read,
        split,
    }
}
