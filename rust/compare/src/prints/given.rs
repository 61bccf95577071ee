//! The cases of `data/prints.tsv`, whose answers neither implementation made, and the
//! cards of the other data files.

use super::round_trip::Trips;
use super::tally::{Call, Tally};
use crate::lent::Call as _;
use crate::text::{cases, unhex};
use crate::{cards, plans, runs};

const PRINTS: &str = include_str!("../../data/prints.tsv");

/// One line of the file.
struct Case {
    note: &'static str,
    card: Vec<u8>,
    lent: usize,
    answer: &'static str,
}

/// Has both implementations print every given card into the given buffer, and into those
/// of other lengths; counts the answers to the given calls.
///
/// Panics at the first answer that is not the one stated.
pub fn given_prints() -> Tally {
    let (mut given, mut others) = (Tally::default(), Tally::default());
    for case in cases(PRINTS).map(parse) {
        let call = Call {
            card: &case.card,
            lent: case.lent,
        };
        let made_by = format_args!("data/prints.tsv, {}", case.note);
        call.held_to(case.answer, made_by);
        // They are alike by now; this looks at the rest of the memory and counts.
        given.call(&call, made_by);
        others.compare(&case.card, made_by);
    }
    given
}

/// Has the library take every card of `data/cards.tsv`, `data/plans.tsv` and
/// `data/runs.tsv` through the round trip, and counts them for each file.
pub fn given_round_trips() -> [Trips; 3] {
    [cards::CARDS, plans::PLANS, runs::RUNS].map(|file| {
        let mut trips = Trips::default();
        // The card comes after the note in all of them.
        for fields in cases(file) {
            trips.add(&unhex(fields[1]), format_args!("{}", fields[0]));
        }
        trips
    })
}

fn parse(fields: Vec<&'static str>) -> Case {
    let [note, card, lent, answer] = fields[..] else {
        panic!("a case has four fields: {fields:?}");
    };
    Case {
        note,
        card: unhex(card),
        lent: lent.parse().expect("a length"),
        answer,
    }
}
