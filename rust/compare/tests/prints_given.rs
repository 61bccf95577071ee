//! The given cards to be printed: their answers come from the papers, not from either
//! program.

use compare::prints::{self, Trips};

#[test]
fn library_and_reference_answer_as_stated() {
    let tally = prints::given_prints();
    println!("given: {tally}");
    assert_eq!(tally.calls(), 300);
    assert_eq!(tally.printed, 144);
    assert_eq!(tally.calls_refused[1..6], [3, 18, 9, 8, 10]);
    assert_eq!(tally.calls_refused[14], 108);
}

/// By the library alone, on the cards that are given with other questions.
#[test]
fn given_cards_take_the_round_trip() {
    let [cards, plans, runs] = prints::given_round_trips();
    println!("of cards: {cards}; of plans: {plans}; of runs: {runs}");
    let trips = |taken, all: usize| Trips {
        taken,
        refused: all - taken,
    };
    assert_eq!(cards, trips(330 + 257, 662 + 420));
    assert_eq!(plans, trips(207, 216));
    assert_eq!(runs, trips(358, 364));
}
