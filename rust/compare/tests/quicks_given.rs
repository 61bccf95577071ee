//! The given cards for the quick test: their answers come from the papers, not from either
//! program.

use compare::quicks::{self, Tally};

#[test]
fn library_and_reference_answer_as_stated() {
    let tally = quicks::given_quicks();
    println!("given: {tally}");
    assert_eq!(tally.cards(), 400);
    assert_eq!([tally.yes(), tally.no()], [137, 194]);
    assert_eq!(tally.refused[1..6], [4, 13, 7, 5, 12]);
    assert_eq!(tally.refused[15], 28);
}

/// The cards that are given with other questions.
#[test]
fn given_cards_are_answered_as_by_the_split_test() {
    let [cards, plans, runs] = quicks::other_given_cards();
    println!("of cards: {cards}; of plans: {plans}; of runs: {runs}");
    let read = |tally: &Tally| tally.answered() + tally.refused[15];
    assert_eq!((cards.cards(), read(&cards)), (662 + 420, 330 + 257));
    assert_eq!((plans.cards(), read(&plans)), (216, 207));
    assert_eq!((runs.cards(), read(&runs)), (364, 358));
    // Plans and runs are given for networks without a bad split alone.
    assert_eq!([cards.yes(), cards.no()], [126, 110]);
    assert_eq!([plans.yes(), plans.no()], [106, 0]);
    assert_eq!([runs.yes(), runs.no()], [215, 0]);
}
