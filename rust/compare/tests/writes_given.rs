//! The given cards for the plan writer: their answers come from the papers, not from either
//! program.

use compare::writes;

#[test]
fn library_and_reference_answer_as_stated() {
    let tally = writes::given_plans();
    println!("given: {tally}");
    assert_eq!((tally.planned(), tally.split()), (44, 9));
    assert_eq!(tally.cards(), 53);
}

/// The cards that are given with other questions.
#[test]
fn given_cards_are_planned_as_by_the_reference() {
    let [cards, plans, runs] = writes::other_given_cards();
    println!("of cards: {cards}; of plans: {plans}; of runs: {runs}");
    assert_eq!(cards.cards(), 662 + 420);
    assert_eq!(plans.cards(), 216);
    assert_eq!(runs.cards(), 364);
}
