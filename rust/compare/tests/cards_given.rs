//! The given cards: their answers come from the papers, not from either program.

#[test]
fn library_and_reference_answer_as_stated() {
    let tally = compare::cards::given_cards();
    println!("given: {tally}");
    assert_eq!(tally.cards(), 662 + 420);
    assert_eq!(tally.accepted(), 330 + 257);
}
