//! The given plans: their answers come from the papers, not from either program.

#[test]
fn library_and_reference_answer_as_stated() {
    let tally = compare::plans::given_plans();
    println!("given: {tally}");
    assert_eq!(tally.plans(), 216);
    assert_eq!(tally.accepted, 68);
}
