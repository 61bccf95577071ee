//! The given runs: their answers come from the papers, not from either program.

#[test]
fn library_and_reference_answer_as_stated() {
    let tally = compare::runs::given_runs();
    println!("given: {tally}");
    assert_eq!(tally.runs(), 364);
    assert_eq!(tally.all_answered(), 235);
    assert_eq!(tally.call_refused[12..], [34, 34, 23]);
}
