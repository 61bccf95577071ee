//! The given loads: their answers come from the papers, not from either program.

use compare::loads;

#[test]
fn library_and_reference_answer_as_stated() {
    let tally = loads::given_loads();
    println!("given: {tally}");
    assert_eq!(tally.plans(), 70);
    assert_eq!((tally.plans.accepted, tally.with_relays()), (56, 47));
}

/// The plans that are given with other questions.
#[test]
fn given_plans_are_counted_as_by_the_reference() {
    let [plans, runs] = loads::other_given_plans();
    println!("of plans: {plans}; of runs: {runs}");
    assert_eq!((plans.plans(), plans.plans.accepted), (216, 68));
    assert_eq!(runs.plans(), 364);
}
