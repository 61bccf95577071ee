//! The given calls for a server: their answers come from the papers, not from either
//! program.

use compare::servers;

#[test]
fn starts_are_answered_as_stated() {
    let tally = servers::given_starts();
    println!("given starts: {tally}");
    assert_eq!((tally.calls(), tally.starts), (42, 21));
    assert_eq!(tally.start_refused[12], 19);
}

#[test]
fn asks_are_answered_as_stated() {
    let tally = servers::given_asks();
    println!("given asks: {tally}");
    assert_eq!((tally.calls(), tally.answered()), (107, 38));
    assert_eq!(
        [13, 14, 16].map(|number| tally.ask_refused[number]),
        [31, 6, 29]
    );
}

#[test]
fn commits_are_answered_as_stated() {
    let tally = servers::given_commits();
    println!("given commits: {tally}");
    assert_eq!((tally.calls(), tally.answered()), (181, 29));
    assert_eq!(
        [13, 16].map(|number| tally.commit_refused[number]),
        [68, 72]
    );
}
