//! Library and reference on calls for a server of all kinds, and servers stepped side by
//! side by the library; run with `cargo test --release`.
//!
//! Each test fails at the first call on which they differ, or whose answer cannot be, and
//! at the first server that does not hold what it holds in the run, and shows it.

use compare::servers::{self, Beside, Tally};

/// The refusals that a card and a plan can meet, and those of a start, an ask and a commit.
const OF_A_CARD: [usize; 5] = [1, 2, 3, 4, 5];
const OF_A_PLAN: [usize; 8] = [1, 2, 3, 7, 8, 9, 10, 11];
const OF_A_START: [usize; 2] = [12, 13];
const OF_AN_ASK: [usize; 3] = [13, 14, 16];
const OF_A_COMMIT: [usize; 2] = [13, 16];

/// Each of these numbers was met so often.
fn assert_met(what: &str, counts: &[usize], numbers: &[usize], times: usize) {
    for &number in numbers {
        let count = counts[number];
        assert!(
            count >= times,
            "refusal {number} of {what} was met {count} times"
        );
    }
}

/// Each refusal of a call was met so often, and every kind was asked and committed.
fn assert_calls(tally: &Tally, times: usize) {
    assert_met("a start", &tally.start_refused, &OF_A_START, times);
    assert_met("an ask", &tally.ask_refused, &OF_AN_ASK, times);
    assert_met("a commit", &tally.commit_refused, &OF_A_COMMIT, times);
    assert!(tally.starts >= times);
    assert!(tally.asks.iter().all(|&count| count >= times));
    assert!(tally.commits.iter().all(|&count| count >= times));
}

/// Random calls on plans of each size (n, f), from so many seeds and with so many calls to
/// each plan.
fn any_calls(sizes: &[(u8, u8, u64, usize)]) -> Tally {
    let mut tally = Tally::default();
    for &(n, f, seeds, times) in sizes {
        let more = servers::any_calls(n, f, 0..seeds, times);
        println!("n {n} f {f}: {more}");
        assert_calls(&more, more.calls() / 200);
        tally.add(&more);
    }
    tally
}

#[test]
fn any_calls_of_up_to_six_servers() {
    let tally = any_calls(&[
        (2, 0, 100, 400),
        (3, 0, 200, 200),
        (4, 0, 200, 200),
        (5, 0, 100, 200),
        (6, 0, 20, 200),
        (4, 1, 200, 200),
        (5, 1, 100, 200),
        (6, 1, 10, 300),
    ]);
    println!("any calls: {tally}");
    assert!(tally.calls() >= 200_000);
    assert_calls(&tally, 2_000);
}

#[test]
fn any_calls_of_seven_and_eight_servers() {
    let tally = any_calls(&[
        (7, 0, 5, 400),
        (8, 0, 3, 400),
        (7, 1, 3, 400),
        (8, 1, 1, 400),
        (7, 2, 1, 800),
        (8, 2, 1, 400),
    ]);
    println!("any calls: {tally}");
    assert!(tally.calls() >= 5_000);
}

#[test]
fn every_state_and_those_beside_it() {
    let mut tally = Tally::default();
    for (n, f, seeds) in [(2, 0, 10), (3, 0, 5), (4, 0, 2), (4, 1, 1)] {
        let more = servers::every_state(n, f, 0..seeds);
        println!("every state, n {n} f {f}: {more}");
        assert_eq!(more.starts as u64, seeds * 2 * u64::from(n));
        tally.add(&more);
    }
    assert!(tally.calls() >= 300_000);
    assert_met("an ask", &tally.ask_refused, &OF_AN_ASK, 2_000);
    assert_met("a commit", &tally.commit_refused, &OF_A_COMMIT, 2_000);
}

#[test]
fn everything_that_can_arrive() {
    let mut tally = Tally::default();
    for (n, f, seeds) in [(2, 0, 10), (3, 0, 10), (4, 0, 5), (5, 0, 2), (4, 1, 5)] {
        let more = servers::every_arrival(n, f, 0..seeds);
        println!("every arrival, n {n} f {f}: {more}");
        // All calls are right.
        assert_eq!(more.commits.iter().sum::<usize>(), more.calls());
        tally.add(&more);
    }
    assert!(tally.commits.iter().all(|&count| count >= 10_000));
}

#[test]
fn calls_with_refused_cards_and_plans() {
    let tally = servers::refused_sites(0..1_500, 24);
    println!("refused cards and plans: {tally}");
    assert_met("a card", &tally.card_refused, &OF_A_CARD, 100);
    assert_met("a plan", &tally.plan_refused, &OF_A_PLAN, 100);
}

/// Whole runs on plans of each size (n, f), from so many seeds and so many for each faulty
/// set.
fn side_by_side(sizes: &[(u8, u8, u64, usize)]) -> Beside {
    let mut beside = Beside::default();
    for &(n, f, seeds, times) in sizes {
        let more = servers::side_by_side(n, f, 0..seeds, times);
        println!("n {n} f {f}: {more}");
        beside.add(&more);
    }
    beside
}

#[test]
fn servers_without_faults_side_by_side() {
    let beside = side_by_side(&[
        (2, 0, 200, 20),
        (3, 0, 300, 20),
        (4, 0, 300, 10),
        (5, 0, 50, 10),
        (6, 0, 10, 5),
        (7, 0, 3, 2),
        (8, 0, 2, 1),
    ]);
    println!("side by side: {beside}");
    assert!(beside.all_runs() >= 13_000);
    assert!(beside.contested.iter().all(|&count| count >= 2_000));
}

#[test]
fn servers_with_faults_side_by_side() {
    let beside = side_by_side(&[(4, 1, 200, 8), (5, 1, 20, 2), (6, 1, 1, 1), (7, 1, 1, 1)]);
    println!("side by side: {beside}");
    assert!(beside.runs[1] >= 6_000);
    assert!(beside.all_runs() >= 8_000);
    assert!(beside.contested.iter().all(|&count| count >= 2_000));
    // The table was looked at where it has a byte and where it has none.
    assert!(beside.by_table >= 100_000 && beside.missing >= 10_000);
}

/// One run of seven servers with f 2 for every second of the 29 faulty sets, as this plan is
/// long; the two tests that share them go side by side.
fn seven_with_two_faults(first: usize) -> Beside {
    let mut beside = Beside::default();
    let sets = (0u8..1 << 7).filter(|set| set.count_ones() <= 2);
    for faulty in sets.skip(first).step_by(2) {
        beside.add(&servers::side_by_side_with(faulty, 7, 2, 1));
    }
    println!("side by side: {beside}");
    beside
}

#[test]
fn seven_servers_with_two_faults_side_by_side() {
    let beside = seven_with_two_faults(0);
    assert_eq!(beside.all_runs(), 15);
    assert!(beside.runs[2] >= 10);
}

#[test]
fn seven_servers_with_the_other_two_faults_side_by_side() {
    let beside = seven_with_two_faults(1);
    assert_eq!(beside.all_runs(), 14);
    assert!(beside.runs[2] >= 10);
}
