//! Library and reference on calls to run of all kinds; run with `cargo test --release`.
//!
//! Each test fails at the first call on which they differ, or whose answer cannot be,
//! and shows it.

use compare::runs::{self, Tally};

/// The refusals that a card and a plan can meet.
const OF_A_CARD: [usize; 5] = [1, 2, 3, 4, 5];
const OF_A_PLAN: [usize; 8] = [1, 2, 3, 7, 8, 9, 10, 11];

fn assert_call_refusals(tally: &Tally, times: usize) {
    for (number, &count) in tally.call_refused.iter().enumerate().skip(12) {
        assert!(count >= times, "refusal {number} was met {count} times");
    }
}

/// Random calls on plans of each size (n, f), from so many seeds and with so many calls
/// to each plan.
fn random_calls(sizes: &[(u8, u8, u64, usize)]) -> Tally {
    let mut tally = Tally::default();
    for &(n, f, seeds, times) in sizes {
        let more = runs::random_calls(n, f, 0..seeds, times);
        println!("n {n} f {f}: {more}");
        // Of each size every refusal of a call, and every number of faulty servers.
        assert_call_refusals(&more, more.runs() / 50);
        let due = usize::from(f) + 1;
        assert!(more.answered[..due].iter().all(|&count| count >= 20));
        assert_eq!(more.answered[due..].iter().sum::<usize>(), 0);
        tally.add(&more);
    }
    tally
}

#[test]
fn random_calls_of_up_to_six_servers() {
    let tally = random_calls(&[
        (2, 0, 100, 100),
        (3, 0, 200, 100),
        (4, 0, 200, 100),
        (5, 0, 200, 100),
        (6, 0, 100, 60),
        (4, 1, 300, 100),
        (5, 1, 300, 100),
        (6, 1, 60, 100),
    ]);
    println!("random: {tally}");
    assert!(tally.runs() >= 100_000);
    assert_call_refusals(&tally, 5_000);
    assert!(tally.contested.iter().all(|&count| count >= 10_000));
}

#[test]
fn random_calls_of_seven_and_eight_servers() {
    let tally = random_calls(&[
        (7, 0, 40, 100),
        (8, 0, 20, 100),
        (7, 1, 20, 150),
        (8, 1, 10, 150),
    ]);
    println!("random: {tally}");
    assert!(tally.contested.iter().all(|&count| count >= 500));
}

#[test]
fn random_calls_for_two_faults() {
    let tally = random_calls(&[(7, 2, 12, 200), (8, 2, 10, 120)]);
    println!("random: {tally}");
    assert!(tally.answered[2] >= 1_000);
}

#[test]
fn servers_that_fall_silent() {
    let mut runs = 0;
    let mut otherwise = 0;
    for (n, f, seeds, times) in [
        (4, 1, 200, 40),
        (5, 1, 100, 40),
        (6, 1, 10, 40),
        (7, 2, 2, 40),
    ] {
        let silent = runs::silent_servers(n, f, 0..seeds, times);
        println!("silent servers, n {n} f {f}: {}", silent.tally);
        // All calls are right, and each is made three times.
        assert_eq!(silent.tally.all_answered(), silent.tally.runs());
        assert_eq!(silent.tally.runs(), 3 * seeds as usize * times);
        runs += seeds as usize * times;
        otherwise += silent.otherwise;
    }
    println!("silent servers: {runs} runs, {otherwise} otherwise with bytes that are no bits");
    assert!(otherwise >= runs / 50);
}

#[test]
fn calls_with_twin_cables() {
    let mut tally = Tally::default();
    for (n, f, seeds, times) in [
        (2, 0, 50, 20),
        (3, 0, 50, 20),
        (5, 0, 50, 20),
        (4, 1, 100, 20),
        (5, 1, 100, 20),
        (7, 2, 4, 20),
        (8, 2, 2, 20),
    ] {
        tally.add(&runs::twin_cables(n, f, 0..seeds, times));
    }
    println!("twin cables: {tally}");
    assert_eq!(tally.all_answered(), tally.runs());
    assert!(tally.contested.iter().all(|&count| count >= 1_000));
}

#[test]
fn every_faulty_set() {
    let mut tally = Tally::default();
    for (n, f, seeds, times) in [
        (2, 0, 5, 10),
        (3, 0, 5, 10),
        (4, 0, 5, 10),
        (5, 0, 3, 10),
        (6, 0, 3, 10),
        (7, 0, 1, 10),
        (8, 0, 1, 10),
        (4, 1, 10, 50),
        (5, 1, 10, 50),
        (6, 1, 3, 20),
        (7, 1, 1, 20),
        (8, 1, 1, 20),
        (7, 2, 1, 10),
        (8, 2, 1, 10),
    ] {
        let more = runs::every_faulty_set(n, f, 0..seeds, times);
        println!("every faulty set, n {n} f {f}: {more}");
        let refused = more.call_refused[13];
        assert_eq!(refused, seeds as usize * (256 - sets_of_at_most(f, n)));
        assert_eq!(more.runs(), more.all_answered() + refused);
        tally.add(&more);
    }
    assert!(tally.answered.iter().all(|&count| count >= 300));
}

/// How many sets of at most `f` of `n` servers there are.
fn sets_of_at_most(f: u8, n: u8) -> usize {
    let sets = (0..1u32 << n).filter(|set| set.count_ones() <= u32::from(f));
    sets.count()
}

#[test]
fn every_input_against_every_kind_of_table() {
    let mut tally = Tally::default();
    for (n, f, seeds) in [
        (2, 0, 20),
        (3, 0, 20),
        (4, 0, 10),
        (5, 0, 5),
        (4, 1, 30),
        (5, 1, 10),
        (6, 1, 1),
    ] {
        let more = runs::every_input(n, f, 0..seeds);
        println!("every input, n {n} f {f}: {more}");
        // All calls are right.
        assert_eq!(more.all_answered(), more.runs());
        tally.add(&more);
    }
    assert!(tally.answered[1] >= 20_000);
}

#[test]
fn every_table() {
    for (n, f, seeds) in [(2, 0, 10), (3, 0, 10), (4, 0, 5), (4, 1, 4), (5, 1, 2)] {
        let tally = runs::every_table(n, f, 0..seeds);
        println!("every table, n {n} f {f}: {tally}");
        assert_eq!(tally.all_answered(), tally.runs());
    }
}

#[test]
fn tables_that_matter_past_their_first_65_536_bytes() {
    let tally = runs::late_tables(300);
    println!("late tables: {tally}");
    assert_eq!(tally.answered, [0, 0, 300]);
}

#[test]
fn calls_that_are_wrong_in_several_ways() {
    let mut tally = Tally::default();
    for (n, f) in [(2, 0), (3, 0), (4, 0), (5, 0), (4, 1), (5, 1)] {
        tally.add(&runs::wrong_calls(n, f));
    }
    println!("wrong calls: {tally}");
    assert_call_refusals(&tally, 500);
    assert!(tally.all_answered() >= 500);
}

#[test]
fn calls_with_refused_cards_and_plans() {
    let tally = runs::refused_plans(0..1_500, 24);
    println!("refused cards and plans: {tally}");
    for number in OF_A_CARD {
        let count = tally.card_refused[number];
        assert!(
            count >= 100,
            "refusal {number} of a card was met {count} times"
        );
    }
    for number in OF_A_PLAN {
        let count = tally.plan_refused[number];
        assert!(
            count >= 100,
            "refusal {number} of a plan was met {count} times"
        );
    }
}
