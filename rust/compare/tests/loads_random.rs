//! Library and reference on the load of plans of all kinds; run with `cargo test --release`.
//!
//! Each test fails at the first plan on which they differ, which the plan check refuses
//! otherwise, or whose counts do not add up to its relaying places, and shows it.

use compare::loads::{self, Tally};
use compare::plans::{self, PLAN_LIMIT};

/// The refusals that a plan which is not too long can meet.
const OF_A_PLAN: [usize; 7] = [2, 3, 7, 8, 9, 10, 11];

fn assert_refusals(tally: &Tally, numbers: &[usize], times: usize) {
    for &number in numbers {
        let count = tally.plans.plan_refused[number];
        assert!(count >= times, "refusal {number} was met {count} times");
    }
}

/// Accepted plans of each size (n, f), from so many seeds each; how many in all.
fn accepted_plans(sizes: &[(u8, u8, u64)]) -> usize {
    let mut accepted = 0;
    for &(n, f, seeds) in sizes {
        let tally = loads::accepted_plans(n, f, 0..seeds);
        println!("n {n} f {f}: {tally}");
        let (n, f) = (usize::from(n), usize::from(f));
        let [without, with] = tally.accepted[n][f];
        assert_eq!((without + with) as u64, seeds);
        // Of two servers nobody is left to relay; of more, each does in some plan.
        let relay = &tally.relayed[..if n == 2 { 0 } else { n }];
        assert!(relay.iter().all(|&count| count > 0), "n {n} f {f}");
        assert!(n == 2 || with > 4 * without, "n {n} f {f}");
        accepted += without + with;
    }
    accepted
}

#[test]
fn accepted_plans_without_faults() {
    let sizes = [
        (2, 0, 1_000),
        (3, 0, 20_000),
        (4, 0, 20_000),
        (5, 0, 10_000),
        (6, 0, 3_000),
        (7, 0, 1_000),
        (8, 0, 400),
    ];
    assert_eq!(accepted_plans(&sizes), 55_400);
}

#[test]
fn accepted_plans_with_faults() {
    let sizes = [
        (4, 1, 20_000),
        (5, 1, 6_000),
        (6, 1, 1_000),
        (7, 1, 200),
        (8, 1, 60),
        (7, 2, 100),
        (8, 2, 40),
    ];
    assert_eq!(accepted_plans(&sizes), 27_400);
}

#[test]
fn sparse_networks() {
    for (n, seeds) in [
        (3, 4_000),
        (4, 4_000),
        (5, 4_000),
        (6, 3_000),
        (7, 1_000),
        (8, 500),
    ] {
        let tally = loads::sparse_networks(n, 0..seeds);
        println!("sparse, n {n}: {tally}");
        let [without, with] = tally.accepted[usize::from(n)][0];
        assert_eq!((without + with) as u64, seeds);
        assert!(with > 4 * without, "n {n}");
    }
}

#[test]
fn damaged_plans() {
    let sizes = [
        (2, 0, 100),
        (3, 0, 100),
        (4, 0, 100),
        (5, 0, 100),
        (6, 0, 50),
        (7, 0, 10),
        (8, 0, 10),
        (4, 1, 200),
        (5, 1, 200),
        (6, 1, 40),
        (7, 1, 10),
        (8, 1, 4),
        (7, 2, 4),
        (8, 2, 4),
    ];
    let mut tally = Tally::default();
    for (n, f, seeds) in sizes {
        let (more, _): (Tally, _) = plans::damaged_plans(n, f, 0..seeds, 2);
        println!("damaged, n {n} f {f}: {more}");
        tally.add(&more);
    }
    println!("damaged: {tally}");
    assert!(tally.plans() >= 100_000);
    // More are accepted than were before they were damaged.
    let sound: u64 = sizes.iter().map(|size| size.2).sum();
    assert!(tally.plans.accepted as u64 >= sound + 500);
    assert_refusals(&tally, &OF_A_PLAN, 1_000);
}

#[test]
fn plans_that_break_off_where_the_network_does() {
    let tally: Tally = plans::broken_off_plans(0..2_400, 8);
    println!("broken off: {tally}");
    assert!(tally.with_relays() >= 500);
    assert_refusals(&tally, &OF_A_PLAN, 150);
}

#[test]
fn plans_with_the_card_of_another_network() {
    let tally: Tally = plans::other_cards(0..1_500);
    println!("other cards: {tally}");
    assert!(tally.with_relays() >= 300);
    assert_refusals(&tally, &[7, 9], 1_000);
}

#[test]
fn plans_with_twin_cables() {
    let tally: Tally = plans::twin_cables(0..600, 20);
    println!("twin cables: {tally}");
    assert_eq!(tally.plans(), 2 * 600 * 21);
    assert!(tally.with_relays() >= 800);
    assert_refusals(&tally, &OF_A_PLAN, 200);
}

#[test]
fn any_cards_with_any_plans() {
    let tally: Tally = plans::any_cards(0..2_000);
    println!("any cards: {tally}");
    for (number, &count) in tally.plans.card_refused.iter().enumerate().skip(1) {
        assert!(count >= 200, "refusal {number} was met {count} times");
    }
    assert_refusals(&tally, &[1, 2, 7, 9], 200);
}

#[test]
fn random_bytes_as_plans() {
    let tally: Tally = plans::plan_like_bytes(0..500, 50);
    println!("random bytes: {tally}");
    assert_eq!(tally.plans(), 25_000);
    assert_refusals(&tally, &[2, 3, 7, 8, 9, 11], 50);
}

#[test]
fn truncated_plans() {
    for (n, f) in [(2, 0), (3, 0), (4, 0), (5, 0), (4, 1), (5, 1)] {
        let tally: Tally = plans::truncations(n, f, 0..3);
        println!("truncated, n {n} f {f}: {tally}");
        // Each plan is whole only once, and cut off before that.
        assert_eq!(tally.plans.accepted, 3);
        assert_eq!(tally.plans.plan_refused[2], tally.plans() - 3);
    }
}

#[test]
fn every_byte_of_short_plans() {
    let mut tally = Tally::default();
    for (n, f) in [(2, 0), (3, 0), (4, 0), (4, 1)] {
        tally.add(&plans::every_byte(n, f));
    }
    println!("every byte: {tally}");
    assert!(tally.with_relays() >= 1_000);
    assert_refusals(&tally, &[2, 7, 8, 9, 10, 11], 100);
}

#[test]
fn every_short_route() {
    let mut tally = Tally::default();
    for (n, f, routes) in [(3, 0, 9), (4, 0, 6), (4, 1, 16), (5, 1, 1)] {
        tally.add(&plans::every_short_route(n, f, routes));
    }
    println!("every short route: {tally}");
    assert!(tally.with_relays() >= 100);
    assert_refusals(&tally, &[9, 10], 100);
}

#[test]
fn plans_around_the_limit() {
    let within: Tally = plans::around_the_limit(&[PLAN_LIMIT - 1, PLAN_LIMIT]);
    println!("within the limit: {within}");
    assert_eq!(within.plans.plan_refused[1], 0);
    let beyond: Tally = plans::around_the_limit(&[PLAN_LIMIT + 1, PLAN_LIMIT + 2, 2 * PLAN_LIMIT]);
    println!("beyond the limit: {beyond}");
    // Too long are all of them, but a card's refusal comes first.
    let of_cards: usize = beyond.plans.card_refused.iter().sum();
    assert_eq!(beyond.plans.plan_refused[1], beyond.plans() - of_cards);
    assert!(of_cards >= 20);
}
