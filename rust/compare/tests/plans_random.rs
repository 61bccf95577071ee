//! Library and reference on plans of all kinds; run with `cargo test --release`.
//!
//! Each test fails at the first plan on which they differ and shows it.

use compare::plans::{self, Damages, Tally, PLAN_LIMIT};

/// The refusals that a plan which is not too long can meet.
const OF_A_PLAN: [usize; 7] = [2, 3, 7, 8, 9, 10, 11];

fn assert_refusals(tally: &Tally, numbers: &[usize], times: usize) {
    for &number in numbers {
        let count = tally.plan_refused[number];
        assert!(count >= times, "refusal {number} was met {count} times");
    }
}

/// Damages plans of each size (n, f), from so many seeds each, in every way.
fn damaged_plans(sizes: &[(u8, u8, u64)], times: usize) -> (Tally, Damages) {
    let (mut tally, mut damages) = (Tally::default(), Damages::default());
    for &(n, f, seeds) in sizes {
        let (more, more_damages): (Tally, Damages) = plans::damaged_plans(n, f, 0..seeds, times);
        println!("n {n} f {f}: {more}");
        tally.add(&more);
        damages.add(&more_damages);
    }
    println!("{damages}");
    // Every plan was accepted before it was damaged.
    assert!(tally.accepted >= sizes.iter().map(|size| size.2 as usize).sum());
    (tally, damages)
}

#[test]
fn damaged_plans_of_up_to_six_servers() {
    let sizes = [
        (2, 0, 400),
        (3, 0, 400),
        (4, 0, 400),
        (5, 0, 300),
        (6, 0, 200),
        (4, 1, 600),
        (5, 1, 500),
        (6, 1, 160),
    ];
    let (tally, damages) = damaged_plans(&sizes, 2);
    assert!(tally.plans() >= 300_000 && tally.accepted >= 3_000);
    assert_refusals(&tally, &OF_A_PLAN, 5_000);
    assert_eq!(damages.seldom(500), [""; 0], "these damages are seldom");
}

#[test]
fn damaged_plans_of_seven_and_eight_servers() {
    let (tally, _) = damaged_plans(&[(7, 0, 20), (8, 0, 20), (7, 1, 20), (8, 1, 8)], 1);
    assert_refusals(&tally, &OF_A_PLAN, 50);
}

#[test]
fn damaged_plans_for_two_faults() {
    let (tally, damages) = damaged_plans(&[(7, 2, 16), (8, 2, 12)], 1);
    assert_refusals(&tally, &OF_A_PLAN, 20);
    // These have three routes to a receiver and fault sets of two, so every damage
    // is wanted on them as well.
    assert_eq!(damages.seldom(5), [""; 0], "these damages are seldom");
}

#[test]
fn plans_that_break_off_where_the_network_does() {
    let tally: Tally = plans::broken_off_plans(0..4_800, 8);
    println!("broken off: {tally}");
    assert!(tally.accepted >= 1_000);
    assert_refusals(&tally, &OF_A_PLAN, 300);
}

#[test]
fn plans_with_the_card_of_another_network() {
    let tally: Tally = plans::other_cards(0..3_000);
    println!("other cards: {tally}");
    assert_refusals(&tally, &[7, 9], 1_000);
}

#[test]
fn plans_with_twin_cables() {
    let tally: Tally = plans::twin_cables(0..1_200, 20);
    println!("twin cables: {tally}");
    assert_eq!(tally.plans(), 2 * 1_200 * 21);
    assert!(tally.accepted >= 2_400);
    assert_eq!(tally.card_refused, [0; 6]);
    assert_refusals(&tally, &OF_A_PLAN, 500);
}

#[test]
fn any_cards_with_any_plans() {
    let tally: Tally = plans::any_cards(0..5_000);
    println!("any cards: {tally}");
    for (number, &count) in tally.card_refused.iter().enumerate().skip(1) {
        assert!(count >= 500, "refusal {number} was met {count} times");
    }
    assert_refusals(&tally, &[1, 2, 7, 9], 500);
}

#[test]
fn random_bytes_as_plans() {
    let tally: Tally = plans::plan_like_bytes(0..1_000, 50);
    println!("random bytes: {tally}");
    assert_eq!(tally.plans(), 50_000);
    assert_refusals(&tally, &[2, 3, 7, 8, 9, 11], 100);
}

#[test]
fn truncated_plans() {
    for (n, f) in [(2, 0), (3, 0), (4, 0), (5, 0), (4, 1), (5, 1)] {
        let tally: Tally = plans::truncations(n, f, 0..5);
        println!("truncated, n {n} f {f}: {tally}");
        // Each plan is whole only once, and cut off before that.
        assert_eq!(tally.accepted, 5);
        assert_eq!(tally.plan_refused[2], tally.plans() - 5);
    }
}

#[test]
fn every_byte_of_short_plans() {
    let mut tally = Tally::default();
    for (n, f) in [(2, 0), (3, 0), (4, 0), (4, 1)] {
        tally.add(&plans::every_byte(n, f));
    }
    println!("every byte: {tally}");
    // Bytes after the end take a place of their own, once in each plan.
    assert_refusals(&tally, &[2, 7, 8, 9, 10, 11], 100);
    assert_eq!(tally.plan_refused[3], 4);
}

#[test]
fn every_opening_and_every_neighbour_set() {
    for (n, f) in [(3, 0), (4, 0), (4, 1), (5, 1)] {
        let tally: Tally = plans::every_opening(n, f, 2);
        println!("every opening, n {n} f {f}: {tally}");
        assert!(tally.accepted >= 2);
        assert_refusals(&tally, &[7, 8], 500);
    }
    for n in [4, 5] {
        let tally: Tally = plans::every_neighbours(n, 1, 2);
        println!("every neighbour set, n {n} f 1: {tally}");
        // k is fixed, and N may be any two servers with a link to it.
        assert!((2..=2 * 6).contains(&tally.accepted));
        assert_eq!(tally.plan_refused[11], tally.plans() - tally.accepted);
    }
}

#[test]
fn every_short_route() {
    let mut tally = Tally::default();
    for (n, f, routes) in [(3, 0, 9), (4, 0, 6), (4, 1, 16), (5, 1, 1)] {
        let more: Tally = plans::every_short_route(n, f, routes);
        println!("every short route, n {n} f {f}: {more}");
        tally.add(&more);
    }
    assert!(tally.accepted >= 100);
    assert_refusals(&tally, &[9, 10], 100);
}

#[test]
fn plans_around_the_limit() {
    let within: Tally = plans::around_the_limit(&[PLAN_LIMIT - 1, PLAN_LIMIT]);
    println!("within the limit: {within}");
    assert_eq!(within.plan_refused[1], 0);
    assert_refusals(&within, &[2, 3, 7, 9], 4);
    let beyond: Tally = plans::around_the_limit(&[PLAN_LIMIT + 1, PLAN_LIMIT + 2, 2 * PLAN_LIMIT]);
    println!("beyond the limit: {beyond}");
    // Too long are all of them, but a card's refusal comes first.
    let of_cards: usize = beyond.card_refused.iter().sum();
    assert_eq!(beyond.plan_refused[1], beyond.plans() - of_cards);
    assert!(beyond.plan_refused[1] >= 50 && of_cards >= 20);
}
