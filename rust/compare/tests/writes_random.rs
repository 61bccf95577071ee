//! Library and reference write plans for cards of all kinds; run with `cargo test --release`.
//!
//! Each test fails at the first card on which they differ, or whose plan the plan check refuses,
//! and shows it.

use compare::cards::CARDS_OF_A_LENGTH;
use compare::writes::{self, Tally, BUFFERS, FOR_REFUSED};

const CARD_LIMIT: usize = 1_024;

/// Each card was met with all its buffers: one that has a plan with some too short for it, which
/// are refused 18, and some with room, and any other with its own refusal.
fn assert_every_buffer(tally: &Tally) {
    let [too_short, with_room] = BUFFERS;
    let refused: usize = tally.refused.iter().sum();
    assert_eq!(tally.written, with_room * tally.planned());
    assert_eq!(
        tally.calls_refused,
        [
            FOR_REFUSED * refused,
            FOR_REFUSED * tally.split(),
            too_short * tally.planned()
        ]
    );
}

/// Networks of each size (n, f), from so many seeds each, all with a plan; how many in all.
fn planned(sizes: &[(u8, u8, u64)], networks: fn(u8, u8, u64) -> Tally) -> usize {
    let mut all = 0;
    for &(n, f, seeds) in sizes {
        let tally = networks(n, f, seeds);
        println!("n {n} f {f}: {tally}");
        assert_eq!(tally.planned[usize::from(n)][usize::from(f)] as u64, seeds);
        assert_every_buffer(&tally);
        all += tally.cards();
    }
    all
}

#[test]
fn random_cards() {
    let tally = writes::random_cards(0..20_000);
    println!("random: {tally}");
    assert_eq!(tally.cards(), 20_000);
    assert_every_buffer(&tally);
    assert!(tally.planned() >= 1_500 && tally.split() >= 2_500);
    for (number, &count) in tally.refused.iter().enumerate().skip(1) {
        assert!(count >= 500, "refusal {number} was met {count} times");
    }
}

#[test]
fn networks_with_and_without_a_bad_split() {
    let tally = writes::networks(|n, f| match (n, f) {
        (7.., 2) => 60,
        (8, 1) => 100,
        _ => 300,
    });
    println!("networks: {tally}");
    assert_eq!(tally.cards(), 18 * 300 + 2 * 60 + 100);
    assert_every_buffer(&tally);
    for n in 2..=8 {
        for f in 0..=2 {
            let (planned, split) = (tally.planned[n][f], tally.split[n][f]);
            assert!(split >= 20, "n {n} f {f}: {split} with a bad split");
            match n > 3 * f {
                true => assert!(planned >= 10, "n {n} f {f}: {planned} with a plan"),
                false => assert_eq!(planned, 0, "n {n} f {f}"),
            }
        }
    }
}

#[test]
fn networks_without_a_bad_split() {
    let sizes = [
        (2, 0, 100),
        (3, 0, 400),
        (4, 0, 600),
        (5, 0, 600),
        (6, 0, 400),
        (7, 0, 200),
        (8, 0, 100),
        (4, 1, 600),
        (5, 1, 600),
        (6, 1, 300),
        (7, 1, 60),
        (8, 1, 25),
        (7, 2, 20),
        (8, 2, 12),
    ];
    let good = |n, f, seeds| writes::good_networks(n, f, 0..seeds);
    assert_eq!(planned(&sizes, good), 4_017);
}

#[test]
fn networks_that_can_lack_no_link() {
    let sizes = [
        (2, 0, 20),
        (3, 0, 200),
        (4, 0, 400),
        (5, 0, 400),
        (6, 0, 400),
        (7, 0, 200),
        (8, 0, 60),
        (4, 1, 100),
        (5, 1, 400),
        (6, 1, 300),
        (7, 1, 60),
        (8, 1, 25),
        (7, 2, 10),
        (8, 2, 8),
    ];
    let bare = |n, f, seeds| writes::bare_networks(n, f, 0..seeds);
    assert_eq!(planned(&sizes, bare), 2_583);
}

#[test]
fn twin_cables_change_no_plan() {
    let tally = writes::twin_cables(0..30);
    println!("twin cables: {tally}");
    assert_every_buffer(&tally);
    assert!(tally.planned() >= 400);
}

#[test]
fn no_accepted_plan_is_shorter() {
    let mut all = [0; 2];
    for (n, f, seeds) in [
        (2, 0, 20),
        (3, 0, 200),
        (4, 0, 200),
        (5, 0, 60),
        (6, 0, 10),
        (3, 1, 60),
        (4, 1, 100),
        (5, 1, 40),
        (6, 1, 6),
        (5, 2, 10),
        (7, 2, 2),
    ] {
        let counts = writes::shortest(n, f, 0..seeds);
        println!("shortest, n {n} f {f}: {counts:?} with a plan and without");
        all = [all[0] + counts[0], all[1] + counts[1]];
    }
    assert!(all[0] >= 350 && all[1] >= 100, "{all:?}");
}

#[test]
fn truncated_cards() {
    let tally = writes::truncations();
    println!("truncated: {tally}");
    assert_every_buffer(&tally);
    assert!(tally.refused[2] >= 1_000);
}

#[test]
fn cards_of_every_length_past_the_limit() {
    let tally = writes::any_lengths(900..1_101);
    println!("every length: {tally}");
    assert_eq!(tally.cards(), 201 * CARDS_OF_A_LENGTH);
    assert_every_buffer(&tally);
    let too_long = (1_100 - CARD_LIMIT) * CARDS_OF_A_LENGTH;
    assert_eq!(tally.refused[1], too_long);
}
