//! Library and reference on cards of all kinds; run with `cargo test --release`.
//!
//! Each test fails at the first card on which they differ and shows it.

use compare::cards::{self, Tally};

const CARD_LIMIT: usize = 1_024;

fn assert_every_refusal(tally: &Tally, times: usize) {
    for (number, &count) in tally.refused.iter().enumerate().skip(1) {
        assert!(count >= times, "refusal {number} was met {count} times");
    }
}

#[test]
fn random_cards() {
    let tally = cards::random_cards(0..300_000);
    println!("random: {tally}");
    assert_eq!(tally.cards(), 300_000);
    assert_every_refusal(&tally, 100);
    assert!(tally.with_bad_split >= 100 && tally.without_bad_split >= 100);
}

#[test]
fn every_network_of_up_to_four_servers() {
    let tally = cards::every_small_network();
    println!("small networks: {tally}");
    assert_eq!(tally.accepted(), 3 * ((1 << 2) + (1 << 6) + (1 << 12)));
}

#[test]
fn networks_of_every_density() {
    // The reference scans every split, and there are most of them for f 2.
    let rounds = |n, f| if n >= 7 && f == 2 { 40 } else { 80 };
    let tally = cards::networks_of_every_density(rounds);
    println!("every density: {tally}");
    assert_eq!(tally.accepted(), tally.cards());
    assert!(tally.with_bad_split >= 1_000 && tally.without_bad_split >= 1_000);
}

#[test]
fn networks_with_twin_cables() {
    let tally = cards::twin_cables(0..400);
    println!("twin cables: {tally}");
    assert_eq!(tally.accepted(), tally.cards());
    assert!(tally.with_bad_split >= 1_000 && tally.without_bad_split >= 1_000);
}

#[test]
fn truncated_cards() {
    let tally = cards::truncations();
    println!("truncated: {tally}");
    assert!(tally.refused[2] >= 1_000);
}

#[test]
fn extended_cards() {
    let tally = cards::extensions();
    println!("extended: {tally}");
    assert!(tally.refused[2..].iter().all(|&count| count >= 50));
}

#[test]
fn cards_of_every_length_past_the_limit() {
    let tally = cards::any_lengths(0..1_101);
    println!("every length: {tally}");
    assert_eq!(tally.cards(), 1_101 * cards::CARDS_OF_A_LENGTH);
    // Too long are those past the limit, and no others.
    let too_long = (1_100 - CARD_LIMIT) * cards::CARDS_OF_A_LENGTH;
    assert_eq!(tally.refused[1], too_long);
}
