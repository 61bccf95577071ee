//! Library and reference print cards of all kinds; run with `cargo test --release`.
//!
//! Each test fails at the first card on which they differ, or which does not take the
//! round trip, and shows it.

use compare::cards::CARDS_OF_A_LENGTH;
use compare::prints::{self, Tally, CARDS_ALIKE, FOR_REFUSED, TOO_SHORT, WITH_ROOM};

const CARD_LIMIT: usize = 1_024;

/// Each card was met with all its buffers: one that is read with some too short for it,
/// which are refused 14, and some with room, and a refused one with its own refusal.
fn assert_every_buffer(tally: &Tally) {
    assert_eq!(tally.printed, WITH_ROOM * tally.read());
    assert_eq!(tally.calls_refused[14], TOO_SHORT * tally.read());
    for (number, &cards) in tally.refused.iter().enumerate() {
        assert_eq!(tally.calls_refused[number], FOR_REFUSED * cards);
    }
    assert_eq!(tally.calls_refused[6..14].iter().sum::<usize>(), 0);
}

#[test]
fn random_cards() {
    let tally = prints::random_cards(0..300_000);
    println!("random: {tally}");
    assert_eq!(tally.cards(), 300_000);
    assert_every_buffer(&tally);
    for (number, &count) in tally.refused.iter().enumerate().skip(1) {
        assert!(count >= 5_000, "refusal {number} was met {count} times");
    }
    assert!(tally.clean >= 5_000 && tally.not_clean >= 20_000);
}

#[test]
fn cards_of_one_network_are_printed_alike() {
    let tally = prints::alike(0..300);
    println!("alike: {tally}");
    assert_eq!(tally.read(), 7 * 3 * 300 * CARDS_ALIKE);
    assert_eq!(tally.cards(), tally.read());
    assert_every_buffer(&tally);
    assert!(tally.not_clean >= 20_000);
}

#[test]
fn every_network_of_up_to_four_servers() {
    let tally = prints::every_small_network();
    println!("small networks: {tally}");
    // These cards are clean as they are.
    assert_eq!(tally.clean, 3 * ((1 << 2) + (1 << 6) + (1 << 12)));
    assert_eq!(tally.cards(), tally.clean);
    assert_every_buffer(&tally);
}

#[test]
fn truncated_cards() {
    let tally = prints::truncations();
    println!("truncated: {tally}");
    assert_every_buffer(&tally);
    assert!(tally.refused[2] >= 1_000);
}

#[test]
fn cards_of_every_length_past_the_limit() {
    let tally = prints::any_lengths(0..1_101);
    println!("every length: {tally}");
    assert_eq!(tally.cards(), 1_101 * CARDS_OF_A_LENGTH);
    assert_every_buffer(&tally);
    // Too long are those past the limit, and no others.
    let too_long = (1_100 - CARD_LIMIT) * CARDS_OF_A_LENGTH;
    assert_eq!(tally.refused[1], too_long);
}
