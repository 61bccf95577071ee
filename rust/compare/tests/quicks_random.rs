//! Library and reference make the quick test on cards of all kinds; run with
//! `cargo test --release`.
//!
//! Each test fails at the first card on which they differ, or on which the library's reader
//! and split test say otherwise, and shows it.

use compare::cards::CARDS_OF_A_LENGTH;
use compare::quicks::{self, Tally};

const CARD_LIMIT: usize = 1_024;

fn assert_all_answered(tally: &Tally) {
    assert_eq!(tally.answered(), tally.cards());
}

/// For each n and f yes and no were met so often, but yes only where n is at least 3f + 1.
fn assert_both_words(tally: &Tally, times: usize) {
    for n in 2..=8 {
        let words = tally.words[n];
        println!("n {n}: no and yes for f 0 to 2 {words:?}");
        for (f, [no, yes]) in words.into_iter().enumerate() {
            assert!(no >= times, "n {n} f {f}: {no} times no");
            if n > 3 * f {
                assert!(yes >= times, "n {n} f {f}: {yes} times yes");
            } else {
                assert_eq!(yes, 0, "n {n} f {f}");
            }
        }
    }
}

/// For each n every number of servers up to this one was the least so often, and none
/// above it.
fn assert_every_least(tally: &Tally, highest: fn(usize) -> usize, times: usize) {
    for n in 2..=8 {
        let (met, above) = tally.least[n].split_at(highest(n) + 1);
        println!("n {n}: least number from 0 up {met:?}");
        assert!(met.iter().all(|&count| count >= times), "n {n}: {met:?}");
        assert!(above.iter().all(|&count| count == 0), "n {n}: {above:?}");
    }
}

#[test]
fn two_way_networks_of_every_density() {
    let tally = quicks::networks_of_every_density(500);
    println!("every density: {tally}");
    // From no pair to all of them, so one network more than there are pairs.
    let networks: usize = (2..=8).map(|n| n * (n - 1) / 2 + 1).sum();
    assert_eq!(tally.cards(), 3 * networks * 500);
    assert!(tally.cards() >= 100_000);
    assert_all_answered(&tally);
    assert_both_words(&tally, 500);
    assert_every_least(&tally, |n| n - 1, 1_500);
}

#[test]
fn two_way_networks_around_a_cut() {
    let tally = quicks::networks_around_a_cut(500);
    println!("around a cut: {tally}");
    let cuts: usize = (2..=8).map(|n| n - 1).sum();
    assert_eq!(tally.cards(), 3 * cuts * 500);
    assert_all_answered(&tally);
    assert_every_least(&tally, |n| n - 2, 500);
}

#[test]
fn every_two_way_network_of_up_to_five_servers() {
    let tally = quicks::every_small_network();
    println!("small networks: {tally}");
    assert_eq!(tally.cards(), 3 * (2 + 8 + 64 + 1_024));
    assert_all_answered(&tally);
    // How many graphs on two to five named points are connected is known, 1, 4, 38 and 728,
    // and how many stay connected without any one point, 1, 10 and 238 from three on,
    // without any two, 1 and 26 from four on, and without any three of five, 1. Each comes up
    // with every f.
    assert_eq!(tally.least[2][..2], [3, 3]);
    assert_eq!(tally.least[3][..3], [4, 3, 1].map(|count| 3 * count));
    assert_eq!(tally.least[4][..4], [26, 28, 9, 1].map(|count| 3 * count));
    let of_five = [1_024 - 728, 728 - 238, 238 - 26, 26 - 1, 1];
    assert_eq!(tally.least[5][..5], of_five.map(|count| 3 * count));
    // Without faults the network has to be connected, and with one fault to stay so without
    // any two servers.
    assert_eq!(tally.yes(), (1 + 4 + 38 + 728) + (1 + 26));
}

#[test]
fn networks_with_one_return_left_out() {
    let tally = quicks::networks_without_one_return(500);
    println!("one return left out: {tally}");
    let networks: usize = (2..=8).map(|n| n * (n - 1) / 2).sum();
    assert_eq!(tally.cards(), 3 * networks * 500);
    assert!(tally.cards() >= 100_000);
    assert_eq!(tally.refused[15], tally.cards());
}

#[test]
fn networks_of_any_kind() {
    let tally = quicks::any_networks(5_000);
    println!("any networks: {tally}");
    assert_eq!(tally.cards(), 7 * 3 * 5_000);
    assert_eq!(tally.answered() + tally.refused[15], tally.cards());
    assert!(tally.refused[15] >= 50_000);
    assert!(tally.yes() >= 5_000 && tally.no() >= 5_000);
}

#[test]
fn refusals_of_the_card_come_before_15() {
    let tally = quicks::faulty_one_way_cards();
    println!("faulty one-way: {tally}");
    let links: usize = (2..=8).map(|n| n * (n - 1)).sum();
    assert_eq!(tally.refused[1..6], [3 * links; 5]);
    assert_eq!(tally.refused[15], 3 * links);
    assert_eq!(tally.cards(), 6 * 3 * links);
}

#[test]
fn random_cards() {
    let tally = quicks::random_cards(0..300_000);
    println!("random: {tally}");
    assert_eq!(tally.cards(), 300_000);
    for number in [1, 2, 3, 4, 5, 15] {
        let count = tally.refused[number];
        assert!(count >= 5_000, "refusal {number} was met {count} times");
    }
    assert!(tally.yes() >= 5_000 && tally.no() >= 5_000);
}

#[test]
fn truncated_cards() {
    let tally = quicks::truncations();
    println!("truncated: {tally}");
    // Of each n and f four cards as a whole: the complete network, which is two-way, and
    // three random ones. All else is cut off, whatever links it has by then.
    let whole = 7 * 3 * 4;
    assert_eq!(tally.answered() + tally.refused[15], whole);
    assert!(tally.answered() >= 7 * 3);
    assert_eq!(tally.refused[2], tally.cards() - whole);
    assert!(tally.refused[2] >= 1_000);
}

#[test]
fn cards_of_every_length_past_the_limit() {
    let tally = quicks::any_lengths(0..1_101);
    println!("every length: {tally}");
    assert_eq!(tally.cards(), 1_101 * CARDS_OF_A_LENGTH);
    // Three of them are sound: all links of eight servers, two servers without a link, and
    // two with one.
    assert_eq!([tally.yes(), tally.no(), tally.refused[15]], [1, 1, 1]);
    // Too long are those past the limit, and no others.
    let too_long = (1_100 - CARD_LIMIT) * CARDS_OF_A_LENGTH;
    assert_eq!(tally.refused[1], too_long);
}
