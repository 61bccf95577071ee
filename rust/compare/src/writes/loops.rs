//! The cards for which library and reference write plans.

use super::tally::Tally;
use crate::cards::{each_of_any_length, each_truncation, sizes};
use generate::{bare_card, card, good_card, network_card, with_twins, Rng};
use std::ops::Range;

/// One random card for each seed, sound or damaged in one of many ways.
pub fn random_cards(seeds: Range<u64>) -> Tally {
    let mut tally = Tally::default();
    for seed in seeds {
        let card = card(&mut Rng::new(seed));
        tally.compare(&card, format_args!("generate::card, seed {seed}"));
    }
    tally
}

/// For every n and f `rounds(n, f)` random networks, from no links to all of them, most with a
/// bad split.
pub fn networks(rounds: impl Fn(u8, u8) -> u64) -> Tally {
    let mut tally = Tally::default();
    for (n, f) in sizes() {
        for seed in 0..rounds(n, f) {
            let card = network_card(&mut Rng::new(seed), n, f);
            tally.compare(&card, format_args!("network_card, n {n} f {f} seed {seed}"));
        }
    }
    tally
}

/// For each seed a random network of `n` servers and `f` faults without a bad split.
///
/// Panics if no plan is written, as does the one below.
pub fn good_networks(n: u8, f: u8, seeds: Range<u64>) -> Tally {
    let mut tally = Tally::default();
    for seed in seeds {
        let card = good_card(&mut Rng::new(seed), n, f).expect("n is over 3f");
        let made_by = format_args!("good_card, n {n} f {f} seed {seed}");
        assert!(tally.compare(&card, made_by).is_some(), "{made_by}");
    }
    tally
}

/// The same for networks that have a bad split without any of their links, so that most routes
/// have relays and there are few to choose from.
pub fn bare_networks(n: u8, f: u8, seeds: Range<u64>) -> Tally {
    let mut tally = Tally::default();
    for seed in seeds {
        let card = bare_card(&mut Rng::new(seed), n, f).expect("n is over 3f");
        let made_by = format_args!("bare_card, n {n} f {f} seed {seed}");
        assert!(tally.compare(&card, made_by).is_some(), "{made_by}");
    }
    tally
}

/// For every n and f and each seed a network, mostly without a bad split, and the same one with
/// links given again: the plan is one and the same.
pub fn twin_cables(seeds: Range<u64>) -> Tally {
    let mut tally = Tally::default();
    for (n, f) in sizes().filter(|&(n, f)| n <= 6 || f == 0) {
        for seed in seeds.clone() {
            let mut rng = Rng::new(seed);
            let card = good_card(&mut rng, n, f).unwrap_or_else(|| network_card(&mut rng, n, f));
            let twins = with_twins(&mut rng, &card);
            let made_by = format_args!("twin_cables, n {n} f {f} seed {seed}");
            let alone = tally.compare(&card, made_by);
            assert_eq!(tally.compare(&twins, made_by), alone, "{made_by}");
        }
    }
    tally
}

/// For each seed a network of `n` servers and `f` faults, with few links or any number: the
/// library's plan is as long as a shortest one, found by trying every A and S; and there is none
/// that is accepted where it has a bad split. How many have a plan, and how many have none.
pub fn shortest(n: u8, f: u8, seeds: Range<u64>) -> [usize; 2] {
    let mut counts = [0; 2];
    for seed in seeds {
        let mut rng = Rng::new(seed);
        let bare = bare_card(&mut rng, n, f).filter(|_| seed % 2 == 0);
        let card = bare.unwrap_or_else(|| network_card(&mut rng, n, f));
        let shortest = reference::shortest_plan(&card).expect("a sound card");
        let written = agreement::plan_for(&card).ok().map(|plan| plan.len());
        assert_eq!(written, shortest, "shortest, n {n} f {f} seed {seed}");
        counts[usize::from(shortest.is_none())] += 1;
    }
    counts
}

/// Every beginning of some sound cards, the whole card included.
pub fn truncations() -> Tally {
    let mut tally = Tally::default();
    each_truncation(|card, made_by| {
        // Whole cards of the largest sizes have long plans, and are met elsewhere.
        if card.last() != Some(&3) || card[1] <= 6 {
            tally.compare(card, made_by);
        }
    });
    tally
}

/// Cards of every length in `lengths`: bytes of sound cards over and over, and random bytes.
pub fn any_lengths(lengths: Range<usize>) -> Tally {
    let mut tally = Tally::default();
    each_of_any_length(lengths, |card, made_by| {
        tally.compare(card, made_by);
    });
    tally
}
