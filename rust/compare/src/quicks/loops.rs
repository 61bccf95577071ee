//! The cards on which library and reference are compared.

use super::tally::Tally;
use crate::cards::{each_of_any_length, each_truncation, every_choice, sizes};
use crate::repeated;
use agreement::CARD_LIMIT;
use generate::{
    all_links, all_pairs, card, card_of, network_card, two_way_card_around, two_way_card_of,
    two_way_card_with, without_a_link, Rng,
};
use std::ops::Range;

/// So many seeds for networks of `f` faults. No two f share one: a seed gives the same links
/// whatever f is.
fn seeds(f: u8, rounds: u64) -> Range<u64> {
    let first = u64::from(f) * rounds;
    first..first + rounds
}

/// For every n and f and every number of pairs that can be linked both ways, `rounds`
/// random networks with that many.
pub fn networks_of_every_density(rounds: u64) -> Tally {
    let mut tally = Tally::default();
    for (n, f) in sizes() {
        for count in 0..=all_pairs(n).len() {
            for seed in seeds(f, rounds) {
                let card = two_way_card_with(&mut Rng::new(seed), n, f, count);
                let made_by =
                    format_args!("two_way_card_with, n {n}, f {f}, {count} pairs, seed {seed}");
                let answer = tally.compare(&card, made_by);
                assert!(answer.is_some(), "refused: {made_by}");
            }
        }
    }
    tally
}

/// For every n and f and every number of servers that can be a cut, `rounds` random two-way
/// networks that fall apart without so many: the least number is no higher.
pub fn networks_around_a_cut(rounds: u64) -> Tally {
    let mut tally = Tally::default();
    for (n, f) in sizes() {
        for cut in 0..=n - 2 {
            for seed in seeds(f, rounds) {
                let card = two_way_card_around(&mut Rng::new(seed), n, f, cut.into());
                let made_by =
                    format_args!("two_way_card_around, n {n}, f {f}, cut {cut}, seed {seed}");
                let answer = tally.compare(&card, made_by);
                assert!(answer.is_some_and(|quick| quick.least <= cut), "{made_by}");
            }
        }
    }
    tally
}

/// Every two-way network of two to five servers, with every f.
pub fn every_small_network() -> Tally {
    let mut tally = Tally::default();
    for (n, f) in sizes().filter(|&(n, _)| n <= 5) {
        for pairs in every_choice(all_pairs(n)) {
            let card = two_way_card_of(n, f, &pairs);
            let made_by = format_args!("every two-way network of {n} servers, f {f}");
            tally.compare(&card, made_by);
        }
    }
    tally
}

/// For every n and f and every number of pairs from one up, `rounds` random networks with
/// that many linked both ways, but for one link that is left out.
pub fn networks_without_one_return(rounds: u64) -> Tally {
    let mut tally = Tally::default();
    for (n, f) in sizes() {
        for count in 1..=all_pairs(n).len() {
            for seed in seeds(f, rounds) {
                let mut rng = Rng::new(seed);
                let two_way = two_way_card_with(&mut rng, n, f, count);
                let card = without_a_link(&mut rng, &two_way);
                tally.compare(
                    &card,
                    format_args!("without_a_link, n {n}, f {f}, {count} pairs, seed {seed}"),
                );
            }
        }
    }
    tally
}

/// For every n and f `rounds` random networks: few of them are two-way.
pub fn any_networks(rounds: u64) -> Tally {
    let mut tally = Tally::default();
    for (n, f) in sizes() {
        for seed in seeds(f, rounds) {
            let card = network_card(&mut Rng::new(seed), n, f);
            tally.compare(&card, format_args!("network_card, n {n} f {f} seed {seed}"));
        }
    }
    tally
}

/// For every n and f the complete network without one link, each in turn: its card as it
/// is, and with one of the card's own faults behind the links, of each number from 1 to 5.
pub fn faulty_one_way_cards() -> Tally {
    let mut tally = Tally::default();
    for (n, f) in sizes() {
        for (u, v) in all_links(n) {
            let mut links = all_links(n);
            links.retain(|&link| link != (u, v));
            let card = card_of(n, f, &links);
            let made_by = format_args!("faulty_one_way_cards, n {n} f {f}, no link {u}-{v}");
            tally.compare(&card, made_by);
            for faulty in with_each_fault(&card) {
                tally.compare(&faulty, made_by);
            }
        }
    }
    tally
}

/// The sound card made too long, without its end, with an end too many, with its opening
/// again and with a link from a server to itself.
fn with_each_fault(card: &[u8]) -> [Vec<u8>; 5] {
    let (end, open) = card.split_last().expect("a sound card");
    let (opening, links) = open.split_at(3);
    [
        repeated(open, links, CARD_LIMIT + 1),
        open.to_vec(),
        [card, &[*end]].concat(),
        [open, opening, &[*end]].concat(),
        [open, &[2, 0, 0, *end]].concat(),
    ]
}

/// One random card for each seed, sound or damaged in one of many ways.
pub fn random_cards(seeds: Range<u64>) -> Tally {
    let mut tally = Tally::default();
    for seed in seeds {
        let card = card(&mut Rng::new(seed));
        tally.compare(&card, format_args!("generate::card, seed {seed}"));
    }
    tally
}

/// Every beginning of some sound cards, the whole card included.
pub fn truncations() -> Tally {
    let mut tally = Tally::default();
    each_truncation(|card, made_by| {
        tally.compare(card, made_by);
    });
    tally
}

/// Cards of every length in `lengths`: bytes of sound cards over and over, and random
/// bytes.
pub fn any_lengths(lengths: Range<usize>) -> Tally {
    let mut tally = Tally::default();
    each_of_any_length(lengths, |card, made_by| {
        tally.compare(card, made_by);
    });
    tally
}
