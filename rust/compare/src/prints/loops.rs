//! The cards on which library and reference are compared.

use super::tally::Tally;
use crate::cards::{each_of_any_length, each_truncation, sizes, small_networks};
use generate::{card, card_of, network_card, with_twins, Rng};
use std::ops::Range;

/// One random card for each seed, sound or damaged in one of many ways.
pub fn random_cards(seeds: Range<u64>) -> Tally {
    let mut tally = Tally::default();
    for seed in seeds {
        let card = card(&mut Rng::new(seed));
        tally.compare(&card, format_args!("generate::card, seed {seed}"));
    }
    tally
}

/// How many cards of one network [`alike`] makes.
pub const CARDS_ALIKE: usize = 5;

/// For every n and f and each seed a random network: with its links in random order,
/// ascending, descending, by where they lead, and with links given again. All of these
/// cards are printed alike, as the ascending one.
pub fn alike(seeds: Range<u64>) -> Tally {
    let mut tally = Tally::default();
    for (n, f) in sizes() {
        for seed in seeds.clone() {
            let made_by = format_args!("alike, n {n} f {f} seed {seed}");
            let cards = cards_of_one_network(&mut Rng::new(seed), n, f);
            for card in &cards {
                let clean = tally.compare(card, made_by);
                assert_eq!(clean.as_ref(), Some(&cards[0]), "{made_by}");
            }
        }
    }
    tally
}

/// The ascending one first.
fn cards_of_one_network(rng: &mut Rng, n: u8, f: u8) -> [Vec<u8>; CARDS_ALIKE] {
    let drawn = network_card(rng, n, f);
    let twins = with_twins(rng, &drawn);
    let commands = drawn[3..drawn.len() - 1].chunks(3);
    let mut links: Vec<(u8, u8)> = commands.map(|link| (link[1], link[2])).collect();
    links.sort_unstable();
    let ascending = card_of(n, f, &links);
    links.reverse();
    let descending = card_of(n, f, &links);
    links.sort_unstable_by_key(|&(u, v)| (v, u));
    let by_receiver = card_of(n, f, &links);
    [ascending, drawn, twins, descending, by_receiver]
}

/// Every network of two to four servers, with every f, on clean cards.
pub fn every_small_network() -> Tally {
    let mut tally = Tally::default();
    for (n, f, card) in small_networks() {
        tally.compare(&card, format_args!("every network of {n} servers, f {f}"));
    }
    tally
}

/// Every beginning of some sound cards, the whole card included.
pub fn truncations() -> Tally {
    let mut tally = Tally::default();
    each_truncation(|card, made_by| {
        tally.compare(card, made_by);
    });
    tally
}

/// Cards of every length in `lengths`: bytes of sound cards over and over, and random
/// bytes.
pub fn any_lengths(lengths: Range<usize>) -> Tally {
    let mut tally = Tally::default();
    each_of_any_length(lengths, |card, made_by| {
        tally.compare(card, made_by);
    });
    tally
}
