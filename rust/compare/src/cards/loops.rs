//! The cards on which library and reference are compared.

use super::tally::Tally;
use crate::repeated;
use generate::{
    all_links, card, card_of, complete_card, network_card, network_card_with, with_twins, Rng,
};
use std::fmt::Arguments;
use std::ops::Range;

/// Every n and f that a card may have.
pub(crate) fn sizes() -> impl Iterator<Item = (u8, u8)> {
    (2..=8).flat_map(|n| (0..=2).map(move |f| (n, f)))
}

/// One random card for each seed, sound or damaged in one of many ways.
pub fn random_cards(seeds: Range<u64>) -> Tally {
    let mut tally = Tally::default();
    for seed in seeds {
        let card = card(&mut Rng::new(seed));
        tally.compare(&card, format_args!("generate::card, seed {seed}"));
    }
    tally
}

/// Every network of two to four servers, with every f.
pub fn every_small_network() -> Tally {
    let mut tally = Tally::default();
    for (n, f, card) in small_networks() {
        tally.compare(&card, format_args!("every network of {n} servers, f {f}"));
    }
    tally
}

/// Their n, f and cards, the links ascending.
pub(crate) fn small_networks() -> impl Iterator<Item = (u8, u8, Vec<u8>)> {
    let small = sizes().filter(|&(n, _)| n <= 4);
    small.flat_map(|(n, f)| {
        let choices = every_choice(all_links(n));
        choices.map(move |links| (n, f, card_of(n, f, &links)))
    })
}

/// Every choice among the links, from none of them to all; each keeps their order.
pub(crate) fn every_choice(all: Vec<(u8, u8)>) -> impl Iterator<Item = Vec<(u8, u8)>> {
    (0..1u32 << all.len()).map(move |chosen| {
        let places = (0..all.len()).filter(|place| chosen >> place & 1 == 1);
        places.map(|place| all[place]).collect()
    })
}

/// For every n and f and every number of links there can be, random networks with
/// that many: `rounds(n, f)` of them, made from seeds 0 and up.
pub fn networks_of_every_density(rounds: impl Fn(u8, u8) -> u64) -> Tally {
    let mut tally = Tally::default();
    for (n, f) in sizes() {
        for count in 0..=all_links(n).len() {
            for seed in 0..rounds(n, f) {
                let card = network_card_with(&mut Rng::new(seed), n, f, count);
                tally.compare(
                    &card,
                    format_args!("network_card_with, n {n}, f {f}, {count} links, seed {seed}"),
                );
            }
        }
    }
    tally
}

/// For every n and f and each seed a random network, and the same one with links given
/// again: both answers are those without.
pub fn twin_cables(seeds: Range<u64>) -> Tally {
    let mut tally = Tally::default();
    for (n, f) in sizes() {
        for seed in seeds.clone() {
            let mut rng = Rng::new(seed);
            let card = network_card(&mut rng, n, f);
            let twins = with_twins(&mut rng, &card);
            let made_by = format_args!("twin_cables, n {n} f {f} seed {seed}");
            let alone = tally.compare(&card, made_by);
            assert_eq!(tally.compare(&twins, made_by), alone, "{made_by}");
        }
    }
    tally
}

/// For every n and f the complete network and a few random ones.
fn sound_cards() -> Vec<Vec<u8>> {
    let mut rng = Rng::new(1);
    let mut cards = Vec::new();
    for (n, f) in sizes() {
        cards.push(complete_card(n, f));
        cards.extend((0..3).map(|_| network_card(&mut rng, n, f)));
    }
    cards
}

/// Every beginning of some sound cards, the whole card included.
pub fn truncations() -> Tally {
    let mut tally = Tally::default();
    each_truncation(|card, made_by| {
        tally.compare(card, made_by);
    });
    tally
}

/// Hands each beginning of some sound cards over, with how it was made.
///
/// The bytes after the end of what is handed over are the rest of the sound card,
/// so an implementation that read on would be found out.
pub(crate) fn each_truncation(mut each: impl FnMut(&[u8], Arguments)) {
    for card in sound_cards() {
        for length in 0..=card.len() {
            each(
                &card[..length],
                format_args!("a sound card cut off at {length}"),
            );
        }
    }
}

/// Some sound cards with more behind them or with another byte in the end's place:
/// every single byte, links, the opening, the card again.
pub fn extensions() -> Tally {
    let mut tally = Tally::default();
    for card in sound_cards() {
        let open = &card[..card.len() - 1];
        for byte in 0..=u8::MAX {
            let extended = [&card[..], &[byte]].concat();
            tally.compare(&extended, format_args!("byte {byte} after the end"));
            let replaced = [open, &[byte]].concat();
            tally.compare(&replaced, format_args!("byte {byte} for the end"));
            let as_command = [open, &[byte, 1, 0, 3]].concat();
            tally.compare(&as_command, format_args!("command {byte} before the end"));
        }
        let links = [[2, 0, 1, 3], [2, 1, 1, 3], [2, 0, 8, 3], [2, 8, 0, 3]];
        let others = [&card[..], &[1, 2, 0], &[3, 3]];
        for tail in links.iter().map(|link| &link[..]).chain(others) {
            let extended = [&card[..], tail].concat();
            tally.compare(&extended, format_args!("{tail:?} after the end"));
            let replaced = [open, tail].concat();
            tally.compare(&replaced, format_args!("{tail:?} for the end"));
        }
    }
    tally
}

/// How many cards of each length [`any_lengths`] makes.
pub const CARDS_OF_A_LENGTH: usize = 13;

/// Cards of every length in `lengths`: bytes of sound cards over and over, and
/// random bytes.
pub fn any_lengths(lengths: Range<usize>) -> Tally {
    let mut tally = Tally::default();
    each_of_any_length(lengths, |card, made_by| {
        tally.compare(card, made_by);
    });
    tally
}

/// Hands each of these cards over, with how it was made.
pub(crate) fn each_of_any_length(lengths: Range<usize>, mut each: impl FnMut(&[u8], Arguments)) {
    let fillings = fillings(lengths.end);
    for length in lengths {
        for (number, filling) in fillings.iter().enumerate() {
            each(
                &filling[..length],
                format_args!("filling {number} of any_lengths, length {length}"),
            );
        }
    }
}

/// The longest of these cards: the others are their beginnings.
fn fillings(longest: usize) -> [Vec<u8>; CARDS_OF_A_LENGTH] {
    let random = |seed| {
        let mut rng = Rng::new(seed);
        (0..longest).map(|_| rng.next() as u8).collect()
    };
    [
        // One card after the other.
        repeated(&[], &complete_card(8, 2), longest),
        repeated(&[], &[1, 2, 0, 2, 0, 1, 3], longest),
        // An opening, then links that come again and again.
        repeated(&[1, 8, 2], &complete_card(8, 2)[3..171], longest),
        repeated(&[1, 2, 0], &[2, 0, 1], longest),
        // Each command byte alone, and ends after a sound card.
        repeated(&[], &[1], longest),
        repeated(&[], &[2], longest),
        repeated(&[], &[3], longest),
        repeated(&[1, 2, 0], &[3], longest),
        random(0),
        random(1),
        random(2),
        random(3),
        random(4),
    ]
}
