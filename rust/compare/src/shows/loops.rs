//! The networks for which near plans are compared.
//!
//! In each loop `rounds` is how many seeds there are for five servers or fewer with faults; for
//! others there are fewer. `times` is how many near plans there are for a network with a bad
//! split.

use super::tally::Tally;
use crate::cards::{sizes, small_networks, CARDS};
use crate::plans::PLANS;
use crate::quicks::QUICKS;
use crate::runs::RUNS;
use crate::text::{cases, unhex};
use generate::{
    all_links, all_pairs, complete_card, good_card, network_card, network_card_with, sparse_card,
    spoilt_card, two_way_card_around, two_way_card_with, with_twins, without_a_link, Rng,
};
use std::ops::Range;

/// The seeds for networks of `n` servers and `f` faults. The plans of six servers and more are
/// long; and without faults a network with a bad split has no block at all, so that a near plan
/// passes nothing. There is one seed at least.
fn seeds(n: u8, f: u8, rounds: u64) -> Range<u64> {
    let by_length = match n {
        8 => 40,
        7 => 16,
        6 => 4,
        _ => 1,
    };
    let by_faults = if f == 0 { 8 } else { 1 };
    0..rounds.div_ceil(by_length * by_faults)
}

/// Random networks of every n and f.
pub fn random_networks(rounds: u64, times: usize) -> Tally {
    let mut tally = Tally::default();
    for (n, f) in sizes() {
        for seed in seeds(n, f, rounds) {
            let mut rng = Rng::new(seed);
            let card = network_card(&mut rng, n, f);
            let made_by = format_args!("network_card, n {n} f {f} seed {seed}");
            tally.compare(&mut rng, &card, times, made_by);
        }
    }
    tally
}

/// Random networks of every f and every n up to six, with every number of links there can be.
pub fn networks_of_every_density(rounds: u64, times: usize) -> Tally {
    let mut tally = Tally::default();
    for (n, f) in sizes().filter(|&(n, _)| n <= 6) {
        for count in 0..=all_links(n).len() {
            for seed in seeds(n, f, rounds) {
                let mut rng = Rng::new(seed);
                let card = network_card_with(&mut rng, n, f, count);
                let made_by =
                    format_args!("network_card_with, n {n} f {f}, {count} links, seed {seed}");
                tally.compare(&mut rng, &card, times, made_by);
            }
        }
    }
    tally
}

/// Complete networks and others without a bad split, of every n and f that have any, that lost
/// links until a split was bad. Some of their cards give links again.
pub fn spoilt_networks(rounds: u64, times: usize) -> Tally {
    let mut tally = Tally::default();
    for (n, f) in sizes().filter(|(n, f)| *n > 3 * f) {
        for seed in seeds(n, f, rounds) {
            let mut rng = Rng::new(seed);
            let good = good_card(&mut rng, n, f).expect("n is over 3f");
            for (number, good) in [complete_card(n, f), good].iter().enumerate() {
                let spoilt = spoilt_card(&mut rng, good);
                let card = match seed % 3 {
                    0 => with_twins(&mut rng, &spoilt),
                    _ => spoilt,
                };
                let made_by = format_args!("spoilt_networks, n {n} f {f} seed {seed}, {number}");
                tally.compare(&mut rng, &card, times, made_by);
            }
        }
    }
    tally
}

/// Networks of every n that have hardly more links than they need without faults, with one
/// link less, and with a higher f.
pub fn sparse_networks(rounds: u64, times: usize) -> Tally {
    let mut tally = Tally::default();
    for n in 2..=8 {
        for seed in seeds(n, 1, rounds) {
            let mut rng = Rng::new(seed);
            let card = sparse_card(&mut rng, n);
            let with_f = |f| [&card[..2], &[f], &card[3..]].concat();
            let cards = [without_a_link(&mut rng, &card), with_f(1), with_f(2)];
            for (number, card) in cards.iter().enumerate() {
                let made_by = format_args!("sparse_networks, n {n} seed {seed}, {number}");
                tally.compare(&mut rng, card, times, made_by);
            }
        }
    }
    tally
}

/// Two-way networks of every n and f, around cuts of every size, and of up to seven servers
/// with every number of pairs.
pub fn two_way_networks(rounds: u64, times: usize) -> Tally {
    let mut tally = Tally::default();
    for (n, f) in sizes() {
        for seed in seeds(n, f, rounds) {
            let mut rng = Rng::new(seed);
            for cut in 0..=usize::from(n) - 2 {
                let card = two_way_card_around(&mut rng, n, f, cut);
                let made_by =
                    format_args!("two_way_card_around, n {n} f {f} seed {seed}, cut {cut}");
                tally.compare(&mut rng, &card, times, made_by);
            }
            if n == 8 {
                continue;
            }
            for count in 0..=all_pairs(n).len() {
                let card = two_way_card_with(&mut rng, n, f, count);
                let made_by =
                    format_args!("two_way_card_with, n {n} f {f} seed {seed}, {count} pairs");
                tally.compare(&mut rng, &card, times, made_by);
            }
        }
    }
    tally
}

/// Networks of every n and f with n not over 3f: complete ones, and others that lack up to
/// three links.
pub fn too_few_servers(rounds: u64, times: usize) -> Tally {
    let mut tally = Tally::default();
    for (n, f) in sizes().filter(|(n, f)| *n <= 3 * f) {
        for seed in seeds(n, f, rounds) {
            let mut rng = Rng::new(seed);
            let mut card = complete_card(n, f);
            for _ in 0..seed % 4 {
                card = without_a_link(&mut rng, &card);
            }
            let made_by = format_args!("too_few_servers, n {n} f {f} seed {seed}");
            tally.compare(&mut rng, &card, times, made_by);
        }
    }
    tally
}

/// Every network of two to four servers with every f. There is one near plan for each network
/// of four servers.
pub fn every_small_network(times: usize) -> Tally {
    let mut tally = Tally::default();
    for (number, (n, f, card)) in small_networks().enumerate() {
        let mut rng = Rng::new(number as u64);
        let times = if n < 4 { times } else { 1 };
        let made_by = format_args!("every network of {n} servers, f {f}, seed {number}");
        tally.compare(&mut rng, &card, times, made_by);
    }
    tally
}

/// One random card for each seed, if it is read.
pub fn random_cards(seeds: Range<u64>, times: usize) -> Tally {
    let mut tally = Tally::default();
    for seed in seeds {
        let mut rng = Rng::new(seed);
        let card = generate::card(&mut rng);
        let times = fewer_for_many_servers(&card, times);
        tally.compare(&mut rng, &card, times, format_args!("card, seed {seed}"));
    }
    tally
}

/// Every card of `data/cards.tsv`, `data/plans.tsv`, `data/quicks.tsv` and `data/runs.tsv` that
/// is read.
pub fn given_cards(times: usize) -> Tally {
    let mut tally = Tally::default();
    let files = [CARDS, PLANS, QUICKS, RUNS];
    // The card comes after the note in all of them.
    let mut cards: Vec<Vec<u8>> = files
        .into_iter()
        .flat_map(|file| cases(file).map(|fields| unhex(fields[1])))
        .collect();
    cards.sort_unstable();
    cards.dedup();
    for (number, card) in cards.iter().enumerate() {
        let mut rng = Rng::new(number as u64);
        let made_by = format_args!("given_cards, seed {number}");
        let times = fewer_for_many_servers(card, times);
        tally.compare(&mut rng, card, times, made_by);
    }
    tally
}

/// One near plan where the card has more than six servers, if it is sound: their plans are long.
fn fewer_for_many_servers(card: &[u8], times: usize) -> usize {
    match card.get(1) {
        Some(7..) => 1,
        _ => times,
    }
}
