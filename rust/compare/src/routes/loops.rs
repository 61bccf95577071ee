//! The calls on which the library is held to the reference.

use super::tally::{Call, Tally};
use crate::cards::sizes;
use generate::{bare_card, card, network_card, Rng};
use std::ops::Range;

/// Sets of at most `f` among the first `n` servers.
fn fault_sets(n: u8, f: u8) -> impl Iterator<Item = u8> {
    (0..=u8::MAX >> (8 - n)).filter(move |set| set.count_ones() <= u32::from(f))
}

/// For each seed a random network of `n` servers and `f` faults, with few links or any number,
/// and every call on it: each faulty set, each set of sources and each receiver.
pub fn every_call(n: u8, f: u8, seeds: Range<u64>) -> Tally {
    let mut tally = Tally::default();
    for seed in seeds {
        let card = any_network(&mut Rng::new(seed), n, f, seed);
        for faults in fault_sets(n, f) {
            for sources in 0..=u8::MAX >> (8 - n) {
                for receiver in 0..n {
                    let call = Call {
                        faults,
                        sources,
                        receiver,
                    };
                    let made_by = format_args!("every_call, n {n} f {f} seed {seed}");
                    tally.compare(&card, call, made_by);
                }
            }
        }
    }
    tally
}

/// For every n and f `rounds` random networks, and `calls` random calls on each.
pub fn any_calls(rounds: u64, calls: usize) -> Tally {
    let mut tally = Tally::default();
    for (n, f) in sizes() {
        for seed in 0..rounds {
            let mut rng = Rng::new(seed);
            let card = any_network(&mut rng, n, f, seed);
            let faulty: Vec<u8> = fault_sets(n, f).collect();
            for number in 0..calls {
                let call = Call {
                    faults: faulty[rng.below(faulty.len())],
                    sources: rng.below(1 << n) as u8,
                    receiver: rng.below(usize::from(n)) as u8,
                };
                let made_by = format_args!("any_calls, n {n} f {f} seed {seed} call {number}");
                tally.compare(&card, call, made_by);
            }
        }
    }
    tally
}

/// A network that has a bad split without any of its links, or any network, by turns; where there
/// is none of the former, any.
fn any_network(rng: &mut Rng, n: u8, f: u8, seed: u64) -> Vec<u8> {
    let bare = match seed % 2 {
        0 => bare_card(rng, n, f),
        _ => None,
    };
    bare.unwrap_or_else(|| network_card(rng, n, f))
}

/// For each seed a random network, and calls of any bytes at all: most name a server that is not
/// there, or too many that fail.
pub fn strangers(seeds: Range<u64>, calls: usize) -> Tally {
    let mut tally = Tally::default();
    for seed in seeds {
        let mut rng = Rng::new(seed);
        let (n, f) = (2 + rng.below(7) as u8, rng.below(3) as u8);
        let card = network_card(&mut rng, n, f);
        for number in 0..calls {
            let call = any_bytes(&mut rng);
            let made_by = format_args!("strangers, seed {seed} call {number}");
            tally.compare(&card, call, made_by);
        }
    }
    tally
}

/// For each seed a random card, sound or damaged in one of many ways, and a call of any bytes.
pub fn refused_cards(seeds: Range<u64>) -> Tally {
    let mut tally = Tally::default();
    for seed in seeds {
        let mut rng = Rng::new(seed);
        let card = card(&mut rng);
        let call = any_bytes(&mut rng);
        tally.compare(&card, call, format_args!("refused_cards, seed {seed}"));
    }
    tally
}

/// Two sets of any servers, the first one mostly small, and a receiver that is mostly near the
/// eight that there can be.
fn any_bytes(rng: &mut Rng) -> Call {
    let one = 1 << rng.below(8) as u8;
    let faults = match rng.below(4) {
        0 => rng.below(256) as u8,
        1 => one,
        _ => 0,
    };
    let receiver = match rng.below(4) {
        0 => rng.below(256),
        _ => rng.below(10),
    };
    Call {
        faults,
        sources: rng.below(256) as u8 >> rng.below(8),
        receiver: receiver as u8,
    }
}
