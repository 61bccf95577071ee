//! Accepted plans whose routes have relays, for the comparison of loads.

use super::tally::Tally;
use crate::planned::planned;
use crate::plans::Compared;
use generate::{sparse_card, Rng};
use std::ops::Range;

/// For each seed a random network of `n` servers and `f` faults without a bad split, and a
/// random plan for it.
///
/// Panics if one is refused, as does the one below.
pub fn accepted_plans(n: u8, f: u8, seeds: Range<u64>) -> Tally {
    let mut tally = Tally::default();
    for seed in seeds {
        let (card, plan) = planned(&mut Rng::new(seed), n, f);
        let made_by = format_args!("planned, n {n} f {f} seed {seed}");
        assert!(tally.compare(&card, &plan, made_by).is_ok(), "{made_by}");
    }
    tally
}

/// The same for networks of `n` servers without faults that have hardly more links than they
/// need, so that most routes have relays and some go through all servers.
pub fn sparse_networks(n: u8, seeds: Range<u64>) -> Tally {
    let mut tally = Tally::default();
    for seed in seeds {
        let mut rng = Rng::new(seed);
        let card = sparse_card(&mut rng, n);
        let plan = generate::plan(&mut rng, &card).expect("one server reaches all others");
        let made_by = format_args!("sparse_card, n {n} seed {seed}");
        assert!(tally.compare(&card, &plan, made_by).is_ok(), "{made_by}");
    }
    tally
}
