//! The shortest and the longest plans that there are.
//!
//! They are those of networks with all links, where each route can be direct: the length
//! of a block follows from its F, A and S alone, and fewer links leave fewer choices.

use super::blocks::{due, Cut};
use super::library::*;
use agreement::{check_plan, ServerSet};
use generate::complete_card;
use std::sync::LazyLock;

/// The routes to one receiver are so many more than f, and so are the members of an N.
pub const MORE_THAN_F: usize = 1;
/// The bytes of an opening, of a route and of a report, commands included.
const OPENING: usize = 4;
const ROUTE: usize = 9;
const REPORTED: usize = 3;

/// A block with its choices made.
#[derive(Debug, Clone, Copy)]
pub struct Choice {
    pub cut: Cut,
    pub a: ServerSet,
    pub s: ServerSet,
}

impl Choice {
    /// The bytes of the block.
    pub fn length(&self, f: u8) -> usize {
        let each = usize::from(f) + MORE_THAN_F;
        let to_s = each * (self.s - self.a).len();
        let within_s = self.s.len() * (self.s.len() - 1);
        let from_s = each * (self.cut.rest() - self.s).len();
        OPENING + ROUTE * (to_s + within_s + from_s) + REPORTED * self.cut.fault_set.len()
    }

    /// Whether f+1 separate routes can lead to each receiver. Each has a source of its
    /// own, so A and S need that many servers, and with all links that is enough.
    pub fn serves(&self, f: u8) -> bool {
        let enough = |sources: ServerSet| sources.len() >= usize::from(f) + MORE_THAN_F;
        let to_s = self.s.is_within(self.a) || enough(self.a);
        let from_s = self.s == self.cut.rest() || enough(self.s);
        to_s && from_s
    }

    /// Appends the block with direct routes. Where there are too few sources for the
    /// routes of one receiver, they come again.
    pub fn put(&self, f: u8, plan: &mut Vec<u8>) {
        let Choice { cut, a, s } = *self;
        let each = usize::from(f) + MORE_THAN_F;
        plan.extend([BLOCK, cut.fault_set.bits(), a.bits(), s.bits()]);
        for receiver in s - a {
            put_routes(plan, TO_S, a, receiver, each);
        }
        for receiver in s {
            let others = s - ServerSet::from_bits(1 << receiver);
            put_routes(plan, WITHIN_S, others, receiver, others.len());
        }
        for receiver in cut.rest() - s {
            put_routes(plan, FROM_S, s, receiver, each);
        }
        let neighbours: ServerSet = cut.rest().iter().take(each).collect();
        for k in cut.fault_set {
            plan.extend([REPORT, k, neighbours.bits()]);
        }
    }
}

fn put_routes(plan: &mut Vec<u8>, kind: u8, sources: ServerSet, receiver: u8, count: usize) {
    let sources: Vec<u8> = sources.iter().collect();
    for source in sources.into_iter().cycle().take(count) {
        plan.extend([kind, source, receiver]);
        plan.extend([FILL; ROUTE - 3]);
    }
}

/// Every A and S that there is to choose from.
pub fn choices(cut: Cut) -> impl Iterator<Item = Choice> {
    let within = move |s: &ServerSet| !s.is_empty() && s.is_within(cut.rest());
    let sets = (0..=u8::MAX).map(ServerSet::from_bits).filter(within);
    sets.flat_map(move |s| [cut.with_lowest, cut.other].map(|a| Choice { cut, a, s }))
}

/// For each block the choice that makes it shortest.
pub fn shortest(n: u8, f: u8) -> Vec<Choice> {
    let least = |cut| {
        let served = choices(cut).filter(|choice| choice.serves(f));
        let least = served.min_by_key(|choice| choice.length(f));
        least.expect("the size has a plan")
    };
    due(n, f).into_iter().map(least).collect()
}

/// The one that makes it longest.
pub fn longest(n: u8, f: u8) -> Vec<Choice> {
    let most = |cut| {
        let served = choices(cut).filter(|choice| choice.serves(f));
        let most = served.max_by_key(|choice| choice.length(f));
        most.expect("the size has a plan")
    };
    due(n, f).into_iter().map(most).collect()
}

/// The plan of these blocks, with direct routes.
pub fn plan(f: u8, blocks: &[Choice]) -> Vec<u8> {
    let mut plan = Vec::new();
    for block in blocks {
        block.put(f, &mut plan);
    }
    plan.push(PLAN_END);
    plan
}

/// The bytes of the shortest and of the longest plan of a size, and its blocks.
#[derive(Debug)]
pub struct Extreme {
    pub n: u8,
    pub f: u8,
    pub blocks: usize,
    pub shortest: usize,
    pub longest: usize,
}

/// Those of every size that has a plan.
pub static EXTREMES: LazyLock<Vec<Extreme>> = LazyLock::new(|| {
    let sizes = every_size().filter(|&(n, f)| has_plan(n, f));
    let extremes = sizes.map(|(n, f)| {
        let (shortest, blocks) = accepted(n, f, &shortest(n, f));
        let (longest, _) = accepted(n, f, &longest(n, f));
        Extreme {
            n,
            f,
            blocks,
            shortest,
            longest,
        }
    });
    extremes.collect()
});

/// The length of a plan that the library accepts, and how many blocks it counts.
fn accepted(n: u8, f: u8, blocks: &[Choice]) -> (usize, usize) {
    let plan = plan(f, blocks);
    let formula: usize = blocks.iter().map(|block| block.length(f)).sum();
    assert_eq!(
        plan.len(),
        formula + 1,
        "the length of a plan of n {n} f {f}"
    );
    match check_plan(&complete_card(n, f), &plan) {
        Ok(totals) => (plan.len(), totals.blocks),
        Err(refusal) => panic!("a plan of n {n} f {f} with direct routes is {refusal}"),
    }
}
