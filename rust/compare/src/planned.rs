//! Networks with accepted plans, and what a call on them needs.

use crate::plans::PLAN_LIMIT;
use generate::{
    aimed_table, carriages, complete_card, damaged_plan, good_card, table, Carriage, Rng, AIMS,
};
use std::fmt::Arguments;
use std::ops::Range;

/// Command bytes of the plan.
pub(crate) const BLOCK: u8 = 0x10;
pub(crate) const NEIGHBOURS: u8 = 0x14;

/// Sizes (n, f) whose plans are short.
pub(crate) const SMALL: [(u8, u8); 6] = [(2, 0), (3, 0), (4, 0), (5, 0), (4, 1), (5, 1)];

/// A random network without a bad split, and an accepted plan for it.
pub(crate) fn planned(rng: &mut Rng, n: u8, f: u8) -> (Vec<u8>, Vec<u8>) {
    let card = good_card(rng, n, f).expect("n is over 3f");
    let plan = generate::plan(rng, &card).expect("a good network has a plan");
    (card, plan)
}

/// A network with an accepted plan.
pub(crate) struct Planned {
    pub n: u8,
    pub f: u8,
    pub card: Vec<u8>,
    pub plan: Vec<u8>,
    pub carriages: Vec<Carriage>,
}

impl Planned {
    /// A random network without a bad split, and a random plan for it.
    pub fn draw(rng: &mut Rng, n: u8, f: u8) -> Planned {
        let (card, plan) = planned(rng, n, f);
        let carriages = carriages(&plan);
        Planned {
            n,
            f,
            card,
            plan,
            carriages,
        }
    }

    /// How many blocks the plan has.
    pub fn blocks(&self) -> usize {
        self.carriages.last().map_or(0, |last| last.block + 1)
    }

    /// Every faulty set that is not refused: at most f servers.
    pub fn faulty_sets(&self) -> impl Iterator<Item = u8> + '_ {
        let servers = u8::MAX >> (8 - self.n);
        (0..=servers).filter(|set| set.count_ones() <= u32::from(self.f))
    }

    /// A table of any kind against servers with these inputs, and what kind it is of.
    pub fn any_table(&self, rng: &mut Rng, inputs: &[u8]) -> (Vec<u8>, &'static str) {
        match rng.below(2) {
            0 => (table(rng, self.carriages.len()), "any"),
            _ => {
                let aim = rng.below(AIMS);
                (aimed_table(rng, aim, &self.carriages, inputs), "aimed")
            }
        }
    }

    /// A card and a plan of which one is refused, most of the time, by `number` in turn: a
    /// random card, the card of another network, a damaged plan, now and then one that is
    /// too long.
    fn at_fault(&self, rng: &mut Rng, number: usize) -> (Vec<u8>, Vec<u8>) {
        let damaged = damaged_plan(rng, &self.card, &self.plan);
        let any_card = generate::card(rng);
        let other_card = complete_card(2 + rng.below(7) as u8, rng.below(3) as u8);
        match number % 4 {
            0 => (any_card, self.plan.clone()),
            1 => (other_card, self.plan.clone()),
            2 if rng.below(8) == 0 => (self.card.clone(), vec![BLOCK; PLAN_LIMIT + 1]),
            _ => (self.card.clone(), damaged),
        }
    }
}

/// For each seed a small network with an accepted plan, and `times` calls on a card and a
/// plan of which one is refused, most of the time; how each was made is told.
pub(crate) fn each_at_fault(
    seeds: Range<u64>,
    times: usize,
    mut call: impl FnMut(&Planned, &mut Rng, &[u8], &[u8], Arguments),
) {
    for seed in seeds {
        let mut rng = Rng::new(seed);
        let (n, f) = SMALL[seed as usize % SMALL.len()];
        let planned = Planned::draw(&mut rng, n, f);
        for number in 0..times {
            let (card, plan) = planned.at_fault(&mut rng, number);
            let made_by = format_args!("each_at_fault, seed {seed}, call {number}");
            call(&planned, &mut rng, &card, &plan, made_by);
        }
    }
}

/// Input bits for `n` servers, server i having bit i of `bits`.
pub(crate) fn input_bits(n: u8, bits: usize) -> Vec<u8> {
    (0..n).map(|server| (bits >> server & 1) as u8).collect()
}

/// Random input bits for `n` servers.
pub(crate) fn any_bits(rng: &mut Rng, n: u8) -> Vec<u8> {
    let bits = rng.below(1 << n);
    input_bits(n, bits)
}
