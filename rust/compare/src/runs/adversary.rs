//! A search for a message table by which the sound servers fall apart.
//!
//! The faulty servers know everything here: network, plan, inputs, and what every server
//! holds after each block. They start from some table and change it step by step: one
//! byte of a carriage that one of them has in hand and that ends at a sound server, or all
//! such bytes of one receiver in one block. They keep the change unless it brings the
//! sound servers nearer to each other. Near is measured on the reference's values after
//! each block: for how many blocks some sound server stays apart from the others, then
//! how many stay apart in all blocks together. Where all sound servers start with one
//! bit, apart is whoever left it.
//!
//! The judge is the library: every table tried goes to it, and its answer must be
//! that of the reference and keep what is demanded of every run.

use super::tally::Call;
use crate::lent::Call as _;
use crate::planned::{input_bits, Planned, BLOCK};
use generate::{aimed_table, Rng, AIMS};
use std::fmt::{self, Display, Formatter};
use std::ops::Range;

/// How hard to look.
#[derive(Debug, Clone, Copy)]
pub struct Effort {
    /// Lists of inputs for each faulty set, the last of them all alike.
    pub input_lists: usize,
    /// Climbs for each list of inputs, each from another table.
    pub climbs: usize,
    /// Tables in each climb.
    pub tables: usize,
}

/// What a search did. It found nothing, or it would have panicked.
#[derive(Debug, Clone, Default)]
pub struct Search {
    /// Runs of the library, one for each table tried.
    pub runs: usize,
    pub climbs: usize,
    /// Climbs whose best table did better than their first.
    pub gained: usize,
    /// Climbs that kept the sound servers apart until the blocks whose F is just the
    /// faulty servers. Those blocks keep clear of all of them, so that nothing is in their
    /// hands there, and the last of those blocks must find the sound servers alike.
    pub to_the_last: usize,
    /// The most blocks after which sound servers were apart.
    pub most_blocks_apart: usize,
}

impl Search {
    pub fn add(&mut self, other: &Search) {
        self.runs += other.runs;
        self.climbs += other.climbs;
        self.gained += other.gained;
        self.to_the_last += other.to_the_last;
        self.most_blocks_apart = self.most_blocks_apart.max(other.most_blocks_apart);
    }
}

impl Display for Search {
    fn fmt(&self, out: &mut Formatter) -> fmt::Result {
        write!(
            out,
            "{} runs in {} climbs, {} of them gained, {} came as far as their own F, \
             sound servers apart after {} blocks at most",
            self.runs, self.climbs, self.gained, self.to_the_last, self.most_blocks_apart
        )
    }
}

/// Looks on random networks of `n` servers and `f` faults, one for each seed, with every
/// set of just f servers as the faulty ones.
///
/// Panics if the library lets two sound servers decide differently, or lets them decide
/// what was no sound server's input, or does not answer as the reference does.
pub fn search(n: u8, f: u8, seeds: Range<u64>, effort: Effort) -> Search {
    let mut search = Search::default();
    for seed in seeds {
        let mut rng = Rng::new(seed);
        let planned = Planned::draw(&mut rng, n, f);
        let servers = u8::MAX >> (8 - n);
        for faulty in (0..=servers).filter(|set| set.count_ones() == u32::from(f)) {
            for number in 0..effort.input_lists {
                let inputs = if number + 1 < effort.input_lists {
                    different_inputs(&mut rng, n, faulty)
                } else {
                    // Nobody may be led away from these.
                    vec![rng.below(2) as u8; usize::from(n)]
                };
                let adversary = Adversary::new(&planned, &inputs, faulty, seed);
                for _ in 0..effort.climbs {
                    search.add(&adversary.climb(&mut rng, effort.tables));
                }
            }
        }
    }
    search
}

/// Random inputs, not alike on the sound servers, of which there are two at least.
fn different_inputs(rng: &mut Rng, n: u8, faulty: u8) -> Vec<u8> {
    let sound = ((1 << n) - 1) & !usize::from(faulty);
    loop {
        let bits = rng.below(1 << n);
        if bits & sound != 0 && bits & sound != sound {
            return input_bits(n, bits);
        }
    }
}

/// How far a table came; more is better for the faulty servers.
#[derive(Debug, Clone, Copy, PartialEq, Eq, PartialOrd, Ord)]
struct Score {
    /// Blocks after which a sound server is apart.
    blocks: usize,
    /// Sound servers apart, over all blocks.
    servers: usize,
}

/// A carriage that the faulty servers have in hand.
#[derive(Debug, Clone, Copy)]
struct Hold {
    /// Its number.
    carriage: usize,
    block: usize,
    receiver: u8,
}

/// The faulty servers of one network, with one list of inputs.
struct Adversary<'a> {
    planned: &'a Planned,
    inputs: &'a [u8],
    faulty: u8,
    /// The carriages in hand that end at a sound server, in plan order.
    holds: Vec<Hold>,
    /// The first block whose F is the set of faulty servers.
    own_block: usize,
    /// By which the network can be made again.
    seed: u64,
}

impl<'a> Adversary<'a> {
    fn new(planned: &'a Planned, inputs: &'a [u8], faulty: u8, seed: u64) -> Adversary<'a> {
        let numbered = planned.carriages.iter().enumerate();
        let in_hand = numbered.filter(|(_, carriage)| {
            carriage.senders & faulty != 0 && faulty >> carriage.receiver & 1 == 0
        });
        let holds = in_hand.map(|(number, carriage)| Hold {
            carriage: number,
            block: carriage.block,
            receiver: carriage.receiver,
        });
        let openings = generate::places(&planned.plan, &[BLOCK]);
        let own_block = openings
            .iter()
            .position(|&at| planned.plan[at + 1] == faulty);
        Adversary {
            planned,
            inputs,
            faulty,
            holds: holds.collect(),
            own_block: own_block.expect("a plan has blocks for each F"),
            seed,
        }
    }

    /// Tries so many tables, the first of any kind, each other one a change of the best.
    fn climb(&self, rng: &mut Rng, tables: usize) -> Search {
        let mut table = self.first_table(rng);
        let start = self.try_table(&table);
        let mut best = start;
        // Without a carriage in hand all tables are the same.
        let tables = if self.holds.is_empty() { 1 } else { tables };
        for _ in 1..tables {
            let changed = self.changed(rng, &table, best);
            let score = self.try_table(&changed);
            if score >= best {
                (table, best) = (changed, score);
            }
        }
        let has_hands = !self.holds.is_empty();
        Search {
            runs: tables,
            climbs: 1,
            gained: usize::from(best > start),
            to_the_last: usize::from(has_hands && best.blocks >= self.own_block),
            most_blocks_apart: best.blocks,
        }
    }

    /// A table of bytes 0 to 2.
    fn first_table(&self, rng: &mut Rng) -> Vec<u8> {
        let carriages = &self.planned.carriages;
        match rng.below(4) {
            0 => (0..carriages.len()).map(|_| rng.below(3) as u8).collect(),
            1 => vec![2; carriages.len()],
            _ => {
                let aim = rng.below(AIMS);
                aimed_table(rng, aim, carriages, self.inputs)
            }
        }
    }

    /// `table`, which came to `score`, with one byte changed, or with one receiver told
    /// something else in one block.
    fn changed(&self, rng: &mut Rng, table: &[u8], score: Score) -> Vec<u8> {
        let mut table = table.to_vec();
        let at = self.hold_to_change(rng, score);
        let byte = (table[at.carriage] + 1 + rng.below(2) as u8) % 3;
        table[at.carriage] = byte;
        if rng.below(2) == 0 {
            let from = self.holds.partition_point(|hold| hold.block < at.block);
            let rest = self.holds[from..].iter();
            let block = rest.take_while(|hold| hold.block == at.block);
            for hold in block.filter(|hold| hold.receiver == at.receiver) {
                table[hold.carriage] = byte;
            }
        }
        table
    }

    /// A carriage in hand, of which there is one at least, where a change may do
    /// something. Once the sound servers are alike, they stay so; the change must come
    /// no later than the block that makes them alike, and that block is the likeliest.
    fn hold_to_change(&self, rng: &mut Rng, score: Score) -> Hold {
        let first_of = |block: usize| self.holds.partition_point(|hold| hold.block < block);
        let until = first_of(score.blocks + 1);
        let from = match rng.below(3) {
            0 => 0,
            1 => first_of(score.blocks),
            _ => first_of(score.blocks.saturating_sub(3)),
        };
        let choice = if from < until {
            from..until
        } else {
            0..self.holds.len()
        };
        self.holds[choice.start + rng.below(choice.len())]
    }

    /// Has the library judge a table and the reference tell how far it came.
    fn try_table(&self, table: &[u8]) -> Score {
        let call = self.planned.call(self.inputs, self.faulty, table);
        let outcome = call.of_library();
        let made_by = || {
            format!(
                "search, n {} f {} seed {}",
                self.planned.n, self.planned.f, self.seed
            )
        };
        if let Some(fault) = call.fault(&outcome) {
            panic!(
                "{fault}\n{call}\n  made by    {}\n  library    {outcome}",
                made_by()
            );
        }
        let values = self.values_by_block(&call);
        let last = values.last().expect("a plan has blocks");
        let totals = outcome
            .answer
            .map(|totals| (totals.blocks, totals.carriages));
        let as_reference = totals == Ok((values.len(), self.planned.carriages.len()))
            && self
                .sound()
                .all(|server| outcome.lent()[server] == last[server]);
        if !as_reference {
            panic!(
                "library and reference differ\n{call}\n  made by    {}\n  library    {outcome}\
                 \n  reference  {last:?} at last",
                made_by()
            );
        }
        self.score(&values)
    }

    fn values_by_block(&self, call: &Call) -> Vec<[u8; 8]> {
        let values =
            reference::values_by_block(call.card, call.plan, call.inputs, call.faulty, call.table);
        values.expect("the library has answered")
    }

    fn score(&self, values: &[[u8; 8]]) -> Score {
        let apart = values.iter().map(|values| self.apart(values));
        apart.fold(
            Score {
                blocks: 0,
                servers: 0,
            },
            |score, apart| Score {
                blocks: score.blocks + usize::from(apart > 0),
                servers: score.servers + apart,
            },
        )
    }

    /// How many sound servers would have to change for all to hold one bit that a sound
    /// server had as its input.
    fn apart(&self, values: &[u8; 8]) -> usize {
        let bits = self.sound().map(|server| self.inputs[server]);
        let others = bits.map(|bit| self.sound().filter(|&s| values[s] != bit).count());
        others.min().expect("a sound server")
    }

    fn sound(&self) -> impl Iterator<Item = usize> + '_ {
        (0..self.inputs.len()).filter(|server| self.faulty >> server & 1 == 0)
    }
}
