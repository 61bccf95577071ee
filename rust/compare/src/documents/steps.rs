//! The run of three blocks that docs/FORMATS.md goes through step by step.
//!
//! The library answers with the decided bits alone. The values within a block are worked
//! out here, by the page's steps as far as they go without faults, and these steps are
//! held to the library on many plans.

use super::examples::{examples, Example};
use super::library::BLOCK;
use super::numbers::{byte, ordinal, row};
use super::page::Held;
use super::rehearsal::{decided, Files, LENT};
use super::Documents;
use crate::planned;
use agreement::{read_card, run, ServerSet};
use generate::{carriages, places, Carriage, Rng};

/// The value t of a server that is unsure.
pub const UNSURE: u8 = 2;

/// A value for each of the eight servers that there can be.
type Values = [u8; 8];

/// A block of f 0: one route leads to each receiver.
struct Block {
    a: ServerSet,
    s: ServerSet,
    /// Its routes in order, with their numbers.
    routes: Vec<(usize, Carriage)>,
}

/// The blocks of an accepted plan.
fn blocks(plan: &[u8]) -> Vec<Block> {
    let all: Vec<(usize, Carriage)> = carriages(plan).into_iter().enumerate().collect();
    let openings = places(plan, &[BLOCK]).into_iter().enumerate();
    let blocks = openings.map(|(block, place)| Block {
        a: ServerSet::from_bits(plan[place + 2]),
        s: ServerSet::from_bits(plan[place + 3]),
        routes: all
            .iter()
            .filter(|(_, route)| route.block == block)
            .copied()
            .collect(),
    });
    blocks.collect()
}

/// The values after some of the steps.
struct Stepped {
    t_after_1: Values,
    t_after_3: Values,
    t_after_4: Values,
    v_after_5: Values,
}

impl Block {
    fn step(&self, v: Values) -> Stepped {
        let mut t = [UNSURE; 8];
        for server in self.a.iter().map(usize::from) {
            t[server] = v[server];
        }
        let t_after_1 = t;
        let (to_s, rest) = self.routes.split_at((self.s - self.a).len());
        let (within_s, from_s) = rest.split_at(self.s.len() * (self.s.len() - 1));
        carry(&mut t, to_s);
        let before = t;
        for (source, receiver) in ends(within_s) {
            if before[source] != before[receiver] {
                t[receiver] = UNSURE;
            }
        }
        let t_after_3 = t;
        carry(&mut t, from_s);
        let keeps = |server: usize| (self.a & self.s).contains(server as u8) || t[server] == UNSURE;
        let value = |server| if keeps(server) { v[server] } else { t[server] };
        Stepped {
            t_after_1,
            t_after_3,
            t_after_4: t,
            v_after_5: std::array::from_fn(value),
        }
    }
}

fn ends(routes: &[(usize, Carriage)]) -> impl Iterator<Item = (usize, usize)> + '_ {
    let ends = |route: &Carriage| (usize::from(route.source), usize::from(route.receiver));
    routes.iter().map(move |(_, route)| ends(route))
}

/// Each receiver takes what its one route brings.
fn carry(t: &mut Values, routes: &[(usize, Carriage)]) {
    for (source, receiver) in ends(routes) {
        t[receiver] = t[source];
    }
}

/// Every block in turn, from the inputs on.
fn stepped(blocks: &[Block], inputs: &[u8]) -> Vec<Stepped> {
    let mut v = [0; 8];
    v[..inputs.len()].copy_from_slice(inputs);
    let mut all = Vec::new();
    for block in blocks {
        let stepped = block.step(v);
        v = stepped.v_after_5;
        all.push(stepped);
    }
    all
}

/// The steps decide as the library does, for all inputs, on plans of f 0 with routes and
/// sets of all kinds.
pub fn decide_as_the_library() {
    for (n, seed) in (2..=6).flat_map(|n| (0..10).map(move |seed| (n, seed))) {
        let (card, plan) = planned(&mut Rng::new(seed), n, 0);
        let blocks = blocks(&plan);
        for bits in 0..1u32 << n {
            let inputs: Vec<u8> = (0..n).map(|server| (bits >> server & 1) as u8).collect();
            let mut lent = inputs.clone();
            let answer = run(&card, &plan, &inputs, ServerSet::EMPTY, &[], &mut lent);
            assert!(answer.is_ok(), "n {n} seed {seed}: {answer:?}");
            let stepped = stepped(&blocks, &inputs);
            let v = stepped.last().expect("a plan has a block").v_after_5;
            assert_eq!(
                v[..inputs.len()],
                lent,
                "n {n} seed {seed}, inputs {inputs:?}"
            );
        }
    }
}

/// The example's caption, and the table below it.
pub fn stated(documents: &Documents) -> Held {
    let page = &documents.formats;
    let title = "A run of three blocks";
    let section = page.section(title)?;
    let heading = section.start - 1;
    let examples = examples(page, section)?;
    let Some((n, f, run)) = examples.first().and_then(run_of) else {
        let what = "a run of f 0 with S as A in each block should follow";
        return Err(page.fault(heading, what));
    };
    page.says_all(&[
        format!("f {f}, inputs {}; in each block S is A:", row(&run.inputs)),
        format!("The values of servers {}, in this order;", row(0..n)),
    ])?;
    page.same_rows(&page.table(title, "block")?, &run.rows(usize::from(n)))
}

/// The run of an example, if it is one that can be gone through here, with its n and f.
fn run_of(example: &Example) -> Option<(u8, u8, Run)> {
    let Files { card, plan, run_in } = &example.files;
    decided(&example.files, LENT).ok()?;
    let network = read_card(card).ok()?;
    let run = Run {
        inputs: run_in[1..][..usize::from(network.n)].to_vec(),
        blocks: blocks(plan),
    };
    let is_plain = network.f == 0 && run.blocks.iter().all(|block| block.a == block.s);
    is_plain.then_some((network.n, network.f, run))
}

struct Run {
    inputs: Vec<u8>,
    blocks: Vec<Block>,
}

impl Run {
    /// The rows of the table.
    fn rows(&self, n: usize) -> Vec<Vec<String>> {
        let values = |values: &Values| row(&values[..n]).replace(',', "");
        let stepped = stepped(&self.blocks, &self.inputs);
        let blocks = self.blocks.iter().zip(&stepped).enumerate();
        let rows = blocks.map(|(index, (block, stepped))| {
            vec![
                ordinal(index).to_string(),
                byte(block.a),
                row(block.routes.iter().map(|(number, _)| number)),
                values(&stepped.t_after_1),
                values(&stepped.t_after_3),
                values(&stepped.t_after_4),
                values(&stepped.v_after_5),
            ]
        });
        rows.collect()
    }
}
