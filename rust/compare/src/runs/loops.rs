//! The calls on which library and reference are compared.

use super::tally::{Call, Tally};
use crate::planned::{any_bits, each_at_fault, input_bits, Planned, BLOCK, NEIGHBOURS};
use crate::plans::PLAN_LIMIT;
use crate::repeated;
use generate::{
    aimed_table, carriages, complete_card, faulty, inputs, lent, with_twins, Carriage, Rng, AIMS,
};
use std::ops::Range;

impl Planned {
    /// A call with a buffer of n bytes.
    pub fn call<'a>(&'a self, inputs: &'a [u8], faulty: u8, table: &'a [u8]) -> Call<'a> {
        Call {
            card: &self.card,
            plan: &self.plan,
            inputs,
            faulty,
            table,
            lent: usize::from(self.n),
        }
    }
}

/// For each seed a network of `n` servers and `f` faults with an accepted plan, and
/// `times` calls in which inputs, faulty set, table and lent buffer are drawn each on
/// its own, so that a call may be wrong in more than one way.
pub fn random_calls(n: u8, f: u8, seeds: Range<u64>, times: usize) -> Tally {
    let mut tally = Tally::default();
    for seed in seeds {
        let mut rng = Rng::new(seed);
        let planned = Planned::draw(&mut rng, n, f);
        for number in 0..times {
            let inputs = inputs(&mut rng, n);
            let faulty = faulty(&mut rng, n, f);
            let (table, kind) = planned.any_table(&mut rng, &inputs);
            let lent = lent(&mut rng, n.into());
            let call = Call {
                lent,
                ..planned.call(&inputs, faulty, &table)
            };
            let made_by =
                format_args!("random_calls, n {n} f {f} seed {seed}, call {number}, {kind} table");
            tally.compare(&call, made_by);
        }
    }
    tally
}

/// For each seed a network of `n` servers and `f` faults with an accepted plan, and
/// `times` right calls with a card that gives links again: each server decides what it
/// decides with the card that gives each link once.
pub fn twin_cables(n: u8, f: u8, seeds: Range<u64>, times: usize) -> Tally {
    let mut tally = Tally::default();
    for seed in seeds {
        let mut rng = Rng::new(seed);
        let planned = Planned::draw(&mut rng, n, f);
        let right: Vec<u8> = planned.faulty_sets().collect();
        for number in 0..times {
            let inputs = any_bits(&mut rng, n);
            let faulty = right[rng.below(right.len())];
            let (table, kind) = planned.any_table(&mut rng, &inputs);
            let alone = planned.call(&inputs, faulty, &table);
            let twins = Call {
                card: &with_twins(&mut rng, &planned.card),
                ..alone
            };
            let made_by =
                format_args!("twin_cables, n {n} f {f} seed {seed}, call {number}, {kind} table");
            let outcome = tally.compare(&alone, made_by);
            assert_eq!(tally.compare(&twins, made_by), outcome, "{made_by}");
        }
    }
    tally
}

/// For each seed an accepted plan with every byte as the faulty set: once each if that
/// is refused, else `times` times with random inputs and tables of every kind.
pub fn every_faulty_set(n: u8, f: u8, seeds: Range<u64>, times: usize) -> Tally {
    let mut tally = Tally::default();
    for seed in seeds {
        let mut rng = Rng::new(seed);
        let planned = Planned::draw(&mut rng, n, f);
        let right: Vec<u8> = planned.faulty_sets().collect();
        for faulty in 0..=u8::MAX {
            let times = if right.contains(&faulty) { times } else { 1 };
            for _ in 0..times {
                let inputs = any_bits(&mut rng, n);
                let (table, kind) = planned.any_table(&mut rng, &inputs);
                let made_by =
                    format_args!("every_faulty_set, n {n} f {f} seed {seed}, {kind} table");
                tally.compare(&planned.call(&inputs, faulty, &table), made_by);
            }
        }
    }
    tally
}

/// For each seed an accepted plan with all inputs, all faulty sets of at most f servers
/// and all kinds of tables: every aim, all 0, all 1, by turns, none at all, random bits.
pub fn every_input(n: u8, f: u8, seeds: Range<u64>) -> Tally {
    let mut tally = Tally::default();
    for seed in seeds {
        let mut rng = Rng::new(seed);
        let planned = Planned::draw(&mut rng, n, f);
        let count = planned.carriages.len();
        let fixed = [
            vec![0; count],
            vec![1; count],
            [0, 1].repeat(count.div_ceil(2)),
            [1, 1, 0].repeat(count.div_ceil(3)),
            Vec::new(),
        ];
        for bits in 0..1 << n {
            let inputs = input_bits(n, bits);
            for faulty in planned.faulty_sets() {
                let aimed =
                    (0..AIMS).map(|aim| aimed_table(&mut rng, aim, &planned.carriages, &inputs));
                let aimed: Vec<Vec<u8>> = aimed.collect();
                let random = (0..count).map(|_| rng.below(2) as u8).collect();
                let tables = fixed.iter().chain(&aimed).chain([&random]);
                for (number, table) in tables.enumerate() {
                    let made_by =
                        format_args!("every_input, n {n} f {f} seed {seed}, table {number}");
                    tally.compare(&planned.call(&inputs, faulty, table), made_by);
                }
            }
        }
    }
    tally
}

/// Accepted plans with every beginning of a table that is longer than needed, with
/// tables of one byte over and over, every one there is, with a table longer than any
/// plan, and with single bytes of many values where a faulty server has a carriage in
/// hand.
///
/// The bytes after the end of the table that is handed over are the rest of the longer
/// one, so an implementation that read on would be found out.
pub fn every_table(n: u8, f: u8, seeds: Range<u64>) -> Tally {
    const BYTES: [u8; 9] = [0, 1, 2, 3, 127, 128, 129, 254, 255];
    let mut tally = Tally::default();
    for seed in seeds {
        let mut rng = Rng::new(seed);
        let planned = Planned::draw(&mut rng, n, f);
        let count = planned.carriages.len();
        for faulty in planned.faulty_sets() {
            let inputs = any_bits(&mut rng, n);
            let mut table: Vec<u8> = (0..count + 6).map(|_| rng.below(2) as u8).collect();
            for length in 0..=table.len() {
                let made_by = format_args!("every_table, n {n} f {f} seed {seed}, cut at {length}");
                tally.compare(&planned.call(&inputs, faulty, &table[..length]), made_by);
            }
            for byte in 0..=u8::MAX {
                let made_by = format_args!("every_table, n {n} f {f} seed {seed}, all {byte}");
                let all = vec![byte; count];
                tally.compare(&planned.call(&inputs, faulty, &all), made_by);
            }
            let long = repeated(&[], &table, 2 * PLAN_LIMIT + 1);
            let made_by = format_args!("every_table, n {n} f {f} seed {seed}, long");
            tally.compare(&planned.call(&inputs, faulty, &long), made_by);
            let in_hand = |carriage: &Carriage| carriage.senders & faulty != 0;
            for place in (0..count).filter(|&place| in_hand(&planned.carriages[place])) {
                let old = table[place];
                for byte in BYTES {
                    table[place] = byte;
                    let made_by =
                        format_args!("every_table, n {n} f {f} seed {seed}, {byte} at {place}");
                    tally.compare(&planned.call(&inputs, faulty, &table), made_by);
                }
                table[place] = old;
            }
        }
    }
    tally
}

/// The number of the first carriage that two bytes cannot count.
const FAR: usize = 1 << 16;

/// A long plan for eight servers and two faults, the last two of them faulty, and tables
/// that are no bits at first and speak only past their first 65,536 bytes.
///
/// These bytes matter: in this plan every S is as large as can be and every N has the
/// last servers in it, so that arrivals that are no bits leave all values as they are.
pub fn late_tables(times: usize) -> Tally {
    let mut tally = Tally::default();
    let planned = long_plan();
    let last_two = 0b1100_0000;
    for seed in 0..times as u64 {
        let mut rng = Rng::new(seed);
        let inputs = any_bits(&mut rng, 8);
        let (mut table, kind) = planned.any_table(&mut rng, &inputs);
        let unsure = table.len().min(FAR);
        table[..unsure].fill(2);
        let made_by = format_args!("late_tables, seed {seed}, {kind} table");
        tally.compare(&planned.call(&inputs, last_two, &table), made_by);
    }
    tally
}

/// A plan for the complete network of eight servers and two faults, with more carriages
/// than two bytes can count, and with the highest servers outside F in every N.
fn long_plan() -> Planned {
    let card = complete_card(8, 2);
    let draw = |seed| generate::plan(&mut Rng::new(seed), &card).expect("8 is over 3f");
    let is_long = |plan: &Vec<u8>| carriages(plan).len() > FAR;
    let mut plan = (0..).map(draw).find(is_long).expect("seeds without end");
    let mut fault_set = 0;
    for place in generate::places(&plan, &[BLOCK, NEIGHBOURS]) {
        if plan[place] == BLOCK {
            fault_set = plan[place + 1];
        } else {
            let outside_f = (0..8).rev().filter(|server| fault_set >> server & 1 == 0);
            plan[place + 2] = outside_f.take(3).fold(0, |set, server| set | 1 << server);
        }
    }
    let carriages = carriages(&plan);
    Planned {
        n: 8,
        f: 2,
        card,
        plan,
        carriages,
    }
}

/// An accepted plan with wrong inputs, wrong faulty sets and wrong lengths of the lent
/// buffer in all combinations, right ones included: inputs of any length and with any
/// byte at any place, buffers of any length.
///
/// Among the lengths are those that are n again if only their lowest byte, or their two
/// lowest, were looked at.
pub fn wrong_calls(n: u8, f: u8) -> Tally {
    let mut tally = Tally::default();
    let mut rng = Rng::new(1);
    let planned = Planned::draw(&mut rng, n, f);
    let servers = usize::from(n);
    let alike = [servers + 256, servers + 65_536];
    let any_faulty = rng.below(256) as u8;
    let faulty_sets = [
        0,
        1 << (n - 1),
        1 | 1 << (n - 1),
        7,
        128,
        u8::MAX,
        any_faulty,
    ];

    let mut input_lists: Vec<Vec<u8>> = (0..16).map(|_| any_bits(&mut rng, n)).collect();
    for length in (0..=servers + 3).chain(alike) {
        input_lists.push(vec![1; length]);
        input_lists.push((0..length).map(|_| rng.below(2) as u8).collect());
    }
    for place in 0..servers {
        for byte in [2, 3, 127, 128, 254, 255] {
            let mut inputs = any_bits(&mut rng, n);
            inputs[place] = byte;
            input_lists.push(inputs);
        }
    }
    let table = vec![1; planned.carriages.len()];
    for inputs in &input_lists {
        for &faulty in &faulty_sets {
            for lent in (0..=servers + 3).chain(alike) {
                let call = Call {
                    lent,
                    ..planned.call(inputs, faulty, &table)
                };
                tally.compare(&call, format_args!("wrong_calls, n {n} f {f}"));
            }
        }
    }
    // Every byte as input, and buffers of every length that a byte can count.
    for byte in 0..=u8::MAX {
        for place in 0..servers {
            let mut inputs = any_bits(&mut rng, n);
            inputs[place] = byte;
            let call = planned.call(&inputs, 0, &table);
            tally.compare(&call, format_args!("wrong_calls, n {n} f {f}, any byte"));
        }
        let inputs = any_bits(&mut rng, n);
        let call = Call {
            lent: usize::from(byte),
            ..planned.call(&inputs, 0, &table)
        };
        tally.compare(&call, format_args!("wrong_calls, n {n} f {f}, any length"));
    }
    tally
}

/// Calls whose card or plan is refused, most of them, with inputs, faulty sets and
/// buffers that may be wrong as well: damaged plans, random cards, cards of other
/// networks, plans that are too long.
pub fn refused_plans(seeds: Range<u64>, times: usize) -> Tally {
    let mut tally = Tally::default();
    each_at_fault(seeds, times, |planned, rng, card, plan, made_by| {
        let Planned { n, f, .. } = *planned;
        let inputs = inputs(rng, n);
        let faulty = faulty(rng, n, f);
        let (table, _) = planned.any_table(rng, &inputs);
        let call = Call {
            card,
            plan,
            inputs: &inputs,
            faulty,
            table: &table,
            lent: lent(rng, n.into()),
        };
        tally.compare(&call, made_by);
    });
    tally
}
