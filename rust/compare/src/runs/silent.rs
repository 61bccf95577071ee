//! Faulty servers that fall silent: message tables that end before the last carriage.

use super::tally::Tally;
use crate::planned::{any_bits, Planned};
use generate::Rng;
use std::ops::Range;

/// Runs in which silence sets in.
#[derive(Debug, Default)]
pub struct Silent {
    pub tally: Tally,
    /// How often the same run decides otherwise where each missing byte is no bit.
    pub otherwise: usize,
}

/// For each seed a network of `n` servers and `f` faults with an accepted plan, and `times`
/// runs with as many faulty servers as there may be, whose table is cut anywhere. What is
/// decided is what is decided with zeros after the cut.
pub fn silent_servers(n: u8, f: u8, seeds: Range<u64>, times: usize) -> Silent {
    let mut silent = Silent::default();
    for seed in seeds {
        let mut rng = Rng::new(seed);
        let planned = Planned::draw(&mut rng, n, f);
        let count = planned.carriages.len();
        let all_faulty = |set: &u8| set.count_ones() == u32::from(f);
        let right: Vec<u8> = planned.faulty_sets().filter(all_faulty).collect();
        for number in 0..times {
            let inputs = any_bits(&mut rng, n);
            let faulty = right[rng.below(right.len())];
            let (mut table, kind) = planned.any_table(&mut rng, &inputs);
            table.truncate(rng.below(count));
            let made_by =
                format_args!("silent_servers, n {n} f {f} seed {seed}, run {number}, {kind} table");
            let outcome = silent
                .tally
                .compare(&planned.call(&inputs, faulty, &table), made_by);
            let mut as_if = |byte: u8| {
                let mut table = table.clone();
                table.resize(count, byte);
                let call = planned.call(&inputs, faulty, &table);
                silent.tally.compare(&call, made_by) == outcome
            };
            assert!(as_if(0), "{made_by}: zeros decide otherwise");
            let no_bit = 2 + rng.below(254) as u8;
            if !as_if(no_bit) {
                silent.otherwise += 1;
            }
        }
    }
    silent
}
