//! The calls for a server on which library and reference are compared.

use super::tally::{state, Call, Tally, What, END, KINDS};
use crate::planned::{each_at_fault, Planned};
use generate::{arrived, lent, own_input, server, Carriage, Rng};
use reference::State;
use std::fmt::Arguments;
use std::ops::Range;

impl Planned {
    fn own_call<'a>(&'a self, server: u8, what: What<'a>) -> Call<'a> {
        Call {
            card: &self.card,
            plan: &self.plan,
            server,
            what,
        }
    }

    /// How many carriages there are of the kind and block of `state` whose server of that end
    /// is `server`; at the end there is one value to ask for.
    fn due(&self, state: State, end: fn(&Carriage) -> u8, server: u8) -> usize {
        if state.kind == END {
            return 1;
        }
        let of_state = |carriage: &&Carriage| {
            (carriage.block as u64, u64::from(carriage.kind)) == (state.block, state.kind)
        };
        let carriages = self.carriages.iter().filter(of_state);
        carriages.filter(|carriage| end(carriage) == server).count()
    }

    fn values_due(&self, state: State, server: u8) -> usize {
        self.due(state, |carriage| carriage.source, server)
    }

    fn arrivals_due(&self, state: State, server: u8) -> usize {
        self.due(state, |carriage| carriage.receiver, server)
    }

    /// A start, an ask or a commit on `card` and `plan`, which may be refused, with whatever
    /// else it takes drawn for this network.
    fn compare_any(
        &self,
        tally: &mut Tally,
        rng: &mut Rng,
        (card, plan): (&[u8], &[u8]),
        made_by: Arguments,
    ) {
        let server = server(rng, self.n);
        let any_state = |rng: &mut Rng, open| state(generate::state(rng, self.blocks(), open));
        let bytes;
        let what = match rng.below(7) {
            0 => What::Start {
                input: own_input(rng),
            },
            1..=3 => {
                let state = any_state(rng, false);
                let lent = lent(rng, self.values_due(state, server));
                What::Ask { state, lent }
            }
            _ => {
                let state = any_state(rng, true);
                bytes = arrived(rng, self.arrivals_due(state, server));
                What::Commit {
                    state,
                    arrived: &bytes,
                }
            }
        };
        let call = Call {
            card,
            plan,
            ..self.own_call(server, what)
        };
        tally.compare(&call, made_by);
    }
}

/// For each seed a network of `n` servers and `f` faults with an accepted plan, and `times`
/// calls in which server, state, lent buffer and arrivals are drawn each on its own, so that
/// a call may be wrong in more than one way.
pub fn any_calls(n: u8, f: u8, seeds: Range<u64>, times: usize) -> Tally {
    let mut tally = Tally::default();
    for seed in seeds {
        let mut rng = Rng::new(seed);
        let planned = Planned::draw(&mut rng, n, f);
        for number in 0..times {
            let made_by = format_args!("any_calls, n {n} f {f} seed {seed}, call {number}");
            let site = (&planned.card[..], &planned.plan[..]);
            planned.compare_any(&mut tally, &mut rng, site, made_by);
        }
    }
    tally
}

/// Calls whose card or plan is refused, most of them, with servers, states, buffers and
/// arrivals that may be wrong as well.
pub fn refused_sites(seeds: Range<u64>, times: usize) -> Tally {
    let mut tally = Tally::default();
    each_at_fault(seeds, times, |planned, rng, card, plan, made_by| {
        planned.compare_any(&mut tally, rng, (card, plan), made_by);
    });
    tally
}

/// For each seed an accepted plan with every server and one that is not in V, in every state
/// whose words are right or next to a right one: block, kind, v, t and open. Buffers are one
/// byte too short, just long enough and longer; arrivals are none, as many as are due, and
/// one more.
pub fn every_state(n: u8, f: u8, seeds: Range<u64>) -> Tally {
    let mut tally = Tally::default();
    for seed in seeds {
        let mut rng = Rng::new(seed);
        let planned = Planned::draw(&mut rng, n, f);
        let made_by = format_args!("every_state, n {n} f {f} seed {seed}");
        for server in 0..=n {
            for input in 0..=2 {
                let start = planned.own_call(server, What::Start { input });
                tally.compare(&start, made_by);
            }
            for state in near_states(planned.blocks() as u64) {
                let due = planned.values_due(state, server);
                for lent in due.saturating_sub(1)..=due + 1 {
                    let ask = planned.own_call(server, What::Ask { state, lent });
                    tally.compare(&ask, made_by);
                }
                let due = planned.arrivals_due(state, server);
                let bits: Vec<u8> = (0..=due).map(|_| rng.below(2) as u8).collect();
                for length in [0, due, due + 1] {
                    let arrived = &bits[..length];
                    let commit = planned.own_call(server, What::Commit { state, arrived });
                    tally.compare(&commit, made_by);
                }
            }
        }
    }
    tally
}

/// The states of a plan of so many blocks, and those with words beside theirs.
fn near_states(blocks: u64) -> impl Iterator<Item = State> {
    let words = (0..=blocks + 1).flat_map(|block| {
        let kinds = (KINDS[0] - 1..=END + 1).chain([0, KINDS[0] + 256]);
        kinds.map(move |kind| (block, kind))
    });
    words.flat_map(|(block, kind)| {
        let values = (0..3).flat_map(|v| (0..4).map(move |t| (v, t)));
        values.flat_map(move |(v, t)| (0..3).map(move |open| state([block, kind, v, t, open])))
    })
}

/// For each seed an accepted plan with every server at every kind of every block, every v
/// and t, an ask being open, and all that can arrive there: every row of the bytes 0, 1 and
/// 2 of every length up to one more than is due.
pub fn every_arrival(n: u8, f: u8, seeds: Range<u64>) -> Tally {
    let mut tally = Tally::default();
    for seed in seeds {
        let planned = Planned::draw(&mut Rng::new(seed), n, f);
        let made_by = format_args!("every_arrival, n {n} f {f} seed {seed}");
        let places = (0..planned.blocks() as u64).flat_map(|block| KINDS.map(|kind| (block, kind)));
        for (block, kind) in places {
            for server in 0..n {
                let due = planned.arrivals_due(state([block, kind, 0, 0, 1]), server);
                for arrived in rows(due + 1) {
                    for (v, t) in (0..2).flat_map(|v| (0..3).map(move |t| (v, t))) {
                        let state = state([block, kind, v, t, 1]);
                        let arrived = &arrived;
                        let commit = planned.own_call(server, What::Commit { state, arrived });
                        tally.compare(&commit, made_by);
                    }
                }
            }
        }
    }
    tally
}

/// Every row of the bytes 0, 1 and 2 with at most so many.
fn rows(most: usize) -> Vec<Vec<u8>> {
    let mut rows = vec![Vec::new()];
    let mut longest = rows.clone();
    for _ in 0..most {
        let longer = |row: &Vec<u8>| (0..3).map(|byte| [&row[..], &[byte]].concat()).collect();
        longest = longest
            .iter()
            .flat_map(|row| -> Vec<Vec<u8>> { longer(row) })
            .collect();
        rows.extend(longest.iter().cloned());
    }
    rows
}
