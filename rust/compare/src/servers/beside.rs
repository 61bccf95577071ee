//! Servers stepped side by side, each by the library alone, beside the run.

use super::tally::KINDS;
use crate::add;
use crate::lent::Call as _;
use crate::planned::{any_bits, Planned};
use crate::runs::Call;
use agreement::{Sending, Server, ServerSet, Turn};
use generate::{Carriage, Rng};
use reference::Refusal;
use std::fmt::{self, Display, Formatter};
use std::ops::Range;

/// What was stepped. Every server held what it holds in the run, or it would have panicked.
#[derive(Debug, Clone, Default)]
pub struct Beside {
    /// Runs by the number of faulty servers.
    pub runs: [usize; 3],
    /// Those of them in which the sound servers' inputs differ, by the decided bit.
    pub contested: [usize; 2],
    pub asks: usize,
    pub commits: usize,
    /// Carriages that brought what their source gave.
    pub as_sent: usize,
    /// Carriages that brought the table's byte, and those for which it has none.
    pub by_table: usize,
    pub missing: usize,
}

impl Beside {
    pub fn all_runs(&self) -> usize {
        self.runs.iter().sum()
    }

    pub fn add(&mut self, other: &Beside) {
        add(&mut self.runs, &other.runs);
        add(&mut self.contested, &other.contested);
        self.asks += other.asks;
        self.commits += other.commits;
        self.as_sent += other.as_sent;
        self.by_table += other.by_table;
        self.missing += other.missing;
    }
}

impl Display for Beside {
    fn fmt(&self, out: &mut Formatter) -> fmt::Result {
        write!(
            out,
            "runs with 0 to 2 faulty servers: {:?}, of different inputs decided 0 and 1: {:?}; {} \
             asks, {} commits; carriages as sent: {}, by the table: {}, missing there: {}",
            self.runs,
            self.contested,
            self.asks,
            self.commits,
            self.as_sent,
            self.by_table,
            self.missing
        )
    }
}

/// For each seed a network of `n` servers and `f` faults with an accepted plan, and `times`
/// runs with each faulty set of at most f servers: any inputs, and tables of any kind, short
/// and empty ones among them.
///
/// Panics if a server does not hold after each block what it holds in the reference's run,
/// faulty servers included, or if a sound one does not show at the end what the run decides
/// for it.
pub fn side_by_side(n: u8, f: u8, seeds: Range<u64>, times: usize) -> Beside {
    let mut beside = Beside::default();
    for seed in seeds {
        let mut rng = Rng::new(seed);
        let planned = Planned::draw(&mut rng, n, f);
        for faulty in planned.faulty_sets() {
            for _ in 0..times {
                step_any(&planned, faulty, &mut rng, seed, &mut beside);
            }
        }
    }
    beside
}

/// The same for one run with this faulty set.
pub fn side_by_side_with(faulty: u8, n: u8, f: u8, seed: u64) -> Beside {
    let mut beside = Beside::default();
    let mut rng = Rng::new(seed);
    let planned = Planned::draw(&mut rng, n, f);
    step_any(&planned, faulty, &mut rng, seed, &mut beside);
    beside
}

/// One run with any inputs and any table.
fn step_any(planned: &Planned, faulty: u8, rng: &mut Rng, seed: u64, beside: &mut Beside) {
    let inputs = any_bits(rng, planned.n);
    let (mut table, _) = planned.any_table(rng, &inputs);
    if rng.below(4) == 0 {
        table.truncate(rng.below(table.len() + 1));
    }
    let call = planned.call(&inputs, faulty, &table);
    let run = Run {
        planned,
        call,
        seed,
    };
    run.step_all(rng, beside);
}

/// A call to run, of which each server takes its own part.
struct Run<'a> {
    planned: &'a Planned,
    call: Call<'a>,
    /// By which the network can be made again.
    seed: u64,
}

impl Run<'_> {
    fn step_all(&self, rng: &mut Rng, beside: &mut Beside) {
        let mut servers = self.started();
        for (block, values) in self.values_by_block().iter().enumerate() {
            for kind in KINDS {
                let carriages = self.carriages(block, kind as u8);
                servers = self.step(rng, servers, carriages, beside);
            }
            let held: Vec<u8> = servers
                .iter()
                .map(|server| server.state().v as u8)
                .collect();
            let place = format!("the reference's run has after block {block}");
            self.same(&held, &values[..held.len()], &place);
        }
        let turns = servers.into_iter().map(Server::ask);
        let shown = turns.map(|turn| match turn {
            Turn::Decided(bit) => bit,
            Turn::Sending(sending) => panic!("{sending:?} is not at the end\n{self}"),
        });
        let mut shown: Vec<u8> = shown.collect();
        beside.asks += shown.len();
        self.same(
            &shown,
            &self.side_by_side(),
            "the reference has, which steps them too",
        );
        // The run blanks the faulty servers.
        for server in ServerSet::from_bits(self.call.faulty) {
            shown[usize::from(server)] = 2;
        }
        let outcome = self.call.compared(format_args!("{}", self.made_by()));
        self.same(&shown, outcome.written(), "the run decides");
        self.count(&shown, beside);
    }

    fn started(&self) -> Vec<Server<'_>> {
        let Call { card, plan, .. } = self.call;
        let inputs = (0..).zip(self.call.inputs);
        let servers = inputs.map(|(server, &input)| Server::start(card, plan, server, input));
        let servers: Result<Vec<Server>, _> = servers.collect();
        servers.unwrap_or_else(|refusal| panic!("{refusal}\n{self}"))
    }

    /// The numbers of the carriages of a kind of a block. Those of a plan stand in the order
    /// of blocks and kinds.
    fn carriages(&self, block: usize, kind: u8) -> Range<usize> {
        let place = |carriage: &Carriage| (carriage.block, carriage.kind);
        let carriages = &self.planned.carriages;
        let start = carriages.partition_point(|carriage| place(carriage) < (block, kind));
        let end = carriages.partition_point(|carriage| place(carriage) <= (block, kind));
        start..end
    }

    /// One kind of a block: all ask, these carriages are brought, and all commit.
    fn step<'s>(
        &self,
        rng: &mut Rng,
        servers: Vec<Server<'s>>,
        carriages: Range<usize>,
        beside: &mut Beside,
    ) -> Vec<Server<'s>> {
        let turns = servers.into_iter().map(Server::ask);
        let sending = turns.map(|turn| match turn {
            Turn::Sending(sending) => sending,
            Turn::Decided(bit) => panic!("a server decided {bit} before the end\n{self}"),
        });
        let sending: Vec<Sending> = sending.collect();
        beside.asks += sending.len();
        beside.commits += sending.len();
        let rows = self.delivered(&sending, carriages, beside);
        let commits = sending.into_iter().zip(rows);
        let committed = commits.map(|(sending, row)| sending.commit(&arrived(rng, &row)));
        committed.collect()
    }

    /// What these carriages bring to each server, in plan order, with `None` where the table
    /// has no byte.
    fn delivered(
        &self,
        sending: &[Sending],
        carriages: Range<usize>,
        beside: &mut Beside,
    ) -> Vec<Vec<Option<u8>>> {
        let mut rows = vec![Vec::new(); sending.len()];
        // How many values of each server have been used; a carriage that the table speaks
        // for uses one too.
        let mut used = vec![0; sending.len()];
        for number in carriages {
            let carriage = &self.planned.carriages[number];
            let source = usize::from(carriage.source);
            let given = sending[source].values().get(used[source]).copied();
            used[source] += 1;
            let spoiled = carriage.senders & self.call.faulty != 0;
            let arrival = if spoiled {
                self.call.table.get(number).copied()
            } else {
                given
            };
            match (spoiled, arrival) {
                (false, _) => beside.as_sent += 1,
                (true, Some(_)) => beside.by_table += 1,
                (true, None) => beside.missing += 1,
            }
            rows[usize::from(carriage.receiver)].push(arrival);
        }
        let sent: Vec<usize> = sending
            .iter()
            .map(|sending| sending.values().len())
            .collect();
        assert!(
            sent == used,
            "{sent:?} values for {used:?} carriages\n{self}"
        );
        rows
    }

    /// What each server holds after each block of the run.
    fn values_by_block(&self) -> Vec<[u8; 8]> {
        self.of_reference(reference::values_by_block)
    }

    /// What each server shows where the reference steps them.
    fn side_by_side(&self) -> Vec<u8> {
        self.of_reference(reference::side_by_side)
    }

    fn of_reference<T>(&self, answer: OfReference<T>) -> T {
        let call = &self.call;
        answer(call.card, call.plan, call.inputs, call.faulty, call.table)
            .unwrap_or_else(|refusal| panic!("{refusal:?} by the reference\n{self}"))
    }

    fn same(&self, stepped: &[u8], expected: &[u8], what: &str) {
        assert!(
            stepped == expected,
            "servers stepped side by side have {stepped:?}, not {expected:?} as {what}\n{self}"
        );
    }

    fn count(&self, decided: &[u8], beside: &mut Beside) {
        beside.runs[self.call.faulty.count_ones() as usize] += 1;
        if let Some(bit) = self.call.contested_bit(decided) {
            beside.contested[usize::from(bit)] += 1;
        }
    }

    fn made_by(&self) -> String {
        let Planned { n, f, .. } = self.planned;
        format!("side_by_side, n {n} f {f} seed {}", self.seed)
    }
}

/// What the reference makes of a call to run, the lent buffer aside.
type OfReference<T> = fn(&[u8], &[u8], &[u8], u8, &[u8]) -> Result<T, Refusal>;

/// What is handed to a commit for what arrived. Missing bytes at the end are mostly left out,
/// and elsewhere 0 stands for them, or the later ones would move up; where all have a byte,
/// bytes that have no effect may follow.
fn arrived(rng: &mut Rng, row: &[Option<u8>]) -> Vec<u8> {
    let last = row.iter().rposition(Option::is_some);
    let told = last.map_or(0, |last| last + 1);
    let length = match rng.below(4) {
        0 => told + rng.below(row.len() - told + 1),
        _ => told,
    };
    let mut bytes: Vec<u8> = row[..length].iter().map(|byte| byte.unwrap_or(0)).collect();
    if length == row.len() && rng.below(4) == 0 {
        bytes.extend((0..rng.below(4)).map(|_| rng.below(256) as u8));
    }
    bytes
}

impl Display for Run<'_> {
    fn fmt(&self, out: &mut Formatter) -> fmt::Result {
        write!(out, "{}\n  made by    {}", self.call, self.made_by())
    }
}
