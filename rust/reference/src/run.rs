//! The run: the six steps of every block, in plan order.

use crate::card::{read_card, Network, MAX_SERVERS};
use crate::plan::{check_plan_for, route_servers, Totals, BLOCK_SIZE, NEIGHBOURS_SIZE, ROUTE_SIZE};
use crate::refusal::{ground, Refusal};
use crate::sets::{contains, is_within, members};

/// The working value of a server that is unsure, and what a message that is no bit
/// counts as.
pub(crate) const UNSURE: u8 = 2;
/// What a missing message counts as: no word from a server means open.
const SILENCE: u8 = 0;
/// What the lent buffer holds for a faulty server.
const FAULTY_MARK: u8 = 2;

/// One value for each server.
type Values = [u8; MAX_SERVERS];

/// Runs every block of `plan` and answers with its number of blocks and of
/// carriages; `out` then starts with one byte for each server: the bit that a sound
/// server decided, 2 for a faulty one.
///
/// `inputs` holds each server's input bit, `faulty` is the set of faulty servers,
/// and `table` says for each carriage what arrives if a faulty server had it in
/// hand, 0 where it has no byte. A refused call changes no byte of `out`, and bytes
/// of `out` past the last server are never touched.
pub fn run(
    card: &[u8],
    plan: &[u8],
    inputs: &[u8],
    faulty: u8,
    table: &[u8],
    out: &mut [u8],
) -> Result<Totals, Refusal> {
    let network = read_card(card)?;
    let totals = check_plan_for(&network, plan)?;
    check_call(&network, inputs, faulty, out)?;

    let mut run = Run::new(&network, plan, inputs, faulty, table);
    for _ in 0..totals.blocks {
        run.block();
    }
    for server in 0..network.n {
        out[usize::from(server)] = if contains(faulty, server) {
            FAULTY_MARK
        } else {
            run.v[usize::from(server)]
        };
    }
    Ok(totals)
}

/// The value v of every server after each block of a call to [`run`], or the call's
/// refusal; servers past the last one have 0.
///
/// This is for looking into a run. It is part of no answer, and a faulty server's
/// value is what it would be if that server kept to the steps.
pub fn values_by_block(
    card: &[u8],
    plan: &[u8],
    inputs: &[u8],
    faulty: u8,
    table: &[u8],
) -> Result<Vec<[u8; 8]>, Refusal> {
    let network = read_card(card)?;
    let totals = check_plan_for(&network, plan)?;
    check_call(&network, inputs, faulty, &[0; MAX_SERVERS])?;

    let mut run = Run::new(&network, plan, inputs, faulty, table);
    let values = (0..totals.blocks).map(|_| {
        run.block();
        run.v
    });
    Ok(values.collect())
}

/// What a call must keep besides its card and plan.
pub(crate) fn check_call(
    network: &Network,
    inputs: &[u8],
    faulty: u8,
    out: &[u8],
) -> Result<(), Refusal> {
    let n = usize::from(network.n);
    if inputs.len() != n || inputs.iter().any(|&input| input > 1) {
        let number = ground::BAD_INPUTS;
        return Err(Refusal::Call { number });
    }
    if faulty.count_ones() > u32::from(network.f) || !is_within(faulty, network.servers()) {
        let number = ground::BAD_FAULTY_SET;
        return Err(Refusal::Call { number });
    }
    if out.len() < n {
        let number = ground::SHORT_BUFFER;
        return Err(Refusal::Call { number });
    }
    Ok(())
}

/// What a byte that arrived is read as, `None` standing for one that is missing.
pub(crate) fn message(byte: Option<u8>) -> u8 {
    match byte {
        Some(bit @ 0..=1) => bit,
        Some(_) => UNSURE,
        None => SILENCE,
    }
}

/// The value that all arrivals have in common, else unsure.
pub(crate) fn common_value(arrivals: impl Iterator<Item = u8>) -> u8 {
    arrivals
        .reduce(|one, other| if one == other { one } else { UNSURE })
        .unwrap_or(UNSURE)
}

/// A run on its way through an accepted plan. Since the plan was checked as a
/// whole, each command is taken to be the one due and is not tested again.
struct Run<'a> {
    /// V, the set of all servers.
    servers: u8,
    /// f+1, the number of carriages by which a server is convinced.
    quorum: usize,
    /// The part of the plan still to be run.
    plan: &'a [u8],
    /// The number of the next carriage.
    carriage: usize,
    faulty: u8,
    table: &'a [u8],
    v: Values,
    t: Values,
}

impl<'a> Run<'a> {
    /// A run before its first block; `inputs` holds at most eight values.
    fn new(
        network: &Network,
        plan: &'a [u8],
        inputs: &[u8],
        faulty: u8,
        table: &'a [u8],
    ) -> Run<'a> {
        let mut v = [0; MAX_SERVERS];
        v[..inputs.len()].copy_from_slice(inputs);
        Run {
            servers: network.servers(),
            quorum: usize::from(network.f) + 1,
            plan,
            carriage: 0,
            faulty,
            table,
            v,
            t: [UNSURE; MAX_SERVERS],
        }
    }

    /// Runs the block at the front of the plan.
    fn block(&mut self) {
        let opening = self.take_command(BLOCK_SIZE);
        let (fault_set, a, s) = (opening[1], opening[2], opening[3]);
        let outside_f = self.servers & !fault_set;
        self.t = [UNSURE; MAX_SERVERS];
        self.start(a);
        self.propagate(s & !a);
        self.equality(s);
        self.propagate(outside_f & !s);
        self.adopt(outside_f & !(a & s));
        self.inform(fault_set);
    }

    /// Step 1: each server of A sets t to v.
    fn start(&mut self, a: u8) {
        for server in members(a) {
            self.t[usize::from(server)] = self.v[usize::from(server)];
        }
    }

    /// Steps 2 and 4: each receiver's t is the common value of its f+1 arrivals.
    ///
    /// No receiver of one step is a source in the same step, so the order in which
    /// the receivers get their values does not matter.
    fn propagate(&mut self, receivers: u8) {
        for receiver in members(receivers) {
            let arrivals = (0..self.quorum).map(|_| self.arrival_by_route(self.t));
            self.t[usize::from(receiver)] = common_value(arrivals);
        }
    }

    /// Step 3: each server of S keeps its t if every arrival equals it. All arrivals
    /// are values from before the step, whatever the step has changed meanwhile.
    fn equality(&mut self, s: u8) {
        let before = self.t;
        for receiver in members(s) {
            let own = before[usize::from(receiver)];
            for _ in 1..s.count_ones() {
                if self.arrival_by_route(before) != own {
                    self.t[usize::from(receiver)] = UNSURE;
                }
            }
        }
    }

    /// Step 5: each of `servers` that is sure takes its t over into v.
    fn adopt(&mut self, servers: u8) {
        for server in members(servers) {
            let t = self.t[usize::from(server)];
            if t != UNSURE {
                self.v[usize::from(server)] = t;
            }
        }
    }

    /// Step 6: each server of F takes over what its f+1 neighbours agree on.
    fn inform(&mut self, fault_set: u8) {
        for k in members(fault_set) {
            let neighbours = self.take_command(NEIGHBOURS_SIZE)[2];
            let arrivals = members(neighbours).map(|neighbour| {
                let tampered = contains(self.faulty, neighbour);
                self.arrival(tampered, self.v[usize::from(neighbour)])
            });
            let common = common_value(arrivals);
            if common != UNSURE {
                self.v[usize::from(k)] = common;
            }
        }
    }

    /// What arrives by the route at the front of the plan if its source sends the
    /// value that it has in `sent`.
    fn arrival_by_route(&mut self, sent: Values) -> u8 {
        let route = route_servers(&self.take_command(ROUTE_SIZE)[1..]);
        let senders = &route[..route.len() - 1];
        let tampered = senders.iter().any(|&s| contains(self.faulty, s));
        self.arrival(tampered, sent[usize::from(route[0])])
    }

    /// What arrives by the next carriage, which uses up its number either way.
    fn arrival(&mut self, tampered: bool, sent: u8) -> u8 {
        let number = self.carriage;
        self.carriage += 1;
        if tampered {
            message(self.table.get(number).copied())
        } else {
            sent
        }
    }

    /// Takes the command of `size` bytes off the front of the plan.
    fn take_command(&mut self, size: usize) -> &'a [u8] {
        let (command, rest) = self.plan.split_at(size);
        self.plan = rest;
        command
    }
}

#[cfg(test)]
mod tests {
    use super::*;
    use crate::sample::{card, complete_card, direct_plan, Quorum, P1_CARD, P5_PLAN};

    const QUORUMS: [Quorum; 3] = [Quorum::InsideA, Quorum::All, Quorum::AllButOneOfA];

    /// A run in the middle of nowhere, to try single steps on; its plan is `plan`.
    fn stepping<'a>(f: u8, plan: &'a [u8], faulty: u8, table: &'a [u8]) -> Run<'a> {
        let network = read_card(&complete_card(4, f)).unwrap();
        Run::new(&network, plan, &[0, 0, 0, 0], faulty, table)
    }

    fn route(servers: &[u8]) -> Vec<u8> {
        let mut command = vec![0x13];
        command.extend(servers);
        command.resize(ROUTE_SIZE, 0xff);
        command
    }

    #[test]
    fn p7_both_decide_1() {
        let mut out = [9; 2];
        let totals = run(&P1_CARD, &P5_PLAN, &[1, 0], 0, &[], &mut out);
        assert_eq!(
            totals,
            Ok(Totals {
                blocks: 1,
                carriages: 1
            })
        );
        assert_eq!(out, [1, 1]);
    }

    #[test]
    fn p8_arrivals_0_and_missing_are_0() {
        // The second source has 1, but it is faulty and the table is silent on it.
        let plan = [route(&[1, 0]), route(&[2, 0])].concat();
        let common = |table: &[u8]| {
            let mut run = stepping(1, &plan, 0b0100, table);
            run.t = [1, 0, 1, 2, 2, 2, 2, 2];
            run.propagate(0b0001);
            assert_eq!(run.carriage, 2);
            run.t[0]
        };
        assert_eq!(common(&[]), 0);
        assert_eq!(common(&[7]), 0, "its table byte is number 1");
        assert_eq!(common(&[7, 2]), 2, "2 is not missing");
        assert_eq!(common(&[7, 255]), 2, "255 is not missing");
    }

    #[test]
    fn silence_is_open_and_no_bit_is_unsure() {
        assert_eq!(message(None), 0);
        assert_eq!(message(Some(0)), 0);
        assert_eq!(message(Some(1)), 1);
        for byte in 2..=u8::MAX {
            assert_eq!(message(Some(byte)), 2);
        }
    }

    #[test]
    fn a_missing_byte_is_0_whatever_the_source_has() {
        for sent in 0..=2 {
            let plan = route(&[0, 1, 2]);
            let arrival = |faulty: u8| {
                let mut run = stepping(1, &plan, faulty, &[]);
                (run.arrival_by_route([sent; 8]), run.carriage)
            };
            assert_eq!(arrival(0b0001), (0, 1), "source");
            assert_eq!(arrival(0b0010), (0, 1), "relay");
            assert_eq!(arrival(0b0100), (sent, 1), "receiver");
            assert_eq!(arrival(0b1000), (sent, 1), "not on the route");
        }
    }

    #[test]
    fn p9_arrivals_1_and_1_are_1() {
        let plan = [route(&[1, 0]), route(&[2, 0])].concat();
        let mut run = stepping(1, &plan, 0, &[]);
        run.t = [2, 1, 1, 2, 2, 2, 2, 2];
        run.propagate(0b0001);
        assert_eq!(run.t[0], 1);
        assert_eq!(common_value([1, 1].into_iter()), 1);
    }

    #[test]
    fn p10_a_single_server_keeps_its_t() {
        for t in 0..=2 {
            let mut run = stepping(1, &[], 0, &[]);
            run.t[2] = t;
            run.equality(0b0100);
            assert_eq!(run.t[2], t);
            assert_eq!(run.carriage, 0);
        }
    }

    #[test]
    fn arrivals_must_all_be_alike() {
        let cases: [(&[u8], u8); 9] = [
            (&[], 2),
            (&[0], 0),
            (&[1, 1, 1], 1),
            (&[1, 1, 0], 2),
            (&[0, 1, 1], 2),
            (&[1, 0, 1], 2),
            (&[1, 0, 2], 2),
            (&[2, 2, 2], 2),
            (&[2, 0, 0], 2),
        ];
        for (arrivals, common) in cases {
            assert_eq!(
                common_value(arrivals.iter().copied()),
                common,
                "{arrivals:?}"
            );
        }
    }

    #[test]
    fn equality_compares_with_values_from_before_the_step() {
        // Both servers have 0, but a faulty relay tells server 0 otherwise, so that
        // it becomes unsure. Server 1 still hears the 0 from before the step.
        let plan = [route(&[1, 2, 0]), route(&[0, 1])].concat();
        let mut run = stepping(1, &plan, 0b0100, &[1]);
        run.t = [0, 0, 2, 2, 2, 2, 2, 2];
        run.equality(0b0011);
        assert_eq!(run.t[..2], [2, 0]);
    }

    #[test]
    fn the_table_speaks_for_every_faulty_server_but_the_receiver() {
        let arrival = |servers: &[u8], faulty: u8, table: &[u8]| {
            let plan = route(servers);
            let mut run = stepping(1, &plan, faulty, table);
            run.t = [0; 8];
            let t = run.t;
            (run.arrival_by_route(t), run.carriage)
        };
        assert_eq!(
            arrival(&[0, 1, 2], 0b1000, &[1]),
            (0, 1),
            "not on the route"
        );
        assert_eq!(arrival(&[0, 1, 2], 0b0100, &[1]), (0, 1), "receiver");
        assert_eq!(arrival(&[0, 1, 2], 0b0010, &[1]), (1, 1), "relay");
        assert_eq!(arrival(&[0, 1, 2], 0b0001, &[1]), (1, 1), "source");
        assert_eq!(arrival(&[0, 1, 2], 0b0001, &[0]), (0, 1));
        for byte in 2..=u8::MAX {
            assert_eq!(arrival(&[0, 1, 2], 0b0001, &[byte]), (2, 1));
        }
    }

    #[test]
    fn neighbours_are_heard_after_step_5() {
        let plan = [0x14, 3, 0b0011];
        let inform = |v: Values, faulty: u8, table: &[u8]| {
            let mut run = stepping(1, &plan, faulty, table);
            run.v = v;
            run.inform(0b1000);
            assert_eq!(run.carriage, 2);
            run.v[3]
        };
        let v = |v0, v1, v3| [v0, v1, 0, v3, 0, 0, 0, 0];
        assert_eq!(inform(v(1, 1, 0), 0, &[]), 1);
        assert_eq!(inform(v(1, 0, 0), 0, &[]), 0, "not alike: unchanged");
        assert_eq!(
            inform(v(0, 0, 1), 0b1000, &[]),
            0,
            "a faulty k still computes"
        );
        assert_eq!(
            inform(v(1, 0, 0), 0b0010, &[7, 1]),
            1,
            "its table byte is number 1"
        );
        assert_eq!(inform(v(1, 1, 0), 0b0010, &[1, 2]), 0, "unsure: unchanged");
        for own in 0..=1 {
            let after = inform(v(1, 1, own), 0b0010, &[1]);
            assert_eq!(after, own, "1 and missing: unchanged");
        }
        assert_eq!(inform(v(0, 1, 1), 0b0010, &[1]), 0, "0 and missing: 0");
        assert_eq!(
            inform(v(0, 1, 1), 0b0010, &[1, 255]),
            1,
            "unsure: unchanged"
        );
    }

    #[test]
    fn servers_of_a_and_s_keep_v_in_a_block() {
        // One block on two servers: A = S = {0}. Server 1 takes over, 0 keeps.
        for inputs in [[0, 0], [0, 1], [1, 0], [1, 1]] {
            let mut out = [9; 2];
            run(&P1_CARD, &P5_PLAN, &inputs, 0, &[], &mut out).unwrap();
            assert_eq!(out, [inputs[0]; 2]);
        }
    }

    #[test]
    fn refusals_12_13_14_in_this_order() {
        let mut out = [9; 8];
        let mut number = |inputs: &[u8], faulty: u8, lent: usize| {
            let answer = run(&P1_CARD, &P5_PLAN, inputs, faulty, &[], &mut out[..lent]);
            assert!(
                answer.is_ok() || out == [9; 8],
                "a refused call writes nothing"
            );
            match answer {
                Ok(_) => 0,
                Err(Refusal::Call { number }) => number,
                Err(other) => panic!("not a refusal of the call: {other:?}"),
            }
        };
        assert_eq!(number(&[], 0, 8), 12);
        assert_eq!(number(&[1], 0, 8), 12);
        assert_eq!(number(&[1, 0, 0], 0, 8), 12);
        assert_eq!(number(&[1, 2], 0, 8), 12);
        assert_eq!(number(&[255, 0], 0, 8), 12);
        assert_eq!(number(&[1, 0], 1, 8), 13, "f is 0");
        assert_eq!(number(&[1, 0], 4, 8), 13);
        assert_eq!(number(&[1, 0], 0, 1), 14);
        assert_eq!(number(&[1, 0], 0, 0), 14);
        assert_eq!(number(&[1], 1, 1), 12, "12 before 13 and 14");
        assert_eq!(number(&[1, 0], 1, 1), 13, "13 before 14");
        assert_eq!(number(&[1, 0], 0, 2), 0);
    }

    #[test]
    fn a_faulty_set_of_f_servers_must_lie_in_v() {
        let card = complete_card(4, 1);
        let plan = direct_plan(4, 1, Quorum::InsideA);
        for faulty in 0..=u8::MAX {
            let mut out = [9; 4];
            let answer = run(&card, &plan, &[0; 4], faulty, &[], &mut out);
            if [0, 1, 2, 4, 8].contains(&faulty) {
                assert!(answer.is_ok());
            } else {
                assert_eq!(answer, Err(Refusal::Call { number: 13 }));
                assert_eq!(out, [9; 4]);
            }
        }
    }

    #[test]
    fn card_and_plan_are_refused_before_the_call() {
        let mut out = [9; 2];
        let bad_card = run(&[], &[], &[], 0xff, &[], &mut out);
        assert_eq!(
            bad_card,
            Err(Refusal::Card {
                number: 2,
                place: 0
            })
        );
        let bad_plan = run(&P1_CARD, &[], &[], 0xff, &[], &mut out);
        assert_eq!(
            bad_plan,
            Err(Refusal::Plan {
                number: 2,
                place: 0
            })
        );
        assert_eq!(out, [9; 2]);
    }

    #[test]
    fn bytes_past_the_last_server_are_untouched() {
        let mut out = [9; 5];
        run(&P1_CARD, &P5_PLAN, &[1, 0], 0, &[], &mut out).unwrap();
        assert_eq!(out, [1, 1, 9, 9, 9]);
    }

    /// The sound servers of an answer all have one bit, and some sound server had
    /// it as its input; the faulty ones are marked.
    fn assert_agreed(inputs: &[u8], faulty: u8, out: &[u8]) {
        let sound: Vec<usize> = (0..inputs.len()).filter(|s| faulty >> s & 1 == 0).collect();
        let decided = out[sound[0]];
        assert!(
            sound.iter().all(|&s| out[s] == decided),
            "{inputs:?} {faulty} {out:?}"
        );
        assert!(
            sound.iter().any(|&s| inputs[s] == decided),
            "{inputs:?} {faulty} {out:?}"
        );
        for server in (0..inputs.len()).filter(|s| faulty >> s & 1 == 1) {
            assert_eq!(out[server], FAULTY_MARK);
        }
    }

    #[test]
    fn four_servers_agree_whatever_one_of_them_does() {
        let card = complete_card(4, 1);
        let tables: [&[u8]; 8] = [
            &[],
            &[0; 1_000],
            &[1; 1_000],
            &[255; 1_000],
            &[1; 40],
            &[0, 1].repeat(500),
            &[0, 1, 2].repeat(300),
            &[1, 1, 0, 0, 2].repeat(200),
        ];
        for quorum in [Quorum::InsideA, Quorum::All] {
            let plan = direct_plan(4, 1, quorum);
            for bits in 0..16u8 {
                let inputs = [bits & 1, bits >> 1 & 1, bits >> 2 & 1, bits >> 3];
                for faulty in [0, 1, 2, 4, 8] {
                    for table in tables {
                        let mut out = [9; 4];
                        run(&card, &plan, &inputs, faulty, table, &mut out).unwrap();
                        assert_agreed(&inputs, faulty, &out);
                    }
                }
            }
        }
    }

    #[test]
    fn table_bytes_past_the_last_carriage_have_no_effect() {
        let card = complete_card(4, 1);
        let plan = direct_plan(4, 1, Quorum::All);
        let carriages = check_plan_for(&read_card(&card).unwrap(), &plan)
            .unwrap()
            .carriages;
        let exact = vec![1; carriages];
        let long = vec![1; carriages + 100];
        let (mut one, mut other) = ([9; 4], [9; 4]);
        run(&card, &plan, &[0, 1, 0, 1], 2, &exact, &mut one).unwrap();
        run(&card, &plan, &[0, 1, 0, 1], 2, &long, &mut other).unwrap();
        assert_eq!(one, other);
    }

    /// What two tables give on one site is the same, for every faulty set and each of
    /// `choices` as inputs, server i having bit i.
    fn assert_same_runs(
        (card, plan): (&[u8], &[u8]),
        choices: impl Iterator<Item = u8> + Clone,
        [one, other]: [&[u8]; 2],
    ) {
        let Network { n, f, .. } = read_card(card).unwrap();
        let n = usize::from(n);
        let faulty_sets = (0..1u16 << n).filter(|set| set.count_ones() <= u32::from(f));
        for faulty in faulty_sets.map(|set| set as u8) {
            for choice in choices.clone() {
                let inputs: Vec<u8> = (0..n).map(|server| choice >> server & 1).collect();
                let all_of = |table: &[u8]| {
                    let mut out = vec![9; n];
                    let totals = run(card, plan, &inputs, faulty, table, &mut out).unwrap();
                    let values = values_by_block(card, plan, &inputs, faulty, table).unwrap();
                    (totals, out, values)
                };
                assert!(all_of(one) == all_of(other), "{inputs:?} {faulty}");
            }
        }
    }

    #[test]
    fn an_empty_table_is_a_table_of_zeros() {
        assert_same_runs((&P1_CARD, &P5_PLAN), 0..4, [&[], &[0]]);
        for quorum in QUORUMS {
            for (n, f, step) in [(4, 0, 1), (4, 1, 1), (5, 1, 1), (6, 1, 5), (7, 2, 21)] {
                let (card, plan) = (complete_card(n, f), direct_plan(n, f, quorum));
                let zeros = vec![0; crate::check_plan(&card, &plan).unwrap().carriages];
                let choices = (0..1 << n).step_by(step);
                assert_same_runs((&card, &plan), choices, [&[], &zeros]);
            }
        }
    }

    #[test]
    fn a_table_cut_short_is_one_with_zeros_after_the_cut() {
        let card = complete_card(4, 1);
        for quorum in QUORUMS {
            let plan = direct_plan(4, 1, quorum);
            let carriages = crate::check_plan(&card, &plan).unwrap().carriages;
            let whole = [1, 255, 1, 0, 1].repeat(carriages);
            for cut in 0..=carriages {
                let mut filled = whole[..cut].to_vec();
                filled.resize(carriages, 0);
                let choices = [0b0000, 0b0011, 0b0110, 0b1101, 0b1111].into_iter();
                assert_same_runs((&card, &plan), choices, [&whole[..cut], &filled]);
            }
        }
    }

    #[test]
    fn silence_decides_otherwise_than_255() {
        // Server 3 is faulty, and S is A in every block. In the first block S is
        // {1, 2, 3}, where 1 and 2 differ, so that nothing changes. In the second S is
        // {2, 3}: if 3 is silent, 2 keeps its 0, and 0 and 1 hear 0 from both.
        //
        // If 3 sends no bits, a block with 3 in S changes nothing, nor does one in which
        // 2 is in S with 0 or 1, as these differ. Every block before F = {2} is such a
        // one. There 0 and 1 are the neighbours, and 2 takes over their 1.
        let card = complete_card(4, 1);
        let plan = direct_plan(4, 1, Quorum::InsideA);
        let inputs = [1, 1, 0, 1];
        let decided = |table: &[u8]| {
            let mut out = [9; 4];
            run(&card, &plan, &inputs, 0b1000, table, &mut out).unwrap();
            out
        };
        assert_eq!(decided(&[]), [0, 0, 0, 2]);
        assert_eq!(decided(&[0; 1_000]), [0, 0, 0, 2]);
        assert_eq!(decided(&[255; 1_000]), [1, 1, 1, 2]);
        assert_eq!(decided(&[2; 1_000]), [1, 1, 1, 2]);

        let sound = |table: &[u8]| -> Vec<[u8; 3]> {
            let values = values_by_block(&card, &plan, &inputs, 0b1000, table).unwrap();
            values.iter().map(|v| [v[0], v[1], v[2]]).collect()
        };
        let (silent, no_bits) = (sound(&[]), sound(&[255; 1_000]));
        assert_eq!(silent[0], [1, 1, 0]);
        assert_eq!(silent[1..], [[0, 0, 0]; 18]);
        // Seven blocks have F = {}, three each F = {0} and F = {1}.
        assert_eq!(no_bits[..13], [[1, 1, 0]; 13]);
        assert_eq!(no_bits[13..], [[1, 1, 1]; 6]);
    }

    #[test]
    fn every_carriage_of_a_run_uses_up_one_number() {
        for (n, f) in [(2, 0), (4, 1), (5, 1), (7, 2)] {
            for quorum in [Quorum::InsideA, Quorum::All] {
                let network = read_card(&complete_card(n, f)).unwrap();
                let plan = direct_plan(n, f, quorum);
                let totals = check_plan_for(&network, &plan).unwrap();
                let inputs = vec![1; usize::from(n)];
                let mut run = Run::new(&network, &plan, &inputs, 0, &[]);
                for _ in 0..totals.blocks {
                    run.block();
                }
                assert_eq!(run.carriage, totals.carriages);
                assert_eq!(run.plan, [0x15]);
            }
        }
    }

    #[test]
    fn the_values_after_the_last_block_are_the_decided_ones() {
        let card = complete_card(4, 1);
        for quorum in [Quorum::InsideA, Quorum::All] {
            let plan = direct_plan(4, 1, quorum);
            let (inputs, table) = ([1, 0, 0, 1], [0, 1].repeat(200));
            let mut out = [9; 4];
            let totals = run(&card, &plan, &inputs, 4, &table, &mut out).unwrap();
            let values = values_by_block(&card, &plan, &inputs, 4, &table).unwrap();
            assert_eq!(values.len(), totals.blocks);
            for server in [0, 1, 3] {
                assert_eq!(values[totals.blocks - 1][server], out[server]);
            }
        }
        let refused = values_by_block(&card, &[], &[], 0xff, &[]);
        assert!(matches!(refused, Err(Refusal::Plan { number: 2, .. })));
        let plan = direct_plan(4, 1, Quorum::All);
        let refused = values_by_block(&card, &plan, &[0; 4], 3, &[]);
        assert_eq!(refused, Err(Refusal::Call { number: 13 }));
    }

    #[test]
    fn a_chain_follows_its_root() {
        // 0 to 1 to 2 without faults; S is the root in every block.
        let card = card(3, 0, &[(0, 1), (1, 2)]);
        let mut plan = Vec::new();
        for a in [0b001, 0b011, 0b101] {
            plan.extend([0x10, 0, a, 0b001]);
            plan.extend(route(&[0, 1]));
            plan.extend(route(&[0, 1, 2]));
        }
        plan.push(0x15);
        let mut out = [9; 3];
        let totals = run(&card, &plan, &[1, 0, 0], 0, &[], &mut out);
        assert_eq!(
            totals,
            Ok(Totals {
                blocks: 3,
                carriages: 6
            })
        );
        assert_eq!(out, [1, 1, 1]);
    }
}
