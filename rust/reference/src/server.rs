//! A server's own part: what one server sends and what it makes of what arrives.
//!
//! The run knows all servers at once. A real server knows only itself, so the six
//! steps of a block are cut along the kinds of carriages 11, 12, 13 and 14. For each
//! kind in turn, empty ones too, the server *asks* what to send as a source and then
//! *commits* what arrived for it as a receiver.

use crate::card::{read_card, Network, MAX_SERVERS};
use crate::plan::{
    check_plan_for, command_at, route_servers, Command, BLOCK_SIZE, END, NEIGHBOURS,
    NEIGHBOURS_SIZE, ROUTE_FROM_S, ROUTE_SIZE, ROUTE_TO_S, ROUTE_WITHIN_S,
};
use crate::refusal::{ground, Refusal};
use crate::run::{check_call, common_value, message, UNSURE};
use crate::sets::{contains, members};

/// The kinds of carriages in the order in which a block has them.
const KINDS: [u8; 4] = [ROUTE_TO_S, ROUTE_WITHIN_S, ROUTE_FROM_S, NEIGHBOURS];

/// How far one server is, and what it holds.
///
/// The caller keeps a state between two calls, so its words may hold anything. A
/// state at no place of the plan, or with a word out of range, is refused.
#[derive(Clone, Copy, Debug, PartialEq, Eq)]
pub struct State {
    /// The block, counted from 0; the number of blocks at the end.
    pub block: u64,
    /// The kind of carriages, hexadecimal 11 to 14, or 15 at the end.
    pub kind: u64,
    /// The value v, 0 or 1.
    pub v: u64,
    /// The working value t: 0, 1, or 2 for unsure.
    pub t: u64,
    /// 1 between an ask and its commit, else 0.
    pub open: u64,
}

/// The state of `server` before the first block, with `input` as its value.
///
/// Card and plan are refused first, then an input above 1, then a server not in V.
pub fn start(card: &[u8], plan: &[u8], server: u8, input: u8) -> Result<State, Refusal> {
    Site::read(card, plan)?.start(server, input)
}

/// Writes the values that `server` sends as a source of the present kind to the
/// front of `lent`, in plan order, and answers with their number and with the state,
/// in which the ask is now open. At the end the one value is the decided bit, and no
/// ask is opened.
///
/// Card and plan are refused first, then the server and its state, then a buffer
/// shorter than the values due, and last an ask while one is open. A refused call
/// changes no byte of `lent`, and bytes past the values are never touched.
pub fn ask(
    card: &[u8],
    plan: &[u8],
    server: u8,
    state: State,
    lent: &mut [u8],
) -> Result<(State, usize), Refusal> {
    Site::read(card, plan)?.ask(server, state, lent)
}

/// The state of `server` after the steps of the present kind, at the next kind.
///
/// Byte i of `arrived` came by the i-th carriage of the kind whose receiver is
/// `server`, in plan order, and is read as in the run, a missing one too; bytes beyond
/// those due have no effect.
///
/// Card and plan are refused first, then the server and its state, and last a commit
/// with no ask open.
pub fn commit(
    card: &[u8],
    plan: &[u8],
    server: u8,
    state: State,
    arrived: &[u8],
) -> Result<State, Refusal> {
    Site::read(card, plan)?.commit(server, state, arrived)
}

/// Steps all servers side by side through the plan and answers with the one value
/// that each of them gives at the end.
///
/// Where no server of a carriage but its receiver is in the set `faulty`, what the
/// source gave for it arrives, otherwise the byte of `table` with the carriage's
/// number. A faulty server's value is what it would be if that server kept to the
/// steps. Refused is what the run refuses, the lent buffer aside.
pub fn side_by_side(
    card: &[u8],
    plan: &[u8],
    inputs: &[u8],
    faulty: u8,
    table: &[u8],
) -> Result<Vec<u8>, Refusal> {
    let site = Site::read(card, plan)?;
    check_call(&site.network, inputs, faulty, &[0; MAX_SERVERS])?;

    let mut states = Vec::new();
    for (server, &input) in (0u8..).zip(inputs) {
        states.push(site.start(server, input)?);
    }
    for block in &site.blocks {
        for kind in KINDS {
            let sent = site.all_ask(&mut states)?;
            let arrived = block.delivered(kind, &sent, faulty, table);
            for ((server, state), row) in (0u8..).zip(&mut states).zip(&arrived) {
                *state = site.commit(server, *state, row)?;
            }
        }
    }
    Ok(site.all_ask(&mut states)?.concat())
}

/// One route, or one member of a neighbour set N together with its k.
#[derive(Debug, Clone, PartialEq, Eq)]
struct Carriage {
    /// Its place among all carriages of the plan, from 0.
    number: usize,
    kind: u8,
    source: u8,
    receiver: u8,
    /// Every server that has the message in hand, from the source to the receiver.
    servers: Vec<u8>,
}

impl Carriage {
    fn new(number: usize, kind: u8, servers: &[u8]) -> Option<Carriage> {
        Some(Carriage {
            number,
            kind,
            source: *servers.first()?,
            receiver: *servers.last()?,
            servers: servers.to_vec(),
        })
    }

    /// Whether some server of it other than the receiver is in the set `faulty`.
    fn is_tampered(&self, faulty: u8) -> bool {
        let mut senders = self.servers.iter().filter(|&&s| s != self.receiver);
        senders.any(|&s| contains(faulty, s))
    }
}

/// One block of an accepted plan.
#[derive(Debug, Clone, PartialEq, Eq)]
struct Block {
    fault_set: u8,
    /// V - F.
    outside_f: u8,
    a: u8,
    s: u8,
    /// Its carriages of all kinds in plan order.
    carriages: Vec<Carriage>,
}

impl Block {
    fn of_kind(&self, kind: u64) -> impl Iterator<Item = &Carriage> {
        let wanted = move |carriage: &&Carriage| u64::from(carriage.kind) == kind;
        self.carriages.iter().filter(wanted)
    }

    /// What `server` sends in the kind at which `state` is.
    ///
    /// The sources of kind 11 are in A and set t to v only in the commit of that
    /// kind. So v is what they send, as in step 6 at kind 14.
    fn asked(&self, server: u8, state: State) -> Vec<u8> {
        let carries_v = [ROUTE_TO_S, NEIGHBOURS].map(u64::from);
        let value = if carries_v.contains(&state.kind) {
            state.v
        } else {
            state.t
        };
        let sent = self.of_kind(state.kind).filter(|c| c.source == server);
        sent.map(|_| value as u8).collect()
    }

    /// The v and t of `server` after the steps of the kind at which `state` is.
    fn committed(&self, server: u8, state: State, arrived: &[u8]) -> (u8, u8) {
        let due = self.of_kind(state.kind).filter(|c| c.receiver == server);
        let arrivals: Vec<u8> = due
            .enumerate()
            .map(|(place, _)| message(arrived.get(place).copied()))
            .collect();
        let common = common_value(arrivals.iter().copied());
        let is_in = |set: u8| contains(set, server);
        let (mut v, mut t) = (state.v as u8, state.t as u8);

        if state.kind == u64::from(ROUTE_TO_S) {
            // Step 1.
            if is_in(self.a) {
                t = v;
            }
            // Step 2.
            if is_in(self.s & !self.a) {
                t = common;
            }
        }
        if state.kind == u64::from(ROUTE_WITHIN_S) {
            // Step 3.
            if is_in(self.s) && arrivals.iter().any(|&arrival| arrival != t) {
                t = UNSURE;
            }
        }
        if state.kind == u64::from(ROUTE_FROM_S) {
            // Step 4.
            if is_in(self.outside_f & !self.s) {
                t = common;
            }
            // Step 5.
            if is_in(self.outside_f & !(self.a & self.s)) && t != UNSURE {
                v = t;
            }
        }
        if state.kind == u64::from(NEIGHBOURS) {
            // Step 6.
            if is_in(self.fault_set) && common != UNSURE {
                v = common;
            }
        }
        (v, t)
    }

    /// What arrives at each server in this kind, in plan order, if server i sent the
    /// values of `sent[i]`.
    fn delivered(&self, kind: u8, sent: &[Vec<u8>], faulty: u8, table: &[u8]) -> Vec<Vec<u8>> {
        // The values of each server that have not been carried yet.
        let mut left: Vec<_> = sent.iter().map(|row| row.iter().copied()).collect();
        let mut arrived = vec![Vec::new(); sent.len()];
        for carriage in self.of_kind(u64::from(kind)) {
            // Also a tampered carriage uses up its source's value.
            let given = left[usize::from(carriage.source)].next();
            let arrival = if carriage.is_tampered(faulty) {
                table.get(carriage.number).copied()
            } else {
                given
            };
            // A byte missing in the middle of a row is replaced by one that is read
            // the same, or those behind it would move up.
            let arrival = arrival.unwrap_or(message(None));
            arrived[usize::from(carriage.receiver)].push(arrival);
        }
        arrived
    }
}

/// A card with an accepted plan.
struct Site {
    network: Network,
    blocks: Vec<Block>,
}

impl Site {
    fn read(card: &[u8], plan: &[u8]) -> Result<Site, Refusal> {
        let network = read_card(card)?;
        check_plan_for(&network, plan)?;
        let blocks = blocks_of(network.servers(), plan)?;
        Ok(Site { network, blocks })
    }

    fn start(&self, server: u8, input: u8) -> Result<State, Refusal> {
        if input > 1 {
            return refuse(ground::BAD_INPUTS);
        }
        if server >= self.network.n {
            return refuse(ground::BAD_STATE);
        }
        Ok(State {
            block: 0,
            kind: u64::from(ROUTE_TO_S),
            v: u64::from(input),
            t: u64::from(UNSURE),
            open: 0,
        })
    }

    fn ask(&self, server: u8, state: State, lent: &mut [u8]) -> Result<(State, usize), Refusal> {
        let block = self.block_of(server, state)?;
        let values = match block {
            Some(block) => block.asked(server, state),
            None => vec![state.v as u8],
        };
        if lent.len() < values.len() {
            return refuse(ground::SHORT_BUFFER);
        }
        if state.open == 1 {
            return refuse(ground::OUT_OF_TURN);
        }
        lent[..values.len()].copy_from_slice(&values);
        let open = u64::from(block.is_some());
        Ok((State { open, ..state }, values.len()))
    }

    fn commit(&self, server: u8, state: State, arrived: &[u8]) -> Result<State, Refusal> {
        let block = self.block_of(server, state)?;
        // No ask is ever open at the end.
        let Some(block) = block.filter(|_| state.open == 1) else {
            return refuse(ground::OUT_OF_TURN);
        };
        let (v, t) = block.committed(server, state, arrived);
        let (block, kind) = self.after(state);
        Ok(State {
            block,
            kind: u64::from(kind),
            v: u64::from(v),
            t: u64::from(t),
            open: 0,
        })
    }

    /// The block that `server` is in, or `None` at the end of the plan. Refused are a
    /// server not in V and a state at no place of the plan or with a word out of range.
    fn block_of(&self, server: u8, state: State) -> Result<Option<&Block>, Refusal> {
        let blocks = self.blocks.len() as u64;
        let in_range = state.v <= 1 && state.t <= u64::from(UNSURE) && state.open <= 1;
        let at_a_kind = state.block < blocks && KINDS.map(u64::from).contains(&state.kind);
        let at_the_end = state.block == blocks && state.kind == u64::from(END) && state.open == 0;
        if server >= self.network.n || !in_range || !(at_a_kind || at_the_end) {
            return refuse(ground::BAD_STATE);
        }
        Ok(self.blocks.get(state.block as usize))
    }

    /// The block and kind that follow those of `state`, which is at a kind of a block.
    fn after(&self, state: State) -> (u64, u8) {
        let mut later = KINDS
            .into_iter()
            .filter(|&kind| u64::from(kind) > state.kind);
        let next_block = state.block + 1;
        match later.next() {
            Some(kind) => (state.block, kind),
            None if next_block < self.blocks.len() as u64 => (next_block, ROUTE_TO_S),
            None => (next_block, END),
        }
    }

    /// Every server asks; row i of the answer is what server i gives.
    fn all_ask(&self, states: &mut [State]) -> Result<Vec<Vec<u8>>, Refusal> {
        let mut rows = Vec::new();
        for (server, state) in (0u8..).zip(states) {
            // No two carriages of one kind have both source and receiver in common, so
            // there is at most one value for each server.
            let mut lent = [0; MAX_SERVERS];
            let (asked, values) = self.ask(server, *state, &mut lent)?;
            *state = asked;
            rows.push(lent[..values].to_vec());
        }
        Ok(rows)
    }
}

/// The blocks of an accepted plan with their carriages written out. No command is
/// refused here, as the plan has been checked.
fn blocks_of(servers: u8, plan: &[u8]) -> Result<Vec<Block>, Refusal> {
    let mut blocks: Vec<Block> = Vec::new();
    let mut place = 0;
    let mut number = 0;
    loop {
        let mut carry = |kind: u8, servers: &[u8]| {
            if let Some(block) = blocks.last_mut() {
                block.carriages.extend(Carriage::new(number, kind, servers));
            }
            number += 1;
        };
        match command_at(plan, place)? {
            Command::Block { fault_set, a, s } => {
                blocks.push(Block {
                    fault_set,
                    outside_f: servers & !fault_set,
                    a,
                    s,
                    carriages: Vec::new(),
                });
                place += BLOCK_SIZE;
            }
            Command::Route { kind, operand } => {
                carry(kind, route_servers(operand));
                place += ROUTE_SIZE;
            }
            Command::Neighbours { k, neighbours } => {
                members(neighbours).for_each(|member| carry(NEIGHBOURS, &[member, k]));
                place += NEIGHBOURS_SIZE;
            }
            Command::End => return Ok(blocks),
        }
    }
}

fn refuse<T>(number: u8) -> Result<T, Refusal> {
    Err(Refusal::Call { number })
}

#[cfg(test)]
mod tests {
    use super::*;
    use crate::run::{run, values_by_block};
    use crate::sample::{card, complete_card, direct_plan, Quorum, P1_CARD, P5_PLAN};

    const QUORUMS: [Quorum; 3] = [Quorum::InsideA, Quorum::All, Quorum::AllButOneOfA];

    /// What a lent buffer is filled with; no value is this.
    const MARKER: u8 = 0xa5;

    /// The state with these words, which stand in the order of its fields.
    fn state([block, kind, v, t, open]: [u64; 5]) -> State {
        State {
            block,
            kind,
            v,
            t,
            open,
        }
    }

    /// The values of an ask that is not refused. A buffer of just that length serves
    /// too, and nothing but the mark of the state changes.
    fn values(card: &[u8], plan: &[u8], server: u8, before: State) -> Vec<u8> {
        let mut lent = [MARKER; 16];
        let (after, count) = ask(card, plan, server, before, &mut lent).unwrap();
        let open = u64::from(before.kind != 0x15);
        assert_eq!(after, State { open, ..before });
        assert_eq!(lent[count..], vec![MARKER; 16 - count], "untouched");
        let mut just = vec![MARKER; count];
        assert_eq!(
            ask(card, plan, server, before, &mut just),
            Ok((after, count))
        );
        assert_eq!(just, lent[..count]);
        just
    }

    /// A site of four servers with all links, f 1, and the first block as given; the
    /// blocks after it are those of [`direct_plan`].
    fn four_servers(a: u8, s: u8, commands: &[&[u8]]) -> (Vec<u8>, Vec<u8>) {
        let whole = direct_plan(4, 1, Quorum::InsideA);
        let second_block = 76;
        let mut plan = vec![0x10, 0x00, a, s];
        for command in commands {
            let end = plan.len() + ROUTE_SIZE;
            plan.extend(*command);
            plan.resize(end, 0xff);
        }
        plan.extend(&whole[second_block..]);
        let card = complete_card(4, 1);
        check_plan_for(&read_card(&card).unwrap(), &plan).unwrap();
        (card, plan)
    }

    /// A = {1, 2, 3}, S = {0, 2, 3}: server 1 is in A only, 0 in S only.
    fn mixed() -> (Vec<u8>, Vec<u8>) {
        let commands: [&[u8]; 10] = [
            &[0x11, 3, 0],
            &[0x11, 1, 2, 0],
            &[0x12, 2, 0],
            &[0x12, 3, 0],
            &[0x12, 0, 2],
            &[0x12, 3, 2],
            &[0x12, 0, 3],
            &[0x12, 2, 3],
            &[0x13, 0, 1],
            &[0x13, 2, 3, 1],
        ];
        four_servers(0b1110, 0b1101, &commands)
    }

    /// The first block of the plan of four servers with F = {0}.
    const FIRST_WITH_F: u64 = 7;

    #[test]
    fn p5_step_by_step_for_the_source() {
        let mut now = start(&P1_CARD, &P5_PLAN, 0, 1).unwrap();
        assert_eq!(now, state([0, 0x11, 1, 2, 0]));
        // Only kind 13 has a carriage. Step 1 belongs to the commit of 11.
        let steps: [(&[u8], State); 4] = [
            (&[], state([0, 0x12, 1, 1, 0])),
            (&[], state([0, 0x13, 1, 1, 0])),
            (&[1], state([0, 0x14, 1, 1, 0])),
            (&[], state([1, 0x15, 1, 1, 0])),
        ];
        for (sent, next) in steps {
            assert_eq!(values(&P1_CARD, &P5_PLAN, 0, now), sent);
            let asked = State { open: 1, ..now };
            now = commit(&P1_CARD, &P5_PLAN, 0, asked, &[]).unwrap();
            assert_eq!(now, next);
        }
    }

    #[test]
    fn p5_step_by_step_for_the_receiver() {
        let mut now = start(&P1_CARD, &P5_PLAN, 1, 0).unwrap();
        assert_eq!(now, state([0, 0x11, 0, 2, 0]));
        // It is not in A, so it stays unsure until step 4 and takes over in step 5.
        let steps: [(&[u8], State); 4] = [
            (&[], state([0, 0x12, 0, 2, 0])),
            (&[], state([0, 0x13, 0, 2, 0])),
            (&[1], state([0, 0x14, 1, 1, 0])),
            (&[], state([1, 0x15, 1, 1, 0])),
        ];
        for (arrived, next) in steps {
            assert_eq!(values(&P1_CARD, &P5_PLAN, 1, now), []);
            let asked = State { open: 1, ..now };
            now = commit(&P1_CARD, &P5_PLAN, 1, asked, arrived).unwrap();
            assert_eq!(now, next);
        }
    }

    #[test]
    fn the_end_gives_the_decided_bit_as_often_as_asked() {
        for v in 0..=1 {
            for t in 0..=2 {
                let end = state([1, 0x15, v, t, 0]);
                let mut lent = [MARKER; 3];
                for _ in 0..3 {
                    let answer = ask(&P1_CARD, &P5_PLAN, 1, end, &mut lent);
                    assert_eq!(answer, Ok((end, 1)), "opens nothing");
                    assert_eq!(lent, [v as u8, MARKER, MARKER]);
                }
                assert_eq!(ask(&P1_CARD, &P5_PLAN, 1, end, &mut []), refuse(14));
                assert_eq!(commit(&P1_CARD, &P5_PLAN, 1, end, &[v as u8]), refuse(16));
                let open = State { open: 1, ..end };
                assert_eq!(ask(&P1_CARD, &P5_PLAN, 1, open, &mut lent), refuse(13));
                assert_eq!(commit(&P1_CARD, &P5_PLAN, 1, open, &[]), refuse(13));
            }
        }
    }

    #[test]
    fn ask_gives_v_for_11_and_14_and_t_for_12_and_13() {
        let (card, plan) = mixed();
        for v in 0..=1 {
            for t in 0..=2 {
                let sent = |server: u8, block: u64, kind: u64| {
                    values(&card, &plan, server, state([block, kind, v, t, 0]))
                };
                let (v, t) = (v as u8, t as u8);
                assert_eq!(sent(0, 0, 0x11), []);
                assert_eq!(sent(1, 0, 0x11), [v]);
                assert_eq!(sent(2, 0, 0x11), [], "a relay is no source");
                assert_eq!(sent(3, 0, 0x11), [v]);
                assert_eq!(sent(0, 0, 0x12), [t, t]);
                assert_eq!(sent(1, 0, 0x12), []);
                assert_eq!(sent(2, 0, 0x12), [t, t]);
                assert_eq!(sent(0, 0, 0x13), [t]);
                assert_eq!(sent(2, 0, 0x13), [t]);
                assert_eq!(sent(3, 0, 0x13), []);
                assert_eq!(sent(1, 0, 0x14), [], "F is empty");
                assert_eq!(sent(0, FIRST_WITH_F, 0x14), [], "k is no source");
                assert_eq!(sent(1, FIRST_WITH_F, 0x14), [v]);
                assert_eq!(sent(2, FIRST_WITH_F, 0x14), [v]);
                assert_eq!(sent(3, FIRST_WITH_F, 0x14), []);
            }
        }
    }

    /// v and t after a commit of that kind in that block.
    fn committed(
        (card, plan): &(Vec<u8>, Vec<u8>),
        server: u8,
        [block, kind, v, t]: [u64; 4],
        arrived: &[u8],
    ) -> (u64, u64) {
        let before = state([block, kind, v, t, 1]);
        let after = commit(card, plan, server, before, arrived).unwrap();
        let next = if kind == 0x14 {
            (block + 1, 0x11)
        } else {
            (block, kind + 1)
        };
        assert_eq!((after.block, after.kind, after.open), (next.0, next.1, 0));
        let beyond = [arrived, &[0, 1, 2]].concat();
        if arrived.len() == 2 {
            // No server of these plans has more than two carriages of one kind.
            assert_eq!(commit(card, plan, server, before, &beyond), Ok(after));
        }
        (after.v, after.t)
    }

    #[test]
    fn commit_of_11_is_steps_1_and_2() {
        let site = mixed();
        for v in 0..=1 {
            for t in 0..=2 {
                let at = [0, 0x11, v, t];
                for server in [1, 2, 3] {
                    let after = committed(&site, server, at, &[1 - v as u8; 2]);
                    assert_eq!(after, (v, v), "in A, whatever is handed over");
                }
                assert_eq!(committed(&site, 0, at, &[0, 0]), (v, 0));
                assert_eq!(committed(&site, 0, at, &[1, 1]), (v, 1), "P9");
                assert_eq!(committed(&site, 0, at, &[0, 1]), (v, 2));
                assert_eq!(committed(&site, 0, at, &[1, 0]), (v, 2));
                assert_eq!(committed(&site, 0, at, &[2, 2]), (v, 2));
                assert_eq!(committed(&site, 0, at, &[0]), (v, 0), "P8");
                assert_eq!(committed(&site, 0, at, &[1]), (v, 2), "1 and missing");
                assert_eq!(committed(&site, 0, at, &[]), (v, 0), "both missing");
                for byte in 2..=u8::MAX {
                    assert_eq!(committed(&site, 0, at, &[byte]), (v, 2));
                    assert_eq!(committed(&site, 0, at, &[0, byte]), (v, 2));
                    assert_eq!(committed(&site, 0, at, &[byte, 1]), (v, 2));
                    assert_eq!(committed(&site, 0, at, &[byte, byte]), (v, 2));
                }
            }
        }
    }

    #[test]
    fn commit_of_12_is_step_3() {
        let site = mixed();
        for v in 0..=1 {
            for t in 0..=2 {
                let at = [0, 0x12, v, t];
                let same = t as u8;
                for server in [0, 2, 3] {
                    assert_eq!(committed(&site, server, at, &[same; 2]), (v, t));
                    for other in (0..=2).filter(|&other| other != same) {
                        assert_eq!(committed(&site, server, at, &[same, other]), (v, 2));
                        assert_eq!(committed(&site, server, at, &[other, same]), (v, 2));
                        assert_eq!(committed(&site, server, at, &[other; 2]), (v, 2));
                    }
                    // A missing byte is 0, so only a t of 0 is kept.
                    let kept = if t == 0 { 0 } else { 2 };
                    assert_eq!(committed(&site, server, at, &[same]), (v, kept));
                    assert_eq!(committed(&site, server, at, &[]), (v, kept));
                    assert_eq!(committed(&site, server, at, &[255]), (v, 2));
                }
                assert_eq!(
                    committed(&site, 1, at, &[1 - v as u8; 2]),
                    (v, t),
                    "not in S"
                );
            }
        }
    }

    #[test]
    fn p10_a_single_server_of_s_keeps_its_t() {
        for v in 0..=1 {
            for t in 0..=2 {
                let before = state([0, 0x12, v, t, 1]);
                let after = state([0, 0x13, v, t, 0]);
                for arrived in [&[][..], &[0], &[1], &[2, 7]] {
                    let answer = commit(&P1_CARD, &P5_PLAN, 0, before, arrived);
                    assert_eq!(answer, Ok(after));
                }
            }
        }
    }

    #[test]
    fn commit_of_13_is_steps_4_and_5() {
        let site = mixed();
        for v in 0..=1 {
            for t in 0..=2 {
                let at = [0, 0x13, v, t];
                // Server 1 is in A but not in S: it hears and takes over.
                assert_eq!(committed(&site, 1, at, &[0, 0]), (0, 0));
                assert_eq!(committed(&site, 1, at, &[1, 1]), (1, 1));
                assert_eq!(committed(&site, 1, at, &[0, 1]), (v, 2));
                assert_eq!(committed(&site, 1, at, &[2, 2]), (v, 2));
                assert_eq!(committed(&site, 1, at, &[1]), (v, 2), "1 and missing");
                assert_eq!(committed(&site, 1, at, &[0]), (0, 0), "0 and missing");
                assert_eq!(committed(&site, 1, at, &[]), (0, 0), "both missing");
                assert_eq!(committed(&site, 1, at, &[0, 255]), (v, 2));
                let other = [1 - v as u8; 2];
                for server in [2, 3] {
                    assert_eq!(committed(&site, server, at, &other), (v, t), "in A and S");
                }
                // Server 0 is in S but not in A: it takes over what it has.
                let taken_over = if t == 2 { v } else { t };
                assert_eq!(committed(&site, 0, at, &other), (taken_over, t));
            }
        }
    }

    #[test]
    fn commit_of_14_is_step_6() {
        let site = mixed();
        for v in 0..=1 {
            for t in 0..=2 {
                let at = [FIRST_WITH_F, 0x14, v, t];
                assert_eq!(committed(&site, 0, at, &[0, 0]), (0, t));
                assert_eq!(committed(&site, 0, at, &[1, 1]), (1, t));
                assert_eq!(committed(&site, 0, at, &[1, 0]), (v, t));
                assert_eq!(committed(&site, 0, at, &[2, 2]), (v, t));
                assert_eq!(committed(&site, 0, at, &[1]), (v, t), "1 and missing");
                assert_eq!(committed(&site, 0, at, &[0]), (0, t), "0 and missing");
                assert_eq!(committed(&site, 0, at, &[]), (0, t), "both missing");
                assert_eq!(committed(&site, 0, at, &[0, 255]), (v, t));
                let other = [1 - v as u8; 2];
                for server in [1, 2, 3] {
                    assert_eq!(committed(&site, server, at, &other), (v, t), "not in F");
                }
            }
        }
    }

    #[test]
    fn too_few_arrived_bytes_are_as_zeros_in_their_place() {
        let site = mixed();
        for block in [0, FIRST_WITH_F] {
            for (kind, server) in (0x11..=0x14).flat_map(|k| (0..4).map(move |s| (k, s))) {
                for (v, t) in [(0, 0), (0, 1), (0, 2), (1, 0), (1, 1), (1, 2)] {
                    let after =
                        |arrived: &[u8]| committed(&site, server, [block, kind, v, t], arrived);
                    assert_eq!(after(&[]), after(&[0, 0]));
                    for byte in [0, 1, 2, 255] {
                        assert_eq!(after(&[byte]), after(&[byte, 0]));
                    }
                }
            }
        }
    }

    #[test]
    fn a_server_of_f_sits_out_until_kind_14() {
        let site = mixed();
        for v in 0..=1 {
            for t in 0..=2 {
                for kind in 0x11..=0x13 {
                    let at = [FIRST_WITH_F, kind, v, t];
                    let other = [1 - v as u8; 2];
                    assert_eq!(committed(&site, 0, at, &other), (v, t));
                }
            }
        }
    }

    /// Every word from a few in range to the largest.
    fn words() -> Vec<u64> {
        let far = [0xff, 0x100, 0x111, u64::MAX - 1, u64::MAX];
        (0..=0x20).chain(far).chain([1 << 32, 1 << 63]).collect()
    }

    #[test]
    fn refusal_13_for_a_state_at_no_place_of_the_plan() {
        let number = |server: u8, state: State| {
            let mut lent = [MARKER; 16];
            let asked = ask(&P1_CARD, &P5_PLAN, server, state, &mut lent);
            let committed = commit(&P1_CARD, &P5_PLAN, server, state, &[]);
            if asked == refuse(13) {
                assert_eq!(lent, [MARKER; 16]);
                assert_eq!(committed, refuse(13));
                13
            } else {
                assert!(asked.is_ok());
                assert_eq!(committed, refuse(16), "no ask is open");
                0
            }
        };
        for block in words() {
            for kind in words() {
                let there = block == 0 && (0x11..=0x14).contains(&kind);
                let end = block == 1 && kind == 0x15;
                let due = if there || end { 0 } else { 13 };
                assert_eq!(number(0, state([block, kind, 0, 2, 0])), due);
            }
        }
        for word in words() {
            for place in [[0, 0x11], [0, 0x14], [1, 0x15]] {
                let [block, kind] = place;
                let v = if word <= 1 { 0 } else { 13 };
                assert_eq!(number(1, state([block, kind, word, 2, 0])), v);
                let t = if word <= 2 { 0 } else { 13 };
                assert_eq!(number(1, state([block, kind, 0, word, 0])), t);
                if word != 1 {
                    let open = if word == 0 { 0 } else { 13 };
                    assert_eq!(number(1, state([block, kind, 0, 0, word])), open);
                }
            }
        }
        for server in 0..=u8::MAX {
            let due = if server < 2 { 0 } else { 13 };
            assert_eq!(number(server, state([0, 0x13, 0, 0, 0])), due);
            assert_eq!(number(server, state([1, 0x15, 0, 0, 0])), due);
        }
    }

    #[test]
    fn refusals_of_ask_in_their_order() {
        let mut lent = [MARKER; 4];
        let mut number = |state: State, length: usize| {
            let answer = ask(&P1_CARD, &P5_PLAN, 0, state, &mut lent[..length]);
            assert_eq!(lent, [MARKER; 4], "nothing written");
            match answer {
                Err(Refusal::Call { number }) => number,
                other => panic!("the call should be refused, got {other:?}"),
            }
        };
        assert_eq!(number(state([0, 0x13, 1, 1, 0]), 0), 14);
        assert_eq!(number(state([0, 0x13, 1, 1, 1]), 4), 16);
        assert_eq!(number(state([0, 0x13, 1, 1, 1]), 0), 14, "14 before 16");
        assert_eq!(number(state([0, 0x13, 1, 3, 1]), 0), 13, "13 before 14");
        assert_eq!(number(state([0, 0x12, 1, 1, 1]), 0), 16, "no value is due");
        assert_eq!(number(state([1, 0x15, 1, 1, 0]), 0), 14, "at the end");
        assert_eq!(number(state([1, 0x15, 1, 1, 1]), 0), 13, "at the end");
    }

    #[test]
    fn refusals_of_commit_in_their_order() {
        let refused = |state: State| commit(&P1_CARD, &P5_PLAN, 0, state, &[]);
        for kind in 0x11..=0x14 {
            assert_eq!(refused(state([0, kind, 1, 1, 0])), refuse(16));
            assert_eq!(
                refused(state([0, kind, 2, 1, 0])),
                refuse(13),
                "13 before 16"
            );
        }
        assert_eq!(refused(state([1, 0x15, 1, 1, 0])), refuse(16));
        assert_eq!(refused(state([1, 0x15, 1, 1, 1])), refuse(13));
    }

    #[test]
    fn refusals_of_start_in_their_order() {
        for server in 0..=u8::MAX {
            for input in 0..=u8::MAX {
                let answer = start(&P1_CARD, &P5_PLAN, server, input);
                if input > 1 {
                    assert_eq!(answer, refuse(12), "12 before 13");
                } else if server > 1 {
                    assert_eq!(answer, refuse(13));
                } else {
                    let v = u64::from(input);
                    assert_eq!(answer, Ok(state([0, 0x11, v, 2, 0])));
                }
            }
        }
    }

    #[test]
    fn card_and_plan_are_refused_before_the_call() {
        let (number, place) = (2, 0);
        let bad_card = Refusal::Card { number, place };
        let bad_plan = Refusal::Plan { number, place };
        let nowhere = state([9, 9, 9, 9, 9]);
        for (card, refusal) in [(&[][..], bad_card), (&P1_CARD, bad_plan)] {
            let mut lent = [MARKER; 4];
            assert_eq!(start(card, &[], 9, 9), Err(refusal));
            assert_eq!(ask(card, &[], 9, nowhere, &mut lent), Err(refusal));
            assert_eq!(lent, [MARKER; 4]);
            assert_eq!(commit(card, &[], 9, nowhere, &[]), Err(refusal));
            assert_eq!(side_by_side(card, &[], &[], 0xff, &[]), Err(refusal));
        }
    }

    #[test]
    fn carriages_are_written_out_in_plan_order() {
        let (card, plan) = mixed();
        let site = Site::read(&card, &plan).unwrap();
        let first = &site.blocks[0];
        assert_eq!((first.a, first.s), (0b1110, 0b1101));
        assert_eq!((first.fault_set, first.outside_f), (0, 0b1111));
        let relayed = Carriage {
            number: 1,
            kind: 0x11,
            source: 1,
            receiver: 0,
            servers: vec![1, 2, 0],
        };
        assert_eq!(first.carriages[1], relayed);
        assert_eq!(
            [0, 1, 2, 3].map(|server| relayed.is_tampered(1 << server)),
            [false, true, true, false]
        );
        let carriages = site.blocks.iter().flat_map(|block| &block.carriages);
        let numbers: Vec<usize> = carriages.map(|carriage| carriage.number).collect();
        let totals = check_plan_for(&site.network, &plan).unwrap();
        assert_eq!(site.blocks.len(), totals.blocks);
        assert_eq!(numbers, (0..totals.carriages).collect::<Vec<_>>());
        let with_f = &site.blocks[FIRST_WITH_F as usize];
        assert_eq!((with_f.fault_set, with_f.outside_f), (0b0001, 0b1110));
        let last_two = &with_f.carriages[with_f.carriages.len() - 2..];
        assert_eq!(last_two[0].servers, [1, 0], "members of N ascending");
        assert_eq!(last_two[1].servers, [2, 0]);
    }

    #[test]
    fn a_carriage_brings_the_value_at_its_position_in_its_sources_row() {
        // Of one kind a server sends the same value throughout; with values that
        // differ the positions show.
        let (card, plan) = mixed();
        let site = Site::read(&card, &plan).unwrap();
        let sent = [vec![10, 11], vec![], vec![20, 21], vec![30, 31]];
        let arrived = |faulty: u8, table: &[u8]| {
            site.blocks[0].delivered(ROUTE_WITHIN_S, &sent, faulty, table)
        };
        assert_eq!(
            arrived(0, &[7; 20]),
            [vec![20, 30], vec![], vec![10, 31], vec![11, 21]]
        );
        let table = [40, 41, 42, 43, 44, 45, 46, 47];
        assert_eq!(
            arrived(0b0100, &table),
            [vec![42, 30], vec![], vec![10, 31], vec![11, 47]]
        );
        assert_eq!(
            arrived(0b0100, &table[..2]),
            [vec![0, 30], vec![], vec![10, 31], vec![11, 0]],
            "missing, and the 30 behind one keeps its place"
        );
        assert_eq!(
            arrived(0b1000, &table[..4]),
            [vec![20, 43], vec![], vec![10, 0], vec![11, 21]],
            "number 5 is past the cut, number 3 is not"
        );
    }

    #[test]
    fn what_stands_for_a_missing_byte_is_read_as_a_missing_one() {
        assert_eq!(message(Some(message(None))), message(None));
    }

    /// Message tables of every sort, most of them shorter than some plan.
    fn tables() -> Vec<Vec<u8>> {
        let mut word = 5u32;
        let mut scattered = |choices: &[u8], length: usize| -> Vec<u8> {
            let mut draw = || {
                word = word.wrapping_mul(1_664_525).wrapping_add(1_013_904_223);
                choices[(word >> 16) as usize % choices.len()]
            };
            (0..length).map(|_| draw()).collect()
        };
        vec![
            vec![],
            vec![0; 50_000],
            vec![1; 50_000],
            vec![0xff; 50_000],
            [0, 1].repeat(100),
            [1, 1, 0, 0, 2].repeat(50),
            scattered(&[0, 1], 50_000),
            scattered(&[0, 1, 2, 3, 0x80, 0xff], 50_000),
            scattered(&[0, 1, 1, 77], 120),
        ]
    }

    /// Holds servers stepped side by side to the run: all faulty sets, all tables,
    /// and each of `choices` as inputs, server i having bit i.
    fn assert_as_the_run(card: &[u8], plan: &[u8], choices: impl Iterator<Item = u8> + Clone) {
        let Network { n, f, .. } = read_card(card).unwrap();
        let n = usize::from(n);
        let faulty_sets = (0..1u16 << n).filter(|set| set.count_ones() <= u32::from(f));
        for faulty in faulty_sets.map(|set| set as u8) {
            for table in tables() {
                for choice in choices.clone() {
                    let inputs: Vec<u8> = (0..n).map(|server| choice >> server & 1).collect();
                    let ends = side_by_side(card, plan, &inputs, faulty, &table).unwrap();
                    let mut decided = vec![MARKER; n];
                    run(card, plan, &inputs, faulty, &table, &mut decided).unwrap();
                    let sound = (0..n).filter(|&server| faulty >> server & 1 == 0);
                    for server in sound {
                        assert_eq!(ends[server], decided[server], "{inputs:?} {faulty}");
                    }
                    let by_block = values_by_block(card, plan, &inputs, faulty, &table).unwrap();
                    assert_eq!(by_block.last().map(|v| &v[..n]), Some(&ends[..]));
                }
            }
        }
    }

    /// The same plan with the routes of 12 led through all other servers outside F.
    fn relayed(card: &[u8], plan: &[u8]) -> Vec<u8> {
        let site = Site::read(card, plan).unwrap();
        let mut plan = plan.to_vec();
        let mut place = 0;
        for block in &site.blocks {
            place += BLOCK_SIZE;
            for carriage in block.carriages.iter().filter(|c| c.kind != NEIGHBOURS) {
                if carriage.kind == ROUTE_WITHIN_S {
                    let ends = [carriage.source, carriage.receiver];
                    let between = members(block.outside_f).filter(|s| !ends.contains(s));
                    let mut route = vec![carriage.source];
                    route.extend(between.chain([carriage.receiver]));
                    plan[place + 1..place + 1 + route.len()].copy_from_slice(&route);
                }
                place += ROUTE_SIZE;
            }
            place += NEIGHBOURS_SIZE * block.fault_set.count_ones() as usize;
        }
        plan
    }

    #[test]
    fn small_sites_end_as_the_run() {
        assert_as_the_run(&P1_CARD, &P5_PLAN, 0..4);
        for quorum in QUORUMS {
            for (n, f) in [(2, 0), (3, 0), (4, 0), (4, 1)] {
                let (card, plan) = (complete_card(n, f), direct_plan(n, f, quorum));
                assert_as_the_run(&card, &plan, 0..1 << n);
                assert_as_the_run(&card, &relayed(&card, &plan), 0..1 << n);
            }
        }
        let (card, plan) = mixed();
        assert_as_the_run(&card, &plan, 0..16);
    }

    #[test]
    fn large_sites_end_as_the_run() {
        for quorum in QUORUMS {
            for (n, f, step) in [(5, 1, 3), (6, 1, 11), (7, 2, 128)] {
                let (card, plan) = (complete_card(n, f), direct_plan(n, f, quorum));
                let choices = (0b10011..1 << n).step_by(step);
                assert_as_the_run(&card, &plan, choices.clone());
                assert_as_the_run(&card, &relayed(&card, &plan), choices);
            }
        }
    }

    #[test]
    fn a_table_cut_anywhere_ends_as_the_run_and_as_with_zeros_after_the_cut() {
        let card = complete_card(4, 1);
        let direct = QUORUMS.map(|quorum| direct_plan(4, 1, quorum));
        let led_through = direct.each_ref().map(|plan| relayed(&card, plan));
        for plan in direct.into_iter().chain(led_through).chain([mixed().1]) {
            let carriages = crate::check_plan(&card, &plan).unwrap().carriages;
            let whole = [1, 0xff, 1, 0, 1].repeat(carriages);
            for cut in 0..=carriages {
                let table = &whole[..cut];
                let filled = [table, &vec![0; carriages - cut]].concat();
                for faulty in [0b0001, 0b0010, 0b0100, 0b1000] {
                    for inputs in [[1, 1, 0, 0], [0, 1, 0, 1], [1; 4]] {
                        let ends = |table| side_by_side(&card, &plan, &inputs, faulty, table);
                        let values = values_by_block(&card, &plan, &inputs, faulty, table);
                        let v = values.unwrap().last().unwrap()[..4].to_vec();
                        assert_eq!(ends(table), Ok(v), "{cut}");
                        assert_eq!(ends(table), ends(&filled), "{cut}");
                    }
                }
            }
        }
    }

    #[test]
    fn silence_decides_otherwise_than_255() {
        // Worked out in the run's test of that name.
        let (card, plan) = (complete_card(4, 1), direct_plan(4, 1, Quorum::InsideA));
        let sound = |table: &[u8]| {
            let ends = side_by_side(&card, &plan, &[1, 1, 0, 1], 0b1000, table).unwrap();
            ends[..3].to_vec()
        };
        assert_eq!(sound(&[]), [0, 0, 0]);
        assert_eq!(sound(&[0xff; 1_000]), [1, 1, 1]);
    }

    #[test]
    fn a_chain_ends_as_the_run() {
        let card = card(3, 0, &[(0, 1), (1, 2)]);
        let mut plan = Vec::new();
        for a in [0b001, 0b011, 0b101] {
            plan.extend([0x10, 0, a, 0b001]);
            plan.extend([0x13, 0, 1, 0xff, 0xff, 0xff, 0xff, 0xff, 0xff]);
            plan.extend([0x13, 0, 1, 2, 0xff, 0xff, 0xff, 0xff, 0xff]);
        }
        plan.push(0x15);
        assert_as_the_run(&card, &plan, 0..8);
        let ends = side_by_side(&card, &plan, &[1, 0, 0], 0, &[]);
        assert_eq!(ends, Ok(vec![1, 1, 1]));
    }

    #[test]
    fn the_three_calls_alone_end_as_the_run() {
        // Every byte goes by the public calls here, with card and plan read anew in
        // each of them; server 3 is faulty and sends nothing.
        let (card, plan) = mixed();
        let site = Site::read(&card, &plan).unwrap();
        let (inputs, faulty) = ([1, 0, 1, 0], 0b1000);
        let mut states: Vec<State> = (0..4)
            .map(|server| start(&card, &plan, server, inputs[usize::from(server)]).unwrap())
            .collect();
        for block in &site.blocks {
            for kind in KINDS {
                let mut rows = Vec::new();
                for (server, state) in (0u8..).zip(&mut states) {
                    rows.push(values(&card, &plan, server, *state));
                    state.open = 1;
                }
                let arrived = block.delivered(kind, &rows, faulty, &[]);
                for (server, state) in (0u8..).zip(&mut states) {
                    let row = &arrived[usize::from(server)];
                    *state = commit(&card, &plan, server, *state, row).unwrap();
                }
            }
        }
        let mut decided = [MARKER; 4];
        run(&card, &plan, &inputs, faulty, &[], &mut decided).unwrap();
        for server in 0..3u8 {
            let at = usize::from(server);
            let end = states[at];
            assert_eq!((end.block, end.kind, end.open), (19, 0x15, 0));
            assert_eq!(values(&card, &plan, server, end), [decided[at]]);
        }
    }

    #[test]
    fn side_by_side_refuses_what_the_run_refuses() {
        let (card, plan) = mixed();
        assert_eq!(side_by_side(&card, &plan, &[0; 3], 0, &[]), refuse(12));
        assert_eq!(
            side_by_side(&card, &plan, &[0, 0, 2, 0], 0, &[]),
            refuse(12)
        );
        assert_eq!(side_by_side(&card, &plan, &[0; 4], 0b0011, &[]), refuse(13));
        assert_eq!(
            side_by_side(&card, &plan, &[0; 4], 0b1_0000, &[]),
            refuse(13)
        );
    }
}
