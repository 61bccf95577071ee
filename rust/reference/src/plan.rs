//! The route plan: which blocks it has, and whether each route keeps the rules.

use crate::card::{read_card, Network, MAX_SERVERS};
use crate::refusal::{ground, Refusal};
use crate::sets::{contains, is_within, members, singleton, subsets};

/// A plan may have this many bytes and no more.
const PLAN_LIMIT: usize = 1_048_576;

/// Command bytes of the plan.
pub(crate) const BLOCK: u8 = 0x10;
pub(crate) const ROUTE_TO_S: u8 = 0x11;
pub(crate) const ROUTE_WITHIN_S: u8 = 0x12;
pub(crate) const ROUTE_FROM_S: u8 = 0x13;
pub(crate) const NEIGHBOURS: u8 = 0x14;
pub(crate) const END: u8 = 0x15;

/// A route operand has room for every server once.
pub(crate) const ROUTE_OPERAND: usize = MAX_SERVERS;
/// The byte that fills up a route of fewer than eight servers.
pub(crate) const FILL: u8 = 0xff;

/// Bytes that each command takes, operands included.
pub(crate) const BLOCK_SIZE: usize = 4;
pub(crate) const ROUTE_SIZE: usize = 1 + ROUTE_OPERAND;
pub(crate) const NEIGHBOURS_SIZE: usize = 3;
pub(crate) const END_SIZE: usize = 1;

/// How much an accepted plan holds.
#[derive(Debug, Clone, Copy, PartialEq, Eq)]
pub struct Totals {
    /// Blocks: one for each fault set and each partition of the other servers.
    pub blocks: usize,
    /// Carriages: routes, and members of the neighbour sets N.
    pub carriages: usize,
}

/// Answers with the number of blocks and of carriages of `plan` if it is a sound
/// plan for the network on `card`, or with the first fault: those of the card come
/// before those of the plan.
pub fn check_plan(card: &[u8], plan: &[u8]) -> Result<Totals, Refusal> {
    check_plan_for(&read_card(card)?, plan)
}

/// The plan check on a card that has been read already.
pub(crate) fn check_plan_for(network: &Network, plan: &[u8]) -> Result<Totals, Refusal> {
    if plan.len() > PLAN_LIMIT {
        return Err(refused(ground::TOO_LONG, 0));
    }
    let mut checker = Checker::new(network, plan);
    let mut blocks = 0;
    for due in blocks_due(network) {
        checker.block(due)?;
        blocks += 1;
    }
    checker.end()?;
    Ok(Totals {
        blocks,
        carriages: checker.carriages,
    })
}

/// The servers of a route operand: everything before its first fill byte.
pub(crate) fn route_servers(operand: &[u8]) -> &[u8] {
    let servers = operand.iter().position(|&byte| byte == FILL);
    &operand[..servers.unwrap_or(operand.len())]
}

/// What a block must be about: the fault set F and one way of cutting V - F.
#[derive(Debug, Clone, Copy, PartialEq, Eq)]
pub(crate) struct BlockDue {
    pub fault_set: u8,
    /// The part of V - F that holds its lowest server.
    pub lowest_part: u8,
    /// The other part.
    pub other_part: u8,
}

/// The blocks of a plan for `network` in their order: by F, then by the part that
/// holds the lowest server of V - F.
pub(crate) fn blocks_due(network: &Network) -> impl Iterator<Item = BlockDue> {
    let servers = network.servers();
    fault_sets(network).flat_map(move |fault_set| partitions(servers, fault_set))
}

/// The sets F of at most f servers, ascending as numbers.
pub(crate) fn fault_sets(network: &Network) -> impl Iterator<Item = u8> {
    let allowance = u32::from(network.f);
    subsets(network.servers()).filter(move |fault_set| fault_set.count_ones() <= allowance)
}

/// The ways of cutting V - F into two parts that are not empty.
pub(crate) fn partitions(servers: u8, fault_set: u8) -> impl Iterator<Item = BlockDue> {
    let outside_f = servers & !fault_set;
    let lowest = outside_f & outside_f.wrapping_neg();
    subsets(outside_f)
        .filter(move |&part| part & lowest != 0 && part != outside_f)
        .map(move |part| BlockDue {
            fault_set,
            lowest_part: part,
            other_part: outside_f & !part,
        })
}

/// One command of a plan with its operands.
pub(crate) enum Command<'p> {
    Block { fault_set: u8, a: u8, s: u8 },
    Route { kind: u8, operand: &'p [u8] },
    Neighbours { k: u8, neighbours: u8 },
    End,
}

/// The whole command at `place`, which is at most the plan's length.
///
/// How many operands there must be goes by the command found. One answer serves
/// for an unknown command, for operands cut off and for no command at all, since
/// in the last case `place` is the length of the plan.
pub(crate) fn command_at(plan: &[u8], place: usize) -> Result<Command<'_>, Refusal> {
    match plan[place..] {
        [BLOCK, fault_set, a, s, ..] => Ok(Command::Block { fault_set, a, s }),
        [kind @ (ROUTE_TO_S | ROUTE_WITHIN_S | ROUTE_FROM_S), ref rest @ ..]
            if rest.len() >= ROUTE_OPERAND =>
        {
            let operand = &rest[..ROUTE_OPERAND];
            Ok(Command::Route { kind, operand })
        }
        [NEIGHBOURS, k, neighbours, ..] => Ok(Command::Neighbours { k, neighbours }),
        [END, ..] => Ok(Command::End),
        _ => Err(refused(ground::NO_WHOLE_COMMAND, place)),
    }
}

/// Walks through a plan from the front and holds each command to what is due.
struct Checker<'a> {
    network: &'a Network,
    incoming: [u8; MAX_SERVERS],
    plan: &'a [u8],
    /// Where the next command starts.
    place: usize,
    /// Carriages of the commands passed so far.
    carriages: usize,
}

impl<'a> Checker<'a> {
    fn new(network: &'a Network, plan: &'a [u8]) -> Checker<'a> {
        Checker {
            network,
            incoming: network.incoming(),
            plan,
            place: 0,
            carriages: 0,
        }
    }

    /// Checks one block, from its opening command to its last neighbour set.
    fn block(&mut self, due: BlockDue) -> Result<(), Refusal> {
        let outside_f = self.network.servers() & !due.fault_set;
        let (a, s) = self.opening(due)?;
        self.disjoint_routes(ROUTE_TO_S, a, s & !a, outside_f)?;
        self.routes_within(s, outside_f)?;
        self.disjoint_routes(ROUTE_FROM_S, s, outside_f & !s, outside_f)?;
        self.neighbour_sets(due.fault_set)
    }

    /// 10 F A S: answers with A and S.
    fn opening(&mut self, due: BlockDue) -> Result<(u8, u8), Refusal> {
        let Command::Block { fault_set, a, s } = command_at(self.plan, self.place)? else {
            return self.refuse(ground::NOT_DUE);
        };
        if fault_set != due.fault_set || (a != due.lowest_part && a != due.other_part) {
            return self.refuse(ground::NOT_DUE);
        }
        if s == 0 || !is_within(s, due.lowest_part | due.other_part) {
            return self.refuse(ground::BAD_SOURCE_SET);
        }
        self.place += BLOCK_SIZE;
        Ok((a, s))
    }

    /// 11 or 13: to each receiver f+1 routes from `sources` that share nothing but
    /// the receiver.
    fn disjoint_routes(
        &mut self,
        kind: u8,
        sources: u8,
        receivers: u8,
        allowed: u8,
    ) -> Result<(), Refusal> {
        for receiver in members(receivers) {
            let mut used = 0;
            for _ in 0..=self.network.f {
                let senders = self.route(kind, sources, receiver, allowed)?;
                if senders & used != 0 {
                    return self.refuse(ground::ROUTES_NOT_DISJOINT);
                }
                used |= senders;
                self.pass_route();
            }
        }
        Ok(())
    }

    /// 12: one route to each member of S from each other member.
    fn routes_within(&mut self, s: u8, allowed: u8) -> Result<(), Refusal> {
        for receiver in members(s) {
            for source in members(s & !singleton(receiver)) {
                self.route(ROUTE_WITHIN_S, singleton(source), receiver, allowed)?;
                self.pass_route();
            }
        }
        Ok(())
    }

    /// Checks the route at the present place on its own, without passing it, and
    /// answers with the set of its servers other than the receiver.
    fn route(&self, kind_due: u8, sources: u8, receiver: u8, allowed: u8) -> Result<u8, Refusal> {
        match command_at(self.plan, self.place)? {
            Command::Route { kind, operand } if kind == kind_due => {
                match self.senders(operand, sources, receiver, allowed) {
                    Some(senders) => Ok(senders),
                    None => self.refuse(ground::BAD_ROUTE),
                }
            }
            _ => self.refuse(ground::NOT_DUE),
        }
    }

    /// The set of all servers of a route but its receiver, or `None` if the route
    /// breaks a rule on its own. `allowed` is V - F, where all its servers must lie.
    fn senders(&self, operand: &[u8], sources: u8, receiver: u8, allowed: u8) -> Option<u8> {
        let servers = route_servers(operand);
        let (fill, length) = (&operand[servers.len()..], servers.len());
        let (&first, &last) = (servers.first()?, servers.last()?);
        if length < 2 || fill.iter().any(|&byte| byte != FILL) {
            return None;
        }
        let mut seen = 0;
        for &server in servers {
            // Only a server of V may become a bit of a set.
            if server >= self.network.n || !contains(allowed & !seen, server) {
                return None;
            }
            seen |= singleton(server);
        }
        let linked = servers
            .windows(2)
            .all(|pair| self.network.has_link(pair[0], pair[1]));
        if !linked || !contains(sources, first) || last != receiver {
            return None;
        }
        Some(seen & !singleton(receiver))
    }

    fn pass_route(&mut self) {
        self.place += ROUTE_SIZE;
        self.carriages += 1;
    }

    /// 14 k N, for each k of F: N is exactly f+1 servers of V - F with a link to k.
    fn neighbour_sets(&mut self, fault_set: u8) -> Result<(), Refusal> {
        let size_due = u32::from(self.network.f) + 1;
        for due in members(fault_set) {
            let Command::Neighbours { k, neighbours } = command_at(self.plan, self.place)? else {
                return self.refuse(ground::NOT_DUE);
            };
            // A set of incoming neighbours holds servers of V only.
            let eligible = self.incoming[usize::from(due)] & !fault_set;
            if k != due || neighbours.count_ones() != size_due || !is_within(neighbours, eligible) {
                return self.refuse(ground::BAD_NEIGHBOURS);
            }
            self.place += NEIGHBOURS_SIZE;
            self.carriages += neighbours.count_ones() as usize;
        }
        Ok(())
    }

    /// 15, and nothing after it.
    fn end(&mut self) -> Result<(), Refusal> {
        let Command::End = command_at(self.plan, self.place)? else {
            return self.refuse(ground::NOT_DUE);
        };
        self.place += END_SIZE;
        if self.place < self.plan.len() {
            return self.refuse(ground::BYTES_AFTER_END);
        }
        Ok(())
    }

    /// A refusal at the present place.
    fn refuse<T>(&self, number: u8) -> Result<T, Refusal> {
        Err(refused(number, self.place))
    }
}

fn refused(number: u8, place: usize) -> Refusal {
    Refusal::Plan { number, place }
}

#[cfg(test)]
mod tests {
    use super::*;
    use crate::sample::{card, complete_card, direct_plan, twin_card, Quorum, P1_CARD, P5_PLAN};

    fn fault(card: &[u8], plan: &[u8]) -> (u8, usize) {
        match check_plan(card, plan) {
            Err(Refusal::Plan { number, place }) => (number, place),
            other => panic!("the plan should be refused, got {other:?}"),
        }
    }

    /// A plan and a card to damage it for: four servers, all links, f 1. The first
    /// block is F 0, A = S = {1, 2, 3}. Its routes of 12 stand at 4 to 57, those of
    /// 13 to receiver 0 at 58 and 67, and the second block opens at 76.
    struct Four {
        card: Vec<u8>,
        plan: Vec<u8>,
    }

    const FIRST_WITHIN: usize = 4;
    const FIRST_FROM_S: usize = 58;
    const SECOND_FROM_S: usize = 67;
    const SECOND_BLOCK: usize = 76;

    impl Four {
        fn new() -> Four {
            let (card, plan) = (complete_card(4, 1), direct_plan(4, 1, Quorum::InsideA));
            assert_eq!(plan[..4], [0x10, 0x00, 0b1110, 0b1110]);
            assert_eq!(plan[FIRST_WITHIN..FIRST_WITHIN + 4], [0x12, 2, 1, 0xff]);
            assert_eq!(plan[FIRST_FROM_S..FIRST_FROM_S + 4], [0x13, 1, 0, 0xff]);
            assert_eq!(plan[SECOND_FROM_S..SECOND_FROM_S + 4], [0x13, 2, 0, 0xff]);
            assert_eq!(plan[SECOND_BLOCK..SECOND_BLOCK + 2], [0x10, 0x00]);
            Four { card, plan }
        }

        /// The fault after these bytes of the plan were written over.
        fn fault_with(&self, place: usize, bytes: &[u8]) -> (u8, usize) {
            let mut plan = self.plan.clone();
            plan[place..place + bytes.len()].copy_from_slice(bytes);
            fault(&self.card, &plan)
        }

        /// The answer after the route of that place has got these servers.
        fn with_route(&self, place: usize, servers: &[u8]) -> Result<Totals, Refusal> {
            let mut plan = self.plan.clone();
            plan[place + 1..place + 9].fill(0xff);
            plan[place + 1..place + 1 + servers.len()].copy_from_slice(servers);
            check_plan(&self.card, &plan)
        }
    }

    /// The places of all commands of that kind in a sound plan.
    fn places(plan: &[u8], kind: u8) -> Vec<usize> {
        let mut found = Vec::new();
        let mut place = 0;
        while place < plan.len() {
            if plan[place] == kind {
                found.push(place);
            }
            place += match plan[place] {
                0x10 => 4,
                0x11..=0x13 => 9,
                0x14 => 3,
                _ => 1,
            };
        }
        found
    }

    #[test]
    fn p5_is_accepted() {
        let totals = Totals {
            blocks: 1,
            carriages: 1,
        };
        assert_eq!(check_plan(&P1_CARD, &P5_PLAN), Ok(totals));
    }

    #[test]
    fn p6_a_route_to_s_is_due() {
        let mut plan = P5_PLAN;
        plan[2] = 0x02;
        assert_eq!(fault(&P1_CARD, &plan), (7, 4));
    }

    #[test]
    fn block_counts() {
        for (n, f, blocks) in [(4, 0, 7), (4, 1, 19), (7, 2, 595), (8, 2, 1_499)] {
            let card = complete_card(n, f);
            assert_eq!(blocks_due(&read_card(&card).unwrap()).count(), blocks);
            for quorum in [Quorum::InsideA, Quorum::All] {
                let plan = direct_plan(n, f, quorum);
                assert_eq!(check_plan(&card, &plan).unwrap().blocks, blocks);
            }
        }
    }

    #[test]
    fn blocks_are_ordered_by_f_then_by_the_part_of_the_lowest_server() {
        for n in 2..=8u8 {
            for f in 0..=2u8 {
                let network = read_card(&complete_card(n, f)).unwrap();
                let mut expected = Vec::new();
                let all = (1u16 << n) - 1;
                for fault_set in 0..=all {
                    for part in 0..=all {
                        let other = all & !fault_set & !part;
                        let parts = fault_set & part == 0 && part != 0 && other != 0;
                        let small = fault_set.count_ones() <= u32::from(f);
                        if parts && small && part.trailing_zeros() < other.trailing_zeros() {
                            expected.push(BlockDue {
                                fault_set: fault_set as u8,
                                lowest_part: part as u8,
                                other_part: other as u8,
                            });
                        }
                    }
                }
                assert_eq!(blocks_due(&network).collect::<Vec<_>>(), expected);
            }
        }
    }

    #[test]
    fn an_f_that_leaves_fewer_than_two_servers_has_no_block() {
        let network = read_card(&card(2, 2, &[])).unwrap();
        let due: Vec<BlockDue> = blocks_due(&network).collect();
        assert_eq!(due.len(), 1);
        assert_eq!(due[0].fault_set, 0);
    }

    #[test]
    fn carriages_are_routes_and_neighbours() {
        for quorum in [Quorum::InsideA, Quorum::All] {
            for (n, f) in [(4, 1), (5, 1), (7, 2)] {
                let plan = direct_plan(n, f, quorum);
                let routes: usize = (0x11..=0x13).map(|kind| places(&plan, kind).len()).sum();
                let sets = places(&plan, 0x14).len();
                let totals = check_plan(&complete_card(n, f), &plan).unwrap();
                assert_eq!(totals.blocks, places(&plan, 0x10).len());
                assert_eq!(totals.carriages, routes + sets * (usize::from(f) + 1));
            }
        }
    }

    #[test]
    fn the_card_is_refused_before_the_plan() {
        let long_plan = vec![0; PLAN_LIMIT + 1];
        let refusal = Refusal::Card {
            number: 1,
            place: 0,
        };
        assert_eq!(check_plan(&[0; 1_025], &long_plan), Err(refusal));
        let refusal = Refusal::Card {
            number: 2,
            place: 3,
        };
        assert_eq!(check_plan(&[0x01, 0x02, 0x00], &long_plan), Err(refusal));
    }

    #[test]
    fn refusal_1_over_the_limit() {
        let mut plan = P5_PLAN.to_vec();
        plan.resize(PLAN_LIMIT, 0);
        assert_eq!(fault(&P1_CARD, &plan), (3, P5_PLAN.len()));
        plan.push(0);
        assert_eq!(fault(&P1_CARD, &plan), (1, 0));
    }

    #[test]
    fn refusal_2_unknown_or_cut_off() {
        assert_eq!(fault(&P1_CARD, &[]), (2, 0));
        for unknown in [0x00, 0x01, 0x02, 0x03, 0x0f, 0x16, 0xff] {
            let mut plan = P5_PLAN;
            plan[0] = unknown;
            assert_eq!(fault(&P1_CARD, &plan), (2, 0));
            let mut plan = P5_PLAN;
            plan[4] = unknown;
            assert_eq!(fault(&P1_CARD, &plan), (2, 4));
        }
        // Every way of cutting the plan of P5 short.
        for length in 0..P5_PLAN.len() {
            let place = match length {
                0..=3 => 0,
                4..=12 => 4,
                _ => 13,
            };
            assert_eq!(fault(&P1_CARD, &P5_PLAN[..length]), (2, place));
        }
        // Operands are counted by the command found, and 2 goes before 7.
        assert_eq!(fault(&P1_CARD, &[0x13, 0x00, 0x01]), (2, 0));
        assert_eq!(fault(&P1_CARD, &[0x14, 0x00]), (2, 0));
        assert_eq!(fault(&P1_CARD, &[0x14, 0x00, 0x00]), (7, 0));
        assert_eq!(fault(&P1_CARD, &[0x15]), (7, 0));
        assert_eq!(fault(&P1_CARD, &[0x10, 0x07, 0x01]), (2, 0));
    }

    #[test]
    fn refusal_3_bytes_after_the_end() {
        let mut plan = P5_PLAN.to_vec();
        plan.push(0x15);
        assert_eq!(fault(&P1_CARD, &plan), (3, 14));
        // An end command that comes too early is not an end.
        assert_eq!(fault(&P1_CARD, &[0x15, 0x15]), (7, 0));
    }

    #[test]
    fn refusal_7_command_not_due() {
        let four = Four::new();
        assert_eq!(four.fault_with(0, &[0x14]), (7, 0));
        assert_eq!(four.fault_with(0, &[0x15]), (7, 0));
        assert_eq!(four.fault_with(0, &[0x12]), (7, 0));
        assert_eq!(four.fault_with(FIRST_WITHIN, &[0x11]), (7, FIRST_WITHIN));
        assert_eq!(four.fault_with(FIRST_WITHIN, &[0x13]), (7, FIRST_WITHIN));
        assert_eq!(four.fault_with(FIRST_WITHIN, &[0x10]), (7, FIRST_WITHIN));
        assert_eq!(four.fault_with(FIRST_FROM_S, &[0x12]), (7, FIRST_FROM_S));
        assert_eq!(four.fault_with(SECOND_BLOCK, &[0x13]), (7, SECOND_BLOCK));
        assert_eq!(four.fault_with(SECOND_BLOCK, &[0x15]), (7, SECOND_BLOCK));
        let first_set = places(&four.plan, 0x14)[0];
        assert_eq!(four.fault_with(first_set, &[0x15]), (7, first_set));
        assert_eq!(four.fault_with(first_set, &[0x10]), (7, first_set));
        // A whole command where the end is due.
        let mut plan = four.plan.clone();
        plan.pop();
        let end = plan.len();
        plan.extend([0x10, 0x00, 0b1110, 0b1110]);
        assert_eq!(fault(&four.card, &plan), (7, end));
        // 7 goes before 9: a route of the wrong kind with nonsense in it.
        assert_eq!(
            four.fault_with(FIRST_WITHIN, &[0x13, 77]),
            (7, FIRST_WITHIN)
        );
    }

    #[test]
    fn refusal_7_f_and_a_of_a_block() {
        let four = Four::new();
        assert_eq!(four.fault_with(0, &[0x10, 0x01]), (7, 0), "F");
        assert_eq!(four.fault_with(0, &[0x10, 0x80]), (7, 0), "F outside V");
        for a in (0..=u8::MAX).filter(|a| ![0b0001, 0b1110].contains(a)) {
            assert_eq!(four.fault_with(2, &[a]), (7, 0), "A {a}");
            assert_eq!(four.fault_with(2, &[a, 0]), (7, 0), "A {a}, 7 before 8");
        }
        // The other part is as good an A: what is due then changes with it.
        assert_eq!(four.fault_with(2, &[0b0001]), (7, 4));
    }

    #[test]
    fn refusal_8_s_empty_or_outside() {
        let four = Four::new();
        assert_eq!(four.fault_with(3, &[0]), (8, 0));
        assert_eq!(four.fault_with(3, &[0b0001_1110]), (8, 0), "outside V");
        let in_fault_set = places(&four.plan, 0x10)[7];
        assert_eq!(four.plan[in_fault_set + 1], 0b0001);
        assert_eq!(
            four.fault_with(in_fault_set + 3, &[0b1111]),
            (8, in_fault_set)
        );
        assert_eq!(
            four.fault_with(in_fault_set + 3, &[0b0001]),
            (8, in_fault_set)
        );
    }

    #[test]
    fn refusal_9_a_route_on_its_own() {
        let four = Four::new();
        let refused_9 = |place| Err(Refusal::Plan { number: 9, place });
        let bad: [&[u8]; 13] = [
            &[],
            &[1],
            &[0],
            &[1, 1],
            &[1, 2, 1, 0],
            &[1, 0, 0],
            &[1, 0, 2, 0],
            &[1, 4, 0],
            &[1, 8, 0],
            &[1, 0xfe, 0],
            &[0, 1],
            &[0, 0],
            &[1, 2],
        ];
        for servers in bad {
            assert_eq!(
                four.with_route(FIRST_FROM_S, servers),
                refused_9(FIRST_FROM_S)
            );
        }
        assert!(
            four.with_route(FIRST_FROM_S, &[1, 3, 0]).is_ok(),
            "a relay from S"
        );
        // Eight servers but no room for them: the ninth byte is the next command.
        let full = [1, 2, 3, 0, 1, 2, 3, 0];
        assert_eq!(
            four.with_route(FIRST_FROM_S, &full),
            refused_9(FIRST_FROM_S)
        );
        // The fill starts at the first FF and goes on to the last byte.
        for fill in 3..=8 {
            assert_eq!(
                four.fault_with(FIRST_FROM_S + fill, &[0xfe]),
                (9, FIRST_FROM_S)
            );
        }
        let gap = [1, 0xff, 0, 0xff, 0xff, 0xff, 0xff, 0xff];
        assert_eq!(four.fault_with(FIRST_FROM_S + 1, &gap), (9, FIRST_FROM_S));
        let late = [1, 0, 0xff, 0xff, 0xff, 0xff, 0xff, 0];
        assert_eq!(four.fault_with(FIRST_FROM_S + 1, &late), (9, FIRST_FROM_S));
        // 12: exactly the source and the receiver that are due.
        assert!(
            four.with_route(FIRST_WITHIN, &[2, 0, 3, 1]).is_ok(),
            "a relay outside S"
        );
        assert_eq!(
            four.with_route(FIRST_WITHIN, &[3, 1]),
            refused_9(FIRST_WITHIN)
        );
        assert_eq!(
            four.with_route(FIRST_WITHIN, &[2, 3]),
            refused_9(FIRST_WITHIN)
        );
        assert_eq!(
            four.with_route(FIRST_WITHIN, &[1, 2]),
            refused_9(FIRST_WITHIN)
        );
    }

    #[test]
    fn refusal_9_a_source_outside_a_or_s() {
        // S is all of V - F, so the first block has 11 routes from A = {1, 2, 3}.
        let card = complete_card(4, 1);
        let mut plan = direct_plan(4, 1, Quorum::All);
        assert_eq!(plan[..7], [0x10, 0, 0b1110, 0b1111, 0x11, 1, 0]);
        plan[2] = 0b0001;
        plan[5..7].copy_from_slice(&[2, 1]);
        assert_eq!(fault(&card, &plan), (9, 4), "source 2 is not in A");
        // For 13 the source must be in S.
        let mut plan = direct_plan(4, 1, Quorum::InsideA);
        plan.splice(3..SECOND_BLOCK, [0b0110]);
        let routes: [[u8; 9]; 4] = [
            [0x12, 2, 1, 0xff, 0xff, 0xff, 0xff, 0xff, 0xff],
            [0x12, 1, 2, 0xff, 0xff, 0xff, 0xff, 0xff, 0xff],
            [0x13, 1, 0, 0xff, 0xff, 0xff, 0xff, 0xff, 0xff],
            [0x13, 3, 0, 0xff, 0xff, 0xff, 0xff, 0xff, 0xff],
        ];
        plan.splice(4..4, routes.concat());
        assert_eq!(fault(&card, &plan), (9, 4 + 3 * 9), "source 3 is not in S");
    }

    #[test]
    fn refusal_9_a_route_through_f() {
        let four = Four::new();
        let block = places(&four.plan, 0x10)[7];
        assert_eq!(four.plan[block + 1], 0b0001, "server 0 is the fault set");
        let within = block + 4;
        assert_eq!(four.plan[within], 0x12);
        let (source, receiver) = (four.plan[within + 1], four.plan[within + 2]);
        let through_f = four.with_route(within, &[source, 0, receiver]);
        assert_eq!(
            through_f,
            Err(Refusal::Plan {
                number: 9,
                place: within
            })
        );
    }

    #[test]
    fn refusal_9_an_absent_link() {
        let links: Vec<(u8, u8)> = (0..4)
            .flat_map(|u| (0..4).map(move |v| (u, v)))
            .filter(|&(u, v)| u != v && (u, v) != (2, 1))
            .collect();
        let plan = direct_plan(4, 1, Quorum::InsideA);
        assert_eq!(fault(&card(4, 1, &links), &plan), (9, FIRST_WITHIN));
        // A link counts in its own direction only.
        assert_eq!(fault(&card(2, 0, &[(1, 0)]), &P5_PLAN), (9, 4));
    }

    #[test]
    fn refusal_10_routes_that_share_a_server() {
        let four = Four::new();
        let refused_10 = Err(Refusal::Plan {
            number: 10,
            place: SECOND_FROM_S,
        });
        assert_eq!(
            four.with_route(SECOND_FROM_S, &[1, 0]),
            refused_10,
            "doubled"
        );
        assert_eq!(
            four.with_route(SECOND_FROM_S, &[1, 3, 0]),
            refused_10,
            "same source"
        );
        assert_eq!(
            four.with_route(SECOND_FROM_S, &[2, 1, 0]),
            refused_10,
            "source as relay"
        );
        assert!(four.with_route(SECOND_FROM_S, &[2, 3, 0]).is_ok());
        assert!(four.with_route(SECOND_FROM_S, &[3, 0]).is_ok());
        // 9 goes before 10.
        let refused_9 = Err(Refusal::Plan {
            number: 9,
            place: SECOND_FROM_S,
        });
        assert_eq!(four.with_route(SECOND_FROM_S, &[1, 1, 0]), refused_9);
        // The earlier route may be the one that takes more.
        let mut plan = four.plan.clone();
        plan[FIRST_FROM_S + 1..FIRST_FROM_S + 4].copy_from_slice(&[1, 2, 0]);
        assert_eq!(fault(&four.card, &plan), (10, SECOND_FROM_S));
    }

    #[test]
    fn refusal_10_for_routes_to_s_too() {
        let card = complete_card(4, 1);
        let mut plan = direct_plan(4, 1, Quorum::All);
        assert_eq!(plan[13..16], [0x11, 2, 0]);
        plan[14] = 1;
        assert_eq!(fault(&card, &plan), (10, 13));
    }

    #[test]
    fn twin_cables_carry_no_two_separate_routes() {
        let mut four = Four::new();
        let totals = check_plan(&four.card, &four.plan);
        four.card = twin_card(&four.card);
        assert!(totals.is_ok());
        assert_eq!(check_plan(&four.card, &four.plan), totals);
        let doubled = four.fault_with(SECOND_FROM_S, &[0x13, 1, 0]);
        assert_eq!(doubled, (10, SECOND_FROM_S));
    }

    #[test]
    fn refusal_11_neighbour_sets() {
        let four = Four::new();
        let place = places(&four.plan, 0x14)[0];
        assert_eq!(four.plan[place..place + 3], [0x14, 0, 0b0110]);
        assert_eq!(four.fault_with(place + 1, &[1]), (11, place), "k");
        assert_eq!(four.fault_with(place + 1, &[255]), (11, place), "k");
        assert_eq!(
            four.fault_with(place + 2, &[0b0010]),
            (11, place),
            "too few"
        );
        assert_eq!(
            four.fault_with(place + 2, &[0b1110]),
            (11, place),
            "too many"
        );
        assert_eq!(four.fault_with(place + 2, &[0b0011]), (11, place), "in F");
        assert_eq!(
            four.fault_with(place + 2, &[0b1_0010]),
            (11, place),
            "outside V"
        );
        assert_eq!(four.fault_with(place + 2, &[0]), (11, place), "empty");
        let mut plan = four.plan.clone();
        plan[place + 2] = 0b1010;
        assert!(
            check_plan(&four.card, &plan).is_ok(),
            "any other f+1 neighbours"
        );
    }

    #[test]
    fn refusal_11_a_neighbour_without_a_link() {
        let links: Vec<(u8, u8)> = (0..4)
            .flat_map(|u| (0..4).map(move |v| (u, v)))
            .filter(|&(u, v)| u != v && (u, v) != (1, 0))
            .collect();
        let network = read_card(&card(4, 1, &links)).unwrap();
        let check = |plan: &[u8]| Checker::new(&network, plan).neighbour_sets(0b0001);
        let refused_11 = Err(Refusal::Plan {
            number: 11,
            place: 0,
        });
        assert_eq!(check(&[0x14, 0, 0b0110]), refused_11);
        assert_eq!(check(&[0x14, 0, 0b1100]), Ok(()));
    }

    #[test]
    fn a_route_of_eight_servers_has_no_fill() {
        let ring: Vec<(u8, u8)> = (0..8).map(|u| (u, (u + 1) % 8)).collect();
        let card = card(8, 0, &ring);
        let mut plan = Vec::new();
        for part in (1..255u8).step_by(2) {
            plan.extend([0x10, 0, part, 1]);
            for receiver in 1..8u8 {
                plan.push(0x13);
                plan.extend((0..8).map(|server| if server <= receiver { server } else { 0xff }));
            }
        }
        plan.push(0x15);
        let totals = Totals {
            blocks: 127,
            carriages: 889,
        };
        assert_eq!(check_plan(&card, &plan), Ok(totals));
        let eighth = 4 + 6 * 9;
        assert_eq!(plan[eighth..eighth + 9], [0x13, 0, 1, 2, 3, 4, 5, 6, 7]);
        plan[eighth + 8] = 0xff;
        assert_eq!(fault(&card, &plan), (9, eighth));
    }

    #[test]
    fn blocks_of_another_fault_set_are_not_due() {
        let four = Four::new();
        let blocks = places(&four.plan, 0x10);
        // The second block left out, then the first two exchanged.
        let mut plan = four.plan.clone();
        plan.drain(blocks[1]..blocks[2]);
        assert_eq!(fault(&four.card, &plan), (7, blocks[1]));
        let exchanged = [
            &four.plan[blocks[1]..blocks[2]],
            &four.plan[..blocks[1]],
            &four.plan[blocks[2]..],
        ]
        .concat();
        assert_eq!(fault(&four.card, &exchanged), (7, 0));
    }
}
