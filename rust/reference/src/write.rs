//! The plan writer: a shortest plan for any network without a bad split.
//!
//! What a block is about is fixed, F and the way of cutting V - F; A, S and the routes
//! are the writer's choice. A block's length depends on A and S alone, as every route
//! takes the same number of bytes. So the shortest plan is the one that has for each
//! block a pair of A and S of least length among those for which the routes exist.
//!
//! Two things have to hold of S, whatever the cut is: the fans of 13 exist, f+1
//! separate routes from S to each server of V - F outside S, and so do the routes of 12
//! between its members. Such an S is called usable here. A fits S if the fans of 11
//! exist, from A to each server of S outside A.

use crate::card::{read_card, Network, MAX_SERVERS};
use crate::plan::{
    blocks_due, fault_sets, partitions, BlockDue, BLOCK, BLOCK_SIZE, END, END_SIZE, NEIGHBOURS,
    NEIGHBOURS_SIZE, ROUTE_FROM_S, ROUTE_SIZE, ROUTE_TO_S, ROUTE_WITHIN_S,
};
use crate::refusal::{ground, Refusal};
use crate::routes::{smallest_cut, Route, Steps, NO_ROUTE};
use crate::sets::{is_within, members, singleton, subsets};
use crate::split::{first_bad_split, Split};

/// Why no plan is written.
#[derive(Debug, Clone, Copy, PartialEq, Eq)]
pub enum Unwritten {
    /// The card is at fault, or the plan is longer than the lent buffer (call, 18).
    Refused(Refusal),
    /// The network has a bad split, of which this is the first (call, 17).
    BadSplit(Split),
}

impl Unwritten {
    /// The refusal with its number; for a bad split it does not name the four sets.
    pub fn refusal(&self) -> Refusal {
        match *self {
            Unwritten::Refused(refusal) => refusal,
            Unwritten::BadSplit(_) => Refusal::Call {
                number: ground::BAD_SPLIT,
            },
        }
    }
}

impl From<Refusal> for Unwritten {
    fn from(refusal: Refusal) -> Unwritten {
        Unwritten::Refused(refusal)
    }
}

/// Writes a plan for the network on `card` to the front of `lent` and answers with its
/// number of bytes.
///
/// [`check_plan`] accepts the plan, and no plan that it accepts for this card is
/// shorter. The plan follows from the network alone.
///
/// The card's own refusals come first, then the first bad split, then a buffer shorter
/// than the plan. A refused call changes no byte of `lent`, and bytes of `lent` past the
/// plan are never touched.
///
/// [`check_plan`]: crate::check_plan
pub fn write_plan(card: &[u8], lent: &mut [u8]) -> Result<usize, Unwritten> {
    let network = read_card(card)?;
    if let Some(split) = first_bad_split(&network) {
        return Err(Unwritten::BadSplit(split));
    }
    let plan = plan_for(&network).expect("a network without a bad split has a plan");
    let Some(front) = lent.get_mut(..plan.len()) else {
        let number = ground::PLAN_TOO_LONG;
        return Err(Refusal::Call { number }.into());
    };
    front.copy_from_slice(&plan);
    Ok(plan.len())
}

/// The plan to be written for `network`, or `None` if some block has no routes.
fn plan_for(network: &Network) -> Option<Vec<u8>> {
    let mut desk = Desk::new(network);
    let mut plan = Vec::new();
    for fault_set in fault_sets(network) {
        let mut blocks = Blocks::of(&mut desk, fault_set)?;
        for due in partitions(network.servers(), fault_set) {
            let pair = blocks.choose(&due)?;
            blocks.write(pair, &mut plan);
        }
    }
    plan.push(END);
    Some(plan)
}

/// Answers with the length of a shortest plan that [`check_plan`] accepts for the network
/// on `card`, or with `None` if it accepts none.
///
/// For each block every S and both choices of A are tried, and whether their routes
/// exist is told from [`smallest_cut`] without a search for routes. That takes long, half
/// a second at seven servers; it is there to hold [`write_plan`] against.
///
/// [`check_plan`]: crate::check_plan
pub fn shortest_plan(card: &[u8]) -> Result<Option<usize>, Refusal> {
    let network = read_card(card)?;
    let blocks = blocks_due(&network).map(|due| shortest_block(&network, &due));
    let blocks: Option<usize> = blocks.sum();
    Ok(blocks.map(|length| length + END_SIZE))
}

/// The least length of the block that is due over every choice of A and S.
fn shortest_block(network: &Network, due: &BlockDue) -> Option<usize> {
    let fault_set = due.fault_set;
    let outside_f = due.lowest_part | due.other_part;
    subsets(outside_f)
        .filter(|&s| s != 0)
        .flat_map(|s| [(due.lowest_part, s), (due.other_part, s)])
        .filter(|&(a, s)| have_routes(network, fault_set, a, s))
        .map(|(a, s)| block_length(fault_set, routes_due(network.f, outside_f, a, s)))
        .min()
}

/// Whether a block can have this A and S.
fn have_routes(network: &Network, fault_set: u8, a: u8, s: u8) -> bool {
    let outside_f = network.servers() & !fault_set;
    let incoming = network.incoming();
    // As many separate routes as the smallest set that meets them all has servers.
    let routes = |sources, receiver| smallest_cut(network, fault_set, sources, receiver);
    let enough = |set: u8| set.count_ones() > u32::from(network.f);
    let mut to_s = members(s & !a);
    let mut within_s = members(s);
    let mut from_s = members(outside_f & !s);
    let mut to_f = members(fault_set);
    to_s.all(|receiver| enough(routes(a, receiver)))
        && within_s.all(|receiver| {
            let mut others = members(s & !singleton(receiver));
            others.all(|source| routes(singleton(source), receiver) != 0)
        })
        && from_s.all(|receiver| enough(routes(s, receiver)))
        && to_f.all(|k| enough(incoming[usize::from(k)] & outside_f))
}

/// The routes of a block with this A and S.
fn routes_due(f: u8, outside_f: u8, a: u8, s: u8) -> usize {
    let fan = usize::from(f) + 1;
    let size = |set: u8| set.count_ones() as usize;
    let within = size(s) * size(s).saturating_sub(1);
    fan * size(s & !a) + within + fan * size(outside_f & !s)
}

/// The bytes of a block with this many routes.
fn block_length(fault_set: u8, routes: usize) -> usize {
    let neighbour_sets = fault_set.count_ones() as usize;
    BLOCK_SIZE + routes * ROUTE_SIZE + neighbour_sets * NEIGHBOURS_SIZE
}

/// What the blocks of all fault sets are worked out with.
struct Desk<'n> {
    network: &'n Network,
    incoming: [u8; MAX_SERVERS],
    /// The sets of more than f servers, by size, then as numbers.
    candidates: Vec<u8>,
    /// Room for the fans of one fault set, see [`Blocks::fan`].
    fans: Vec<Route>,
}

impl<'n> Desk<'n> {
    fn new(network: &'n Network) -> Desk<'n> {
        let fan = usize::from(network.f) + 1;
        let sets = usize::from(network.servers()) + 1;
        let mut candidates: Vec<u8> = subsets(network.servers())
            .filter(|set| set.count_ones() as usize >= fan)
            .collect();
        // Sets of one size stay in their order.
        candidates.sort_by_key(|set| set.count_ones());
        Desk {
            network,
            incoming: network.incoming(),
            candidates,
            fans: vec![NO_ROUTE; sets * MAX_SERVERS * fan],
        }
    }
}

/// How many sets of servers there are.
const SETS: usize = 256;

/// A choice of A and S for a block. Of two pairs the lesser one is the better.
#[derive(Debug, Clone, Copy, PartialEq, Eq, PartialOrd, Ord)]
struct Pair {
    routes: usize,
    s: u8,
    a: u8,
}

/// The blocks of one fault set, and what they have in common. Fans and usable sets are
/// not looked for before a block asks for them, and nothing is worked out twice.
struct Blocks<'d, 'n> {
    desk: &'d mut Desk<'n>,
    fault_set: u8,
    outside_f: u8,
    steps: Steps,
    /// `asked[sources]`: the receivers whose fan from `sources` has been looked for.
    asked: [u8; SETS],
    /// `found[sources]`: those of them that have one.
    found: [u8; SETS],
    /// `within[receiver][source]`: a route of 12, if `reaching[receiver]` holds the
    /// source.
    within: [[Route; MAX_SERVERS]; MAX_SERVERS],
    reaching: [u8; MAX_SERVERS],
    /// The usable sets among the candidates passed so far, in their order.
    usable: Vec<u8>,
    candidates_passed: usize,
    /// `neighbours[k]`: the set N of 14, for each k of F.
    neighbours: [u8; MAX_SERVERS],
    /// `endings[s]`: where in the plan a block with this S has its first command of
    /// 12, 13 or 14. From there on all blocks with this S are alike.
    endings: [Option<usize>; SETS],
}

impl<'d, 'n> Blocks<'d, 'n> {
    /// The blocks of `fault_set`, or `None` if one of its members has too few incoming
    /// neighbours for 14.
    fn of(desk: &'d mut Desk<'n>, fault_set: u8) -> Option<Blocks<'d, 'n>> {
        let outside_f = desk.network.servers() & !fault_set;
        let mut neighbours = [0; MAX_SERVERS];
        for k in members(fault_set) {
            let eligible = desk.incoming[usize::from(k)] & outside_f;
            neighbours[usize::from(k)] = lowest(eligible, desk.network.f + 1)?;
        }
        let steps = Steps::of(desk.network, fault_set);
        let mut blocks = Blocks {
            desk,
            fault_set,
            outside_f,
            steps,
            asked: [0; SETS],
            found: [0; SETS],
            within: [[NO_ROUTE; MAX_SERVERS]; MAX_SERVERS],
            reaching: [0; MAX_SERVERS],
            usable: Vec::new(),
            candidates_passed: 0,
            neighbours,
            endings: [None; SETS],
        };
        blocks.find_routes_within();
        Some(blocks)
    }

    /// Finds a route from each server of V - F to each other one that it can reach.
    fn find_routes_within(&mut self) {
        for receiver in members(self.outside_f) {
            for source in members(self.outside_f & !singleton(receiver)) {
                let route = &mut self.within[usize::from(receiver)][usize::from(source)];
                let only = std::slice::from_mut(route);
                if self.steps.lay(singleton(source), receiver, only) {
                    self.reaching[usize::from(receiver)] |= singleton(source);
                }
            }
        }
    }

    /// The best pair for the block that is due, or `None` if no pair has its routes.
    fn choose(&mut self, due: &BlockDue) -> Option<Pair> {
        let inside = self.best_inside(due);
        self.best_across(due, inside)
    }

    /// The best pair with S inside A, which needs no fan of 11.
    ///
    /// It has the first usable set that lies in one of the parts: from f+1 servers on,
    /// each further one in S takes more routes of 12 than it spares of 13.
    fn best_inside(&mut self, due: &BlockDue) -> Option<Pair> {
        for index in 0.. {
            let s = self.usable(index)?;
            for a in [due.lowest_part, due.other_part] {
                if is_within(s, a) {
                    return Some(self.pair(a, s));
                }
            }
        }
        None
    }

    /// The best of `best` and all pairs with S partly outside A.
    fn best_across(&mut self, due: &BlockDue, mut best: Option<Pair>) -> Option<Pair> {
        let better = |pair: Pair, best: Option<Pair>| best.is_none_or(|best| pair < best);
        for index in 0.. {
            let Some(s) = self.usable(index) else { break };
            // At least one member of S is outside A, and sets further on take as many
            // routes or more.
            let least = self.pair(s, s).routes + self.fan_size();
            if best.is_some_and(|best| least > best.routes) {
                break;
            }
            for a in [due.lowest_part, due.other_part] {
                let pair = self.pair(a, s);
                if better(pair, best) && self.have_fans(a, s & !a) {
                    best = Some(pair);
                }
            }
        }
        best
    }

    fn pair(&self, a: u8, s: u8) -> Pair {
        let routes = routes_due(self.desk.network.f, self.outside_f, a, s);
        Pair { routes, s, a }
    }

    /// The usable set of that number, counted from 0.
    ///
    /// A set of at most f servers has no f+1 separate routes to anywhere, and it is not
    /// the whole of V - F, which is larger in a network without a bad split.
    fn usable(&mut self, index: usize) -> Option<u8> {
        while self.usable.len() <= index {
            let &s = self.desk.candidates.get(self.candidates_passed)?;
            self.candidates_passed += 1;
            if is_within(s, self.outside_f) && self.is_usable(s) {
                self.usable.push(s);
            }
        }
        Some(self.usable[index])
    }

    fn is_usable(&mut self, s: u8) -> bool {
        let all_within = members(s).all(|receiver| {
            let others = s & !singleton(receiver);
            is_within(others, self.reaching[usize::from(receiver)])
        });
        all_within && self.have_fans(s, self.outside_f & !s)
    }

    fn fan_size(&self) -> usize {
        usize::from(self.desk.network.f) + 1
    }

    /// Where the desk keeps the fan from `sources` to `receiver`.
    fn fan_place(&self, sources: u8, receiver: u8) -> std::ops::Range<usize> {
        let number = usize::from(sources) * MAX_SERVERS + usize::from(receiver);
        number * self.fan_size()..(number + 1) * self.fan_size()
    }

    /// Whether there are f+1 separate routes from `sources` to each of `receivers`.
    fn have_fans(&mut self, sources: u8, receivers: u8) -> bool {
        let known = usize::from(sources);
        for receiver in members(receivers & !self.asked[known]) {
            // One that is missing settles the matter, whatever else is known.
            if self.asked[known] & !self.found[known] & receivers != 0 {
                return false;
            }
            let place = self.fan_place(sources, receiver);
            self.asked[known] |= singleton(receiver);
            if self
                .steps
                .lay(sources, receiver, &mut self.desk.fans[place])
            {
                self.found[known] |= singleton(receiver);
            }
        }
        is_within(receivers, self.found[known])
    }

    /// The routes from `sources` to `receiver`, which have been found.
    fn fan(&self, sources: u8, receiver: u8) -> &[Route] {
        &self.desk.fans[self.fan_place(sources, receiver)]
    }

    /// Writes the block with this A and S to the end of `plan`.
    fn write(&mut self, pair: Pair, plan: &mut Vec<u8>) {
        let Pair { routes, a, s } = pair;
        let end = plan.len() + block_length(self.fault_set, routes);
        plan.extend([BLOCK, self.fault_set, a, s]);
        self.write_fans(ROUTE_TO_S, a, s & !a, plan);
        match self.endings[usize::from(s)] {
            Some(earlier) => plan.extend_from_within(earlier..earlier + end - plan.len()),
            None => {
                self.endings[usize::from(s)] = Some(plan.len());
                self.write_ending(s, plan);
            }
        }
        debug_assert_eq!(plan.len(), end);
    }

    /// 12, 13 and 14 of a block with this S.
    fn write_ending(&self, s: u8, plan: &mut Vec<u8>) {
        for receiver in members(s) {
            for source in members(s & !singleton(receiver)) {
                let route = &self.within[usize::from(receiver)][usize::from(source)];
                write_route(ROUTE_WITHIN_S, route, plan);
            }
        }
        self.write_fans(ROUTE_FROM_S, s, self.outside_f & !s, plan);
        for k in members(self.fault_set) {
            plan.extend([NEIGHBOURS, k, self.neighbours[usize::from(k)]]);
        }
    }

    /// 11 or 13, the fans from `sources` to each of `receivers`.
    fn write_fans(&self, kind: u8, sources: u8, receivers: u8, plan: &mut Vec<u8>) {
        for receiver in members(receivers) {
            for route in self.fan(sources, receiver) {
                write_route(kind, route, plan);
            }
        }
    }
}

fn write_route(kind: u8, route: &Route, plan: &mut Vec<u8>) {
    plan.push(kind);
    plan.extend_from_slice(route);
}

/// The `count` lowest members of `set`, if it has so many.
fn lowest(set: u8, count: u8) -> Option<u8> {
    let chosen = members(set)
        .take(usize::from(count))
        .fold(0, |chosen, server| chosen | singleton(server));
    (chosen.count_ones() == u32::from(count)).then_some(chosen)
}

#[cfg(test)]
mod tests {
    use super::*;
    use crate::plan::check_plan;
    use crate::print::print_card;
    use crate::run::run;
    use crate::sample::{card, complete_card, random_card, twin_card, Draw, P1_CARD, P5_PLAN};
    use crate::split::split_test;

    /// What a lent buffer is filled with.
    const MARKER: u8 = 0xa5;
    /// As long as a plan may be.
    const LONGEST: usize = 1_048_576;
    /// Cards with their answers, one to a line.
    const CASES: &str = include_str!("../tests/data/w9-plans.jsonl");

    const TOO_LONG: Unwritten = Unwritten::Refused(Refusal::Call { number: 18 });

    /// The plan written for `card`, which the plan check accepts.
    fn written(card: &[u8]) -> Vec<u8> {
        let mut lent = vec![MARKER; LONGEST];
        let length = write_plan(card, &mut lent).unwrap();
        assert!(lent[length..].iter().all(|&byte| byte == MARKER));
        lent.truncate(length);
        let network = read_card(card).unwrap();
        let totals = check_plan(card, &lent).unwrap();
        assert_eq!(totals.blocks, blocks_due(&network).count());
        lent
    }

    /// `plan` is written into a buffer of this length, or refused with 18 if it is too
    /// short.
    fn assert_written(card: &[u8], plan: &[u8], length: usize) {
        let mut lent = vec![MARKER; length];
        let answer = write_plan(card, &mut lent);
        if length < plan.len() {
            assert_eq!(answer, Err(TOO_LONG), "{length}");
            assert_eq!(lent, vec![MARKER; length], "refused, all as it was");
        } else {
            assert_eq!(answer, Ok(plan.len()), "{length}");
            let (front, rest) = lent.split_at(plan.len());
            assert_eq!(front, plan);
            assert_eq!(rest, vec![MARKER; length - plan.len()], "untouched");
        }
    }

    /// `card` is refused like this, whatever buffer is lent.
    fn assert_refused(card: &[u8], unwritten: Unwritten) {
        for length in [0, 1, 13, 14, 100_000] {
            let mut lent = vec![MARKER; length];
            assert_eq!(write_plan(card, &mut lent), Err(unwritten), "{card:02x?}");
            assert_eq!(lent, vec![MARKER; length], "refused, all as it was");
        }
    }

    fn bytes(hexadecimal: &str) -> Vec<u8> {
        let digit = |place: usize| &hexadecimal[place..place + 2];
        let places = (0..hexadecimal.len()).step_by(2);
        places
            .map(|place| u8::from_str_radix(digit(place), 16).unwrap())
            .collect()
    }

    /// The card of a case, and the numbers of its answer.
    fn read_case(line: &str) -> (Vec<u8>, Vec<usize>) {
        let hexadecimal = line.split('"').nth(3).unwrap();
        let answer = line.split('[').nth(1).unwrap();
        let words = answer.split(|byte: char| !byte.is_ascii_digit());
        let numbers = words.filter_map(|word| word.parse().ok()).collect();
        (bytes(hexadecimal), numbers)
    }

    /// The commands of an accepted plan.
    fn commands(mut plan: &[u8]) -> Vec<&[u8]> {
        let mut commands = Vec::new();
        while let Some(kind) = plan.first() {
            let length = match kind {
                0x10 => 4,
                0x11..=0x13 => 9,
                0x14 => 3,
                _ => 1,
            };
            let (command, rest) = plan.split_at(length);
            commands.push(command);
            plan = rest;
        }
        commands
    }

    /// The network with as few links as are left when each in turn, in any order, is
    /// taken out unless that makes a split bad.
    fn sparse_card(n: u8, f: u8, draw: &mut Draw) -> Vec<u8> {
        let pairs = (0..n).flat_map(|u| (0..n).map(move |v| (u, v)));
        let mut links: Vec<(u8, u8)> = pairs.filter(|(u, v)| u != v).collect();
        for last in (1..links.len()).rev() {
            links.swap(last, draw.below(last as u64 + 1) as usize);
        }
        for _ in 0..links.len() {
            let link = links.remove(0);
            if split_test(&card(n, f, &links)) != Ok(None) {
                links.push(link);
            }
        }
        card(n, f, &links)
    }

    #[test]
    fn cases_with_their_answers() {
        let mut plans = 0;
        let mut splits = 0;
        for (card, answer) in CASES.lines().map(read_case) {
            match answer[..] {
                [length] => {
                    let plan = written(&card);
                    assert_eq!(plan.len(), length, "{card:02x?}");
                    assert_written(&card, &plan, length - 1);
                    assert_written(&card, &plan, length);
                    plans += 1;
                }
                [17, f, l, c, r] => {
                    let [f, l, c, r] = [f, l, c, r].map(|set| set as u8);
                    assert_refused(&card, Unwritten::BadSplit(Split { f, l, c, r }));
                    splits += 1;
                }
                _ => panic!("{answer:?} is no answer"),
            }
        }
        assert_eq!((plans, splits), (44, 9));
    }

    #[test]
    fn p1_has_the_plan_of_p5() {
        for length in 0..20 {
            assert_written(&P1_CARD, &P5_PLAN, length);
        }
    }

    #[test]
    fn p2_and_p3_have_a_bad_split() {
        let [f, l, c, r] = [0, 1, 0, 2];
        assert_refused(&card(2, 0, &[]), Unwritten::BadSplit(Split { f, l, c, r }));
        let [f, l, c, r] = [1, 2, 0, 4];
        assert_refused(
            &complete_card(3, 1),
            Unwritten::BadSplit(Split { f, l, c, r }),
        );
    }

    #[test]
    fn a_plan_by_hand() {
        // A chain: only 0 has a route to all others, so S is {0} in every block.
        let plan = [
            &[0x10, 0, 0b001, 0b001][..],
            &[0x13, 0, 1, 0xff, 0xff, 0xff, 0xff, 0xff, 0xff],
            &[0x13, 0, 1, 2, 0xff, 0xff, 0xff, 0xff, 0xff],
            &[0x10, 0, 0b011, 0b001],
            &[0x13, 0, 1, 0xff, 0xff, 0xff, 0xff, 0xff, 0xff],
            &[0x13, 0, 1, 2, 0xff, 0xff, 0xff, 0xff, 0xff],
            &[0x10, 0, 0b101, 0b001],
            &[0x13, 0, 1, 0xff, 0xff, 0xff, 0xff, 0xff, 0xff],
            &[0x13, 0, 1, 2, 0xff, 0xff, 0xff, 0xff, 0xff],
            &[0x15],
        ]
        .concat();
        let chain = card(3, 0, &[(0, 1), (1, 2)]);
        for length in 0..plan.len() + 3 {
            assert_written(&chain, &plan, length);
        }
        assert_eq!(shortest_plan(&chain), Ok(Some(plan.len())));
    }

    #[test]
    fn the_first_blocks_of_p4() {
        let plan = written(&complete_card(4, 1));
        let link = |kind, source, receiver| {
            let fill = 0xff;
            vec![kind, source, receiver, fill, fill, fill, fill, fill, fill]
        };
        // {0} against {1, 2, 3}: S is the lowest two of the latter.
        let first = [
            vec![0x10, 0, 0b1110, 0b0110],
            link(0x12, 2, 1),
            link(0x12, 1, 2),
            link(0x13, 1, 0),
            link(0x13, 2, 0),
            link(0x13, 1, 3),
            link(0x13, 2, 3),
            vec![0x10, 0, 0b0011, 0b0011],
            link(0x12, 1, 0),
            link(0x12, 0, 1),
        ]
        .concat();
        assert_eq!(plan[..first.len()], first);
        // The last block has F {3} and the cut {0, 2} against {1}.
        let last = [
            vec![0x10, 0b1000, 0b0101, 0b0101],
            link(0x12, 2, 0),
            link(0x12, 0, 2),
            link(0x13, 0, 1),
            link(0x13, 2, 1),
            vec![0x14, 3, 0b0011],
            vec![0x15],
        ]
        .concat();
        assert!(plan.ends_with(&last));
    }

    #[test]
    fn one_byte_too_short_is_refused_with_18() {
        for (n, f) in [(2, 0), (4, 1), (5, 1), (8, 0), (7, 2), (8, 2)] {
            let card = complete_card(n, f);
            let plan = written(&card);
            for length in [0, plan.len() - 1, plan.len(), plan.len() + 1] {
                assert_written(&card, &plan, length);
            }
        }
    }

    #[test]
    fn the_card_is_refused_before_17_and_18() {
        let cases: [(&[u8], u8, usize); 8] = [
            (&[0xff; 1_025], 1, 0),
            (&[], 2, 0),
            (&P1_CARD[..6], 2, 6),
            (&[0x01, 0x02, 0x00], 2, 3),
            (&[0x01, 0x02, 0x00, 0x03, 0x03], 3, 4),
            (&[0x03], 4, 0),
            (&[0x01, 0x09, 0x00, 0x03], 5, 0),
            (&[0x01, 0x02, 0x00, 0x02, 0x00, 0x00, 0x03], 5, 3),
        ];
        for (card, number, place) in cases {
            let refusal = Refusal::Card { number, place };
            assert_refused(card, Unwritten::Refused(refusal));
            assert_eq!(shortest_plan(card), Err(refusal));
        }
    }

    #[test]
    fn every_ground_has_its_refusal() {
        let [f, l, c, r] = [0, 1, 0, 2];
        let split = Unwritten::BadSplit(Split { f, l, c, r });
        assert_eq!(split.refusal(), Refusal::Call { number: 17 });
        assert_eq!(TOO_LONG.refusal(), Refusal::Call { number: 18 });
        let refusal = Refusal::Card {
            number: 2,
            place: 0,
        };
        assert_eq!(Unwritten::Refused(refusal).refusal(), refusal);
    }

    #[test]
    fn lengths_on_networks_with_all_links() {
        let lengths = [
            (2, 0, 14),
            (8, 0, 8_510),
            (4, 1, 923),
            (5, 1, 3_276),
            (8, 1, 74_471),
            (7, 2, 78_443),
            (8, 2, 235_548),
        ];
        for (n, f, length) in lengths {
            assert_eq!(written(&complete_card(n, f)).len(), length, "n {n} f {f}");
        }
    }

    #[test]
    fn the_plan_follows_from_the_network_alone() {
        let mut draw = Draw::new(5);
        for _ in 0..20 {
            let given = sparse_card(6, 1, &mut draw);
            let plan = written(&given);
            assert_eq!(written(&twin_card(&given)), plan);
            let mut clean = [0; 172];
            let length = print_card(&given, &mut clean).unwrap();
            assert_eq!(written(&clean[..length]), plan);
        }
    }

    #[test]
    fn sparse_networks_have_accepted_plans() {
        let mut draw = Draw::new(6);
        for n in 2..=8 {
            for f in (0..=2).filter(|f| n > 3 * f) {
                let length = written(&complete_card(n, f)).len();
                for _ in 0..12 {
                    let card = sparse_card(n, f, &mut draw);
                    // Not known to be so everywhere, but it is in these networks.
                    assert_eq!(written(&card).len(), length, "{card:02x?}");
                }
            }
        }
    }

    #[test]
    fn refused_with_17_exactly_where_a_split_is_bad() {
        let mut draw = Draw::new(7);
        let mut good = 0;
        for round in 0..4_000 {
            let (n, f) = (2 + (round % 7) as u8, (round / 7 % 3) as u8);
            let card = random_card(n, f, 2 + round / 21 % 9, &mut draw);
            match split_test(&card).unwrap() {
                Some(split) => {
                    let mut lent = [MARKER; 100];
                    let answer = write_plan(&card, &mut lent);
                    assert_eq!(answer, Err(Unwritten::BadSplit(split)));
                    assert_eq!(lent, [MARKER; 100]);
                    // The writer would not get to the end either.
                    assert_eq!(plan_for(&read_card(&card).unwrap()), None);
                }
                None => {
                    written(&card);
                    good += 1;
                }
            }
        }
        assert!(good > 1_000, "{good}");
    }

    #[test]
    fn no_accepted_plan_is_shorter() {
        let mut draw = Draw::new(8);
        let mut good = 0;
        for round in 0..400 {
            let (n, f) = (2 + (round % 4) as u8, (round / 4 % 2) as u8);
            let card = random_card(n, f, 3 + round / 8 % 8, &mut draw);
            let shortest = shortest_plan(&card).unwrap();
            match split_test(&card).unwrap() {
                Some(_) => assert_eq!(shortest, None, "{card:02x?}"),
                None => {
                    assert_eq!(shortest, Some(written(&card).len()), "{card:02x?}");
                    good += 1;
                }
            }
        }
        assert!(good > 100, "{good}");
    }

    #[test]
    fn no_accepted_plan_is_shorter_on_sparse_networks() {
        let mut draw = Draw::new(9);
        for (n, f) in [(4, 0), (5, 0), (6, 0), (4, 1), (5, 1), (6, 1), (7, 2)] {
            let card = sparse_card(n, f, &mut draw);
            let length = written(&card).len();
            assert_eq!(shortest_plan(&card), Ok(Some(length)), "{card:02x?}");
        }
    }

    /// The best pair, found by trying them all.
    fn best_pair(network: &Network, due: &BlockDue) -> Option<Pair> {
        let outside_f = due.lowest_part | due.other_part;
        (1..=u8::MAX)
            .filter(|s| s & !outside_f == 0)
            .flat_map(|s| [(due.lowest_part, s), (due.other_part, s)])
            .filter(|&(a, s)| have_routes(network, due.fault_set, a, s))
            .map(|(a, s)| (routes_due(network.f, outside_f, a, s), s, a))
            .min()
            .map(|(routes, s, a)| Pair { routes, s, a })
    }

    #[test]
    fn the_best_pair_is_chosen_for_every_block() {
        let mut draw = Draw::new(10);
        for round in 0..200 {
            // Networks with a bad split too, as they have a greater variety of pairs.
            let (n, f) = (2 + (round % 4) as u8, (round / 4 % 3) as u8);
            let card = random_card(n, f, 4 + round / 12 % 7, &mut draw);
            let network = read_card(&card).unwrap();
            let mut desk = Desk::new(&network);
            for fault_set in fault_sets(&network) {
                let Some(mut blocks) = Blocks::of(&mut desk, fault_set) else {
                    let mut dues = partitions(network.servers(), fault_set);
                    assert!(dues.all(|due| best_pair(&network, &due).is_none()));
                    continue;
                };
                for due in partitions(network.servers(), fault_set) {
                    let best = best_pair(&network, &due);
                    assert_eq!(blocks.choose(&due), best, "{card:02x?} {due:?}");
                    // Without the head start, over all pairs.
                    assert_eq!(blocks.best_across(&due, None), best);
                }
            }
        }
    }

    #[test]
    fn neighbours_are_the_lowest_ones() {
        let mut draw = Draw::new(11);
        for (n, f) in [(4, 1), (6, 1), (8, 1), (7, 2), (8, 2)] {
            let card = sparse_card(n, f, &mut draw);
            let network = read_card(&card).unwrap();
            let plan = written(&card);
            let mut fault_set = 0;
            let mut seen = 0;
            for command in commands(&plan) {
                match *command {
                    [0x10, f, _, _] => fault_set = f,
                    [0x14, k, neighbours] => {
                        let eligible = (0..n)
                            .filter(|u| fault_set >> u & 1 == 0)
                            .filter(|&u| network.links[usize::from(u)][usize::from(k)]);
                        let lowest = eligible.take(usize::from(f) + 1);
                        assert_eq!(neighbours, lowest.map(|u| 1 << u).sum::<u8>());
                        seen += 1;
                    }
                    _ => {}
                }
            }
            assert!(seen > 0);
        }
    }

    #[test]
    fn lowest_members() {
        assert_eq!(lowest(0b1011_0100, 3), Some(0b0011_0100));
        assert_eq!(lowest(0b1011_0100, 4), Some(0b1011_0100));
        assert_eq!(lowest(0b1011_0100, 5), None);
        assert_eq!(lowest(0, 1), None);
        assert_eq!(lowest(0, 0), Some(0));
    }

    #[test]
    fn routes_are_counted_as_the_plan_has_them() {
        let mut draw = Draw::new(12);
        for (n, f) in [(3, 0), (5, 1), (7, 2)] {
            let plan = written(&sparse_card(n, f, &mut draw));
            let all = u8::MAX >> (8 - n);
            let mut length = 0;
            for command in commands(&plan) {
                if let [0x10, fault_set, a, s] = *command {
                    let routes = routes_due(f, all & !fault_set, a, s);
                    length += block_length(fault_set, routes);
                }
            }
            assert_eq!(plan.len(), length + 1);
        }
    }

    #[test]
    fn sound_servers_agree_over_a_written_plan() {
        let mut draw = Draw::new(13);
        for (n, f) in [(4, 0), (4, 1), (6, 1), (7, 2)] {
            let card = sparse_card(n, f, &mut draw);
            let plan = written(&card);
            for faulty in 0..=u8::MAX >> (8 - n) {
                if faulty.count_ones() > u32::from(f) {
                    continue;
                }
                let inputs: Vec<u8> = (0..n).map(|_| draw.below(2) as u8).collect();
                let table: Vec<u8> = (0..plan.len()).map(|_| draw.below(3) as u8).collect();
                let mut decided = vec![0; usize::from(n)];
                run(&card, &plan, &inputs, faulty, &table, &mut decided).unwrap();
                let sound = (0..usize::from(n)).filter(|i| faulty >> i & 1 == 0);
                let sound: Vec<usize> = sound.collect();
                let bit = decided[sound[0]];
                assert!(sound.iter().all(|&server| decided[server] == bit));
                assert!(sound.iter().any(|&server| inputs[server] == bit));
            }
        }
    }
}
