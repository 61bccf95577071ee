//! Whole plans for any network that is read, as near to accepted ones as can be.

use crate::draft::set_of;
use crate::makeshifts::{Due, Makeshift};
use crate::plans::{
    members, push_route, servers_of, singleton, Planner, Taste, BLOCK, END, NEIGHBOURS,
    ROUTE_FROM_S, ROUTE_TO_S, ROUTE_WITHIN_S,
};
use crate::rng::Rng;
use crate::routes::{disjoint_routes, most_routes, Demand};
use reference::{read_card, Network};
use std::ops::Range;

/// How many pairs of A and S are tried for one that needs a single kind of makeshift.
const TRIES: usize = 12;

/// A whole plan that keeps the rules in every block that can be had.
#[derive(Debug, Clone, PartialEq, Eq)]
pub struct NearPlan {
    pub plan: Vec<u8>,
    /// How many blocks are due.
    pub blocks: usize,
    /// The blocks that cannot be had, in the order of the plan. Without any, the plan keeps
    /// the rules.
    pub gaps: Vec<Gap>,
    /// All that is against the rules, in the order of the plan.
    pub makeshifts: Vec<Makeshift>,
}

impl NearPlan {
    /// Whether all that is against the rules is so in one way: one rule read wrong, and the
    /// plan might pass.
    pub fn is_of_one_kind(&self) -> bool {
        self.makeshifts.windows(2).all(|pair| pair[0] == pair[1])
    }
}

/// A block that cannot be had: there are no A and S for which it has all its routes, or some
/// k of F has no f+1 incoming neighbours in V - F.
#[derive(Debug, Clone, PartialEq, Eq)]
pub struct Gap {
    /// How many blocks are due before it.
    pub before: usize,
    /// The part of the plan that is made up for it.
    pub part: Range<usize>,
    /// What in it is against the rules first.
    pub first: Makeshift,
}

impl Gap {
    /// Whether this refusal is one that the gap brings, where all before it keeps the rules.
    pub fn brings(&self, number: u8, place: usize) -> bool {
        // What is left out may be noticed only after the block.
        let after = self.first.may_end_the_block() && place == self.part.end;
        self.first.meant().contains(&number) && (self.part.contains(&place) || after)
    }
}

/// `count` random plans for the network on `card`, or none if the card is refused.
///
/// Each has every block that is due, in order and with all its commands. A block that can be
/// had is sound. For one that cannot, A and S are chosen for which little is missing, there
/// are as many separate routes to each receiver as exist, and what is missing is made up by
/// something that looks like it: see [`Makeshift`]. In half of the plans all is made up in
/// one way, where it can be. Some blocks that cannot be had are left out, or there is a sound
/// one of another cut in their place.
///
/// So a plan for a network without a bad split is accepted, and any other is refused in the
/// first block that cannot be had. It is never refused for an N that cannot be had: where k
/// has no f+1 incoming neighbours outside F, the block of F without k that cuts k from the
/// rest cannot be had either, and it comes before.
pub fn near_plans(rng: &mut Rng, card: &[u8], count: usize) -> Vec<NearPlan> {
    let Ok(network) = read_card(card) else {
        return Vec::new();
    };
    let fault_sets = 0..=servers_of(&network);
    let mut makers: Vec<Maker> = fault_sets
        .filter(|fault_set| fault_set.count_ones() <= u32::from(network.f))
        .map(|fault_set| Maker::new(&network, fault_set))
        .collect();
    (0..count).map(|_| near_plan(rng, &mut makers)).collect()
}

/// One plan, of the blocks that these make.
fn near_plan(rng: &mut Rng, makers: &mut [Maker]) -> NearPlan {
    let taste = Taste::draw(rng);
    let one_way = rng.one_in(2).then(|| any_makeshift(rng));
    let (mut plan, mut blocks, mut gaps) = (Vec::new(), 0, Vec::new());
    let mut makeshifts = Vec::new();
    for maker in makers {
        maker.planner.taste = taste;
        for part in maker.planner.parts() {
            let block = maker.block(rng, part, one_way);
            let start = plan.len();
            plan.extend(block.bytes);
            gaps.extend(block.makeshifts.first().map(|&first| Gap {
                before: blocks,
                part: start..plan.len(),
                first,
            }));
            makeshifts.extend(block.makeshifts);
            blocks += 1;
        }
    }
    plan.push(END);
    NearPlan {
        plan,
        blocks,
        gaps,
        makeshifts,
    }
}

fn any_makeshift(rng: &mut Rng) -> Makeshift {
    Makeshift::ALL[rng.below(Makeshift::ALL.len())]
}

/// A block, or what stands in its place.
#[derive(Debug, Clone)]
struct Block {
    bytes: Vec<u8>,
    /// What in it is against the rules, in the order in which it is met.
    makeshifts: Vec<Makeshift>,
}

impl Block {
    /// None at all.
    fn left_out() -> Block {
        Block {
            bytes: Vec::new(),
            makeshifts: vec![Makeshift::BlockLeftOut],
        }
    }
}

/// Makes the blocks of one fault set.
struct Maker<'a> {
    planner: Planner<'a>,
    /// For each set of sources and each receiver how many separate routes there are, f+1 at
    /// most.
    most: Vec<[usize; 8]>,
}

/// Routes to one receiver that share nothing else, and where others may come from.
struct Group {
    sources: u8,
    receiver: u8,
    /// The routes of the network, as many as there are.
    sound: Vec<Vec<u8>>,
    /// Servers of V - F that are neither the receiver nor on a route, made up or not.
    free: u8,
}

impl<'a> Maker<'a> {
    fn new(network: &'a Network, fault_set: u8) -> Maker<'a> {
        Maker {
            planner: Planner::new(network, fault_set, Taste::Any),
            most: most_separate(network, servers_of(network) & !fault_set),
        }
    }

    /// The block of the cut with this part, sound if it can be had, and else made up: in one
    /// way, if that is asked for and can be.
    fn block(&self, rng: &mut Rng, part: u8, one_way: Option<Makeshift>) -> Block {
        let pair = self.sound_pair(rng, part);
        let sound = pair.and_then(|(a, s)| self.filled(rng, a, s, &[]));
        if let Some(block) = sound {
            return block;
        }
        let wanted = one_way.unwrap_or_else(|| any_makeshift(rng));
        match wanted.due() {
            Due::Route | Due::Neighbours => self.nearest(rng, part, pair, wanted),
            Due::Quorum => {
                let block = self.nearest(rng, part, pair, wanted);
                self.with_other_quorum(rng, block, wanted)
            }
            Due::Block => {
                let other = match wanted {
                    Makeshift::OtherCut => self.other_cut(rng, part),
                    _ => None,
                };
                other.unwrap_or_else(Block::left_out)
            }
        }
    }

    /// An A and S for which all routes of the block can be had.
    fn sound_pair(&self, rng: &mut Rng, part: u8) -> Option<(u8, u8)> {
        let mut pairs = self.planner.pairs(rng, part).into_iter();
        pairs.find(|&(a, s)| self.missing(a, s) == 0)
    }

    /// How many of the routes of a block with this A and S cannot be had.
    fn missing(&self, a: u8, s: u8) -> usize {
        let reached = self.planner.reached;
        let outside_f = self.planner.outside_f;
        let not_reached = members(s).map(|u| (s & !reached[usize::from(u)]).count_ones() as usize);
        let mut missing: usize = not_reached.sum();
        for (sources, receivers) in [(a, s & !a), (s, outside_f & !s)] {
            for receiver in members(receivers) {
                let most = self.most[usize::from(sources)][usize::from(receiver)];
                missing += self.planner.quorum - most;
            }
        }
        missing
    }

    /// A sound block of another cut, if any can be had.
    fn other_cut(&self, rng: &mut Rng, part: u8) -> Option<Block> {
        let mut others: Vec<u8> = self
            .planner
            .parts()
            .filter(|&other| other != part)
            .collect();
        rng.shuffle(&mut others);
        let mut pairs = others
            .into_iter()
            .filter_map(|other| self.sound_pair(rng, other));
        let (a, s) = pairs.next()?;
        let block = self.filled(rng, a, s, &[])?;
        Some(Block {
            makeshifts: vec![Makeshift::OtherCut],
            ..block
        })
    }

    /// A block of which nothing is missing but what cannot be had: with `sound`, an A and S
    /// for which there are all routes, or else with a pair for which little is missing, one
    /// for which `wanted` is enough, if that is soon found.
    fn nearest(
        &self,
        rng: &mut Rng,
        part: u8,
        sound: Option<(u8, u8)>,
        wanted: Makeshift,
    ) -> Block {
        let mut ways = Makeshift::ALL.to_vec();
        rng.shuffle(&mut ways);
        ways.sort_by_key(|&way| way != wanted);
        let mut pairs = match sound {
            Some(pair) => vec![pair],
            None => self.planner.pairs(rng, part),
        };
        // Now and then any pair will do, however much is missing.
        if !rng.one_in(4) {
            pairs.sort_by_cached_key(|&(a, s)| self.missing(a, s));
        }
        pairs.truncate(TRIES);
        let in_its_place = |way: &Makeshift| *way == wanted || way.due() != wanted.due();
        let wanted_alone: Vec<Makeshift> = ways.iter().copied().filter(in_its_place).collect();
        let choices = [&wanted_alone, &ways];
        let mut blocks = choices
            .into_iter()
            .flat_map(|ways| pairs.iter().map(move |pair| (pair, ways)));
        blocks
            .find_map(|(&(a, s), ways)| self.filled(rng, a, s, ways))
            .expect("what is missing can be left out")
    }

    /// The block with another S in its opening, and else as it is.
    fn with_other_quorum(&self, rng: &mut Rng, mut block: Block, way: Makeshift) -> Block {
        let outside_f = self.planner.outside_f;
        let s = block.bytes[3];
        let others: Vec<u8> = match way {
            Makeshift::QuorumOutside => members(!outside_f).collect(),
            Makeshift::QuorumOfOthers => members(outside_f).collect(),
            _ => Vec::new(),
        };
        // Eight servers of whom none is in F leave nobody outside.
        let (way, other) = match rng.pick(&others).map(|server| s ^ singleton(server)) {
            Some(other) if other != 0 => (way, other),
            _ => (Makeshift::QuorumEmpty, 0),
        };
        block.bytes[3] = other;
        block.makeshifts.insert(0, way);
        block
    }

    /// The block with this A and S, with what is missing made up in the first of these ways
    /// that is possible; `None` if none is.
    fn filled(&self, rng: &mut Rng, a: u8, s: u8, ways: &[Makeshift]) -> Option<Block> {
        let Planner {
            fault_set,
            outside_f,
            quorum,
            ..
        } = self.planner;
        let mut block = Block {
            bytes: vec![BLOCK, fault_set, a, s],
            makeshifts: Vec::new(),
        };
        for receiver in members(s & !a) {
            let demand = self.planner.demand(a, receiver, quorum);
            self.routes(rng, ROUTE_TO_S, demand, ways, &mut block)?;
        }
        for receiver in members(s) {
            for source in members(s & !singleton(receiver)) {
                let demand = self.planner.demand(singleton(source), receiver, 1);
                self.routes(rng, ROUTE_WITHIN_S, demand, ways, &mut block)?;
            }
        }
        for receiver in members(outside_f & !s) {
            let demand = self.planner.demand(s, receiver, quorum);
            self.routes(rng, ROUTE_FROM_S, demand, ways, &mut block)?;
        }
        for k in members(fault_set) {
            self.neighbours(rng, k, ways, &mut block)?;
        }
        Some(block)
    }

    /// Appends the routes of this demand, with those made up that there are not.
    fn routes(
        &self,
        rng: &mut Rng,
        kind: u8,
        demand: Demand,
        ways: &[Makeshift],
        block: &mut Block,
    ) -> Option<()> {
        let sound = most_routes(rng, self.planner.network, demand);
        let mut routes = sound.clone();
        let mut makeshifts = Vec::new();
        let mut group = Group {
            sources: demand.sources,
            receiver: demand.receiver,
            free: self.planner.outside_f & !singleton(demand.receiver) & !set_of(&sound.concat()),
            sound,
        };
        while group.sound.len() + makeshifts.len() < demand.count {
            let mut possible = ways.iter().filter_map(|&way| {
                let route = self.made_up_route(rng, way, &group)?;
                Some((way, route))
            });
            let (way, route) = possible.next()?;
            group.free &= !set_of(&route);
            makeshifts.push(way);
            routes.push(route);
        }
        // Those made up need not come last, if the refusal stays the same.
        let alike = |pair: &[Makeshift]| pair[0].meant() == pair[1].meant();
        if makeshifts.windows(2).all(alike) {
            rng.shuffle(&mut routes);
        }
        for route in routes.iter().filter(|route| !route.is_empty()) {
            push_route(&mut block.bytes, kind, route);
        }
        block.makeshifts.extend(makeshifts);
        Some(())
    }

    /// One route more to the receiver of the group, which has all that there are; an empty
    /// one if it is left out, and `None` if it cannot be made up in this way.
    fn made_up_route(&self, rng: &mut Rng, way: Makeshift, group: &Group) -> Option<Vec<u8>> {
        let Planner {
            fault_set,
            outside_f,
            ..
        } = self.planner;
        let Group {
            sources,
            receiver,
            ref sound,
            free,
        } = *group;
        let first_servers: Vec<u8> = sound.iter().map(|route| route[0]).collect();
        match way {
            Makeshift::SameSource => {
                let source = singleton(rng.pick(&first_servers)?);
                // With relays of its own if there are any.
                let apart = self.route(rng, source, receiver, free | source);
                apart.or_else(|| self.route(rng, source, receiver, outside_f))
            }
            Makeshift::SameRelay => {
                self.route(rng, sources & !set_of(&first_servers), receiver, outside_f)
            }
            Makeshift::SameRoute => sound.get(rng.below(sound.len())).cloned(),
            Makeshift::OtherSource => self.route(rng, free & !sources, receiver, free),
            Makeshift::AbsentLink => self.over_an_absent_link(rng, sources & free, receiver, free),
            Makeshift::ThroughFaultSet => {
                self.route(rng, sources & free, receiver, free | fault_set)
            }
            Makeshift::RouteLeftOut => Some(Vec::new()),
            _ => None,
        }
    }

    /// A route from one of `sources` to `receiver` over servers of `allowed`.
    fn route(&self, rng: &mut Rng, sources: u8, receiver: u8, allowed: u8) -> Option<Vec<u8>> {
        let demand = Demand {
            sources: sources & !singleton(receiver),
            receiver,
            allowed: allowed | singleton(receiver),
            count: 1,
        };
        disjoint_routes(rng, self.planner.network, demand)?.pop()
    }

    /// A route from one of `sources` to `receiver` over free servers, of which one link is
    /// not there: the first, or the last. All others are there, and this one cannot be, or
    /// the route would be one more that the network has.
    fn over_an_absent_link(
        &self,
        rng: &mut Rng,
        sources: u8,
        receiver: u8,
        free: u8,
    ) -> Option<Vec<u8>> {
        let candidates: Vec<u8> = members(sources).collect();
        let source = rng.pick(&candidates)?;
        let relays = free & !singleton(source);
        if rng.one_in(3) {
            if let Some(rest) = self.route(rng, relays, receiver, relays) {
                return Some([&[source], &rest[..]].concat());
            }
        }
        let mut route = vec![source];
        while rng.one_in(2) {
            let last = usize::from(route[route.len() - 1]);
            let linked = |&next: &u8| self.planner.network.links[last][usize::from(next)];
            let onward: Vec<u8> = members(relays & !set_of(&route)).filter(linked).collect();
            route.extend(rng.pick(&onward));
        }
        route.push(receiver);
        Some(route)
    }

    /// Appends the neighbour set of `k`, made up if there are not enough.
    fn neighbours(
        &self,
        rng: &mut Rng,
        k: u8,
        ways: &[Makeshift],
        block: &mut Block,
    ) -> Option<()> {
        if let Some(neighbours) = self.planner.neighbours(rng, k) {
            block.bytes.extend([NEIGHBOURS, k, neighbours]);
            return Some(());
        }
        let mut possible = ways.iter().filter_map(|&way| {
            let neighbours = self.made_up_neighbours(rng, way, k)?;
            Some((way, neighbours))
        });
        let (way, neighbours) = possible.next()?;
        if way != Makeshift::NeighboursLeftOut {
            block.bytes.extend([NEIGHBOURS, k, neighbours]);
        }
        block.makeshifts.push(way);
        Some(())
    }

    /// All servers that may be in the N of `k`, which are too few, with others in this way.
    fn made_up_neighbours(&self, rng: &mut Rng, way: Makeshift, k: u8) -> Option<u8> {
        let Planner {
            network,
            fault_set,
            outside_f,
            ..
        } = self.planner;
        let linked = |&u: &u8| network.links[usize::from(u)][usize::from(k)];
        let linked: Vec<u8> = members(outside_f).filter(linked).collect();
        let eligible = set_of(&linked);
        match way {
            Makeshift::NeighboursTooFew | Makeshift::NeighboursLeftOut => Some(eligible),
            Makeshift::NeighbourWithoutLink => {
                self.up_to_the_quorum(rng, eligible, outside_f & !eligible)
            }
            Makeshift::NeighbourInFaultSet => self.up_to_the_quorum(rng, eligible, fault_set),
            Makeshift::NeighbourOutside => {
                self.up_to_the_quorum(rng, eligible, !servers_of(network))
            }
            _ => None,
        }
    }

    /// `set` with random servers of `others`, f+1 in all, if there are so many.
    fn up_to_the_quorum(&self, rng: &mut Rng, set: u8, others: u8) -> Option<u8> {
        let mut others: Vec<u8> = members(others).collect();
        rng.shuffle(&mut others);
        let wanted = self.planner.quorum - set.count_ones() as usize;
        Some(set | set_of(others.get(..wanted)?))
    }
}

/// For each set of sources and each receiver the most routes within `allowed` that share
/// nothing but the receiver, f+1 at most. By Menger's theorem that is the size of a smallest
/// set of servers without which no source reaches the receiver.
fn most_separate(network: &Network, allowed: u8) -> Vec<[usize; 8]> {
    let quorum = usize::from(network.f) + 1;
    let mut most = vec![[quorum; 8]; 256];
    for receiver in members(allowed) {
        let others = allowed & !singleton(receiver);
        for cut in (0..=others).filter(|cut| cut & !others == 0) {
            let size = cut.count_ones() as usize;
            if size >= quorum {
                continue;
            }
            let reaching = reaching(network, receiver, allowed & !cut);
            for sources in (0..=allowed).filter(|sources| sources & reaching == 0) {
                let known = &mut most[usize::from(sources)][usize::from(receiver)];
                *known = size.min(*known);
            }
        }
    }
    most
}

/// The servers that reach `receiver` within `allowed`, itself included.
fn reaching(network: &Network, receiver: u8, allowed: u8) -> u8 {
    let mut reaching = singleton(receiver);
    loop {
        let next =
            |&u: &u8| members(reaching).any(|v| network.links[usize::from(u)][usize::from(v)]);
        let more: Vec<u8> = members(allowed & !reaching).filter(next).collect();
        if more.is_empty() {
            return reaching;
        }
        reaching |= set_of(&more);
    }
}

#[cfg(test)]
mod tests {
    use super::*;
    use crate::cards::{card_of, complete_card, good_card, network_card};
    use crate::draft::{places, ROUTES, ROUTE_SIZE};
    use crate::plans::{plan, FILL};
    use crate::spoilt::spoilt_card;
    use reference::{check_plan, split_test, Refusal};

    /// Sizes (n, f) whose plans are short, and some with too few servers for any plan.
    const SIZES: [(u8, u8); 10] = [
        (2, 0),
        (2, 1),
        (3, 0),
        (3, 1),
        (3, 2),
        (4, 0),
        (4, 1),
        (4, 2),
        (5, 1),
        (5, 2),
    ];

    /// Near plans for networks of these sizes, each with its card.
    fn drawn(rng: &mut Rng, rounds: usize) -> Vec<(Vec<u8>, NearPlan)> {
        let mut drawn = Vec::new();
        for round in 0..rounds {
            let (n, f) = SIZES[round % SIZES.len()];
            let card = match rng.below(3) {
                0 => spoilt_card(rng, &complete_card(n, f)),
                _ => network_card(rng, n, f),
            };
            let near = near_plans(rng, &card, 4);
            drawn.extend(near.into_iter().map(|near| (card.clone(), near)));
        }
        drawn
    }

    #[test]
    fn near_plans_of_good_networks_are_accepted() {
        let mut rng = Rng::new(1);
        for (n, f) in [
            (2, 0),
            (4, 0),
            (6, 0),
            (8, 0),
            (4, 1),
            (5, 1),
            (7, 1),
            (7, 2),
        ] {
            for _ in 0..10 {
                let card = good_card(&mut rng, n, f).unwrap();
                for near in near_plans(&mut rng, &card, 2) {
                    let blocks = check_plan(&card, &near.plan).map(|totals| totals.blocks);
                    assert_eq!(blocks, Ok(near.blocks), "{card:02x?}");
                    assert!(near.gaps.is_empty());
                }
            }
        }
    }

    #[test]
    fn near_plans_are_refused_in_the_first_block_that_cannot_be_had() {
        let mut rng = Rng::new(2);
        let (mut good, mut bad) = (0, 0);
        for (card, near) in drawn(&mut rng, 400) {
            let is_good = split_test(&card) == Ok(None);
            assert_eq!(near.gaps.is_empty(), is_good, "{card:02x?}");
            let Some(gap) = near.gaps.first() else {
                assert!(check_plan(&card, &near.plan).is_ok(), "{card:02x?}");
                good += 1;
                continue;
            };
            let Err(Refusal::Plan { number, place }) = check_plan(&card, &near.plan) else {
                panic!("not refused: {card:02x?}, {gap:?}");
            };
            assert!(gap.brings(number, place), "{number} at {place}, {gap:?}");
            // As many blocks as are due before it stand before it.
            let openings = places(&near.plan[..gap.part.start], &[BLOCK]);
            assert_eq!(openings.len(), gap.before);
            bad += 1;
        }
        assert!(good > 200 && bad > 1_000, "{good} {bad}");
    }

    #[test]
    fn everything_but_the_gaps_keeps_the_rules() {
        let mut rng = Rng::new(3);
        let mut mended = 0;
        for (card, near) in drawn(&mut rng, 400) {
            let (n, f) = (card[1], card[2]);
            if n <= 3 * f {
                continue;
            }
            // What is sound stays so when there are more links. With all of them every block
            // can be had, so that the gaps can be mended.
            let complete = complete_card(n, f);
            let donor = plan(&mut rng, &complete).unwrap();
            let mut bounds = places(&donor, &[BLOCK]);
            bounds.push(donor.len() - 1);
            let (mut plan, mut from) = (Vec::new(), 0);
            for gap in &near.gaps {
                let kept = &near.plan[from..gap.part.start];
                plan.extend(kept);
                assert_linked(&card, kept);
                plan.extend(&donor[bounds[gap.before]..bounds[gap.before + 1]]);
                from = gap.part.end;
            }
            plan.extend(&near.plan[from..]);
            assert_linked(&card, &near.plan[from..]);
            let totals = check_plan(&complete, &plan).unwrap();
            assert_eq!(totals.blocks, near.blocks);
            mended += usize::from(near.gaps.len() > 1);
        }
        assert!(mended > 200, "{mended}");
    }

    /// Every step of every route of these blocks is a link of the card, and so is the step
    /// from each member of an N to its k.
    fn assert_linked(card: &[u8], blocks: &[u8]) {
        let links = read_card(card).unwrap().links;
        for place in places(blocks, &ROUTES) {
            let operand = &blocks[place + 1..place + ROUTE_SIZE];
            let servers: Vec<u8> = operand.iter().copied().filter(|&u| u != FILL).collect();
            for step in servers.windows(2) {
                assert!(links[usize::from(step[0])][usize::from(step[1])]);
            }
        }
        for place in places(blocks, &[NEIGHBOURS]) {
            let (k, neighbours) = (blocks[place + 1], blocks[place + 2]);
            assert!(members(neighbours).all(|u| links[usize::from(u)][usize::from(k)]));
        }
    }

    #[test]
    fn every_makeshift_is_met() {
        let mut rng = Rng::new(4);
        let drawn = drawn(&mut rng, 800);
        for way in Makeshift::ALL {
            let is_first = |near: &&NearPlan| near.gaps.first().is_some_and(|gap| gap.first == way);
            let is_alone = |near: &&NearPlan| near.is_of_one_kind() && is_first(near);
            let plans = || drawn.iter().map(|(_, near)| near);
            let met = plans()
                .filter(|near| near.makeshifts.contains(&way))
                .count();
            let (first, alone) = (
                plans().filter(is_first).count(),
                plans().filter(is_alone).count(),
            );
            println!("{:<32} {met:>5} {first:>5} {alone:>5}", way.name());
            assert!(met >= 50, "{} is seldom", way.name());
            // Where an N cannot be had, an earlier block cannot either.
            let often_enough = match way.may_come_first() {
                true => first >= 20,
                false => first == 0,
            };
            assert!(often_enough, "{} comes first {first} times", way.name());
            // Where S is not right, routes are not right either.
            let has_company = [Due::Neighbours, Due::Quorum].contains(&way.due());
            assert_eq!(alone == 0, has_company, "{}", way.name());
        }
    }

    #[test]
    fn a_refused_card_has_no_near_plan() {
        assert_eq!(near_plans(&mut Rng::new(5), &[], 3), []);
    }

    #[test]
    fn one_seed_gives_the_same_near_plans() {
        let card = card_of(4, 1, &[(0, 1), (1, 2), (2, 3), (3, 0), (1, 0)]);
        let near = |seed| near_plans(&mut Rng::new(seed), &card, 3);
        assert_eq!(near(6), near(6));
        assert_ne!(near(6), near(7));
    }
}
