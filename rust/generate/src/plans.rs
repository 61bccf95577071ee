//! Making of plans that the plan check accepts.

use crate::rng::Rng;
use crate::routes::{disjoint_routes, Demand};
use reference::{read_card, Network};

/// Command bytes of the plan.
pub(crate) const BLOCK: u8 = 0x10;
pub(crate) const ROUTE_TO_S: u8 = 0x11;
pub(crate) const ROUTE_WITHIN_S: u8 = 0x12;
pub(crate) const ROUTE_FROM_S: u8 = 0x13;
pub(crate) const NEIGHBOURS: u8 = 0x14;
pub(crate) const END: u8 = 0x15;

/// What fills up a route of fewer than eight servers.
pub(crate) const FILL: u8 = 0xff;
/// Bytes of a route operand.
pub(crate) const ROUTE_OPERAND: usize = 8;

/// A plan for the network on `card` that the plan check accepts, with A, S, routes
/// and neighbour sets drawn at random, or `None` if the card is refused or some
/// block cannot be had.
///
/// The search leaves nothing out: a network has a plan if it has no bad split, and
/// then one is found.
pub fn plan(rng: &mut Rng, card: &[u8]) -> Option<Vec<u8>> {
    let network = read_card(card).ok()?;
    let mut plan = Vec::new();
    blocks(rng, &network, &mut plan)?;
    plan.push(END);
    Some(plan)
}

/// As [`plan`], but where a block cannot be had, the plan ends before it, or before
/// the first neighbour set that cannot be had. So there is something to check on
/// networks without a plan too.
pub fn broken_off_plan(rng: &mut Rng, card: &[u8]) -> Vec<u8> {
    let mut plan = Vec::new();
    if let Ok(network) = read_card(card) {
        let _ = blocks(rng, &network, &mut plan);
    }
    plan.push(END);
    plan
}

/// Appends all blocks of a plan, or as many as can be had before `None`.
fn blocks(rng: &mut Rng, network: &Network, plan: &mut Vec<u8>) -> Option<()> {
    let taste = Taste::draw(rng);
    for fault_set in 0..=servers_of(network) {
        if fault_set.count_ones() <= u32::from(network.f) {
            Planner::new(network, fault_set, taste).blocks(rng, plan)?;
        }
    }
    Some(())
}

/// Bytes that are hardly ever a plan: `sound`, which may be any plan, up to a random
/// place, then random bytes of one kind.
pub fn plan_like_bytes(rng: &mut Rng, sound: &[u8]) -> Vec<u8> {
    let kept = match rng.below(4) {
        0 => 0,
        1 => sound.len().min(4),
        _ => rng.between(0, sound.len()),
    };
    let mut bytes = sound[..kept].to_vec();
    let kind = rng.below(4);
    for _ in 0..rng.between(0, 60) {
        let byte = match kind {
            0 => rng.byte(),
            1 => rng.between(0x0f, 0x16) as u8,
            2 => rng.below(9) as u8,
            // What a plan is made of, in any order.
            _ => match rng.below(4) {
                0 => rng.between(0x10, 0x15) as u8,
                1 => FILL,
                _ => rng.below(9) as u8,
            },
        };
        bytes.push(byte);
    }
    bytes
}

/// V, the set of all servers.
pub(crate) fn servers_of(network: &Network) -> u8 {
    u8::MAX >> (8 - network.n)
}

pub(crate) fn members(set: u8) -> impl Iterator<Item = u8> {
    (0..8).filter(move |&server| set >> server & 1 == 1)
}

pub(crate) fn singleton(server: u8) -> u8 {
    1 << server
}

/// Which of the pairs of A and S a plan would rather have. One taste goes for a
/// whole plan, so that the shortest and the longest plans are met too.
#[derive(Debug, Clone, Copy, PartialEq, Eq)]
pub(crate) enum Taste {
    Any,
    SmallS,
    LargeS,
    SInsideA,
    SBeyondA,
}

impl Taste {
    pub fn draw(rng: &mut Rng) -> Taste {
        match rng.below(7) {
            0 => Taste::SmallS,
            1 => Taste::LargeS,
            2 => Taste::SInsideA,
            3 => Taste::SBeyondA,
            _ => Taste::Any,
        }
    }

    /// Puts pairs of A and S into random order, those to its liking first.
    fn order(self, rng: &mut Rng, pairs: &mut [(u8, u8)]) {
        rng.shuffle(pairs);
        match self {
            Taste::Any => {}
            Taste::SmallS => pairs.sort_by_key(|(a, s)| (s.count_ones(), (s & !a).count_ones())),
            Taste::LargeS => {
                pairs.sort_by_key(|(a, s)| (s.count_zeros(), (s & !a).count_zeros()));
            }
            Taste::SInsideA => pairs.sort_by_key(|(a, s)| s & !a != 0),
            Taste::SBeyondA => pairs.sort_by_key(|(a, s)| s & !a == 0),
        }
    }
}

/// Makes the blocks of one fault set.
pub(crate) struct Planner<'a> {
    pub network: &'a Network,
    pub fault_set: u8,
    /// V - F.
    pub outside_f: u8,
    /// f+1.
    pub quorum: usize,
    pub taste: Taste,
    /// For each server the servers that it reaches within V - F, itself included.
    pub reached: [u8; 8],
    /// Whether f+1 disjoint routes lead from a set to a server, as far as known.
    supplied: Vec<[Option<bool>; 8]>,
}

impl<'a> Planner<'a> {
    pub fn new(network: &'a Network, fault_set: u8, taste: Taste) -> Planner<'a> {
        let outside_f = servers_of(network) & !fault_set;
        Planner {
            network,
            fault_set,
            outside_f,
            quorum: usize::from(network.f) + 1,
            taste,
            reached: std::array::from_fn(|server| reached_from(network, server, outside_f)),
            supplied: vec![[None; 8]; 256],
        }
    }

    /// One block for each way of cutting V - F, in the order of the plan.
    fn blocks(&mut self, rng: &mut Rng, plan: &mut Vec<u8>) -> Option<()> {
        for part in self.parts() {
            self.block(rng, part, plan)?;
        }
        Some(())
    }

    /// For each way of cutting V - F, in the order of the plan, the part that holds its
    /// lowest server.
    pub fn parts(&self) -> impl Iterator<Item = u8> {
        let outside_f = self.outside_f;
        let lowest = outside_f & outside_f.wrapping_neg();
        let within = (1..outside_f).filter(move |part| part & !outside_f == 0);
        within.filter(move |part| part & lowest != 0)
    }

    fn block(&mut self, rng: &mut Rng, part: u8, plan: &mut Vec<u8>) -> Option<()> {
        let (a, s) = self.choose(rng, part)?;
        plan.extend([BLOCK, self.fault_set, a, s]);
        for receiver in members(s & !a) {
            self.quorum_of_routes(rng, ROUTE_TO_S, a, receiver, plan)?;
        }
        for receiver in members(s) {
            for source in members(s & !singleton(receiver)) {
                let demand = self.demand(singleton(source), receiver, 1);
                for route in disjoint_routes(rng, self.network, demand)? {
                    push_route(plan, ROUTE_WITHIN_S, &route);
                }
            }
        }
        for receiver in members(self.outside_f & !s) {
            self.quorum_of_routes(rng, ROUTE_FROM_S, s, receiver, plan)?;
        }
        for k in members(self.fault_set) {
            plan.extend([NEIGHBOURS, k, self.neighbours(rng, k)?]);
        }
        Some(())
    }

    /// A random A and S for which all routes of the block can be had.
    fn choose(&mut self, rng: &mut Rng, part: u8) -> Option<(u8, u8)> {
        let mut pairs = self.pairs(rng, part).into_iter();
        pairs.find(|&(a, s)| self.serves(rng, a, s))
    }

    /// Every A and S for the cut with this part, those to the plan's liking first.
    pub fn pairs(&self, rng: &mut Rng, part: u8) -> Vec<(u8, u8)> {
        let mut pairs = Vec::new();
        for a in [part, self.outside_f & !part] {
            let sets = (1..=self.outside_f).filter(|s| s & !self.outside_f == 0);
            pairs.extend(sets.map(|s| (a, s)));
        }
        self.taste.order(rng, &mut pairs);
        pairs
    }

    fn serves(&mut self, rng: &mut Rng, a: u8, s: u8) -> bool {
        members(s).all(|server| s & !self.reached[usize::from(server)] == 0)
            && members(s & !a).all(|receiver| self.supplies(rng, a, receiver))
            && members(self.outside_f & !s).all(|receiver| self.supplies(rng, s, receiver))
    }

    /// Whether f+1 disjoint routes lead from `sources` to `receiver`.
    fn supplies(&mut self, rng: &mut Rng, sources: u8, receiver: u8) -> bool {
        let (row, column) = (usize::from(sources), usize::from(receiver));
        if let Some(known) = self.supplied[row][column] {
            return known;
        }
        let demand = self.demand(sources, receiver, self.quorum);
        let answer = disjoint_routes(rng, self.network, demand).is_some();
        self.supplied[row][column] = Some(answer);
        answer
    }

    pub fn demand(&self, sources: u8, receiver: u8, count: usize) -> Demand {
        Demand {
            sources,
            receiver,
            allowed: self.outside_f,
            count,
        }
    }

    fn quorum_of_routes(
        &self,
        rng: &mut Rng,
        kind: u8,
        sources: u8,
        receiver: u8,
        plan: &mut Vec<u8>,
    ) -> Option<()> {
        let demand = self.demand(sources, receiver, self.quorum);
        for route in disjoint_routes(rng, self.network, demand)? {
            push_route(plan, kind, &route);
        }
        Some(())
    }

    /// f+1 random servers of V - F with a link to `k`.
    pub fn neighbours(&self, rng: &mut Rng, k: u8) -> Option<u8> {
        let linked = |&u: &u8| self.network.links[usize::from(u)][usize::from(k)];
        let mut eligible: Vec<u8> = members(self.outside_f).filter(linked).collect();
        rng.shuffle(&mut eligible);
        let chosen = eligible.get(..self.quorum)?;
        Some(chosen.iter().fold(0, |set, &u| set | singleton(u)))
    }
}

/// The servers that `server` reaches within `allowed`, itself included.
fn reached_from(network: &Network, server: usize, allowed: u8) -> u8 {
    let mut reached = allowed & singleton(server as u8);
    loop {
        let before = reached;
        for u in members(before) {
            for v in members(allowed) {
                if network.links[usize::from(u)][usize::from(v)] {
                    reached |= singleton(v);
                }
            }
        }
        if reached == before {
            return reached;
        }
    }
}

/// Appends a route of at most eight servers.
pub(crate) fn push_route(plan: &mut Vec<u8>, kind: u8, servers: &[u8]) {
    plan.push(kind);
    plan.extend(servers);
    plan.extend(std::iter::repeat_n(FILL, ROUTE_OPERAND - servers.len()));
}

#[cfg(test)]
mod tests {
    use super::*;
    use crate::calls::table;
    use crate::cards::{complete_card, network_card};
    use reference::{check_plan, run, split_test, Refusal};

    #[test]
    fn every_plan_is_accepted() {
        let mut rng = Rng::new(1);
        for n in 2..=8 {
            for f in 0..=2 {
                let rounds = if n > 6 { 3 } else { 20 };
                for _ in 0..rounds {
                    let card = network_card(&mut rng, n, f);
                    if let Some(plan) = plan(&mut rng, &card) {
                        assert!(check_plan(&card, &plan).is_ok(), "{card:02x?}");
                    }
                }
            }
        }
    }

    #[test]
    fn complete_networks_have_a_plan_exactly_if_n_is_over_3_f() {
        let mut rng = Rng::new(2);
        for n in 2..=8 {
            for f in 0..=2 {
                let card = complete_card(n, f);
                let plan = plan(&mut rng, &card);
                assert_eq!(plan.is_some(), n > 3 * f, "n {n} f {f}");
                assert!(plan.is_none_or(|plan| check_plan(&card, &plan).is_ok()));
            }
        }
    }

    #[test]
    fn a_plan_is_found_exactly_if_there_is_no_bad_split() {
        let mut rng = Rng::new(3);
        for n in 2..=6 {
            for f in 0..=1 {
                for _ in 0..60 {
                    let card = network_card(&mut rng, n, f);
                    let possible = split_test(&card) == Ok(None);
                    assert_eq!(plan(&mut rng, &card).is_some(), possible, "{card:02x?}");
                }
            }
        }
    }

    #[test]
    fn a_broken_off_plan_is_refused_where_it_breaks_off() {
        let mut rng = Rng::new(9);
        let (mut whole, mut broken, mut at_once) = (0, 0, 0);
        for round in 0..300 {
            let (n, f) = ((2 + round % 5) as u8, (round % 3) as u8);
            let card = network_card(&mut rng, n, f);
            let plan = broken_off_plan(&mut rng, &card);
            let refusal = Refusal::Plan {
                number: 7,
                place: plan.len() - 1,
            };
            match check_plan(&card, &plan) {
                Ok(_) => whole += 1,
                Err(found) => {
                    assert_eq!(found, refusal, "{card:02x?}");
                    broken += usize::from(plan.len() > 1);
                    at_once += usize::from(plan.len() == 1);
                }
            }
        }
        assert!(whole > 20 && broken > 20 && at_once > 20);
        assert_eq!(broken_off_plan(&mut rng, &[]), [END]);
    }

    #[test]
    fn a_refused_card_has_no_plan() {
        assert_eq!(plan(&mut Rng::new(4), &[]), None);
    }

    #[test]
    fn one_seed_gives_the_same_plan() {
        let card = complete_card(5, 1);
        assert_eq!(plan(&mut Rng::new(5), &card), plan(&mut Rng::new(5), &card));
        assert_ne!(plan(&mut Rng::new(5), &card), plan(&mut Rng::new(6), &card));
    }

    #[test]
    fn the_shortest_plans_are_met() {
        // The sizes that the readings of the specification name.
        for (n, f, size) in [(8, 1, 74_471), (7, 2, 78_443)] {
            let card = complete_card(n, f);
            let mut rng = Rng::new(7);
            let network = read_card(&card).unwrap();
            let mut plan = Vec::new();
            for fault_set in 0..=servers_of(&network) {
                if fault_set.count_ones() <= u32::from(f) {
                    let mut planner = Planner::new(&network, fault_set, Taste::SmallS);
                    planner.blocks(&mut rng, &mut plan).unwrap();
                }
            }
            plan.push(END);
            assert_eq!(plan.len(), size);
            assert!(check_plan(&card, &plan).is_ok());
        }
    }

    /// Demand 3 of the specification: the sound servers decide one bit, and it is
    /// the input of a sound server, whatever the faulty ones have arrive.
    #[test]
    fn sound_servers_agree_on_the_input_of_one() {
        let mut rng = Rng::new(8);
        let mut runs = 0;
        for round in 0..60 {
            let (n, f) = [(2, 0), (4, 0), (4, 1), (5, 1), (6, 1), (7, 1)][round % 6];
            let card = network_card(&mut rng, n, f);
            let Some(plan) = plan(&mut rng, &card) else {
                continue;
            };
            let carriages = check_plan(&card, &plan).unwrap().carriages;
            for _ in 0..20 {
                let inputs: Vec<u8> = (0..n).map(|_| rng.below(2) as u8).collect();
                let faulty = match f {
                    0 => 0,
                    _ => singleton(rng.below(usize::from(n)) as u8),
                };
                let table = table(&mut rng, carriages);
                let mut out = [9; 8];
                run(&card, &plan, &inputs, faulty, &table, &mut out).unwrap();
                let sound: Vec<u8> =
                    members(servers_of(&read_card(&card).unwrap()) & !faulty).collect();
                let decided = out[usize::from(sound[0])];
                assert!(sound.iter().all(|&s| out[usize::from(s)] == decided));
                assert!(sound.iter().any(|&s| inputs[usize::from(s)] == decided));
                assert!(members(faulty).all(|s| out[usize::from(s)] == 2));
                assert!(out[usize::from(n)..].iter().all(|&byte| byte == 9));
                runs += 1;
            }
        }
        assert!(runs > 200, "{runs}");
    }
}
