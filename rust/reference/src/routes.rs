//! Separate routes: routes to one receiver that share nothing but the receiver.
//!
//! They are found one at a time. A search, breadth first, looks for a way from a
//! source to the receiver on which nothing stands in the way of the routes laid so far,
//! or on which they can be re-laid. When it finds none, there are no more routes than
//! those laid. By Menger's theorem that happens exactly when some set of as many
//! servers as there are routes meets every route; [`smallest_cut`] finds such a set
//! without any search for routes.

use crate::card::{Network, MAX_SERVERS};
use crate::plan::{route_servers, FILL, ROUTE_OPERAND};
use crate::quick::{entry, leaving, sides, single, SIDES};
use crate::sets::{contains, members, singleton, subsets};

/// Answers with `count` routes from servers of `sources` to `receiver` that avoid
/// `faults` and share nothing but the receiver, their sources included, or with `None`
/// if there are not so many.
///
/// Each route has at least two servers, none twice, and each is linked to the next;
/// its relays may be any servers outside `faults`, other sources too. A member of
/// `sources` that is faulty, not in V or the receiver itself is no source, and a
/// receiver that is faulty or not in V has no route. `network` is one that a card
/// describes.
pub fn separate_routes(
    network: &Network,
    faults: u8,
    sources: u8,
    receiver: u8,
    count: u8,
) -> Option<Vec<Vec<u8>>> {
    let mut room = [NO_ROUTE; MAX_SERVERS];
    // Eight servers are too few for more than seven routes, each with its own source.
    let routes = room.get_mut(..usize::from(count))?;
    let laid = Steps::of(network, faults).lay(sources, receiver, routes);
    laid.then(|| routes.iter().map(|it| route_servers(it).to_vec()).collect())
}

/// Answers with the smallest set of servers other than `receiver` that every route
/// from `sources` to `receiver` outside `faults` meets, a source counting as met; of
/// sets of one size it is the lowest.
///
/// What is a source and what has no route is as in [`separate_routes`]. Every set is
/// tried, since this is what the search for routes is held against.
pub fn smallest_cut(network: &Network, faults: u8, sources: u8, receiver: u8) -> u8 {
    let allowed = network.servers() & !faults;
    if !is_server_of(allowed, receiver) {
        return 0;
    }
    let others = allowed & !singleton(receiver);
    subsets(others)
        .filter(|cut| !is_reached(network, allowed & !cut, sources & others & !cut, receiver))
        .min_by_key(|cut| cut.count_ones())
        // The set of all others meets every route.
        .unwrap_or(others)
}

/// Whether some server of `sources` has a route to `receiver` within `allowed`, which
/// holds them all.
fn is_reached(network: &Network, allowed: u8, sources: u8, receiver: u8) -> bool {
    let mut reached = sources;
    loop {
        let next = members(allowed & !reached)
            .filter(|&v| members(reached).any(|u| network.has_link(u, v)))
            .fold(reached, |all, v| all | singleton(v));
        if next == reached {
            return contains(reached, receiver);
        }
        reached = next;
    }
}

/// Whether `server`, which may be any byte, is a member of `set`.
fn is_server_of(set: u8, server: u8) -> bool {
    usize::from(server) < MAX_SERVERS && contains(set, server)
}

/// A route as it stands in a plan: its servers from source to receiver, then fill.
pub(crate) type Route = [u8; ROUTE_OPERAND];

pub(crate) const NO_ROUTE: Route = [FILL; ROUTE_OPERAND];

/// The steps that routes outside a fault set can take while none is laid.
///
/// Every server is split into an entry side and a leaving side, with one step across
/// the server, and a link is a step from a leaving side to an entry side. Since each
/// step is there for one route only, no two routes share a server.
pub(crate) struct Steps {
    /// V - F, the servers that have sides.
    allowed: u8,
    /// For each server the set of allowed servers with a link to it.
    incoming: [u8; MAX_SERVERS],
    /// `open[side]`: the sides that a step from `side` leads to.
    open: [u16; SIDES],
}

impl Steps {
    pub(crate) fn of(network: &Network, faults: u8) -> Steps {
        let allowed = network.servers() & !faults;
        let incoming = network.incoming().map(|from| from & allowed);
        let mut open = [0; SIDES];
        for v in members(allowed) {
            open[entry(v)] = single(leaving(v));
            for u in members(incoming[usize::from(v)]) {
                open[leaving(u)] |= single(entry(v));
            }
        }
        Steps {
            allowed,
            incoming,
            open,
        }
    }

    /// Fills `routes` with separate routes from `sources` to `receiver`, or answers with
    /// `false` if there are fewer than it has room for.
    pub(crate) fn lay(&self, sources: u8, receiver: u8, routes: &mut [Route]) -> bool {
        let count = routes.len() as u32;
        if count == 0 || !is_server_of(self.allowed, receiver) {
            return count == 0;
        }
        let sources = sources & self.allowed & !singleton(receiver);
        let incoming = self.incoming[usize::from(receiver)];
        // Each route has a source and a last link of its own.
        if sources.count_ones() < count || incoming.count_ones() < count {
            return false;
        }
        // Where enough sources have a link to the receiver, there is nothing to search.
        let direct = sources & incoming;
        if direct.count_ones() >= count {
            for (route, source) in routes.iter_mut().zip(members(direct)) {
                *route = NO_ROUTE;
                [route[0], route[1]] = [source, receiver];
            }
            return true;
        }
        let mut laid = Laid::over_links(self, sources, direct, receiver);
        for _ in direct.count_ones()..count {
            if !laid.one_more() {
                return false;
            }
        }
        let starts = members(sources & !laid.idle);
        for (route, source) in routes.iter_mut().zip(starts) {
            *route = laid.route_from(source);
        }
        true
    }
}

/// Routes that are laid, as the steps that they leave open.
///
/// A step that a laid route takes is open backwards instead. Going back over it means
/// that two routes exchange what is ahead of them: the earlier one is re-laid.
struct Laid<'s> {
    steps: &'s Steps,
    /// `open[side]`: the sides that a step from `side` still leads to, backwards ones
    /// included.
    open: [u16; SIDES],
    /// The sources that no laid route starts at.
    idle: u8,
    receiver: u8,
}

impl<'s> Laid<'s> {
    /// The routes from `direct` to `receiver` over one link each. A search would find
    /// them first, as there are none shorter.
    fn over_links(steps: &'s Steps, sources: u8, direct: u8, receiver: u8) -> Laid<'s> {
        let mut laid = Laid {
            steps,
            open: steps.open,
            idle: sources & !direct,
            receiver,
        };
        for source in members(direct) {
            laid.turn(entry(source), leaving(source));
            laid.turn(leaving(source), entry(receiver));
        }
        laid
    }

    /// Searches breadth first from the sources that are idle and lays one route more,
    /// or answers with `false` if there is none.
    fn one_more(&mut self) -> bool {
        let goal = entry(self.receiver);
        let mut queue = [0; SIDES];
        let mut length = 0;
        let mut parents = [0; SIDES];
        let mut seen = 0;
        for source in members(self.idle) {
            let side = entry(source);
            // A side that is its own parent is where a search begins.
            parents[side] = side;
            seen |= single(side);
            queue[length] = side;
            length += 1;
        }
        let mut head = 0;
        while head < length {
            let side = queue[head];
            head += 1;
            let fresh = self.open[side] & !seen;
            for next in sides(fresh) {
                parents[next] = side;
                queue[length] = next;
                length += 1;
            }
            seen |= fresh;
            // The receiver is where routes end: no search goes on from there.
            if seen & single(goal) != 0 {
                self.lay_along(&parents);
                return true;
            }
        }
        false
    }

    /// Lays the way that the parents show, from the receiver back to its source.
    fn lay_along(&mut self, parents: &[usize; SIDES]) {
        let mut side = entry(self.receiver);
        while parents[side] != side {
            self.turn(parents[side], side);
            side = parents[side];
        }
        // A search begins at entry sides, which have the numbers of their servers.
        self.idle &= !singleton(side as u8);
    }

    /// Takes the step `from` one side `to` another, which is then open the other way.
    fn turn(&mut self, from: usize, to: usize) {
        self.open[from] &= !single(to);
        self.open[to] |= single(from);
    }

    /// The laid route that starts at `source`.
    ///
    /// Of the links of a server on it just one is no longer open, the one that the
    /// route takes. Re-laying may leave a ring of such links, which no route from a
    /// source ever comes to.
    fn route_from(&self, source: u8) -> Route {
        let mut route = NO_ROUTE;
        let mut server = source;
        for place in &mut route {
            *place = server;
            if server == self.receiver {
                break;
            }
            let side = leaving(server);
            let taken = self.steps.open[side] & !self.open[side];
            server = taken.trailing_zeros() as u8;
        }
        route
    }
}

#[cfg(test)]
mod tests {
    use super::*;
    use crate::card::read_card;
    use crate::sample::{card, complete_card, random_card, Draw};

    fn network(n: u8, links: &[(u8, u8)]) -> Network {
        read_card(&card(n, 0, links)).unwrap()
    }

    /// The most routes there are. For each number up to it the routes keep the rules,
    /// and for each number above it there are none.
    fn most_routes(network: &Network, faults: u8, sources: u8, receiver: u8) -> u32 {
        let find = |count| separate_routes(network, faults, sources, receiver, count);
        let most = (0..=8).take_while(|&count| find(count).is_some()).count() - 1;
        for count in 0..=u8::MAX {
            match find(count) {
                Some(routes) => {
                    assert!(usize::from(count) <= most);
                    assert_eq!(routes.len(), usize::from(count));
                    assert_separate(network, faults, sources, receiver, &routes);
                }
                None => assert!(usize::from(count) > most),
            }
        }
        most as u32
    }

    fn assert_separate(
        network: &Network,
        faults: u8,
        sources: u8,
        receiver: u8,
        routes: &[Vec<u8>],
    ) {
        let mut met = 0;
        for route in routes {
            assert!(route.len() >= 2, "{routes:?}");
            assert_eq!(route.last(), Some(&receiver), "{routes:?}");
            assert!(contains(sources, route[0]), "{routes:?}");
            for &server in &route[..route.len() - 1] {
                assert!(server < network.n, "{routes:?}");
                let taken = met | faults | singleton(receiver);
                assert!(!contains(taken, server), "{routes:?}");
                met |= singleton(server);
            }
            let mut steps = route.windows(2);
            assert!(steps.all(|step| network.has_link(step[0], step[1])));
        }
    }

    /// Every route from `sources` to `receiver` outside `faults`, as the set of its
    /// servers but the receiver.
    fn all_routes(network: &Network, faults: u8, sources: u8, receiver: u8) -> Vec<u8> {
        let mut found = Vec::new();
        if contains(faults, receiver) {
            return found;
        }
        let allowed = network.servers() & !faults & !singleton(receiver);
        let mut begun: Vec<(u8, u8)> = members(sources & allowed)
            .map(|source| (source, singleton(source)))
            .collect();
        while let Some((last, met)) = begun.pop() {
            if network.has_link(last, receiver) {
                found.push(met);
            }
            for next in members(allowed & !met) {
                if network.has_link(last, next) {
                    begun.push((next, met | singleton(next)));
                }
            }
        }
        found
    }

    /// The most members of the list that share nothing with each other or with `met`.
    fn most_apart(routes: &[u8], met: u8) -> u32 {
        let Some((first, rest)) = routes.split_first() else {
            return 0;
        };
        let without = most_apart(rest, met);
        if first & met != 0 {
            return without;
        }
        without.max(1 + most_apart(rest, met | first))
    }

    #[test]
    fn over_links() {
        let all = read_card(&complete_card(5, 1)).unwrap();
        let routes = separate_routes(&all, 0, 0b01111, 4, 3);
        assert_eq!(routes, Some(vec![vec![0, 4], vec![1, 4], vec![2, 4]]));
        assert_eq!(separate_routes(&all, 0, 0b01111, 4, 5), None);
        assert_eq!(most_routes(&all, 0b00010, 0b01111, 4), 3);
    }

    #[test]
    fn relays_may_be_anywhere_outside_the_fault_set() {
        let chain = network(4, &[(0, 1), (1, 2), (2, 3)]);
        let whole = Some(vec![vec![0, 1, 2, 3]]);
        assert_eq!(separate_routes(&chain, 0, 0b0001, 3, 1), whole);
        assert_eq!(separate_routes(&chain, 0b0010, 0b0001, 3, 1), None);
        assert_eq!(most_routes(&chain, 0, 0b0001, 3), 1);
        assert_eq!(most_routes(&chain, 0, 0b0111, 3), 1);
        assert_eq!(most_routes(&chain, 0, 0b1000, 0), 0);
    }

    #[test]
    fn two_routes_from_one_source_are_not_separate() {
        let diamond = network(4, &[(0, 1), (0, 2), (1, 3), (2, 3)]);
        assert_eq!(most_routes(&diamond, 0, 0b0001, 3), 1);
        assert_eq!(most_routes(&diamond, 0, 0b0011, 3), 2);
        let routes = separate_routes(&diamond, 0, 0b0011, 3, 2);
        assert_eq!(routes, Some(vec![vec![0, 2, 3], vec![1, 3]]));
    }

    #[test]
    fn a_route_may_pass_through_another_source() {
        let relayed = network(4, &[(0, 1), (1, 2), (2, 3)]);
        assert_eq!(most_routes(&relayed, 0, 0b0011, 3), 1);
        // Only 1 and 2 are linked to 4, and 0 has to go through 1 or 2.
        let narrow = network(5, &[(0, 1), (0, 2), (1, 4), (2, 4), (3, 0)]);
        assert_eq!(most_routes(&narrow, 0, 0b01001, 4), 1);
        assert_eq!(most_routes(&narrow, 0, 0b01011, 4), 2);
    }

    #[test]
    fn an_earlier_route_is_re_laid() {
        // The first route found is 0 2 5; for both, 0 has to go by way of 3 and 4.
        let links = [(0, 2), (1, 2), (2, 5), (0, 3), (3, 4), (4, 5)];
        let site = network(6, &links);
        let first = separate_routes(&site, 0, 0b000011, 5, 1);
        assert_eq!(first, Some(vec![vec![0, 2, 5]]));
        let both = separate_routes(&site, 0, 0b000011, 5, 2);
        assert_eq!(both, Some(vec![vec![0, 3, 4, 5], vec![1, 2, 5]]));
        assert_eq!(most_routes(&site, 0, 0b000011, 5), 2);
    }

    #[test]
    fn a_route_over_one_link_keeps_its_source_from_the_others() {
        // 1 is linked to the receiver, so 0 can get there by way of 2 only.
        let site = network(4, &[(0, 1), (1, 3), (0, 2), (2, 3)]);
        let routes = separate_routes(&site, 0, 0b0011, 3, 2);
        assert_eq!(routes, Some(vec![vec![0, 2, 3], vec![1, 3]]));
        assert_eq!(most_routes(&site, 0b0100, 0b0011, 3), 1);
    }

    #[test]
    fn what_is_no_source_and_what_has_no_route() {
        let all = read_card(&complete_card(4, 1)).unwrap();
        assert_eq!(most_routes(&all, 0, 0b1000, 3), 0, "the receiver itself");
        assert_eq!(most_routes(&all, 0b0001, 0b0001, 3), 0, "a faulty source");
        assert_eq!(most_routes(&all, 0, 0b1111_0000, 3), 0, "not in V");
        assert_eq!(most_routes(&all, 0, 0, 3), 0, "no source");
        assert_eq!(most_routes(&all, 0b1000, 0b0111, 3), 0, "a faulty receiver");
        assert_eq!(most_routes(&all, 0, 0b1111, 3), 3);
        for receiver in 4..=u8::MAX {
            assert_eq!(separate_routes(&all, 0, 0b1111, receiver, 1), None);
            assert_eq!(separate_routes(&all, 0, 0b1111, receiver, 0), Some(vec![]));
            assert_eq!(smallest_cut(&all, 0, 0b1111, receiver), 0);
        }
        assert_eq!(smallest_cut(&all, 0b1000, 0b0111, 3), 0);
        assert_eq!(smallest_cut(&all, 0, 0b1000, 3), 0);
    }

    #[test]
    fn cuts_by_hand() {
        let chain = network(4, &[(0, 1), (1, 2), (2, 3)]);
        assert_eq!(smallest_cut(&chain, 0, 0b0001, 3), 0b0001, "the lowest");
        assert_eq!(smallest_cut(&chain, 0, 0b0011, 3), 0b0010);
        assert_eq!(smallest_cut(&chain, 0b0010, 0b0001, 3), 0);
        let diamond = network(4, &[(0, 1), (0, 2), (1, 3), (2, 3)]);
        assert_eq!(smallest_cut(&diamond, 0, 0b0001, 3), 0b0001);
        assert_eq!(smallest_cut(&diamond, 0, 0b0111, 3), 0b0110);
        let all = read_card(&complete_card(8, 2)).unwrap();
        assert_eq!(smallest_cut(&all, 0, 0b0111_1111, 7), 0b0111_1111);
        assert_eq!(smallest_cut(&all, 0b0000_0011, 0b0000_1111, 7), 0b0000_1100);
    }

    #[test]
    fn one_route_is_a_shortest_one() {
        let mut draw = Draw::new(2);
        for round in 0..300 {
            let n = 2 + (round % 7) as u8;
            let card = random_card(n, 0, 2 + round % 5, &mut draw);
            let network = read_card(&card).unwrap();
            for receiver in 0..n {
                for source in (0..n).filter(|&source| source != receiver) {
                    let sources = singleton(source);
                    let all = all_routes(&network, 0, sources, receiver);
                    let least = all.iter().map(|met| met.count_ones() as usize + 1).min();
                    let route = separate_routes(&network, 0, sources, receiver, 1);
                    assert_eq!(route.map(|routes| routes[0].len()), least);
                }
            }
        }
    }

    #[test]
    fn menger_on_every_network_of_four_servers() {
        let pairs: Vec<(u8, u8)> = (0..16).map(|pair| (pair / 4, pair % 4)).collect();
        let pairs: Vec<(u8, u8)> = pairs.into_iter().filter(|(u, v)| u != v).collect();
        for choice in 0..1u32 << pairs.len() {
            let chosen = (0..pairs.len()).filter(|place| choice >> place & 1 == 1);
            let links: Vec<(u8, u8)> = chosen.map(|place| pairs[place]).collect();
            let network = network(4, &links);
            let steps = Steps::of(&network, 0);
            for sources in 0..16 {
                let cut = smallest_cut(&network, 0, sources, 3).count_ones();
                for count in 0..=4 {
                    let mut routes = [NO_ROUTE; 4];
                    let found = steps.lay(sources, 3, &mut routes[..count]);
                    assert_eq!(found, count as u32 <= cut, "{links:?} {sources}");
                }
            }
        }
    }

    #[test]
    fn menger_on_random_networks() {
        let mut draw = Draw::new(3);
        for round in 0..6_000 {
            let n = 2 + (round % 7) as u8;
            let card = random_card(n, 0, 1 + round / 7 % 9, &mut draw);
            let network = read_card(&card).unwrap();
            let faults = (draw.below(256) & draw.below(256) & draw.below(256)) as u8;
            let sources = draw.below(256) as u8;
            let receiver = draw.below(u64::from(n)) as u8;
            let most = most_routes(&network, faults, sources, receiver);
            let cut = smallest_cut(&network, faults, sources, receiver);
            assert_eq!(most, cut.count_ones(), "{card:02x?}");
            assert!(!contains(cut, receiver));
            let all = all_routes(&network, faults, sources, receiver);
            assert!(all.iter().all(|met| met & cut != 0), "{card:02x?}");
        }
    }

    #[test]
    fn as_many_routes_as_can_be_picked_from_a_list_of_all() {
        let mut draw = Draw::new(4);
        for round in 0..2_000 {
            let n = 3 + (round % 3) as u8;
            let card = random_card(n, 0, 2 + round / 3 % 5, &mut draw);
            let network = read_card(&card).unwrap();
            let faults = (draw.below(256) & draw.below(256) & draw.below(256)) as u8;
            let (sources, receiver) = (draw.below(256) as u8, draw.below(u64::from(n)) as u8);
            let mut all = all_routes(&network, faults, sources, receiver);
            // Routes over the same servers count as one here.
            all.sort_unstable();
            all.dedup();
            let most = most_routes(&network, faults, sources, receiver);
            assert_eq!(most, most_apart(&all, 0), "{card:02x?}");
        }
    }
}
