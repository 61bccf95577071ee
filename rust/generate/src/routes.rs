//! Random routes that share nothing but their receiver.

use crate::rng::Rng;
use reference::Network;

/// A network has at most this many servers.
const SERVERS: usize = 8;
/// Each server is two nodes of the flow, its entry and its exit, so that no more
/// than one route can pass through it; one more node feeds all the sources.
const NODES: usize = 2 * SERVERS + 1;
const FEED: usize = 2 * SERVERS;

fn entry(server: usize) -> usize {
    2 * server
}

fn exit(server: usize) -> usize {
    2 * server + 1
}

/// Where routes may run and how many are wanted.
#[derive(Debug, Clone, Copy)]
pub(crate) struct Demand {
    /// Each route starts at a server of this set.
    pub sources: u8,
    /// Each route ends here; no source.
    pub receiver: u8,
    /// All servers of the routes lie in this set.
    pub allowed: u8,
    /// So many routes are wanted.
    pub count: usize,
}

/// Random routes that keep the demand, in random order and of varied lengths, or
/// `None` if the network does not have so many.
///
/// This is a maximum flow by augmenting paths, so `None` is certain, whichever way
/// the random choices fall.
pub(crate) fn disjoint_routes(
    rng: &mut Rng,
    network: &Network,
    demand: Demand,
) -> Option<Vec<Vec<u8>>> {
    if (demand.sources.count_ones() as usize) < demand.count {
        return None;
    }
    let (flow, found) = Flow::filled(rng, network, demand);
    (found == demand.count).then(|| flow.shuffled_routes(rng))
}

/// As [`disjoint_routes`], but where the network does not have so many, as many as it has.
pub(crate) fn most_routes(rng: &mut Rng, network: &Network, demand: Demand) -> Vec<Vec<u8>> {
    let (flow, _) = Flow::filled(rng, network, demand);
    flow.shuffled_routes(rng)
}

struct Flow {
    receiver: usize,
    /// Edges there are.
    edges: [[bool; NODES]; NODES],
    /// Edges that can still be taken; taking one opens it the other way round.
    open: [[bool; NODES]; NODES],
}

impl Flow {
    fn new(network: &Network, demand: Demand) -> Flow {
        let receiver = usize::from(demand.receiver);
        let usable = |server: usize| demand.allowed >> server & 1 == 1;
        let mut edges = [[false; NODES]; NODES];
        for u in (0..SERVERS).filter(|&u| usable(u) && u != receiver) {
            edges[FEED][entry(u)] = demand.sources >> u & 1 == 1;
            edges[entry(u)][exit(u)] = true;
            for v in (0..SERVERS).filter(|&v| usable(v)) {
                edges[exit(u)][entry(v)] = network.links[u][v];
            }
        }
        Flow {
            receiver,
            edges,
            open: edges,
        }
    }

    /// The flow with as many of the routes wanted as there is room for, and how many they are.
    fn filled(rng: &mut Rng, network: &Network, demand: Demand) -> (Flow, usize) {
        let mut flow = Flow::new(network, demand);
        let found = (0..demand.count).take_while(|_| flow.augment(rng)).count();
        (flow, found)
    }

    /// Finds room for one more route, which may lead earlier ones another way.
    fn augment(&mut self, rng: &mut Rng) -> bool {
        // Half the searches go straight to the receiver where they can: without
        // them short routes would be rare.
        let straight = rng.one_in(2);
        self.reach(rng, FEED, straight, &mut [false; NODES])
    }

    /// Looks for a way from `node` to the receiver by depth first in random order
    /// and takes it.
    fn reach(
        &mut self,
        rng: &mut Rng,
        node: usize,
        straight: bool,
        visited: &mut [bool; NODES],
    ) -> bool {
        let goal = entry(self.receiver);
        if node == goal {
            return true;
        }
        visited[node] = true;
        let mut ways: Vec<usize> = (0..NODES).filter(|&next| self.open[node][next]).collect();
        rng.shuffle(&mut ways);
        if let Some(found) = ways.iter().position(|&next| straight && next == goal) {
            ways.swap(0, found);
        }
        for next in ways {
            if !visited[next] && self.reach(rng, next, straight, visited) {
                self.open[node][next] = false;
                self.open[next][node] = true;
                return true;
            }
        }
        false
    }

    fn is_taken(&self, from: usize, to: usize) -> bool {
        self.edges[from][to] && !self.open[from][to]
    }

    /// The routes found so far, in random order.
    fn shuffled_routes(&self, rng: &mut Rng) -> Vec<Vec<u8>> {
        let mut routes = self.routes();
        rng.shuffle(&mut routes);
        routes
    }

    /// The routes found so far.
    fn routes(&self) -> Vec<Vec<u8>> {
        let sources = (0..SERVERS).filter(|&source| self.is_taken(FEED, entry(source)));
        sources.map(|source| self.route_from(source)).collect()
    }

    fn route_from(&self, source: usize) -> Vec<u8> {
        let next =
            |&server: &usize| (0..SERVERS).find(|&next| self.is_taken(exit(server), entry(next)));
        // The receiver has no way out, so each route ends there.
        let servers = std::iter::successors(Some(source), next);
        servers.map(|server| server as u8).collect()
    }
}

#[cfg(test)]
mod tests {
    use super::*;
    use crate::cards::{complete_card, network_card};
    use reference::read_card;

    fn assert_kept(network: &Network, demand: Demand, routes: &[Vec<u8>]) {
        let mut seen = 0u8;
        for route in routes {
            assert!(route.len() >= 2);
            let (&receiver, senders) = route.split_last().unwrap();
            assert_eq!(receiver, demand.receiver);
            assert_eq!(demand.sources >> senders[0] & 1, 1);
            for &sender in senders {
                assert_eq!(demand.allowed >> sender & 1, 1);
                assert_eq!(seen >> sender & 1, 0, "{routes:?}");
                assert_ne!(sender, receiver);
                seen |= 1 << sender;
            }
            for pair in route.windows(2) {
                assert!(network.links[usize::from(pair[0])][usize::from(pair[1])]);
            }
        }
    }

    /// The size of a smallest set of servers, the receiver aside, without which no
    /// source reaches the receiver: by Menger's theorem the most disjoint routes.
    fn smallest_cut(network: &Network, demand: Demand) -> usize {
        let candidates = demand.allowed & !(1 << demand.receiver);
        let cuts = (0..=u8::MAX).filter(|cut| cut & !candidates == 0);
        let separating = cuts.filter(|&cut| {
            let mut reached = demand.sources & demand.allowed & !cut;
            for _ in 0..SERVERS {
                for u in (0..SERVERS).filter(|&u| demand.allowed >> u & 1 == 1) {
                    for v in (0..SERVERS).filter(|&v| demand.allowed & !cut & (1 << v) != 0) {
                        if reached >> u & 1 == 1 && network.links[u][v] {
                            reached |= 1 << v;
                        }
                    }
                }
            }
            reached >> demand.receiver & 1 == 0
        });
        separating
            .map(|cut| cut.count_ones() as usize)
            .min()
            .unwrap()
    }

    #[test]
    fn routes_keep_the_demand_and_none_is_missed() {
        let mut rng = Rng::new(1);
        let (mut found, mut none) = (0, 0);
        for _ in 0..1_500 {
            let n = rng.between(2, 6) as u8;
            let network = read_card(&network_card(&mut rng, n, 0)).unwrap();
            let servers = u8::MAX >> (8 - n);
            let receiver = rng.below(usize::from(n)) as u8;
            let allowed = servers & rng.byte() | 1 << receiver;
            let sources = allowed & rng.byte() & !(1 << receiver);
            let count = rng.between(1, 3);
            let demand = Demand {
                sources,
                receiver,
                allowed,
                count,
            };
            let there_are = smallest_cut(&network, demand);
            let most = most_routes(&mut rng, &network, demand);
            assert_eq!(most.len(), there_are.min(count));
            assert_kept(&network, demand, &most);
            match disjoint_routes(&mut rng, &network, demand) {
                Some(routes) => {
                    assert!(there_are >= count && routes.len() == count);
                    assert_kept(&network, demand, &routes);
                    found += 1;
                }
                None => {
                    assert!(there_are < count);
                    none += 1;
                }
            }
        }
        assert!(found > 200 && none > 200, "{found} {none}");
    }

    #[test]
    fn routes_have_every_length() {
        let mut rng = Rng::new(2);
        let network = read_card(&complete_card(8, 0)).unwrap();
        let demand = Demand {
            sources: 1,
            receiver: 7,
            allowed: 255,
            count: 1,
        };
        let mut lengths = [0; 9];
        for _ in 0..1_000 {
            let routes = disjoint_routes(&mut rng, &network, demand).unwrap();
            lengths[routes[0].len()] += 1;
        }
        assert!(lengths[2..].iter().all(|&times| times > 20), "{lengths:?}");
    }
}
