//! The quick test: the older rule, for sites where every link has a return.

use crate::card::{read_card, Network, MAX_SERVERS};
use crate::refusal::{ground, Refusal};

/// The quick test's answer on a site with a return for every link.
#[derive(Debug, Clone, Copy, PartialEq, Eq)]
pub struct Quick {
    /// Whether the older rule holds: n is at least 3f + 1, and `least` at least
    /// 2f + 1.
    pub holds: bool,
    /// Number of servers, 2 to 8.
    pub n: u8,
    /// The least number of servers to be taken away before the rest falls apart: 0
    /// if the network is apart already, and n - 1 if it has all links, since then
    /// nothing makes it fall apart.
    pub least: u8,
}

/// Answers with the older rule's word on the network of `card`.
///
/// Wherever this test answers, the rule holds exactly if [`split_test`] finds no bad
/// split. The card's own refusals come first, then a link without a return; a site
/// with too few servers is no fault of the call, it is answered with no.
///
/// [`split_test`]: crate::split_test
pub fn quick_test(card: &[u8]) -> Result<Quick, Refusal> {
    let network = read_card(card)?;
    if !every_link_has_a_return(&network) {
        let number = ground::NO_RETURN;
        return Err(Refusal::Call { number });
    }
    let Network { n, f, .. } = network;
    let servers_due = 3 * f + 1;
    let least_due = 2 * f + 1;
    let least = least_taken_away(&network);
    Ok(Quick {
        holds: n >= servers_due && least >= least_due,
        n,
        least,
    })
}

fn every_link_has_a_return(network: &Network) -> bool {
    (0..network.n).all(|u| (0..u).all(|v| network.has_link(u, v) == network.has_link(v, u)))
}

/// The least number of servers to be taken away before the rest falls apart, n - 1
/// if all servers are linked.
///
/// By Menger's theorem two servers that are not linked are parted by taking away as
/// many others as there are routes between the two that share nothing but their
/// ends, and by no fewer. The rest falls apart as soon as some such pair is parted.
/// Every link having a return, it is enough to look at a pair from one end.
fn least_taken_away(network: &Network) -> u8 {
    let nothing_laid = Steps::of(network);
    let mut least = network.n - 1;
    for u in 0..network.n {
        for v in (0..u).filter(|&v| !network.has_link(u, v)) {
            least = nothing_laid.separate_routes(u, v, least);
        }
    }
    least
}

/// A server has two sides: routes come in at its entry side, cross over, and go out
/// at its leaving side. A set of sides has one bit for each.
pub(crate) const SIDES: usize = 2 * MAX_SERVERS;

pub(crate) fn entry(server: u8) -> usize {
    usize::from(server)
}

pub(crate) fn leaving(server: u8) -> usize {
    usize::from(server) + MAX_SERVERS
}

/// The set that holds just `side`, which is below [`SIDES`].
pub(crate) fn single(side: usize) -> u16 {
    1 << side
}

/// The members of `set`, ascending.
pub(crate) fn sides(mut set: u16) -> impl Iterator<Item = usize> {
    std::iter::from_fn(move || {
        if set == 0 {
            return None;
        }
        let lowest = set.trailing_zeros() as usize;
        set &= set - 1;
        Some(lowest)
    })
}

/// Which steps a search for one more route may take, given the routes laid so far.
///
/// A step over a link leads from a leaving side to an entry side, and the step
/// across a server from its entry side to its leaving side. Each is there for one
/// route only, and so is each server, as a route in between its ends has to cross it.
/// A step that a laid route takes is open backwards instead. Going back over it means
/// that the two routes exchange what is ahead of them: the earlier one is re-laid.
#[derive(Clone)]
struct Steps {
    /// `open[side]`: the sides that a step from `side` leads to.
    open: [u16; SIDES],
}

impl Steps {
    /// All steps of `network`, with no route laid.
    fn of(network: &Network) -> Steps {
        let mut open = [0; SIDES];
        for u in 0..network.n {
            open[entry(u)] = single(leaving(u));
            for v in (0..network.n).filter(|&v| network.has_link(u, v)) {
                open[leaving(u)] |= single(entry(v));
            }
        }
        Steps { open }
    }

    /// The largest number of routes from `source` to `receiver`, two servers that are
    /// not linked, that share no server but these two; `limit` if there are more.
    ///
    /// Whenever the routes laid are not yet as many as there can be, one more is
    /// found by a search that may re-lay earlier ones.
    fn separate_routes(&self, source: u8, receiver: u8, limit: u8) -> u8 {
        let mut steps = self.clone();
        let mut routes = 0;
        while routes < limit && steps.lay_one_more(leaving(source), entry(receiver)) {
            routes += 1;
        }
        routes
    }

    /// Looks for a way from side `start` to side `goal` over open steps and lays it,
    /// or answers with `false` if there is none.
    fn lay_one_more(&mut self, start: usize, goal: usize) -> bool {
        let mut came_from = [start; SIDES];
        let mut reached = single(start);
        let mut pending = reached;
        while reached & single(goal) == 0 {
            let Some(side) = sides(pending).next() else {
                return false;
            };
            let fresh = self.open[side] & !reached;
            for next in sides(fresh) {
                came_from[next] = side;
            }
            reached |= fresh;
            pending = pending & !single(side) | fresh;
        }
        let mut side = goal;
        while side != start {
            let before = came_from[side];
            self.open[before] &= !single(side);
            self.open[side] |= single(before);
            side = before;
        }
        true
    }
}

#[cfg(test)]
mod tests {
    use super::*;
    use crate::sample::{card, complete_card, twin_card, P1_CARD};
    use crate::split::split_test;

    /// A card with these links and their returns.
    fn two_way_card(n: u8, f: u8, pairs: &[(u8, u8)]) -> Vec<u8> {
        let there_and_back = |&(u, v)| [(u, v), (v, u)];
        let links: Vec<(u8, u8)> = pairs.iter().flat_map(there_and_back).collect();
        card(n, f, &links)
    }

    /// All pairs of two different servers of `n`, each once.
    fn all_pairs(n: u8) -> Vec<(u8, u8)> {
        (0..n).flat_map(|v| (0..v).map(move |u| (u, v))).collect()
    }

    /// All pairs of two different servers of the list.
    fn pairs_among(servers: &[u8]) -> Vec<(u8, u8)> {
        let pairs = all_pairs(servers.len() as u8);
        let named = |(u, v)| (servers[usize::from(u)], servers[usize::from(v)]);
        pairs.into_iter().map(named).collect()
    }

    /// The two-way network of `n` servers with these pairs linked has this number for
    /// every f, and the rule's word follows from it.
    fn assert_least(n: u8, pairs: &[(u8, u8)], least: u8) {
        for f in 0..=2 {
            let holds = n > 3 * f && least > 2 * f;
            let answer = quick_test(&two_way_card(n, f, pairs));
            assert_eq!(answer, Ok(Quick { holds, n, least }), "f {f} {pairs:?}");
        }
    }

    fn assert_no_return(card: &[u8]) {
        let refusal = Refusal::Call { number: 15 };
        assert_eq!(quick_test(card), Err(refusal), "{card:02x?}");
    }

    fn assert_refused(card: &[u8], number: u8, place: usize) {
        let refusal = Refusal::Card { number, place };
        assert_eq!(quick_test(card), Err(refusal), "{card:02x?}");
    }

    #[test]
    fn two_servers_without_links_are_apart_already() {
        for f in 0..=2 {
            let answer = Quick {
                holds: false,
                n: 2,
                least: 0,
            };
            assert_eq!(quick_test(&[0x01, 0x02, f, 0x03]), Ok(answer));
        }
    }

    #[test]
    fn two_linked_servers_count_as_one() {
        for f in 0..=2 {
            let linked = [0x01, 0x02, f, 0x02, 0x00, 0x01, 0x02, 0x01, 0x00, 0x03];
            let answer = Quick {
                holds: f == 0,
                n: 2,
                least: 1,
            };
            assert_eq!(quick_test(&linked), Ok(answer));
        }
    }

    #[test]
    fn three_linked_servers_are_too_few_for_one_fault() {
        let answer = Quick {
            holds: false,
            n: 3,
            least: 2,
        };
        assert_eq!(quick_test(&complete_card(3, 1)), Ok(answer));
    }

    #[test]
    fn too_few_servers_are_no_even_if_the_least_number_is_enough() {
        let answer = Quick {
            holds: false,
            n: 6,
            least: 5,
        };
        assert_eq!(quick_test(&complete_card(6, 2)), Ok(answer));
    }

    #[test]
    fn with_all_links_only_the_servers_count() {
        for n in 2..=8 {
            for f in 0..=2 {
                let answer = Quick {
                    holds: n > 3 * f,
                    n,
                    least: n - 1,
                };
                assert_eq!(quick_test(&complete_card(n, f)), Ok(answer));
            }
        }
    }

    #[test]
    fn no_links() {
        for n in 2..=8 {
            assert_least(n, &[], 0);
        }
    }

    #[test]
    fn a_line() {
        for n in 2..=8 {
            let line: Vec<_> = (1..n).map(|v| (v - 1, v)).collect();
            assert_least(n, &line, 1);
        }
    }

    #[test]
    fn a_ring() {
        for n in 3..=8 {
            let ring: Vec<_> = (0..n).map(|u| (u, (u + 1) % n)).collect();
            assert_least(n, &ring, 2);
        }
    }

    #[test]
    fn a_star_falls_apart_without_its_middle() {
        for n in 3..=8 {
            for middle in 0..n {
                let others = (0..n).filter(|&server| server != middle);
                let star: Vec<_> = others.map(|server| (middle, server)).collect();
                assert_least(n, &star, 1);
            }
        }
    }

    #[test]
    fn two_cliques_fall_apart_without_the_servers_they_share() {
        for n in 2..=8 {
            for shared in 0..=n - 2 {
                for end in shared + 1..n {
                    // The first holds servers below `end`; the shared ones come last
                    // in it and first in the second.
                    let first: Vec<u8> = (0..end).collect();
                    let second: Vec<u8> = (end - shared..n).collect();
                    let pairs = [pairs_among(&first), pairs_among(&second)].concat();
                    assert_least(n, &pairs, shared);
                }
            }
        }
    }

    #[test]
    fn two_cliques_that_share_one_server_or_two() {
        let [one, two] = [3, 2].map(|from| {
            let second: Vec<u8> = (from..from + 4).collect();
            [pairs_among(&[0, 1, 2, 3]), pairs_among(&second)].concat()
        });
        assert_least(7, &one, 1);
        assert_least(6, &two, 2);
    }

    #[test]
    fn a_server_without_links_is_apart() {
        for alone in 0..8 {
            let others: Vec<u8> = (0..8).filter(|&server| server != alone).collect();
            assert_least(8, &pairs_among(&others), 0);
        }
    }

    #[test]
    fn one_pair_without_a_link_is_parted_by_all_others() {
        for n in 2..=8 {
            for missing in all_pairs(n) {
                let mut pairs = all_pairs(n);
                pairs.retain(|&pair| pair != missing);
                assert_least(n, &pairs, n - 2);
            }
        }
    }

    #[test]
    fn many_links_at_every_server_need_not_be_many_routes() {
        // Two sets of four with all links inside, and one or more links across: each
        // server has three neighbours or more.
        let inside = [pairs_among(&[0, 1, 2, 3]), pairs_among(&[4, 5, 6, 7])].concat();
        for across in 0..=4 {
            let links: Vec<_> = (0..across).map(|u| (u, u + 4)).collect();
            assert_least(8, &[&inside[..], &links].concat(), across);
        }
    }

    #[test]
    fn the_corners_of_a_cube() {
        let mut cube = all_pairs(8);
        cube.retain(|(u, v)| (u ^ v).count_ones() == 1);
        assert_least(8, &cube, 3);
    }

    #[test]
    fn an_earlier_route_is_re_laid() {
        // From 0 to 5, the route 0 1 4 5 stands in the way of both 0 1 3 5 and 0 2 4 5,
        // which are separate.
        let pairs = [(0, 1), (0, 2), (1, 3), (1, 4), (2, 4), (3, 5), (4, 5)];
        let network = read_card(&two_way_card(6, 0, &pairs)).unwrap();
        let mut steps = Steps::of(&network);
        let (start, goal) = (leaving(0), entry(5));
        let hasty = [start, entry(1), leaving(1), entry(4), leaving(4), goal];
        for step in hasty.windows(2) {
            steps.open[step[0]] &= !single(step[1]);
            steps.open[step[1]] |= single(step[0]);
        }
        assert!(steps.lay_one_more(start, goal));
        assert!(!steps.lay_one_more(start, goal));
        // No route goes from 1 to 4 any more.
        assert_ne!(steps.open[leaving(1)] & single(entry(4)), 0);
        assert_eq!(Steps::of(&network).separate_routes(0, 5, 8), 2);
    }

    #[test]
    fn routes_are_counted_up_to_the_limit() {
        let mut pairs = all_pairs(8);
        pairs.retain(|&pair| pair != (0, 7));
        let network = read_card(&two_way_card(8, 0, &pairs)).unwrap();
        for limit in 0..=8 {
            let routes = Steps::of(&network).separate_routes(0, 7, limit);
            assert_eq!(routes, limit.min(6));
        }
    }

    #[test]
    fn a_link_without_a_return_is_refused_with_15() {
        assert_no_return(&P1_CARD);
        assert_no_return(&card(2, 0, &[(1, 0)]));
        assert_no_return(&card(3, 1, &[(0, 1), (1, 2), (2, 0)]));
        for n in 2..=8 {
            for f in 0..=2 {
                for (u, v) in all_pairs(n) {
                    assert_no_return(&card(n, f, &[(u, v)]));
                    assert_no_return(&card(n, f, &[(v, u)]));
                }
            }
        }
    }

    #[test]
    fn one_return_missing_among_all_links_is_refused_with_15() {
        for n in 2..=8 {
            let links: Vec<_> = (0..n)
                .flat_map(|u| (0..n).map(move |v| (u, v)))
                .filter(|(u, v)| u != v)
                .collect();
            for missing in 0..links.len() {
                let mut given = links.clone();
                let link = given.remove(missing);
                assert_no_return(&card(n, 1, &given));
                given.push(link);
                assert_eq!(
                    quick_test(&card(n, 1, &given)),
                    quick_test(&complete_card(n, 1)),
                    "the return may come last"
                );
            }
        }
    }

    #[test]
    fn a_link_given_again_is_no_return() {
        assert_no_return(&card(2, 0, &[(0, 1), (0, 1)]));
        assert_no_return(&card(2, 0, &[(1, 0); 340]));
    }

    #[test]
    fn a_link_given_again_is_one_link() {
        let once = two_way_card(2, 0, &[(0, 1)]);
        let one_of_them_again = card(2, 0, &[(0, 1), (1, 0), (0, 1)]);
        assert_eq!(quick_test(&one_of_them_again), quick_test(&once));
        let line = two_way_card(4, 0, &[(0, 1), (1, 2), (2, 3)]);
        for card in [once, line, complete_card(4, 1), complete_card(8, 2)] {
            assert_eq!(quick_test(&twin_card(&card)), quick_test(&card));
        }
    }

    #[test]
    fn the_card_is_refused_before_15() {
        // Each of these has the link 0 to 1 without a return, or none at all.
        assert_refused(&card(2, 0, &[(0, 1); 341]), 1, 0);
        assert_refused(&[], 2, 0);
        assert_refused(&P1_CARD[..6], 2, 6);
        assert_refused(&[&P1_CARD[..6], &[0x15]].concat(), 2, 6);
        assert_refused(&[&P1_CARD[..], &[0x03]].concat(), 3, 7);
        assert_refused(&P1_CARD[3..], 4, 0);
        assert_refused(&[&P1_CARD[..6], &P1_CARD[..]].concat(), 4, 6);
        assert_refused(&[0x01, 0x09, 0x00, 0x02, 0x00, 0x01, 0x03], 5, 0);
        assert_refused(&[0x01, 0x02, 0x03, 0x02, 0x00, 0x01, 0x03], 5, 0);
        assert_refused(&card(2, 0, &[(0, 1), (1, 1)]), 5, 6);
        assert_refused(&card(2, 0, &[(0, 1), (1, 2)]), 5, 6);
    }

    /// The definition: the size of a smallest set without which the servers fall into
    /// two parts, neither of them empty, that have no link between them.
    fn least_by_sets(network: &Network) -> u8 {
        let servers = network.servers();
        let linked = |from: u8, into: u8| {
            (0..64u8)
                .map(|pair| (pair / 8, pair % 8))
                .filter(|(u, v)| from >> u & 1 == 1 && into >> v & 1 == 1)
                .any(|(u, v)| network.has_link(u, v) || network.has_link(v, u))
        };
        let falls_apart = |rest: u8| {
            (1..rest)
                .filter(|part| part & !rest == 0)
                .any(|part| !linked(part, rest & !part))
        };
        let taken_away = (0..=servers).filter(|&taken| falls_apart(servers & !taken));
        let sizes = taken_away.map(|taken| taken.count_ones() as u8);
        sizes.min().unwrap_or(network.n - 1)
    }

    /// Every two-way network of up to five servers, with every f.
    fn small_two_way_cards() -> Vec<Vec<u8>> {
        let mut cards = Vec::new();
        for n in 2..=5 {
            let all = all_pairs(n);
            for choice in 0..1u32 << all.len() {
                let chosen = |&place: &usize| choice >> place & 1 == 1;
                let places = (0..all.len()).filter(chosen);
                let pairs: Vec<_> = places.map(|place| all[place]).collect();
                cards.extend((0..=2).map(|f| two_way_card(n, f, &pairs)));
            }
        }
        cards
    }

    /// Two-way networks of six to eight servers, sparse and dense ones.
    fn large_two_way_cards() -> Vec<Vec<u8>> {
        let mut state = 1u64;
        let mut cards = Vec::new();
        for round in 0..360u64 {
            let n = 6 + (round % 3) as u8;
            let f = (round / 3 % 3) as u8;
            let density = 3 + round / 9 % 8;
            let mut pairs = all_pairs(n);
            pairs.retain(|_| {
                state = state
                    .wrapping_mul(6364136223846793005)
                    .wrapping_add(1442695040888963407);
                (state >> 40) % 10 < density
            });
            cards.push(two_way_card(n, f, &pairs));
        }
        cards
    }

    #[test]
    fn small_networks_hold_exactly_if_they_have_no_bad_split() {
        let cards = small_two_way_cards();
        assert_eq!(cards.len(), 3 * (2 + 8 + 64 + 1_024));
        for card in cards {
            let quick = quick_test(&card).unwrap();
            let none = split_test(&card) == Ok(None);
            assert_eq!(quick.holds, none, "{card:02x?}");
        }
    }

    #[test]
    fn large_networks_hold_exactly_if_they_have_no_bad_split() {
        for card in large_two_way_cards() {
            let quick = quick_test(&card).unwrap();
            let none = split_test(&card) == Ok(None);
            assert_eq!(quick.holds, none, "{card:02x?}");
        }
    }

    #[test]
    fn the_least_number_agrees_with_a_search_over_sets() {
        for card in [small_two_way_cards(), large_two_way_cards()].concat() {
            let network = read_card(&card).unwrap();
            let quick = quick_test(&card).unwrap();
            assert_eq!(quick.n, network.n);
            assert_eq!(quick.least, least_by_sets(&network), "{card:02x?}");
        }
    }
}
