//! Cards of two-way networks, in which every link has a return, and of networks that are
//! two-way but for one link.

use crate::cards::{all_links, card_of};
use crate::rng::Rng;
use crate::twins::{links_of, with_twins, Link};

/// Every pair of two of `n` servers, the lower one first, ascending.
pub fn all_pairs(n: u8) -> Vec<(u8, u8)> {
    let links = all_links(n).into_iter();
    links.filter(|(u, v)| u < v).collect()
}

/// The card of `n` servers and `f` faults with these pairs linked both ways, in this
/// order, each link followed by its return.
pub fn two_way_card_of(n: u8, f: u8, pairs: &[(u8, u8)]) -> Vec<u8> {
    let there_and_back = |&(u, v): &Link| [(u, v), (v, u)];
    let links: Vec<Link> = pairs.iter().flat_map(there_and_back).collect();
    card_of(n, f, &links)
}

/// A card of `n` servers and `f` faults with just `count` random pairs linked both ways;
/// with all of them if there cannot be so many. The links are in random order, and one
/// card in three gives some of them again.
pub fn two_way_card_with(rng: &mut Rng, n: u8, f: u8, count: usize) -> Vec<u8> {
    let mut pairs = all_pairs(n);
    rng.shuffle(&mut pairs);
    pairs.truncate(count);
    mixed(rng, &two_way_card_of(n, f, &pairs))
}

/// A two-way card of `n` servers and `f` faults from which `cut` random servers, at most
/// `n` - 2, can be taken away so that the rest falls into two parts. About half of these
/// cards have every link but those between the two parts, and then fewer servers are not
/// enough. The links are listed as by [`two_way_card_with`].
///
/// Random pairs alone seldom make a network that falls apart while each of its servers
/// has links to many others.
pub fn two_way_card_around(rng: &mut Rng, n: u8, f: u8, cut: usize) -> Vec<u8> {
    let mut servers: Vec<u8> = (0..n).collect();
    rng.shuffle(&mut servers);
    let (cut, rest) = servers.split_at(cut);
    let (one, other) = rest.split_at(rng.between(1, rest.len() - 1));
    // No pair has a server of each part.
    let together = [[cut, one].concat(), [cut, other].concat()];
    let mut pairs = all_pairs(n);
    pairs.retain(|(u, v)| {
        let both_in = |group: &Vec<u8>| group.contains(u) && group.contains(v);
        together.iter().any(both_in)
    });
    if rng.one_in(2) {
        rng.shuffle(&mut pairs);
        let lacking = rng.between(0, pairs.len() / 3);
        pairs.truncate(pairs.len() - lacking);
    }
    mixed(rng, &two_way_card_of(n, f, &pairs))
}

/// The card of the same network without one of its links, drawn at random, however often
/// it is given. On a two-way card it leaves one link without a return. A card without
/// links stays as it is.
pub fn without_a_link(rng: &mut Rng, card: &[u8]) -> Vec<u8> {
    let links = links_of(card);
    let left_out = rng.pick(&links);
    let kept: Vec<Link> = links
        .into_iter()
        .filter(|&link| Some(link) != left_out)
        .collect();
    card_of(card[1], card[2], &kept)
}

/// The card with its links in random order; one time in three some are given again.
fn mixed(rng: &mut Rng, card: &[u8]) -> Vec<u8> {
    let mut links = links_of(card);
    rng.shuffle(&mut links);
    let card = card_of(card[1], card[2], &links);
    match rng.below(3) {
        0 => with_twins(rng, &card),
        _ => card,
    }
}

#[cfg(test)]
mod tests {
    use super::*;
    use reference::{quick_test, read_card, Network, Refusal};

    /// How many links have no return.
    fn without_return(network: &Network) -> usize {
        let links = all_links(network.n).into_iter();
        let is_there = |u: u8, v: u8| network.links[usize::from(u)][usize::from(v)];
        links
            .filter(|&(u, v)| is_there(u, v) && !is_there(v, u))
            .count()
    }

    /// How many links a network has.
    fn link_count(network: &Network) -> usize {
        network.links.iter().flatten().filter(|&&link| link).count()
    }

    #[test]
    fn pairs_are_half_the_links() {
        for n in 2..=8 {
            let pairs = all_pairs(n);
            assert_eq!(2 * pairs.len(), all_links(n).len());
            assert!(pairs.iter().all(|(u, v)| u < v));
        }
        let card = two_way_card_of(3, 1, &[(1, 2), (0, 1)]);
        let links = [[2, 1, 2], [2, 2, 1], [2, 0, 1], [2, 1, 0]].concat();
        assert_eq!(card, [&[1, 3, 1][..], &links, &[3]].concat());
    }

    #[test]
    fn networks_have_as_many_pairs_as_asked_for() {
        let mut rng = Rng::new(1);
        let (mut again, mut cards) = (0, 0);
        for n in 2..=8 {
            for f in 0..=2 {
                for count in 0..=all_pairs(n).len() + 1 {
                    let card = two_way_card_with(&mut rng, n, f, count);
                    let network = read_card(&card).unwrap();
                    assert_eq!((network.n, network.f), (n, f));
                    assert_eq!(without_return(&network), 0, "{card:02x?}");
                    let links = 2 * count.min(all_pairs(n).len());
                    assert_eq!(link_count(&network), links);
                    again += usize::from(links_of(&card).len() > links);
                    cards += 1;
                }
            }
        }
        assert!(again > cards / 5 && again < cards / 2, "{again} of {cards}");
    }

    #[test]
    fn links_and_returns_are_mixed() {
        let mut rng = Rng::new(2);
        let (mut return_next, mut higher_first) = (0, 0);
        for _ in 0..500 {
            let links = links_of(&two_way_card_with(&mut rng, 8, 2, 14));
            let ((u, v), next) = (links[0], links[1]);
            return_next += usize::from(next == (v, u));
            higher_first += usize::from(u > v);
        }
        assert!(return_next < 50, "{return_next}");
        assert!((150..350).contains(&higher_first), "{higher_first}");
    }

    #[test]
    fn a_cut_is_enough_and_often_as_few_as_can_be() {
        let mut rng = Rng::new(3);
        for n in 2..=8 {
            for cut in 0..=n - 2 {
                let mut as_few = 0;
                for _ in 0..100 {
                    let card = two_way_card_around(&mut rng, n, 1, usize::from(cut));
                    let quick = quick_test(&card).unwrap();
                    assert!(quick.n == n && quick.least <= cut, "{card:02x?}");
                    as_few += usize::from(quick.least == cut);
                }
                assert!(as_few >= 30, "n {n} cut {cut}: {as_few}");
            }
        }
    }

    #[test]
    fn many_a_cut_has_fewer_servers_than_each_has_neighbours() {
        let mut rng = Rng::new(4);
        let mut met = [0; 2];
        for _ in 0..500 {
            let cards = [
                two_way_card_around(&mut rng, 8, 1, 2),
                two_way_card_with(&mut rng, 8, 1, 16),
            ];
            for (met, card) in met.iter_mut().zip(&cards) {
                let network = read_card(card).unwrap();
                let neighbours = network.links.map(|row| row.iter().filter(|&&v| v).count());
                let fewest = neighbours.into_iter().min().unwrap();
                let least = usize::from(quick_test(card).unwrap().least);
                assert!(least <= fewest);
                *met += usize::from(least < fewest);
            }
        }
        let [around, random] = met;
        assert!(around > 100 && around > 5 * random, "{around} {random}");
    }

    #[test]
    fn one_link_is_left_out_and_its_return_stays() {
        let mut rng = Rng::new(5);
        for n in 2..=8 {
            for count in 1..=all_pairs(n).len() {
                for _ in 0..20 {
                    let card = two_way_card_with(&mut rng, n, 2, count);
                    let one_less = without_a_link(&mut rng, &card);
                    let network = read_card(&one_less).unwrap();
                    assert_eq!(without_return(&network), 1, "{one_less:02x?}");
                    assert_eq!(link_count(&network), 2 * count - 1);
                    let refusal = Refusal::Call { number: 15 };
                    assert_eq!(quick_test(&one_less), Err(refusal));
                }
            }
        }
        let empty = card_of(4, 1, &[]);
        assert_eq!(without_a_link(&mut rng, &empty), empty);
    }
}
