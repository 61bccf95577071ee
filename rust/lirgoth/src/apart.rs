//! How a two-way site falls apart: a smallest set of offices without which the rest is in two parts
//! that have no link between them.

use agreement::{Network, ServerSet};

/// Offices that leave the rest apart when they are taken away.
#[derive(Debug, Clone, Copy, PartialEq, Eq)]
pub struct Apart {
    /// K, those that are taken away. It is empty where the offices are apart as they are.
    pub taken: ServerSet,
    /// The lowest office that is left, and all that it can still reach.
    pub one: ServerSet,
    /// All others that are left.
    pub other: ServerSet,
}

/// A smallest set of offices that leaves the rest apart, and among those of its size the first in
/// the order of sets; `None` where every two offices are linked, so that no set does.
///
/// A link counts as one both ways, which it is on a two-way site.
pub fn apart(network: &Network) -> Option<Apart> {
    let sets = (0..=network.servers().bits()).map(ServerSet::from_bits);
    sets.filter_map(|taken| without(network, taken))
        .min_by_key(|apart| apart.taken.len())
}

/// What is left without `taken`, if that is in two parts.
fn without(network: &Network, taken: ServerSet) -> Option<Apart> {
    let left = network.servers() - taken;
    let one = reached(network, left);
    let other = left - one;
    (!other.is_empty()).then_some(Apart { taken, one, other })
}

/// The lowest office of `left`, and all that it reaches over links within `left`.
fn reached(network: &Network, left: ServerSet) -> ServerSet {
    let mut found: ServerSet = left.iter().take(1).collect();
    loop {
        let linked = |u: &u8| {
            found
                .iter()
                .any(|v| network.linked(*u, v) || network.linked(v, *u))
        };
        let further = found | left.iter().filter(linked).collect();
        if further == found {
            return found;
        }
        found = further;
    }
}

#[cfg(test)]
mod tests {
    use super::*;
    use generate::{all_pairs, complete_card, two_way_card_of, Rng};

    fn apart_on(card: &[u8]) -> Option<Apart> {
        apart(&agreement::read_card(card).expect("a sound card"))
    }

    /// The bits of K and of the two parts.
    fn bits(card: &[u8]) -> Option<[u8; 3]> {
        apart_on(card).map(|Apart { taken, one, other }| [taken, one, other].map(ServerSet::bits))
    }

    #[test]
    fn sites_that_can_be_seen_at_a_glance() {
        for n in 2..=8 {
            assert_eq!(bits(&complete_card(n, 1)), None, "all links, n {n}");
        }
        let without_links = two_way_card_of(4, 1, &[]);
        assert_eq!(bits(&without_links), Some([0, 0b1, 0b1110]));
        let row = two_way_card_of(4, 1, &[(0, 1), (1, 2), (2, 3)]);
        assert_eq!(bits(&row), Some([0b10, 0b1, 0b1100]));
        let ring = two_way_card_of(5, 1, &[(0, 1), (1, 2), (2, 3), (3, 4), (4, 0)]);
        assert_eq!(bits(&ring), Some([0b101, 0b10, 0b1_1000]));
        // Without the middle of a star each of the others is alone.
        let star = two_way_card_of(5, 1, &[(0, 2), (1, 2), (3, 2), (4, 2)]);
        assert_eq!(bits(&star), Some([0b100, 0b1, 0b1_1010]));
        // All links but one: all others have to go.
        let mut all_but_one = all_pairs(8);
        all_but_one.retain(|&pair| pair != (2, 5));
        let all_but_one = two_way_card_of(8, 2, &all_but_one);
        assert_eq!(bits(&all_but_one), Some([0b1101_1011, 0b100, 0b10_0000]));
    }

    /// Every two-way site of up to five offices, and some of six to eight with few links and with
    /// many.
    fn sites() -> Vec<Vec<u8>> {
        let mut rng = Rng::new(6);
        let mut sites = Vec::new();
        for n in 2..=5 {
            for chosen in 0..1u32 << all_pairs(n).len() {
                let is_chosen = |place: &usize| chosen >> place & 1 == 1;
                let places = (0..all_pairs(n).len()).filter(is_chosen);
                let linked: Vec<(u8, u8)> = places.map(|place| all_pairs(n)[place]).collect();
                sites.push(two_way_card_of(n, 1, &linked));
            }
        }
        for round in 0..240 {
            let n = [6, 7, 8][round % 3];
            let mut linked = all_pairs(n);
            let tenths = 3 + round / 3 % 8;
            linked.retain(|_| rng.below(10) < tenths);
            sites.push(two_way_card_of(n, 1, &linked));
        }
        sites
    }

    /// Whether the offices that are left without `taken` can be cut into two parts without a link
    /// between them, in any way.
    fn falls_apart(network: &Network, taken: ServerSet) -> bool {
        let left = network.servers() - taken;
        let parts = (1..left.bits()).map(ServerSet::from_bits);
        parts
            .filter(|part| part.is_within(left))
            .any(|part| network.incoming(part).is_within(taken))
    }

    #[test]
    fn the_first_of_the_smallest_sets_is_found_and_the_parts_are_apart() {
        for card in sites() {
            let network = agreement::read_card(&card).expect("a sound card");
            let all = network.servers();
            let sets = (0..=all.bits()).map(ServerSet::from_bits);
            let mut parting: Vec<ServerSet> =
                sets.filter(|set| falls_apart(&network, *set)).collect();
            // By size, and else in the order of sets.
            parting.sort_by_key(|set| (set.len(), set.bits()));
            let found = apart(&network);
            assert_eq!(found.map(|apart| apart.taken), parting.first().copied());
            let Some(Apart { taken, one, other }) = found else {
                continue;
            };
            assert!(!one.is_empty() && !other.is_empty(), "{card:02x?}");
            assert_eq!(taken | one | other, all, "{card:02x?}");
            assert_eq!(taken.len() + one.len() + other.len(), all.len());
            for side in [one, other] {
                assert!(network.incoming(side).is_within(taken), "{card:02x?}");
            }
            assert!(one.iter().next() < other.iter().next(), "{card:02x?}");
        }
    }

    #[test]
    fn as_many_are_taken_away_as_the_quick_test_says() {
        let (mut parted, mut linked) = (0, 0);
        for card in sites() {
            let quick = agreement::quick_test(&card).expect("each link has a return");
            match apart_on(&card) {
                Some(apart) => {
                    assert_eq!(apart.taken.len(), usize::from(quick.least), "{card:02x?}");
                    parted += 1;
                }
                None => {
                    assert_eq!(card.len(), complete_card(quick.n, 1).len(), "{card:02x?}");
                    assert_eq!(quick.least, quick.n - 1);
                    linked += 1;
                }
            }
        }
        assert!(parted > 1_000 && linked > 4, "{parted}, {linked}");
    }
}
