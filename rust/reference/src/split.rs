//! The split test: Theorem 1 of Tseng and Vaidya, tried on every split of V.

use crate::card::{read_card, Network, MAX_SERVERS};
use crate::refusal::Refusal;
use crate::sets::{members, subsets};

/// A partition of V into a fault set F, two sides L and R, and the rest C.
#[derive(Debug, Clone, Copy, PartialEq, Eq)]
pub struct Split {
    pub f: u8,
    pub l: u8,
    pub c: u8,
    pub r: u8,
}

/// Answers with the first bad split of the network on `card`, or with `None` if it
/// has no bad split; a card that cannot be read is refused.
///
/// Splits are taken in the order of F, then L, then R, sets being ordered as
/// numbers. Agreement is possible exactly on the networks without a bad split.
pub fn split_test(card: &[u8]) -> Result<Option<Split>, Refusal> {
    Ok(first_bad_split(&read_card(card)?))
}

/// The split test on a card that has been read already.
pub(crate) fn first_bad_split(network: &Network) -> Option<Split> {
    let servers = network.servers();
    let allowance = u32::from(network.f);
    let incoming = network.incoming();
    for f in subsets(servers).filter(|f| f.count_ones() <= allowance) {
        let outside_f = servers & !f;
        for l in subsets(outside_f).filter(|&l| l != 0) {
            let neighbours_of_l = incoming_neighbours(&incoming, l);
            let outside_f_l = outside_f & !l;
            for r in subsets(outside_f_l).filter(|&r| r != 0) {
                let c = outside_f_l & !r;
                let neighbours_of_r = incoming_neighbours(&incoming, r);
                let into_r = (neighbours_of_r & (l | c)).count_ones();
                let into_l = (neighbours_of_l & (r | c)).count_ones();
                if into_r <= allowance && into_l <= allowance {
                    return Some(Split { f, l, c, r });
                }
            }
        }
    }
    None
}

/// The servers outside `set` that have a link into it.
fn incoming_neighbours(incoming: &[u8; MAX_SERVERS], set: u8) -> u8 {
    let linked = members(set).fold(0, |all, member| all | incoming[usize::from(member)]);
    linked & !set
}

#[cfg(test)]
mod tests {
    use super::*;
    use crate::sample::{card, complete_card, twin_card};

    #[test]
    fn p1_has_no_bad_split() {
        let p1 = [0x01, 0x02, 0x00, 0x02, 0x00, 0x01, 0x03];
        assert_eq!(split_test(&p1), Ok(None));
    }

    #[test]
    fn p2_two_servers_without_links() {
        let bad = Split {
            f: 0,
            l: 1,
            c: 0,
            r: 2,
        };
        assert_eq!(split_test(&card(2, 0, &[])), Ok(Some(bad)));
    }

    #[test]
    fn p3_three_servers_with_all_links() {
        let bad = Split {
            f: 1,
            l: 2,
            c: 0,
            r: 4,
        };
        assert_eq!(split_test(&complete_card(3, 1)), Ok(Some(bad)));
    }

    #[test]
    fn p4_four_servers_with_all_links() {
        assert_eq!(split_test(&complete_card(4, 1)), Ok(None));
    }

    #[test]
    fn complete_networks_need_more_than_three_f_servers() {
        for n in 2..=8 {
            for f in 0..=2 {
                let bad = split_test(&complete_card(n, f)).unwrap();
                assert_eq!(bad.is_none(), n > 3 * f, "n {n} f {f}");
            }
        }
    }

    #[test]
    fn a_card_that_cannot_be_read_is_refused() {
        let refusal = Refusal::Card {
            number: 2,
            place: 0,
        };
        assert_eq!(split_test(&[]), Err(refusal));
    }

    #[test]
    fn without_faults_every_server_must_hear_one_root() {
        // A chain is good; two chains that meet in their last server are not.
        assert_eq!(split_test(&card(3, 0, &[(0, 1), (1, 2)])), Ok(None));
        let bad = Split {
            f: 0,
            l: 1,
            c: 4,
            r: 2,
        };
        assert_eq!(split_test(&card(3, 0, &[(0, 2), (1, 2)])), Ok(Some(bad)));
    }

    #[test]
    fn twin_cables_bring_no_further_neighbour() {
        let p3 = complete_card(3, 1);
        assert!(split_test(&p3).unwrap().is_some());
        assert_eq!(split_test(&twin_card(&p3)), split_test(&p3));
        let p4 = complete_card(4, 1);
        assert_eq!(split_test(&twin_card(&p4)), Ok(None));
    }

    /// The definition spelled out server by server over the links, every split
    /// found by walking through all four-way labellings and sorting them.
    fn first_bad_split_by_labels(network: &Network) -> Option<Split> {
        let mut bad: Vec<(u8, u8, u8, u8)> = Vec::new();
        for labelling in 0..4u32.pow(u32::from(network.n)) {
            let mut parts = [0u8; 4];
            for server in 0..network.n {
                let label = (labelling / 4u32.pow(u32::from(server))) % 4;
                parts[label as usize] |= 1 << server;
            }
            let [f, l, r, c] = parts;
            let count = |from: u8, into: u8| {
                (0..8usize)
                    .filter(|&u| from >> u & 1 == 1)
                    .filter(|&u| (0..8).any(|v| into >> v & 1 == 1 && network.links[u][v]))
                    .count()
            };
            let limit = usize::from(network.f);
            let is_split = f.count_ones() as usize <= limit && l != 0 && r != 0;
            if is_split && count(l | c, r) <= limit && count(r | c, l) <= limit {
                bad.push((f, l, r, c));
            }
        }
        bad.sort_unstable();
        bad.first().map(|&(f, l, r, c)| Split { f, l, c, r })
    }

    #[test]
    fn agrees_with_the_definition_by_labels() {
        let mut state = 1u64;
        for round in 0..600u64 {
            let n = 2 + (round % 5) as u8;
            let f = (round / 5 % 3) as u8;
            let density = 1 + round % 8;
            let mut links = Vec::new();
            for u in 0..n {
                for v in 0..n {
                    state = state
                        .wrapping_mul(6364136223846793005)
                        .wrapping_add(1442695040888963407);
                    if u != v && (state >> 40) % 8 < density {
                        links.push((u, v));
                    }
                }
            }
            let bytes = card(n, f, &links);
            let network = read_card(&bytes).unwrap();
            assert_eq!(
                split_test(&bytes),
                Ok(first_bad_split_by_labels(&network)),
                "{bytes:02x?}"
            );
        }
    }
}
