//! The clean card: a network printed back for the site file.

use crate::card::{read_card, Network, END, LINK, OPENING};
use crate::refusal::{ground, Refusal};

/// Writes the clean card of the network on `card` to the front of `lent` and answers
/// with its number of bytes.
///
/// Cards are patched by hand, with links in any order and some given again. The
/// clean card has each link once and in a fixed place, so that two cards of one
/// network are printed alike.
///
/// The card's own refusals come first. Only a card that can be read says how many
/// bytes are to be written, and so whether `lent` is too short. A refused call
/// changes no byte of `lent`, and bytes of `lent` past the clean card are never
/// touched.
pub fn print_card(card: &[u8], lent: &mut [u8]) -> Result<usize, Refusal> {
    let clean = clean_card(&read_card(card)?);
    if lent.len() < clean.len() {
        let number = ground::SHORT_BUFFER;
        return Err(Refusal::Call { number });
    }
    lent[..clean.len()].copy_from_slice(&clean);
    Ok(clean.len())
}

/// The card that describes `network` with its links ascending by u, then by v.
///
/// A link is one mark, however many cables it has, and so it is written once.
fn clean_card(network: &Network) -> Vec<u8> {
    let mut clean = vec![OPENING, network.n, network.f];
    for u in 0..network.n {
        for v in 0..network.n {
            if network.has_link(u, v) {
                clean.extend([LINK, u, v]);
            }
        }
    }
    clean.push(END);
    clean
}

#[cfg(test)]
mod tests {
    use super::*;
    use crate::sample::{card, complete_card, twin_card, P1_CARD};

    /// What a lent buffer is filled with; no byte of a card that can be read is this.
    const MARKER: u8 = 0xa5;
    /// The clean card of eight servers with all their links has this many bytes.
    const LONGEST: usize = 172;

    /// The clean card printed for `card`, with a buffer that is always long enough.
    fn printed(card: &[u8]) -> Vec<u8> {
        let mut lent = [MARKER; LONGEST];
        let written = print_card(card, &mut lent).unwrap();
        lent[..written].to_vec()
    }

    /// `card` is printed as `clean` into every buffer that can hold it, and refused
    /// with 14 for every shorter one.
    fn assert_printed(card: &[u8], clean: &[u8]) {
        for length in 0..=clean.len() + 3 {
            let mut lent = vec![MARKER; length];
            let answer = print_card(card, &mut lent);
            if length < clean.len() {
                assert_eq!(answer, Err(Refusal::Call { number: 14 }), "{length}");
                assert_eq!(lent, vec![MARKER; length], "refused, all as it was");
            } else {
                assert_eq!(answer, Ok(clean.len()), "{length}");
                let (front, rest) = lent.split_at(clean.len());
                assert_eq!(front, clean);
                assert_eq!(rest, vec![MARKER; length - clean.len()], "untouched");
            }
        }
    }

    /// `card` is turned back with this number and place, whatever buffer is lent.
    fn assert_refused(card: &[u8], number: u8, place: usize) {
        for length in [0, 1, 3, 4, 7, LONGEST, card.len(), 5_000] {
            let mut lent = vec![MARKER; length];
            let answer = print_card(card, &mut lent);
            let refusal = Refusal::Card { number, place };
            assert_eq!(answer, Err(refusal), "{card:02x?} into {length}");
            assert_eq!(lent, vec![MARKER; length], "refused, all as it was");
        }
    }

    /// Every link that `n` servers can have, ascending by u, then by v.
    fn all_links(n: u8) -> Vec<(u8, u8)> {
        let pairs = (0..n).flat_map(|u| (0..n).map(move |v| (u, v)));
        pairs.filter(|(u, v)| u != v).collect()
    }

    /// The clean card for links given in any order and any number of times, found
    /// by sorting them and not by way of a network.
    fn sorted_card(n: u8, f: u8, given: &[(u8, u8)]) -> Vec<u8> {
        let mut links = given.to_vec();
        links.sort_unstable();
        links.dedup();
        card(n, f, &links)
    }

    #[test]
    fn no_links() {
        for n in 2..=8 {
            for f in 0..=2 {
                let clean = [0x01, n, f, 0x03];
                assert_printed(&clean, &clean);
            }
        }
    }

    #[test]
    fn a_clean_card_stays_as_it_is() {
        assert_printed(&P1_CARD, &P1_CARD);
        let clean = [
            0x01, 0x04, 0x01, 0x02, 0x00, 0x03, 0x02, 0x01, 0x00, 0x02, 0x01, 0x02, 0x02, 0x03,
            0x00, 0x03,
        ];
        assert_printed(&clean, &clean);
    }

    #[test]
    fn links_are_put_in_order_by_u_then_by_v() {
        let given = [
            0x01, 0x03, 0x02, 0x02, 0x02, 0x00, 0x02, 0x00, 0x02, 0x02, 0x01, 0x00, 0x02, 0x00,
            0x01, 0x03,
        ];
        let clean = [
            0x01, 0x03, 0x02, 0x02, 0x00, 0x01, 0x02, 0x00, 0x02, 0x02, 0x01, 0x00, 0x02, 0x02,
            0x00, 0x03,
        ];
        assert_printed(&given, &clean);
    }

    #[test]
    fn u_counts_before_v() {
        let given = card(8, 0, &[(7, 0), (1, 6), (0, 7), (6, 1)]);
        let clean = card(8, 0, &[(0, 7), (1, 6), (6, 1), (7, 0)]);
        assert_printed(&given, &clean);
    }

    #[test]
    fn a_link_given_again_is_written_once() {
        let given = [
            0x01, 0x02, 0x00, 0x02, 0x01, 0x00, 0x02, 0x00, 0x01, 0x02, 0x01, 0x00, 0x03,
        ];
        let clean = [0x01, 0x02, 0x00, 0x02, 0x00, 0x01, 0x02, 0x01, 0x00, 0x03];
        assert_printed(&given, &clean);
        assert_printed(&twin_card(&given), &clean);
    }

    #[test]
    fn the_buffer_is_held_against_the_card_to_be_written() {
        let full = card(2, 0, &[(0, 1); 340]);
        assert_eq!(full.len(), 1_024, "as long as a card may be");
        assert_printed(&full, &P1_CARD);
    }

    #[test]
    fn eight_servers_with_all_links_take_172_bytes() {
        let mut links = all_links(8);
        assert_eq!(links.len(), 56);
        let clean = complete_card(8, 2);
        assert_eq!(clean.len(), LONGEST);
        assert_printed(&clean, &clean);
        assert_printed(&twin_card(&clean), &clean);
        links.reverse();
        assert_printed(&card(8, 2, &links), &clean);
        links.sort_unstable_by_key(|&(u, v)| (v, u));
        assert_printed(&card(8, 2, &links), &clean);
    }

    #[test]
    fn a_printed_card_has_4_bytes_and_3_for_each_link() {
        let all = all_links(8);
        for size in 0..=all.len() {
            let clean = printed(&card(8, 1, &all[all.len() - size..]));
            assert_eq!(clean.len(), 4 + 3 * size);
        }
    }

    #[test]
    fn refusal_1_comes_before_14() {
        assert_refused(&card(2, 0, &[(0, 1); 341]), 1, 0);
        assert_refused(&[0xff; 1_025], 1, 0);
    }

    #[test]
    fn refusal_2_comes_before_14() {
        assert_refused(&[], 2, 0);
        assert_refused(&[0x01, 0x02], 2, 0);
        assert_refused(&[0x01, 0x02, 0x00], 2, 3);
        assert_refused(&P1_CARD[..6], 2, 6);
        assert_refused(&[0x01, 0x02, 0x00, 0x02, 0x00, 0x01, 0x10], 2, 6);
    }

    #[test]
    fn refusal_3_comes_before_14() {
        assert_refused(&[0x01, 0x02, 0x00, 0x03, 0x03], 3, 4);
        assert_refused(&[&P1_CARD[..], &P1_CARD[..]].concat(), 3, 7);
    }

    #[test]
    fn refusal_4_comes_before_14() {
        assert_refused(&[0x03], 4, 0);
        assert_refused(&[0x02, 0x00, 0x01, 0x03], 4, 0);
        assert_refused(&[0x01, 0x02, 0x00, 0x01, 0x02, 0x00, 0x03], 4, 3);
    }

    #[test]
    fn refusal_5_comes_before_14() {
        assert_refused(&[0x01, 0x01, 0x00, 0x03], 5, 0);
        assert_refused(&[0x01, 0x09, 0x00, 0x03], 5, 0);
        assert_refused(&[0x01, 0x02, 0x03, 0x03], 5, 0);
        assert_refused(&card(3, 0, &[(0, 1), (0, 3)]), 5, 6);
        assert_refused(&card(3, 0, &[(0, 1), (3, 0)]), 5, 6);
        assert_refused(&card(3, 0, &[(0, 1), (0, 1), (1, 1)]), 5, 9);
    }

    /// Every list of up to five links of three servers, with all orders and
    /// repetitions.
    fn lists_on_three_servers() -> Vec<Vec<(u8, u8)>> {
        let mut lists = vec![Vec::new()];
        let mut next = 0;
        while lists[next].len() < 5 {
            for link in all_links(3) {
                lists.push([&lists[next][..], &[link]].concat());
            }
            next += 1;
        }
        lists
    }

    #[test]
    fn only_the_set_of_links_counts_on_three_servers() {
        for list in lists_on_three_servers() {
            let given = card(3, 1, &list);
            assert_eq!(printed(&given), sorted_card(3, 1, &list), "{list:?}");
        }
    }

    #[test]
    fn only_the_set_of_links_counts_on_eight_servers() {
        let all = all_links(8);
        for size in 1..=all.len() {
            let set = &all[..size];
            // A stride without a common factor meets all of the set, over and over.
            for stride in [1, 59, 61, 67] {
                let list: Vec<_> = (0..340).map(|i| set[i * stride % size]).collect();
                assert_eq!(printed(&card(8, 2, &list)), card(8, 2, set));
            }
        }
    }

    #[test]
    fn the_printed_card_is_the_same_network_and_prints_as_itself() {
        for list in lists_on_three_servers() {
            let given = card(3, 1, &list);
            let clean = printed(&given);
            assert_eq!(read_card(&clean), read_card(&given), "{list:?}");
            assert_eq!(printed(&clean), clean, "{list:?}");
        }
    }

    #[test]
    fn networks_of_every_size_are_printed_and_read_again() {
        let mut state = 1u64;
        for round in 0..2_100u64 {
            let n = 2 + (round % 7) as u8;
            let f = (round / 7 % 3) as u8;
            let all = all_links(n);
            let mut list = Vec::new();
            for _ in 0..round % 101 {
                state = state
                    .wrapping_mul(6364136223846793005)
                    .wrapping_add(1442695040888963407);
                list.push(all[(state >> 40) as usize % all.len()]);
            }
            let given = card(n, f, &list);
            let clean = printed(&given);
            assert_eq!(clean, sorted_card(n, f, &list), "{given:02x?}");
            assert_eq!(read_card(&clean), read_card(&given), "{given:02x?}");
            assert_eq!(printed(&clean), clean, "{given:02x?}");
        }
    }
}
