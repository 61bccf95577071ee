//! Cards of networks that have only just come to a bad split.

use crate::rng::Rng;
use crate::two_way::without_a_link;
use reference::split_test;

/// The network on `card` with random links taken away, one after the other, until it has a
/// bad split: with the last of them back it has none. A card that has a bad split already, or
/// is refused, stays as it is.
///
/// Of a plan for such a network few blocks cannot be had, and most of the others come before
/// them.
pub fn spoilt_card(rng: &mut Rng, card: &[u8]) -> Vec<u8> {
    let mut card = card.to_vec();
    // Without any link two servers are a bad split, so this comes to an end.
    while split_test(&card) == Ok(None) {
        card = without_a_link(rng, &card);
    }
    card
}

#[cfg(test)]
mod tests {
    use super::*;
    use crate::cards::{all_links, card_of, complete_card, good_card, network_card};
    use crate::twins::links_of;

    #[test]
    fn a_spoilt_network_is_one_link_away_from_a_good_one() {
        let mut rng = Rng::new(1);
        for (n, f) in [(2, 0), (3, 0), (5, 0), (4, 1), (5, 1), (6, 1), (7, 2)] {
            for round in 0..10 {
                let good = match round % 2 {
                    0 => complete_card(n, f),
                    _ => good_card(&mut rng, n, f).unwrap(),
                };
                let spoilt = spoilt_card(&mut rng, &good);
                assert!(matches!(split_test(&spoilt), Ok(Some(_))), "{spoilt:02x?}");
                let links = links_of(&spoilt);
                let with = |link| card_of(n, f, &[&links[..], &[link]].concat());
                let mends = |&link: &(u8, u8)| split_test(&with(link)) == Ok(None);
                assert!(all_links(n).iter().any(mends), "{spoilt:02x?}");
            }
        }
    }

    #[test]
    fn a_bad_split_stays_as_it_is() {
        let mut rng = Rng::new(2);
        let bad = network_card(&mut rng, 3, 1);
        assert_eq!(spoilt_card(&mut rng, &bad), bad);
        assert_eq!(spoilt_card(&mut rng, &[]), []);
    }
}
