//! Cards that give links again, as sites with twin cables have them.

use crate::cards::{
    byte_damaged, card_of, insert, place_of_link, sound_with_links, CARD_LIMIT, COMMAND_SIZE,
};
use crate::rng::Rng;

/// The most link commands that a card has room for, between the opening and the end.
pub const MOST_LINKS: usize = (CARD_LIMIT - 1) / COMMAND_SIZE - 1;

pub(crate) type Link = (u8, u8);

/// Lists each of the given links at least once, and some of them again.
type Lister = fn(&mut Rng, &[Link]) -> Vec<Link>;

const LISTERS: [Lister; 6] = [
    one_again,
    each_twice,
    all_again,
    each_thrice,
    some_again,
    up_to_the_limit,
];

/// The card of the same network with links given again: once, each twice, each thrice,
/// in a row or in any order, up to as many as a card has room for. A card without
/// links stays as it is.
pub fn with_twins(rng: &mut Rng, card: &[u8]) -> Vec<u8> {
    let links = links_of(card);
    if links.is_empty() {
        return card.to_vec();
    }
    let lister = LISTERS[rng.below(LISTERS.len())];
    card_of(card[1], card[2], &lister(rng, &links))
}

/// The links of a sound card in the order given.
pub(crate) fn links_of(card: &[u8]) -> Vec<Link> {
    let commands = card[COMMAND_SIZE..card.len() - 1].chunks(COMMAND_SIZE);
    commands.map(|command| (command[1], command[2])).collect()
}

fn one_again(rng: &mut Rng, links: &[Link]) -> Vec<Link> {
    let mut listed = links.to_vec();
    let link = links[rng.below(links.len())];
    listed.insert(rng.between(0, links.len()), link);
    listed
}

fn each_twice(_rng: &mut Rng, links: &[Link]) -> Vec<Link> {
    links.iter().flat_map(|&link| [link; 2]).collect()
}

fn all_again(rng: &mut Rng, links: &[Link]) -> Vec<Link> {
    let mut again = links.to_vec();
    rng.shuffle(&mut again);
    [links, &again].concat()
}

fn each_thrice(rng: &mut Rng, links: &[Link]) -> Vec<Link> {
    let mut listed = links.repeat(3);
    rng.shuffle(&mut listed);
    listed
}

fn some_again(rng: &mut Rng, links: &[Link]) -> Vec<Link> {
    let commands = rng.between(links.len() + 1, MOST_LINKS);
    listed(rng, links, commands)
}

fn up_to_the_limit(rng: &mut Rng, links: &[Link]) -> Vec<Link> {
    listed(rng, links, MOST_LINKS)
}

/// All of the links and then random ones of them, mixed, `commands` in all.
fn listed(rng: &mut Rng, links: &[Link], commands: usize) -> Vec<Link> {
    let mut listed = links.to_vec();
    while listed.len() < commands {
        listed.push(links[rng.below(links.len())]);
    }
    rng.shuffle(&mut listed);
    listed
}

pub(crate) fn twins(rng: &mut Rng) -> Vec<u8> {
    let card = sound_with_links(rng);
    with_twins(rng, &card)
}

/// Links given again, and something wrong before, among or after them.
pub(crate) fn twins_damaged(rng: &mut Rng) -> Vec<u8> {
    let card = twins(rng);
    byte_damaged(rng, card)
}

/// Links given again, and then one from a server to itself that has a link already.
pub(crate) fn self_link_among_twins(rng: &mut Rng) -> Vec<u8> {
    let mut card = twins(rng);
    let earlier = place_of_link(rng, &card);
    let (command, server) = (card[earlier], card[earlier + 1]);
    let later = earlier + COMMAND_SIZE * rng.between(1, (card.len() - earlier) / COMMAND_SIZE);
    insert(&mut card, later, &[command, server, server]);
    card
}

#[cfg(test)]
mod tests {
    use super::*;
    use crate::cards::network_card;
    use reference::{read_card, Refusal};

    #[test]
    fn twins_leave_the_network_as_it_is() {
        let mut rng = Rng::new(1);
        let (mut longest, mut again) = (0, 0);
        for n in 2..=8 {
            for f in 0..=2 {
                for _ in 0..200 {
                    let card = network_card(&mut rng, n, f);
                    let twins = with_twins(&mut rng, &card);
                    assert_eq!(read_card(&twins), read_card(&card), "{twins:02x?}");
                    longest = longest.max(twins.len());
                    again += usize::from(twins.len() > card.len());
                }
            }
        }
        assert_eq!(longest, CARD_LIMIT);
        assert!(again > 3_000, "{again}");
    }

    #[test]
    fn every_lister_lists_all_links_and_some_of_them_again() {
        let links = [(0, 1), (1, 2), (2, 0), (2, 1)];
        let mut rng = Rng::new(2);
        for _ in 0..500 {
            for lister in LISTERS {
                let listed = lister(&mut rng, &links);
                assert!(links.iter().all(|link| listed.contains(link)));
                assert!(listed.iter().all(|link| links.contains(link)));
                assert!(listed.len() > links.len());
            }
        }
    }

    #[test]
    fn a_server_linked_to_itself_is_refused_whatever_links_it_has() {
        let mut rng = Rng::new(3);
        for _ in 0..2_000 {
            let card = self_link_among_twins(&mut rng);
            match read_card(&card) {
                Err(Refusal::Card { number: 5, place }) => {
                    assert_eq!(card[place + 1], card[place + 2]);
                    let link = [card[place], card[place + 1]];
                    assert!(card[3..place].chunks(3).any(|one| one.starts_with(&link)));
                }
                // The command more may be the one that goes past the limit.
                answer => assert!(card.len() > CARD_LIMIT, "{answer:?}"),
            }
        }
    }
}
