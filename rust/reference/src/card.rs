//! The network card: how many servers there are and which links join them.

use crate::refusal::{ground, Refusal};
use crate::sets::singleton;

/// A card may have this many bytes and no more.
const CARD_LIMIT: usize = 1_024;
/// No network has more servers than a set of servers has bits.
pub(crate) const MAX_SERVERS: usize = 8;
const MIN_SERVERS: u8 = 2;
const MAX_FAULTS: u8 = 2;

/// Command bytes of the card.
pub(crate) const OPENING: u8 = 0x01;
pub(crate) const LINK: u8 = 0x02;
pub(crate) const END: u8 = 0x03;

/// Bytes that each command takes, operands included.
const OPENING_SIZE: usize = 3;
const LINK_SIZE: usize = 3;
const END_SIZE: usize = 1;

/// The network that an accepted card describes.
#[derive(Debug, Clone, Copy, PartialEq, Eq)]
pub struct Network {
    /// Number of servers, 2 to 8.
    pub n: u8,
    /// How many servers may be faulty, 0 to 2.
    pub f: u8,
    /// `links[u][v]`: there is a one-way link from `u` to `v`.
    pub links: [[bool; 8]; 8],
}

impl Network {
    /// The network of `n` servers without links, if `n` and `f` are in range.
    fn without_links(n: u8, f: u8) -> Option<Network> {
        let in_range = (MIN_SERVERS..=MAX_SERVERS as u8).contains(&n) && f <= MAX_FAULTS;
        in_range.then_some(Network {
            n,
            f,
            links: [[false; MAX_SERVERS]; MAX_SERVERS],
        })
    }

    /// V, the set of all servers.
    pub(crate) fn servers(&self) -> u8 {
        u8::MAX >> (MAX_SERVERS as u8 - self.n)
    }

    /// Whether there is a link from `u` to `v`, both of them servers of V.
    pub(crate) fn has_link(&self, u: u8, v: u8) -> bool {
        self.links[usize::from(u)][usize::from(v)]
    }

    /// For each server the set of servers with a link to it.
    pub(crate) fn incoming(&self) -> [u8; MAX_SERVERS] {
        let mut incoming = [0; MAX_SERVERS];
        for u in 0..self.n {
            for v in 0..self.n {
                if self.has_link(u, v) {
                    incoming[usize::from(v)] |= singleton(u);
                }
            }
        }
        incoming
    }

    /// Enters the link `u` to `v`; answers with the ground if it is refused.
    ///
    /// Two cables between the same servers count as one link, so a mark that is set
    /// already stays set.
    fn add_link(&mut self, u: u8, v: u8) -> Result<(), u8> {
        if u >= self.n || v >= self.n || u == v {
            return Err(ground::OUT_OF_RANGE);
        }
        self.links[usize::from(u)][usize::from(v)] = true;
        Ok(())
    }
}

/// One command of a card with its operands.
enum Command {
    Opening { n: u8, f: u8 },
    Link { u: u8, v: u8 },
    End,
}

/// Answers with the network that `card` describes, or with the first fault found
/// from the front of the card.
pub fn read_card(card: &[u8]) -> Result<Network, Refusal> {
    if card.len() > CARD_LIMIT {
        return Err(refused(ground::TOO_LONG, 0));
    }
    let mut network = match command_at(card, 0)? {
        Command::Opening { n, f } => {
            Network::without_links(n, f).ok_or(refused(ground::OUT_OF_RANGE, 0))?
        }
        _ => return Err(refused(ground::OPENING_MISPLACED, 0)),
    };
    let mut place = OPENING_SIZE;
    loop {
        match command_at(card, place)? {
            Command::Opening { .. } => return Err(refused(ground::OPENING_MISPLACED, place)),
            Command::Link { u, v } => {
                network
                    .add_link(u, v)
                    .map_err(|number| refused(number, place))?;
                place += LINK_SIZE;
            }
            Command::End if place + END_SIZE < card.len() => {
                return Err(refused(ground::BYTES_AFTER_END, place + END_SIZE));
            }
            Command::End => return Ok(network),
        }
    }
}

/// The whole command at `place`, which is at most the card's length.
///
/// One answer serves for an unknown command, for operands cut off and for no
/// command at all, since in the last case `place` is the length of the card.
fn command_at(card: &[u8], place: usize) -> Result<Command, Refusal> {
    match card[place..] {
        [OPENING, n, f, ..] => Ok(Command::Opening { n, f }),
        [LINK, u, v, ..] => Ok(Command::Link { u, v }),
        [END, ..] => Ok(Command::End),
        _ => Err(refused(ground::NO_WHOLE_COMMAND, place)),
    }
}

fn refused(number: u8, place: usize) -> Refusal {
    Refusal::Card { number, place }
}

#[cfg(test)]
mod tests {
    use super::*;
    use crate::sample::{card, complete_card, P1_CARD};

    fn fault(card: &[u8]) -> (u8, usize) {
        match read_card(card) {
            Err(Refusal::Card { number, place }) => (number, place),
            other => panic!("{card:02x?} should be refused as a card, got {other:?}"),
        }
    }

    /// A card of exactly `length` bytes that goes on with the link 0 to 1.
    fn repeating(length: usize) -> Vec<u8> {
        let mut card = vec![0x01, 0x02, 0x00];
        while card.len() < length {
            card.extend([0x02, 0x00, 0x01]);
        }
        card.truncate(length);
        card
    }

    /// The network with just these links, marked without reading a card.
    fn marked(n: u8, f: u8, given: &[(u8, u8)]) -> Network {
        let mut links = [[false; 8]; 8];
        for &(u, v) in given {
            links[usize::from(u)][usize::from(v)] = true;
        }
        Network { n, f, links }
    }

    #[test]
    fn p1_card_is_accepted() {
        let network = read_card(&[0x01, 0x02, 0x00, 0x02, 0x00, 0x01, 0x03]).unwrap();
        let mut links = [[false; 8]; 8];
        links[0][1] = true;
        assert_eq!(network, Network { n: 2, f: 0, links });
        assert_eq!(network.servers(), 0b11);
        assert_eq!(network.incoming(), [0, 0b01, 0, 0, 0, 0, 0, 0]);
    }

    #[test]
    fn n_from_2_to_8_and_f_from_0_to_2_are_read() {
        for n in 0..=u8::MAX {
            for f in 0..=u8::MAX {
                let card = [0x01, n, f, 0x03];
                if (2..=8).contains(&n) && f <= 2 {
                    let network = read_card(&card).unwrap();
                    assert_eq!((network.n, network.f), (n, f));
                    assert_eq!(u32::from(network.n), network.servers().count_ones());
                } else {
                    assert_eq!(fault(&card), (5, 0));
                }
            }
        }
    }

    #[test]
    fn last_line_of_the_small_networks() {
        assert_eq!(read_card(&[0x01, 0x08, 0x00, 0x03]).unwrap().n, 8);
        assert_eq!(fault(&[0x01, 0x09, 0x00, 0x03]), (5, 0));
        assert_eq!(read_card(&[0x01, 0x08, 0x02, 0x03]).unwrap().f, 2);
        assert_eq!(fault(&[0x01, 0x08, 0x03, 0x03]), (5, 0));
        assert_eq!(fault(&[]), (2, 0));
    }

    #[test]
    fn f_is_not_held_against_n() {
        assert!(read_card(&[0x01, 0x02, 0x02, 0x03]).is_ok());
    }

    #[test]
    fn refusal_1_comes_before_anything_else() {
        assert_eq!(fault(&[0xff; 1_025]), (1, 0));
        assert_eq!(fault(&repeating(1_025)), (1, 0));
        assert_eq!(fault(&repeating(2_000)), (1, 0));
        assert_eq!(fault(&repeating(1_024)), (2, 1_023));
        assert_eq!(fault(&[0xff; 1_024]), (2, 0));
    }

    #[test]
    fn refusal_2_unknown_or_cut_off() {
        assert_eq!(fault(&[0x00]), (2, 0));
        assert_eq!(fault(&[0x01]), (2, 0));
        assert_eq!(fault(&[0x01, 0x02]), (2, 0));
        assert_eq!(
            fault(&[0x02, 0x00]),
            (2, 0),
            "cut off goes before the place of 01"
        );
        assert_eq!(fault(&[0x01, 0x02, 0x00]), (2, 3), "no end command");
        assert_eq!(fault(&[0x01, 0x02, 0x00, 0x02]), (2, 3));
        assert_eq!(fault(&[0x01, 0x02, 0x00, 0x02, 0x00]), (2, 3));
        assert_eq!(
            fault(&[0x01, 0x02, 0x00, 0x01, 0x02]),
            (2, 3),
            "second 01 cut off"
        );
        for unknown in [0x00, 0x04, 0x10, 0x11, 0x12, 0x13, 0x14, 0x15, 0xff] {
            assert_eq!(fault(&[unknown, 0, 0, 0, 0, 0, 0, 0, 0]), (2, 0));
            assert_eq!(
                fault(&[0x01, 0x02, 0x00, unknown, 0x00, 0x01, 0x03]),
                (2, 3)
            );
        }
    }

    #[test]
    fn refusal_3_bytes_after_the_end() {
        assert_eq!(fault(&[0x01, 0x02, 0x00, 0x03, 0x03]), (3, 4));
        assert_eq!(
            fault(&[0x01, 0x02, 0x00, 0x02, 0x00, 0x01, 0x03, 0xff, 0xff]),
            (3, 7)
        );
    }

    #[test]
    fn refusal_4_opening_misplaced() {
        assert_eq!(fault(&[0x03]), (4, 0));
        assert_eq!(fault(&[0x03, 0x03]), (4, 0), "4 of the end goes before 3");
        assert_eq!(fault(&[0x02, 0x00, 0x01]), (4, 0));
        assert_eq!(fault(&[0x02, 0x09, 0x09, 0x03]), (4, 0), "4 goes before 5");
        assert_eq!(fault(&[0x01, 0x02, 0x00, 0x01, 0x02, 0x00, 0x03]), (4, 3));
        assert_eq!(
            fault(&[0x01, 0x02, 0x00, 0x01, 0x09, 0x09, 0x03]),
            (4, 3),
            "4 goes before 5"
        );
    }

    #[test]
    fn refusal_5_out_of_range() {
        assert_eq!(fault(&[0x01, 0x01, 0x00, 0x03]), (5, 0));
        assert_eq!(
            fault(&[0x01, 0x03, 0x00, 0x02, 0x03, 0x00, 0x03]),
            (5, 3),
            "u"
        );
        assert_eq!(
            fault(&[0x01, 0x03, 0x00, 0x02, 0x00, 0x03, 0x03]),
            (5, 3),
            "v"
        );
        assert_eq!(
            fault(&[0x01, 0x03, 0x00, 0x02, 0x02, 0x02, 0x03]),
            (5, 3),
            "u = v"
        );
        assert_eq!(
            fault(&[0x01, 0x03, 0x00, 0x02, 0xff, 0xff]),
            (5, 3),
            "before a missing end"
        );
        assert_eq!(
            fault(&[0x01, 0x03, 0x00, 0x02, 0x00, 0x01, 0x02, 0x00, 0x03, 0x03]),
            (5, 6)
        );
    }

    #[test]
    fn a_link_given_again_is_one_link() {
        let p1 = read_card(&P1_CARD).unwrap();
        for times in 1..=340 {
            let repeated = card(2, 0, &vec![(0, 1); times]);
            assert_eq!(read_card(&repeated), Ok(p1), "{times} times");
        }
        let back_is_another_link = card(2, 0, &[(0, 1), (1, 0)]);
        assert_ne!(read_card(&back_is_another_link), Ok(p1));
    }

    #[test]
    fn a_link_may_come_again_after_others() {
        let given = [(0, 1), (2, 0), (0, 1), (1, 2), (2, 0), (0, 1)];
        let network = marked(3, 1, &[(0, 1), (1, 2), (2, 0)]);
        assert_eq!(read_card(&card(3, 1, &given)), Ok(network));
    }

    #[test]
    fn a_link_given_again_takes_up_its_bytes() {
        let full = card(2, 0, &[(0, 1); 340]);
        assert_eq!(full.len(), 1_024);
        assert_eq!(read_card(&full), read_card(&P1_CARD));
        assert_eq!(fault(&card(2, 0, &[(0, 1); 341])), (1, 0));
        let one_byte_more = [&full[..], &[0x03]].concat();
        assert_eq!(fault(&one_byte_more), (1, 0), "1 goes before 3");
    }

    #[test]
    fn faults_after_a_link_given_again_keep_number_and_place() {
        let cases: [(&[u8], (u8, usize)); 14] = [
            (&[], (2, 9)),
            (&[0xee], (2, 9)),
            (&[0x00, 0x00, 0x01, 0x03], (2, 9)),
            (&[0x02], (2, 9)),
            (&[0x02, 0x00], (2, 9)),
            (&[0x01, 0x02], (2, 9)),
            (&[0x03, 0x03], (3, 10)),
            (&[0x03, 0x02, 0x00, 0x01], (3, 10)),
            (&[0x01, 0x02, 0x00, 0x03], (4, 9)),
            (&[0x01, 0x09, 0x09, 0x03], (4, 9)),
            (&[0x02, 0x02, 0x00, 0x03], (5, 9)),
            (&[0x02, 0x00, 0x02, 0x03], (5, 9)),
            (&[0x02, 0x01, 0x01, 0x03], (5, 9)),
            (&[0x02, 0x00, 0x01, 0x02, 0x00, 0xff, 0x03], (5, 12)),
        ];
        for (rest, answer) in cases {
            let card = [&repeating(9), rest].concat();
            assert_eq!(fault(&card), answer, "{card:02x?}");
        }
        assert_eq!(fault(&repeating(8)), (2, 6), "second link cut off");
        assert_eq!(fault(&repeating(7)), (2, 6), "second link cut off");
    }

    #[test]
    fn the_first_fault_from_the_front_is_named() {
        // A repeated link, then a server out of range, then an unknown command.
        let card = [&repeating(9)[..], &[0x02, 0x00, 0x02, 0xee]].concat();
        assert_eq!(fault(&card), (5, 9));
    }

    #[test]
    fn a_link_that_is_refused_is_refused_where_it_first_stands() {
        for (u, v) in [(0, 3), (3, 0), (1, 1), (0xff, 0xff)] {
            assert_eq!(fault(&card(3, 0, &[(u, v), (u, v)])), (5, 3));
            assert_eq!(fault(&card(3, 0, &[(0, 1), (0, 1), (u, v)])), (5, 9));
        }
    }

    #[test]
    fn no_server_is_linked_to_itself_whatever_links_it_has() {
        for u in 0..8 {
            let w = (u + 1) % 8;
            assert_eq!(fault(&card(8, 0, &[(u, w), (u, u)])), (5, 6));
            assert_eq!(fault(&card(8, 0, &[(w, u), (u, u)])), (5, 6));
            assert_eq!(fault(&card(8, 0, &[(u, w), (u, w), (u, u)])), (5, 9));
        }
    }

    #[test]
    fn only_the_set_of_links_counts_on_three_servers() {
        let all = [(0, 1), (0, 2), (1, 0), (1, 2), (2, 0), (2, 1)];
        // Every list of up to five links, with all orders and repetitions.
        let mut lists = vec![Vec::new()];
        while let Some(list) = lists.pop() {
            assert_eq!(read_card(&card(3, 1, &list)), Ok(marked(3, 1, &list)));
            if list.len() < 5 {
                lists.extend(all.map(|link| [&list[..], &[link]].concat()));
            }
        }
    }

    #[test]
    fn only_the_set_of_links_counts_on_eight_servers() {
        let all: Vec<(u8, u8)> = (0..64)
            .map(|pair| (pair / 8, pair % 8))
            .filter(|(u, v)| u != v)
            .collect();
        for size in 1..=all.len() {
            let set = &all[..size];
            let network = marked(8, 2, set);
            // A stride without a common factor meets all of the set, over and over.
            for stride in [1, 59, 61, 67] {
                let given: Vec<_> = (0..340).map(|i| set[i * stride % size]).collect();
                assert_eq!(read_card(&card(8, 2, &given)), Ok(network));
            }
        }
    }

    #[test]
    fn all_links_of_eight_servers_fit() {
        let network = read_card(&complete_card(8, 2)).unwrap();
        for u in 0..8 {
            for v in 0..8 {
                assert_eq!(network.has_link(u, v), u != v);
            }
        }
    }
}
