//! Network cards, sound and damaged.

use crate::rng::Rng;
use crate::twins::{self_link_among_twins, twins, twins_damaged};
use reference::split_test;

/// Command bytes of the card.
const OPENING: u8 = 0x01;
const LINK: u8 = 0x02;
const END: u8 = 0x03;
/// Every command byte of the plan; in a card they are unknown.
const PLAN_COMMANDS: [u8; 6] = [0x10, 0x11, 0x12, 0x13, 0x14, 0x15];

/// The opening command takes this many bytes, and so does each link.
pub(crate) const COMMAND_SIZE: usize = 3;
/// The most bytes that a card may have.
pub(crate) const CARD_LIMIT: usize = 1_024;

/// Makes one kind of card.
type Maker = fn(&mut Rng) -> Vec<u8>;

/// All kinds of cards; [`card`] draws among them evenly. Sound cards stand here
/// more than once so that a fair share of the draws is accepted.
const MAKERS: [Maker; 23] = [
    sound,
    sound,
    sound,
    empty,
    twins,
    twins,
    twins_damaged,
    self_link_among_twins,
    any_byte_damaged,
    byte_inserted,
    byte_removed,
    truncated,
    extended,
    end_missing,
    opening_again,
    opening_not_first,
    opening_out_of_range,
    link_out_of_range,
    plan_command_inside,
    random_bytes,
    small_bytes,
    opened_small_bytes,
    near_the_limit,
];

/// One random card, sound or damaged in one of many ways.
pub fn card(rng: &mut Rng) -> Vec<u8> {
    MAKERS[rng.below(MAKERS.len())](rng)
}

/// A valid card of `n` servers and `f` faults whose links are drawn at random, in
/// random order, from none at all to every one there can be.
///
/// `n` from 2 to 8 and `f` from 0 to 2 give a card that is accepted.
pub fn network_card(rng: &mut Rng, n: u8, f: u8) -> Vec<u8> {
    let mut links = all_links(n);
    rng.shuffle(&mut links);
    let kept = match rng.below(4) {
        // One length in four is drawn evenly; the others lean to dense networks,
        // since only those can be without a bad split when f is not 0.
        0 => rng.between(0, links.len()),
        1 => rng.between(links.len() / 2, links.len()),
        2 => rng.between(links.len() - links.len() / 4, links.len()),
        _ => {
            let percent = rng.between(0, 100);
            links.len() * percent / 100
        }
    };
    links.truncate(kept);
    card_of(n, f, &links)
}

/// A valid card of `n` servers and `f` faults with just `count` random links, in
/// random order; with all of them if there cannot be so many.
pub fn network_card_with(rng: &mut Rng, n: u8, f: u8, count: usize) -> Vec<u8> {
    let mut links = all_links(n);
    rng.shuffle(&mut links);
    links.truncate(count);
    card_of(n, f, &links)
}

/// A valid card of `n` servers and `f` faults whose network has no bad split, with a
/// random part of the links; `None` if `n` is not over 3`f`, as there is none then.
pub fn good_card(rng: &mut Rng, n: u8, f: u8) -> Option<Vec<u8>> {
    let all = all_links(n).len();
    // Each network with a bad split halves how many links the next one may lack.
    let mut lacking = all;
    loop {
        let count = all - rng.between(0, lacking);
        let card = network_card_with(rng, n, f, count);
        if split_test(&card) == Ok(None) {
            return Some(card);
        }
        if lacking == 0 {
            return None;
        }
        lacking /= 2;
    }
}

/// A valid card of `n` servers without faults whose network has no bad split, and hardly more
/// links than that takes: one to each server but the first of a random order, mostly from the
/// server before it, and up to three others. So most routes of a plan have relays, and some
/// may go through all servers.
pub fn sparse_card(rng: &mut Rng, n: u8) -> Vec<u8> {
    let mut servers: Vec<u8> = (0..n).collect();
    rng.shuffle(&mut servers);
    let mut links = Vec::new();
    for place in 1..servers.len() {
        let before = match rng.below(4) {
            0 => rng.below(place),
            _ => place - 1,
        };
        links.push((servers[before], servers[place]));
    }
    let mut others = all_links(n);
    others.retain(|link| !links.contains(link));
    rng.shuffle(&mut others);
    others.truncate(rng.below(4));
    links.extend(others);
    card_of(n, 0, &links)
}

/// A valid card of `n` servers and `f` faults whose network has no bad split, and would have one
/// without any of its links: from all there can be, links are left out in a random order, each
/// unless that makes a split bad. `None` if `n` is not over 3`f`, as there is no such network then.
pub fn bare_card(rng: &mut Rng, n: u8, f: u8) -> Option<Vec<u8>> {
    let is_good = |links: &[(u8, u8)]| split_test(&card_of(n, f, links)) == Ok(None);
    let mut links = all_links(n);
    if !is_good(&links) {
        return None;
    }
    rng.shuffle(&mut links);
    for _ in 0..links.len() {
        let link = links.remove(0);
        if !is_good(&links) {
            links.push(link);
        }
    }
    Some(card_of(n, f, &links))
}

/// The card of `n` servers and `f` faults with every link there can be.
pub fn complete_card(n: u8, f: u8) -> Vec<u8> {
    card_of(n, f, &all_links(n))
}

/// Every link there can be between `n` servers, ascending.
pub fn all_links(n: u8) -> Vec<(u8, u8)> {
    let pairs = (0..n).flat_map(|u| (0..n).map(move |v| (u, v)));
    pairs.filter(|(u, v)| u != v).collect()
}

/// The card of `n` servers and `f` faults with these links, in this order.
pub fn card_of(n: u8, f: u8, links: &[(u8, u8)]) -> Vec<u8> {
    let mut card = vec![OPENING, n, f];
    for &(u, v) in links {
        card.extend([LINK, u, v]);
    }
    card.push(END);
    card
}

fn sound(rng: &mut Rng) -> Vec<u8> {
    let n = rng.between(2, 8) as u8;
    let f = rng.between(0, 2) as u8;
    match rng.below(12) {
        0 => complete_card(n, f),
        1 => card_of(n, f, &[]),
        _ => network_card(rng, n, f),
    }
}

/// A sound card that has at least one link.
pub(crate) fn sound_with_links(rng: &mut Rng) -> Vec<u8> {
    loop {
        let card = sound(rng);
        if link_count(&card) > 0 {
            return card;
        }
    }
}

/// How many link commands a sound card has.
fn link_count(card: &[u8]) -> usize {
    (card.len() - 1) / COMMAND_SIZE - 1
}

/// Where the links of a sound card start, and also where its end command stands.
fn places_after_opening(card: &[u8]) -> Vec<usize> {
    (COMMAND_SIZE..card.len()).step_by(COMMAND_SIZE).collect()
}

/// A random place of a sound card where a command starts, the opening left out.
fn place_after_opening(rng: &mut Rng, card: &[u8]) -> usize {
    let places = places_after_opening(card);
    places[rng.below(places.len())]
}

/// The place of a random link of a sound card that has links.
pub(crate) fn place_of_link(rng: &mut Rng, card: &[u8]) -> usize {
    COMMAND_SIZE * (1 + rng.below(link_count(card)))
}

pub(crate) fn insert(card: &mut Vec<u8>, place: usize, bytes: &[u8]) {
    card.splice(place..place, bytes.iter().copied());
}

/// Mostly small bytes, so that damage often looks like a command or a server.
fn likely_byte(rng: &mut Rng) -> u8 {
    match rng.below(4) {
        0 => rng.byte(),
        _ => rng.below(10) as u8,
    }
}

fn empty(_rng: &mut Rng) -> Vec<u8> {
    Vec::new()
}

fn any_byte_damaged(rng: &mut Rng) -> Vec<u8> {
    let card = sound(rng);
    byte_damaged(rng, card)
}

pub(crate) fn byte_damaged(rng: &mut Rng, mut card: Vec<u8>) -> Vec<u8> {
    let place = rng.below(card.len());
    card[place] = likely_byte(rng);
    card
}

fn byte_inserted(rng: &mut Rng) -> Vec<u8> {
    let mut card = sound(rng);
    let place = rng.between(0, card.len());
    card.insert(place, likely_byte(rng));
    card
}

fn byte_removed(rng: &mut Rng) -> Vec<u8> {
    let mut card = sound(rng);
    card.remove(rng.below(card.len()));
    card
}

fn truncated(rng: &mut Rng) -> Vec<u8> {
    let mut card = sound(rng);
    card.truncate(rng.below(card.len()));
    card
}

fn extended(rng: &mut Rng) -> Vec<u8> {
    let mut card = sound(rng);
    for _ in 0..rng.between(1, 12) {
        card.push(likely_byte(rng));
    }
    card
}

fn end_missing(rng: &mut Rng) -> Vec<u8> {
    let mut card = sound(rng);
    card.pop();
    card
}

fn opening_again(rng: &mut Rng) -> Vec<u8> {
    let mut card = sound(rng);
    let place = place_after_opening(rng, &card);
    let again = match rng.below(3) {
        0 => [OPENING, card[1], card[2]],
        1 => [OPENING, rng.byte(), rng.byte()],
        _ => [OPENING, rng.below(10) as u8, rng.below(4) as u8],
    };
    insert(&mut card, place, &again);
    card
}

fn opening_not_first(rng: &mut Rng) -> Vec<u8> {
    let mut card = sound(rng);
    match rng.below(4) {
        0 => {
            card.drain(..COMMAND_SIZE);
        }
        1 => card.insert(0, END),
        2 => {
            let link = [LINK, rng.below(9) as u8, rng.below(9) as u8];
            insert(&mut card, 0, &link);
        }
        _ => {
            // The opening and the command after it change places.
            let opening: Vec<u8> = card.drain(..COMMAND_SIZE).collect();
            let place = if card[0] == LINK { COMMAND_SIZE } else { 1 };
            insert(&mut card, place, &opening);
        }
    }
    card
}

fn opening_out_of_range(rng: &mut Rng) -> Vec<u8> {
    let mut card = sound(rng);
    let bad_n = match rng.below(4) {
        0 => rng.below(2) as u8,
        1 => 9,
        _ => rng.between(9, 255) as u8,
    };
    let bad_f = match rng.below(2) {
        0 => 3,
        _ => rng.between(3, 255) as u8,
    };
    match rng.below(3) {
        0 => card[1] = bad_n,
        1 => card[2] = bad_f,
        _ => (card[1], card[2]) = (bad_n, bad_f),
    }
    card
}

fn link_out_of_range(rng: &mut Rng) -> Vec<u8> {
    let mut card = sound_with_links(rng);
    let n = card[1];
    let place = place_of_link(rng, &card);
    let outside = match rng.below(2) {
        0 => n,
        _ => rng.between(usize::from(n), 255) as u8,
    };
    match rng.below(4) {
        0 => card[place + 1] = outside,
        1 => card[place + 2] = outside,
        2 => card[place + 2] = card[place + 1],
        _ => (card[place + 1], card[place + 2]) = (outside, outside),
    }
    card
}

fn plan_command_inside(rng: &mut Rng) -> Vec<u8> {
    let mut card = sound(rng);
    let command = PLAN_COMMANDS[rng.below(PLAN_COMMANDS.len())];
    let place = match rng.below(4) {
        0 => 0,
        _ => place_after_opening(rng, &card),
    };
    if rng.one_in(2) {
        card[place] = command;
    } else {
        card.insert(place, command);
    }
    card
}

fn random_bytes(rng: &mut Rng) -> Vec<u8> {
    let length = rng.between(0, 40);
    rng.bytes(length)
}

/// Random small bytes from the start.
fn small_bytes(rng: &mut Rng) -> Vec<u8> {
    let length = rng.between(0, 24);
    let highest = rng.between(3, 9);
    (0..length).map(|_| rng.between(0, highest) as u8).collect()
}

/// A sound opening, then links of random small servers with now and then another
/// small byte: such strings parse far before something is wrong with them.
fn opened_small_bytes(rng: &mut Rng) -> Vec<u8> {
    let n = rng.between(2, 8);
    let mut card = vec![OPENING, n as u8, rng.between(0, 2) as u8];
    for _ in 0..rng.between(0, 12) {
        let command = match rng.below(16) {
            0 => rng.between(0, 3) as u8,
            _ => LINK,
        };
        card.extend([command, rng.below(n) as u8, rng.below(n) as u8]);
    }
    if rng.one_in(2) {
        card.push(END);
    }
    card
}

/// A card of a length near the limit, sound for as long as it can be. Different links
/// do not reach that far, so links come again or bytes follow the end.
fn near_the_limit(rng: &mut Rng) -> Vec<u8> {
    let length = match rng.below(5) {
        0 => CARD_LIMIT,
        1 => CARD_LIMIT + 1,
        2 => 2_000,
        _ => rng.between(1_020, 1_030),
    };
    let mut card = sound_with_links(rng);
    match rng.below(5) {
        0 => {
            // All links the network can have, then the same ones over again.
            card = complete_card(card[1], card[2]);
            repeat_links(rng, &mut card, length);
        }
        1 => repeat_links(rng, &mut card, length),
        2 => {
            while card.len() < length {
                card.push(likely_byte(rng));
            }
        }
        3 => card.resize(length, END),
        _ => {
            card.pop();
            while card.len() < length {
                card.push(rng.byte());
            }
        }
    }
    card
}

/// Gives links of the card again until it has exactly `length` bytes.
fn repeat_links(rng: &mut Rng, card: &mut Vec<u8>, length: usize) {
    let links = link_count(card);
    card.pop();
    while card.len() < length {
        let from = COMMAND_SIZE * (1 + rng.below(links));
        card.extend_from_within(from..from + COMMAND_SIZE);
    }
    card.truncate(length);
    // Where the length allows for it, the card ends as a card should.
    if length % COMMAND_SIZE == 1 {
        card.truncate(length - 1);
        card.push(END);
    }
}

#[cfg(test)]
mod tests {
    use super::*;
    use reference::{read_card, Refusal};

    const DRAWS: usize = 20_000;

    #[test]
    fn one_seed_gives_the_same_cards() {
        let (mut one, mut other) = (Rng::new(9), Rng::new(9));
        for _ in 0..1_000 {
            assert_eq!(card(&mut one), card(&mut other));
        }
    }

    #[test]
    fn cards_meet_acceptance_and_every_refusal() {
        let mut rng = Rng::new(2);
        let mut accepted = 0;
        let mut refused = [0usize; 6];
        for _ in 0..DRAWS {
            match read_card(&card(&mut rng)) {
                Ok(_) => accepted += 1,
                Err(Refusal::Card { number, .. }) => refused[usize::from(number)] += 1,
                Err(other) => panic!("not a refusal of a card: {other:?}"),
            }
        }
        println!("accepted {accepted}, refused 1 to 5 {:?}", &refused[1..]);
        assert!(accepted > DRAWS / 10);
        assert!(
            refused[1..].iter().all(|&count| count > DRAWS / 100),
            "{refused:?}"
        );
    }

    #[test]
    fn sound_cards_are_accepted_for_every_n_and_f() {
        let mut rng = Rng::new(3);
        for n in 2..=8 {
            for f in 0..=2 {
                let (mut fewest, mut most) = (usize::MAX, 0);
                for _ in 0..400 {
                    let card = network_card(&mut rng, n, f);
                    let network = read_card(&card).unwrap();
                    assert_eq!((network.n, network.f), (n, f));
                    fewest = fewest.min(link_count(&card));
                    most = most.max(link_count(&card));
                }
                let all = usize::from(n) * usize::from(n - 1);
                assert!(
                    fewest <= all / 5 && most == all,
                    "n {n} f {f}: {fewest} to {most}"
                );
                assert!(read_card(&complete_card(n, f)).is_ok());
            }
        }
    }

    #[test]
    fn networks_have_as_many_links_as_asked_for() {
        let mut rng = Rng::new(7);
        for count in 0..=56 {
            let card = network_card_with(&mut rng, 8, 2, count);
            assert_eq!(link_count(&card), count);
            assert!(read_card(&card).is_ok());
        }
        assert_eq!(link_count(&network_card_with(&mut rng, 2, 0, 9)), 2);
    }

    #[test]
    fn bare_cards_can_lack_no_link() {
        let mut rng = Rng::new(10);
        for n in 2..=6u8 {
            for f in 0..=2u8 {
                let card = bare_card(&mut rng, n, f);
                assert_eq!(card.is_some(), n > 3 * f, "n {n} f {f}");
                let Some(card) = card else { continue };
                assert_eq!(split_test(&card), Ok(None));
                for link in 1..=link_count(&card) {
                    let mut less = card.clone();
                    less.drain(COMMAND_SIZE * link..COMMAND_SIZE * (link + 1));
                    assert!(matches!(split_test(&less), Ok(Some(_))), "n {n} f {f}");
                }
            }
        }
    }

    #[test]
    fn good_cards_are_complete_or_lack_some_links() {
        let mut rng = Rng::new(8);
        for n in 2..=8u8 {
            for f in 0..=2u8 {
                let all = usize::from(n) * usize::from(n - 1);
                let mut fewest = all;
                for _ in 0..40 {
                    let card = good_card(&mut rng, n, f);
                    assert_eq!(card.is_some(), n > 3 * f, "n {n} f {f}");
                    fewest = card.map_or(fewest, |card| fewest.min(link_count(&card)));
                }
                // Every server needs 2f+1 incoming links if f is not 0.
                let some_may_lack = n > 3 * f && (n, f) != (4, 1);
                assert_eq!(fewest < all, some_may_lack, "n {n} f {f}: {fewest}");
            }
        }
    }

    #[test]
    fn sparse_cards_are_good_with_few_links() {
        let mut rng = Rng::new(10);
        for n in 2..=8u8 {
            let least = usize::from(n) - 1;
            let mut counts = [0; 4];
            for _ in 0..100 {
                let card = sparse_card(&mut rng, n);
                assert_eq!(split_test(&card), Ok(None), "{card:02x?}");
                counts[link_count(&card) - least] += 1;
            }
            // Two servers have one link more to give.
            let may_have = if n == 2 { 2 } else { 4 };
            assert!(counts[..may_have].iter().all(|&count| count > 5), "n {n}");
        }
    }

    #[test]
    fn every_maker_does_what_its_name_says() {
        let number = |card: &[u8]| match read_card(card) {
            Ok(_) => 0,
            Err(Refusal::Card { number, .. }) => number,
            Err(other) => panic!("not a refusal of a card: {other:?}"),
        };
        let mut rng = Rng::new(4);
        for _ in 0..2_000 {
            assert_eq!(number(&sound(&mut rng)), 0);
            assert_eq!(number(&empty(&mut rng)), 2);
            assert_eq!(number(&twins(&mut rng)), 0);
            assert_eq!(number(&truncated(&mut rng)), 2);
            assert_eq!(number(&extended(&mut rng)), 3);
            assert_eq!(number(&end_missing(&mut rng)), 2);
            assert_eq!(number(&opening_again(&mut rng)), 4);
            assert_eq!(number(&opening_not_first(&mut rng)), 4);
            assert_eq!(number(&opening_out_of_range(&mut rng)), 5);
            assert_eq!(number(&link_out_of_range(&mut rng)), 5);
            assert_eq!(number(&plan_command_inside(&mut rng)), 2);
        }
    }

    #[test]
    fn lengths_around_the_limit_are_met() {
        let mut rng = Rng::new(5);
        let mut lengths = [0usize; 2_001];
        let mut numbers = [0usize; 6];
        let mut longest = 0;
        for _ in 0..2_000 {
            let card = near_the_limit(&mut rng);
            lengths[card.len()] += 1;
            match read_card(&card) {
                Err(Refusal::Card { number, .. }) => numbers[usize::from(number)] += 1,
                Err(other) => panic!("not a refusal of a card: {other:?}"),
                Ok(_) => longest = longest.max(card.len()),
            }
        }
        assert_eq!(longest, CARD_LIMIT, "the longest card that is accepted");
        assert!((1_020..=1_030)
            .chain([2_000])
            .all(|length| lengths[length] > 0));
        assert!([1, 2, 3].iter().all(|&number: &usize| numbers[number] > 0));
    }

    #[test]
    fn drawn_networks_are_found_with_and_without_a_bad_split() {
        let mut rng = Rng::new(6);
        for (n, f) in [(2, 0), (5, 0), (4, 1), (6, 1), (8, 1), (7, 2), (8, 2)] {
            let mut good = 0;
            for _ in 0..400 {
                let card = network_card(&mut rng, n, f);
                good += usize::from(reference::split_test(&card) == Ok(None));
            }
            println!("n {n} f {f}: {good} of 400 without a bad split");
            assert!((1..400).contains(&good), "n {n} f {f}: {good}");
        }
    }
}
