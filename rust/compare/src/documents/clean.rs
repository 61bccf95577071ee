//! The clean card, as header and docs/FORMATS.md tell of it, beside what the library
//! prints.

use super::library::*;
use super::numbers::{grouped, quoted};
use super::page::Held;
use super::Documents;
use agreement::{print_card, CallGround, Refusal, CLEAN_CARD_LIMIT};
use generate::{all_links, card_of, complete_card};
use std::sync::LazyLock;

/// The clean card that the library prints for one that it reads.
fn clean(card: &[u8]) -> Vec<u8> {
    // A clean card is a card, and has no more bytes than one may have.
    let mut lent = vec![0; *CARD_LIMIT];
    let bytes = print_card(card, &mut lent).expect("the card is printed");
    lent.truncate(bytes);
    lent
}

/// The most bytes of a clean card: that of the most servers with all their links.
pub static CLEAN_LIMIT: LazyLock<usize> =
    LazyLock::new(|| clean(&complete_card(SIZES.n.most(), SIZES.f.most())).len());

/// How many bytes a clean card has without links, and how many more for a link.
fn lengths() -> (usize, usize) {
    let n = SIZES.n.most();
    let [without, with_one] = [&[][..], &[(0, 1)]].map(|links| clean(&card_of(n, 0, links)).len());
    (without, with_one - without)
}

/// The commands of a clean card.
struct Commands {
    head: u8,
    link: u8,
    end: u8,
}

fn commands() -> Commands {
    // Of two links the second is given first, and again.
    let printed = clean(&card_of(3, 1, &[(2, 0), (0, 1), (2, 0)]));
    let [head, 3, 1, link, 0, 1, again, 2, 0, end] = printed[..] else {
        panic!("a clean card of two links is {printed:02x?}");
    };
    assert_eq!(link, again, "the command of each link");
    Commands { head, link, end }
}

/// What stands above the header's declaration of agreement_print_card, in the section of
/// the clean card, and in its theorems.
pub fn stated(documents: &Documents) -> Held {
    let Commands { head, link, end } = commands();
    let (without, of_a_link) = lengths();
    documents.header.says(&format!(
        "clean: {head:02X} n f, then {link:02X} u v for each link, once, ascending by u, then by v, \
         then {end:02X}. That is {without} bytes and {of_a_link} for each link."
    ))?;
    let [head, link, end] = [head, link, end].map(|command| quoted(&[command]));
    let (buffer, limit) = (CallGround::Buffer.number(), grouped(*CARD_LIMIT));
    documents.theorems.says_all(&[
        format!("the card printed back: the number of bytes, or the refusal, the card's, then {buffer};"),
        format!("exactly when it is {head} n f, any list of links"),
        format!("between two different servers, {end}, at most {limit} bytes,"),
        format!("printed into every lent buffer of {} bytes", *CLEAN_LIMIT),
    ])?;
    // Three links: the last is given first, and again, and the other two stand the other way.
    let patched = card_of(3, 1, &[(2, 1), (0, 2), (0, 1), (2, 1)]);
    let printed = quoted(&clean(&patched));
    let patched = quoted(&patched);
    documents.formats.says_all(&[
        format!(
            "printed back clean: {head} n f, then {link} u v for each link, once, ascending by u, then \
             by v, and then {end}. That is {without} bytes and {of_a_link} for each link."
        ),
        format!("and then {buffer} where the buffer is shorter than the clean card."),
        format!(
            "The card {patched} gives the link from 2 to 1 first, and again, and has the two links from \
             0 in another order. Printed it is {printed}."
        ),
    ])
}

/// A clean card has as many bytes as its links give it. A buffer is refused where it has
/// fewer, and so never where it has the limit.
pub fn lengths_are_right() {
    assert_eq!(
        *CLEAN_LIMIT, CLEAN_CARD_LIMIT,
        "the longest clean card, and the wrapper's"
    );
    let (without, of_a_link) = lengths();
    for (n, f) in every_size() {
        let all = all_links(n);
        for count in 0..=all.len() {
            let card = card_of(n, f, &all[all.len() - count..]);
            let bytes = without + of_a_link * count;
            assert_eq!(clean(&card).len(), bytes, "n {n} f {f}, {count} links");
            buffers_have_its_bytes(&card, bytes);
        }
    }
}

fn buffers_have_its_bytes(card: &[u8], bytes: usize) {
    for length in 0..=*CLEAN_LIMIT {
        let ground = CallGround::Buffer;
        let expected = match length < bytes {
            true => Err(Refusal::Call { ground }),
            false => Ok(bytes),
        };
        let answer = print_card(card, &mut vec![0; length]);
        assert_eq!(answer, expected, "{length} bytes lent for {bytes}");
    }
}
