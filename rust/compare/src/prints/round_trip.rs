//! The round trip of a card, by the library alone.

use crate::text::hex;
use agreement::{print_card, read_card, Network, Refusal, CLEAN_CARD_LIMIT};
use generate::card_of;
use std::fmt::{self, Arguments, Display, Formatter};

/// How many cards of a data file took the round trip, and how many were refused.
#[derive(Debug, Clone, Copy, Default, PartialEq, Eq)]
pub struct Trips {
    pub taken: usize,
    pub refused: usize,
}

impl Trips {
    pub(super) fn add(&mut self, card: &[u8], made_by: Arguments) {
        match held(card, made_by) {
            Ok(_) => self.taken += 1,
            Err(_) => self.refused += 1,
        }
    }
}

impl Display for Trips {
    fn fmt(&self, out: &mut Formatter) -> fmt::Result {
        write!(out, "{} taken, {} refused", self.taken, self.refused)
    }
}

/// Reads and prints `card`, reads and prints what was printed, and hands that back: the
/// clean card, or the refusal of reader and printer alike.
///
/// Panics if one of them is not as it should be; `made_by` then says how to get the card
/// again.
pub(super) fn held(card: &[u8], made_by: Arguments) -> Result<Vec<u8>, Refusal> {
    let (read, clean) = (read_card(card), printed(card));
    let fault = match (&read, &clean) {
        (Ok(network), Ok(clean)) => fault(network, clean),
        (Err(of_reader), Err(of_printer)) if of_reader == of_printer => None,
        _ => Some("reader and printer do not refuse alike"),
    };
    if let Some(fault) = fault {
        let shown = clean.map(|clean| hex(&clean));
        panic!(
            "{fault}\n  card     {}\n  made by  {made_by}\n  read     {read:?}\n  printed  {shown:?}",
            hex(card)
        );
    }
    clean
}

/// What is wrong with the clean card that was printed for this network.
fn fault(network: &Network, clean: &[u8]) -> Option<&'static str> {
    if clean != in_order(network) {
        return Some("the printed card is not the network with its links ascending");
    }
    if read_card(clean).as_ref() != Ok(network) {
        return Some("the printed card is not read as the same network");
    }
    if printed(clean).as_deref() != Ok(clean) {
        return Some("the printed card does not stay as it is");
    }
    None
}

/// What the library prints into a buffer that is always long enough.
fn printed(card: &[u8]) -> Result<Vec<u8>, Refusal> {
    let mut lent = vec![0; CLEAN_CARD_LIMIT];
    let bytes = print_card(card, &mut lent)?;
    lent.truncate(bytes);
    Ok(lent)
}

/// The card of the network with its links ascending.
fn in_order(network: &Network) -> Vec<u8> {
    let links = |u: u8| {
        let row = network.rows[usize::from(u)];
        row.iter().map(move |v| (u, v))
    };
    let links: Vec<(u8, u8)> = (0..network.n).flat_map(links).collect();
    card_of(network.n, network.f, &links)
}
