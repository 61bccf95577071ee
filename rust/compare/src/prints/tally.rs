//! Comparing the two implementations on one card, and counting what they answer.

use super::round_trip;
use crate::converted;
use crate::lent::{self, Call as _, Outcome};
use crate::text::hex;
use agreement::CLEAN_CARD_LIMIT;
use reference::Refusal;
use std::fmt::{self, Arguments, Display, Formatter};

/// More than a card of any kind has.
const FAR_TOO_MANY: usize = 1_200;

/// How many buffers a card that is read is printed into: too short ones, and ones with
/// room for its clean card.
pub const TOO_SHORT: usize = 4;
pub const WITH_ROOM: usize = 5;

/// How many buffers are lent for a refused card.
pub const FOR_REFUSED: usize = 7;

/// The lengths of the buffers where the clean card has so many bytes, which are four at
/// least.
fn about(bytes: usize) -> Vec<usize> {
    let near = bytes - 2..=bytes + 3;
    let lengths = [0, 1].into_iter().chain(near).chain([FAR_TOO_MANY]);
    lengths.collect()
}

/// The lengths for a refused card; among them the least and the greatest that a clean
/// card can have.
const ANY_LENGTHS: [usize; FOR_REFUSED] = [
    0,
    1,
    4,
    7,
    CLEAN_CARD_LIMIT,
    CLEAN_CARD_LIMIT + 1,
    FAR_TOO_MANY,
];

/// A call to print a card.
#[derive(Debug, Clone, Copy)]
pub(super) struct Call<'a> {
    pub card: &'a [u8],
    /// How many bytes are lent.
    pub lent: usize,
}

impl lent::Call for Call<'_> {
    type Answer = usize;

    fn of_library(&self) -> Outcome<usize> {
        Outcome::of(self.lent, |lent| {
            agreement::print_card(self.card, lent).map_err(converted::refusal)
        })
    }

    fn of_reference(&self) -> Outcome<usize> {
        Outcome::of(self.lent, |lent| reference::print_card(self.card, lent))
    }

    fn fault(&self, outcome: &Outcome<usize>) -> Option<&'static str> {
        outcome.fault(outcome.answer.unwrap_or_default())
    }
}

impl Display for Call<'_> {
    fn fmt(&self, out: &mut Formatter) -> fmt::Result {
        let (card, lent) = (hex(self.card), self.lent);
        write!(out, "  card       {card}\n  lent       {lent} bytes")
    }
}

/// How often each answer was met.
#[derive(Debug, Clone, Default)]
pub struct Tally {
    /// Cards that are read, clean ones and others.
    pub clean: usize,
    pub not_clean: usize,
    /// Refused cards by the refusal's number, 1 to 5; there is no number 0.
    pub refused: [usize; 6],
    /// Calls that printed a card.
    pub printed: usize,
    /// Calls with a refused card by the refusal's number, and refused calls: 14 alone.
    pub calls_refused: [usize; 15],
}

impl Tally {
    pub fn read(&self) -> usize {
        self.clean + self.not_clean
    }

    pub fn cards(&self) -> usize {
        self.read() + self.refused.iter().sum::<usize>()
    }

    pub fn calls(&self) -> usize {
        self.printed + self.calls_refused.iter().sum::<usize>()
    }

    /// Has the library and the reference print `card` into buffers of many lengths, and
    /// the library read and print what it printed; counts the answers and hands the clean
    /// card back, if there is one.
    ///
    /// Panics if something is not as it should be; `made_by` then says how to get the
    /// card again.
    pub(super) fn compare(&mut self, card: &[u8], made_by: Arguments) -> Option<Vec<u8>> {
        let clean = round_trip::held(card, made_by);
        let lengths = match &clean {
            Ok(clean) => about(clean.len()),
            Err(_) => ANY_LENGTHS.to_vec(),
        };
        for lent in lengths {
            self.call(&Call { card, lent }, made_by);
        }
        match &clean {
            Ok(clean) if clean == card => self.clean += 1,
            Ok(_) => self.not_clean += 1,
            Err(refusal) => self.refused[usize::from(refusal.number())] += 1,
        }
        clean.ok()
    }

    /// One call, counted.
    ///
    /// Panics if library and reference differ, in the answer or in a byte of memory, or
    /// if what they agree on cannot be.
    pub(super) fn call(&mut self, call: &Call, made_by: Arguments) {
        match call.compared(made_by).answer {
            Ok(_) => self.printed += 1,
            Err(Refusal::Card { number, .. } | Refusal::Call { number }) => {
                self.calls_refused[usize::from(number)] += 1;
            }
            Err(other) => panic!("not a refusal of a printed card: {other:?}"),
        }
    }
}

impl Display for Tally {
    fn fmt(&self, out: &mut Formatter) -> fmt::Result {
        write!(
            out,
            "{} cards, {} read ({} of them clean), refused 1 to 5: {:?}; {} calls, {} printed, \
             refused 1 to 5: {:?}, 14: {}",
            self.cards(),
            self.read(),
            self.clean,
            &self.refused[1..],
            self.calls(),
            self.printed,
            &self.calls_refused[1..6],
            self.calls_refused[14]
        )
    }
}
