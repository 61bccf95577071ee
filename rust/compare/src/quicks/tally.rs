//! Comparing the two implementations on one card, and counting what they answer.

use super::rule;
use crate::converted;
use crate::text::{hex, plain, Plain};
use reference::{Quick, Refusal};
use std::fmt::{self, Arguments, Display, Formatter};

/// What the quick test answers on a card.
pub(super) type Answer = Result<Quick, Refusal>;

impl Plain for Quick {
    fn plain(&self) -> String {
        let word = if self.holds { "yes" } else { "no" };
        format!("{word} {} {}", self.n, self.least)
    }
}

/// How often each answer was met.
#[derive(Debug, Clone, Default)]
pub struct Tally {
    /// Answered cards by n and f, those with no and those with yes.
    pub words: [[[usize; 2]; 3]; 9],
    /// Answered cards by n and the least number.
    pub least: [[usize; 8]; 9],
    /// Refused cards by the refusal's number, and refused calls: 15 alone.
    pub refused: [usize; 16],
}

impl Tally {
    pub fn no(&self) -> usize {
        self.words.iter().flatten().map(|[no, _]| no).sum()
    }

    pub fn yes(&self) -> usize {
        self.words.iter().flatten().map(|[_, yes]| yes).sum()
    }

    pub fn answered(&self) -> usize {
        self.no() + self.yes()
    }

    pub fn cards(&self) -> usize {
        self.answered() + self.refused.iter().sum::<usize>()
    }

    /// Asks the library and the reference about `card`, counts the answer and hands it
    /// back, if it is no refusal.
    ///
    /// Panics if they differ, or if the library itself says otherwise of the card;
    /// `made_by` then says how to get the card again.
    pub(super) fn compare(&mut self, card: &[u8], made_by: Arguments) -> Option<Quick> {
        let answer = agreement::quick_test(card);
        let (library, reference) = (converted::quick(answer), reference::quick_test(card));
        if library != reference {
            panic!(
                "library and reference differ\n  card       {}\n  made by    {made_by}\
                 \n  library    {}\n  reference  {}",
                hex(card),
                plain(&library),
                plain(&reference)
            );
        }
        if let Some(fault) = rule::fault(card, answer) {
            panic!(
                "{fault}\n  card       {}\n  made by    {made_by}\n  both       {}\
                 \n  read       {:?}\n  split      {:?}",
                hex(card),
                plain(&library),
                agreement::read_card(card),
                agreement::split_test(card)
            );
        }
        self.count(card, library);
        library.ok()
    }

    fn count(&mut self, card: &[u8], answer: Answer) {
        match answer {
            Ok(Quick { holds, n, least }) => {
                // An answered card is sound, so this is its f.
                let (n, f) = (usize::from(n), usize::from(card[2]));
                self.words[n][f][usize::from(holds)] += 1;
                self.least[n][usize::from(least)] += 1;
            }
            Err(Refusal::Card { number, .. } | Refusal::Call { number }) => {
                self.refused[usize::from(number)] += 1;
            }
            Err(other) => panic!("not a refusal of the quick test: {other:?}"),
        }
    }
}

impl Display for Tally {
    fn fmt(&self, out: &mut Formatter) -> fmt::Result {
        write!(
            out,
            "{} cards, {} answered ({} yes and {} no), refused 1 to 5: {:?}, 15: {}",
            self.cards(),
            self.answered(),
            self.yes(),
            self.no(),
            &self.refused[1..6],
            self.refused[15]
        )
    }
}
