//! Comparing the two implementations on one card, and counting what they answer.

use super::answers::Answers;
use crate::text::hex;
use reference::Refusal;
use std::fmt::{self, Arguments, Display, Formatter};

/// How often each answer was met.
#[derive(Debug, Clone, Default)]
pub struct Tally {
    /// Accepted cards whose network has no bad split.
    pub without_bad_split: usize,
    /// Accepted cards whose network has one.
    pub with_bad_split: usize,
    /// Refused cards by the refusal's number, 1 to 5; there is no number 0.
    pub refused: [usize; 6],
}

impl Tally {
    pub fn accepted(&self) -> usize {
        self.without_bad_split + self.with_bad_split
    }

    pub fn cards(&self) -> usize {
        self.accepted() + self.refused.iter().sum::<usize>()
    }

    /// Asks the library and the reference about `card`, counts the answers and hands them
    /// back.
    ///
    /// Panics if they differ; `made_by` then says how to get the card again.
    pub(super) fn compare(&mut self, card: &[u8], made_by: Arguments) -> Answers {
        let library = Answers::of_library(card);
        let reference = Answers::of_reference(card);
        if library != reference {
            panic!(
                "library and reference differ\n  card       {}\n  made by    {made_by}\
                 \n  library    {library}\n  reference  {reference}",
                hex(card)
            );
        }
        self.count(&reference);
        reference
    }

    fn count(&mut self, answers: &Answers) {
        match answers.split {
            Ok(None) => self.without_bad_split += 1,
            Ok(Some(_)) => self.with_bad_split += 1,
            Err(Refusal::Card { number, .. }) => self.refused[usize::from(number)] += 1,
            Err(other) => panic!("not a refusal of a card: {other:?}"),
        }
    }
}

impl Display for Tally {
    fn fmt(&self, out: &mut Formatter) -> fmt::Result {
        write!(
            out,
            "{} cards, {} accepted ({} without and {} with a bad split), refused 1 to 5: {:?}",
            self.cards(),
            self.accepted(),
            self.without_bad_split,
            self.with_bad_split,
            &self.refused[1..]
        )
    }
}
