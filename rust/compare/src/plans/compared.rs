//! What library and reference are both asked about a card and a plan alone.

use crate::text::{cases, hex, hex_beginning, plain, plan_after, unhex, Plain};
use reference::Refusal;
use std::fmt::{Arguments, Debug};

/// A question about a card and a plan, and how often each answer was met. All loops over
/// plans can be gone through with any such question.
pub trait Compared: Default {
    /// What an accepted plan is answered with.
    type Answer: Plain + Debug + PartialEq;

    fn of_library(card: &[u8], plan: &[u8]) -> Result<Self::Answer, Refusal>;

    fn of_reference(card: &[u8], plan: &[u8]) -> Result<Self::Answer, Refusal>;

    /// What is wrong with an answer that both give, where more is demanded of it than that.
    fn fault(
        _card: &[u8],
        _plan: &[u8],
        _answer: &Result<Self::Answer, Refusal>,
    ) -> Option<&'static str> {
        None
    }

    /// Counts the answer on `card`.
    fn count(&mut self, card: &[u8], answer: &Result<Self::Answer, Refusal>);

    /// Asks the library and the reference about `plan` for `card`, counts the answer and
    /// hands it back.
    ///
    /// Panics if they differ, or if what they agree on cannot be; `made_by` then says how to
    /// get the plan again.
    fn compare(
        &mut self,
        card: &[u8],
        plan: &[u8],
        made_by: Arguments,
    ) -> Result<Self::Answer, Refusal> {
        let library = Self::of_library(card, plan);
        let reference = Self::of_reference(card, plan);
        let fault = match library == reference {
            true => Self::fault(card, plan, &library),
            false => Some("library and reference differ"),
        };
        if let Some(fault) = fault {
            panic!(
                "{fault}\n  card       {}\n  plan       {}\n  made by    {made_by}\
                 \n  library    {}\n  reference  {}",
                hex(card),
                hex_beginning(plan),
                plain(&library),
                plain(&reference)
            );
        }
        self.count(card, &library);
        library
    }
}

/// Asks both implementations about every case of a data file and counts the answers. A case
/// has a note, a card, a plan or `=` for that of the case before, and the answer.
///
/// Panics at the first answer that is not the one stated.
pub(crate) fn held<T: Compared>(file: &'static str, name: &str) -> T {
    let mut tally = T::default();
    let mut plan = Vec::new();
    for fields in cases(file) {
        let [note, card, plan_field, stated] = fields[..] else {
            panic!("a case has four fields: {fields:?}");
        };
        let card = unhex(card);
        plan = plan_after(plan, plan_field);
        let answers = [
            ("library", T::of_library(&card, &plan)),
            ("reference", T::of_reference(&card, &plan)),
        ];
        for (who, answer) in answers {
            let answer = plain(&answer);
            assert!(
                answer == stated,
                "{who} does not answer as stated\n  card    {} ({note})\n  plan    {}\
                 \n  stated  {stated}\n  answer  {answer}",
                hex(&card),
                hex_beginning(&plan)
            );
        }
        // They are alike by now; this looks at what else is demanded, and counts.
        let _ = tally.compare(&card, &plan, format_args!("{name}, {note}"));
    }
    tally
}
