//! Comparing the two implementations on one card, and counting what they answer.

use crate::converted;
use crate::lent::written;
use crate::text::{hex, plain_refusal};
use agreement::{check_plan, read_card, split_test, PLAN_LIMIT};
use generate::places;
use reference::{Refusal, Split, Unwritten};
use std::fmt::{self, Arguments, Display, Formatter};

/// What the plan writer answers on a card.
type Answer = Result<usize, Unwritten>;

const BLOCK: u8 = 0x10;

/// An answer in the plain form of the data files.
pub(super) fn plain(answer: &Answer) -> String {
    match *answer {
        Ok(bytes) => format!("ok {bytes}"),
        Err(Unwritten::BadSplit(Split { f, l, c, r })) => {
            format!("refused call 17 {f} {l} {c} {r}")
        }
        Err(Unwritten::Refused(refusal)) => plain_refusal(refusal),
    }
}

/// How many buffers a plan is written into: too short ones, and ones with room for it.
pub const BUFFERS: [usize; 2] = [3, 2];

/// How many buffers are lent for a card that has no plan.
pub const FOR_REFUSED: usize = 3;

/// The lengths of the buffers where the plan has so many bytes.
fn about(bytes: usize) -> [usize; 5] {
    [0, bytes / 2, bytes - 1, bytes, bytes + 21]
}

/// The lengths for a card that has no plan.
const ANY_LENGTHS: [usize; FOR_REFUSED] = [0, 14, 1_000];

/// How often each answer was met.
#[derive(Debug, Clone, Default)]
pub struct Tally {
    /// Cards with a plan by n and f.
    pub planned: [[usize; 3]; 9],
    /// Cards with a bad split by n and f.
    pub split: [[usize; 3]; 9],
    /// Refused cards by the refusal's number, 1 to 5; there is no number 0.
    pub refused: [usize; 6],
    /// Calls that wrote a plan.
    pub written: usize,
    /// Refused calls: of the card, 17 and 18.
    pub calls_refused: [usize; 3],
    /// Bytes of all plans.
    pub bytes: usize,
}

impl Tally {
    pub fn planned(&self) -> usize {
        self.planned.iter().flatten().sum()
    }

    pub fn split(&self) -> usize {
        self.split.iter().flatten().sum()
    }

    pub fn cards(&self) -> usize {
        self.planned() + self.split() + self.refused.iter().sum::<usize>()
    }

    /// Has the library and the reference write a plan for `card`, counts the answer and hands
    /// the library's plan back, if there is one.
    ///
    /// Panics if they differ, or if the library itself says otherwise of card or plan; `made_by`
    /// then says how to get the card again.
    pub(super) fn compare(&mut self, card: &[u8], made_by: Arguments) -> Option<Vec<u8>> {
        let held = self.held(card);
        held.unwrap_or_else(|fault| panic!("{fault}\n  card  {}\n  made by  {made_by}", hex(card)))
    }

    fn held(&mut self, card: &[u8]) -> Result<Option<Vec<u8>>, String> {
        let mut reference = vec![0; PLAN_LIMIT];
        let answer = reference::write_plan(card, &mut reference);
        match answer {
            Ok(bytes) => {
                reference.truncate(bytes);
                let plan = self.planned_alike(card, &reference)?;
                Ok(Some(plan))
            }
            Err(unwritten) => {
                self.refused_alike(card, unwritten)?;
                Ok(None)
            }
        }
    }

    /// The library's plan for a card for which the reference has this one.
    fn planned_alike(&mut self, card: &[u8], reference: &[u8]) -> Result<Vec<u8>, String> {
        let mut plan: Option<Vec<u8>> = None;
        for lent in about(reference.len()) {
            let (answer, bytes) = library(card, lent)?;
            if lent < reference.len() {
                if answer != TOO_LONG {
                    return Err(format!(
                        "{} into {lent} bytes, not 18",
                        self::plain(&answer)
                    ));
                }
                self.calls_refused[2] += 1;
                continue;
            }
            if answer != Ok(reference.len()) {
                return Err(format!(
                    "{} into {lent} bytes, and the reference has {} bytes",
                    self::plain(&answer),
                    reference.len()
                ));
            }
            if plan.as_ref().is_some_and(|plan| *plan != bytes) {
                return Err("the plan depends on the buffer".to_string());
            }
            self.written += 1;
            plan = Some(bytes);
        }
        let plan = plan.ok_or("no buffer had room for the plan")?;
        if let Err(refusal) = check_plan(card, &plan) {
            return Err(format!("the plan check says: {refusal}"));
        }
        if openings(&plan) != openings(reference) {
            return Err("the A or S of a block is another".to_string());
        }
        self.bytes += plan.len();
        let [n, f] = size(card);
        self.planned[n][f] += 1;
        Ok(plan)
    }

    /// The library refuses a card that the reference refuses so.
    fn refused_alike(&mut self, card: &[u8], unwritten: Unwritten) -> Result<(), String> {
        let by_itself = match (read_card(card), split_test(card)) {
            (Err(refusal), _) => Some(Unwritten::Refused(converted::refusal(refusal))),
            (_, Ok(Some(split))) => Some(Unwritten::BadSplit(converted::split(split))),
            _ => None,
        };
        if by_itself != Some(unwritten) {
            return Err(format!(
                "the reference says {}, and the library's reader and split test otherwise",
                self::plain(&Err(unwritten))
            ));
        }
        for lent in ANY_LENGTHS {
            let (answer, _) = library(card, lent)?;
            if answer != Err(unwritten) {
                let [library, reference] = [answer, Err(unwritten)].map(|it| self::plain(&it));
                return Err(format!("library {library}, reference {reference}"));
            }
            let of_split = matches!(unwritten, Unwritten::BadSplit(_));
            self.calls_refused[usize::from(of_split)] += 1;
        }
        match unwritten {
            Unwritten::BadSplit(_) => {
                let [n, f] = size(card);
                self.split[n][f] += 1;
            }
            Unwritten::Refused(Refusal::Card { number, .. }) => {
                self.refused[usize::from(number)] += 1;
            }
            Unwritten::Refused(other) => {
                return Err(format!("{other:?} into all that there can be"))
            }
        }
        Ok(())
    }
}

/// The refusal of a plan that is longer than the buffer.
const TOO_LONG: Answer = Err(Unwritten::Refused(Refusal::Call { number: 18 }));

/// What the library answers with so many bytes lent, and what it writes.
fn library(card: &[u8], lent: usize) -> Result<(Answer, Vec<u8>), String> {
    let count = |answer: &Answer| answer.unwrap_or_default();
    let call = |lent: &mut [u8]| converted::written(agreement::write_plan(card, lent));
    written(lent, count, call).map_err(|fault| format!("{fault}, with {lent} lent"))
}

/// F, A and S of each block.
fn openings(plan: &[u8]) -> Vec<&[u8]> {
    let places = places(plan, &[BLOCK]).into_iter();
    places.map(|place| &plan[place..place + 4]).collect()
}

/// The n and f of a card that is read.
fn size(card: &[u8]) -> [usize; 2] {
    [card[1], card[2]].map(usize::from)
}

impl Display for Tally {
    fn fmt(&self, out: &mut Formatter) -> fmt::Result {
        let [of_card, bad_split, too_long] = self.calls_refused;
        write!(
            out,
            "{} cards, {} with a plan, {} with a bad split, refused 1 to 5: {:?}; {} plans written, \
             {of_card} refused by their card, 17: {bad_split}, 18: {too_long}; {} bytes of plans",
            self.cards(),
            self.planned(),
            self.split(),
            &self.refused[1..],
            self.written,
            self.bytes
        )
    }
}
