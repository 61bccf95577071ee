//! Comparing the two implementations on one call, and counting what they answer.

use crate::lent::{self, Call as _, Outcome};
use crate::plans::good;
use crate::text::{hex, hex_beginning};
use crate::{add, converted};
use agreement::ServerSet;
use reference::{Refusal, Totals};
use std::fmt::{self, Arguments, Display, Formatter};

/// What the lent buffer holds for a faulty server.
const FAULTY_MARK: u8 = 2;

/// A call to run.
#[derive(Debug, Clone, Copy)]
pub(crate) struct Call<'a> {
    pub card: &'a [u8],
    pub plan: &'a [u8],
    pub inputs: &'a [u8],
    pub faulty: u8,
    pub table: &'a [u8],
    /// How many bytes are lent.
    pub lent: usize,
}

impl lent::Call for Call<'_> {
    type Answer = Totals;

    fn of_library(&self) -> Outcome<Totals> {
        let faulty = ServerSet::from_bits(self.faulty);
        Outcome::of(self.lent, |lent| {
            converted::totals(agreement::run(
                self.card,
                self.plan,
                self.inputs,
                faulty,
                self.table,
                lent,
            ))
        })
    }

    fn of_reference(&self) -> Outcome<Totals> {
        Outcome::of(self.lent, |lent| {
            reference::run(
                self.card,
                self.plan,
                self.inputs,
                self.faulty,
                self.table,
                lent,
            )
        })
    }

    fn fault(&self, outcome: &Outcome<Totals>) -> Option<&'static str> {
        // An answered call has n inputs.
        let fault = outcome.fault(self.inputs.len());
        let fault = fault.or_else(|| good::fault_after(self.card, &outcome.answer));
        if fault.is_some() || outcome.answer.is_err() {
            return fault;
        }
        let decided = outcome.written();
        let is_faulty = |server: &usize| self.faulty >> server & 1 == 1;
        let (faulty, sound): (Vec<usize>, Vec<usize>) = (0..decided.len()).partition(is_faulty);
        if faulty.iter().any(|&server| decided[server] != FAULTY_MARK) {
            return Some("a faulty server is not marked");
        }
        let Some(&first) = sound.first() else {
            return Some("no server is sound");
        };
        let bit = decided[first];
        if sound.iter().any(|&server| decided[server] != bit) {
            return Some("two sound servers decided differently");
        }
        if sound.iter().all(|&server| self.inputs[server] != bit) {
            return Some("no sound server had the decided bit as its input");
        }
        None
    }
}

impl Call<'_> {
    /// The bit that was decided, if the sound servers start out with different inputs.
    pub fn contested_bit(&self, decided: &[u8]) -> Option<u8> {
        let is_sound = |server: &usize| self.faulty >> server & 1 == 0;
        let mut sound = (0..self.inputs.len()).filter(is_sound);
        let first = sound.next()?;
        let contested = sound.any(|server| self.inputs[server] != self.inputs[first]);
        contested.then(|| decided[first])
    }
}

impl Display for Call<'_> {
    fn fmt(&self, out: &mut Formatter) -> fmt::Result {
        write!(
            out,
            "  card       {}\n  plan       {}\n  inputs     {}\n  faulty     {}\
             \n  table      {}\n  lent       {} bytes",
            hex(self.card),
            hex_beginning(self.plan),
            hex_beginning(self.inputs),
            self.faulty,
            hex_beginning(self.table),
            self.lent
        )
    }
}

/// How often each answer was met.
#[derive(Debug, Clone, Default)]
pub struct Tally {
    /// Answered calls by the number of faulty servers.
    pub answered: [usize; 3],
    /// Those of them in which the sound servers' inputs differ, by the decided bit.
    pub contested: [usize; 2],
    /// Calls with a refused card by the refusal's number, 1 to 5; there is no number 0.
    pub card_refused: [usize; 6],
    /// Calls with a refused plan by the refusal's number; 4 to 6 are no numbers of a plan.
    pub plan_refused: [usize; 12],
    /// Refused calls by the refusal's number, 12 to 14.
    pub call_refused: [usize; 15],
}

impl Tally {
    pub fn runs(&self) -> usize {
        let cards_and_plans = self.card_refused.iter().chain(&self.plan_refused);
        let refused = cards_and_plans.chain(&self.call_refused);
        self.all_answered() + refused.sum::<usize>()
    }

    pub fn all_answered(&self) -> usize {
        self.answered.iter().sum()
    }

    pub fn add(&mut self, other: &Tally) {
        add(&mut self.answered, &other.answered);
        add(&mut self.contested, &other.contested);
        add(&mut self.card_refused, &other.card_refused);
        add(&mut self.plan_refused, &other.plan_refused);
        add(&mut self.call_refused, &other.call_refused);
    }

    /// Has the library and the reference run `call`, counts the answer and hands it back,
    /// with the memory.
    ///
    /// Panics if they differ, in the answer or in a byte of memory, or if what they
    /// agree on cannot be; `made_by` then says how to get the call again.
    pub(super) fn compare(&mut self, call: &Call, made_by: Arguments) -> Outcome<Totals> {
        let outcome = call.compared(made_by);
        self.count(call, &outcome);
        outcome
    }

    fn count(&mut self, call: &Call, outcome: &Outcome<Totals>) {
        match outcome.answer {
            Ok(_) => {
                self.answered[call.faulty.count_ones() as usize] += 1;
                if let Some(bit) = call.contested_bit(outcome.written()) {
                    self.contested[usize::from(bit)] += 1;
                }
            }
            Err(Refusal::Card { number, .. }) => self.card_refused[usize::from(number)] += 1,
            Err(Refusal::Plan { number, .. }) => self.plan_refused[usize::from(number)] += 1,
            Err(Refusal::Call { number }) => self.call_refused[usize::from(number)] += 1,
        }
    }
}

impl Display for Tally {
    fn fmt(&self, out: &mut Formatter) -> fmt::Result {
        write!(
            out,
            "{} runs, answered with 0 to 2 faulty servers: {:?}, of different inputs decided 0 and 1: \
             {:?}, card refused 1 to 5: {:?}, plan refused 1 to 3: {:?}, 7 to 11: {:?}, \
             call refused 12 to 14: {:?}",
            self.runs(),
            self.answered,
            self.contested,
            &self.card_refused[1..],
            &self.plan_refused[1..4],
            &self.plan_refused[7..],
            &self.call_refused[12..]
        )
    }
}
