//! The plan check of the two implementations, and how often each answer was met.

use super::compared::Compared;
use super::good;
use crate::{add, converted};
use generate::DAMAGES;
use reference::{Refusal, Totals};
use std::fmt::{self, Display, Formatter};

/// How often each answer was met.
#[derive(Debug, Clone, Default)]
pub struct Tally {
    /// Accepted plans.
    pub accepted: usize,
    /// Calls with a refused card by the refusal's number, 1 to 5; there is no number 0.
    pub card_refused: [usize; 6],
    /// Refused plans by the refusal's number; 4 to 6 are no numbers of a plan.
    pub plan_refused: [usize; 12],
}

impl Tally {
    pub fn plans(&self) -> usize {
        let refused = self.card_refused.iter().chain(&self.plan_refused);
        self.accepted + refused.sum::<usize>()
    }

    pub fn add(&mut self, other: &Tally) {
        self.accepted += other.accepted;
        add(&mut self.card_refused, &other.card_refused);
        add(&mut self.plan_refused, &other.plan_refused);
    }

    /// Counts a plan that met this refusal, or none.
    pub(crate) fn count_refusal(&mut self, refusal: Option<Refusal>) {
        match refusal {
            None => self.accepted += 1,
            Some(Refusal::Card { number, .. }) => self.card_refused[usize::from(number)] += 1,
            Some(Refusal::Plan { number, .. }) => self.plan_refused[usize::from(number)] += 1,
            Some(other) => panic!("not a refusal of card or plan: {other:?}"),
        }
    }
}

impl Compared for Tally {
    type Answer = Totals;

    fn of_library(card: &[u8], plan: &[u8]) -> Result<Totals, Refusal> {
        converted::totals(agreement::check_plan(card, plan))
    }

    fn of_reference(card: &[u8], plan: &[u8]) -> Result<Totals, Refusal> {
        reference::check_plan(card, plan)
    }

    fn fault(card: &[u8], _: &[u8], answer: &Result<Totals, Refusal>) -> Option<&'static str> {
        good::fault_after(card, answer)
    }

    fn count(&mut self, _: &[u8], answer: &Result<Totals, Refusal>) {
        self.count_refusal(answer.err());
    }
}

impl Display for Tally {
    fn fmt(&self, out: &mut Formatter) -> fmt::Result {
        write!(
            out,
            "{} plans, {} accepted, card refused 1 to 5: {:?}, plan refused 1 to 3: {:?}, 7 to 11: {:?}",
            self.plans(),
            self.accepted,
            &self.card_refused[1..],
            &self.plan_refused[1..4],
            &self.plan_refused[7..]
        )
    }
}

/// How often each damage was done to a plan, and how often it brought the refusal
/// that it is meant to bring.
#[derive(Debug, Clone)]
pub struct Damages {
    made: [usize; DAMAGES.len()],
    met: [usize; DAMAGES.len()],
}

impl Default for Damages {
    fn default() -> Damages {
        Damages {
            made: [0; DAMAGES.len()],
            met: [0; DAMAGES.len()],
        }
    }
}

impl Damages {
    pub fn add(&mut self, other: &Damages) {
        add(&mut self.made, &other.made);
        add(&mut self.met, &other.met);
    }

    /// Counts one plan that had the damage of that index done to it and met this refusal,
    /// or none.
    pub(super) fn count(&mut self, index: usize, refusal: Option<Refusal>) {
        self.made[index] += 1;
        let as_meant = match (DAMAGES[index].meant, refusal) {
            (Some(due), Some(Refusal::Plan { number, .. })) => number == due,
            (meant, _) => meant.is_none(),
        };
        self.met[index] += usize::from(as_meant);
    }

    /// The damages that brought what they are meant to bring fewer than `times`
    /// times; one that is left to chance counts whatever it brings.
    pub fn seldom(&self, times: usize) -> Vec<&'static str> {
        let damages = DAMAGES.iter().zip(self.met);
        let seldom = damages.filter(|&(_, met)| met < times);
        seldom.map(|(damage, _)| damage.name).collect()
    }
}

impl Display for Damages {
    fn fmt(&self, out: &mut Formatter) -> fmt::Result {
        for (index, damage) in DAMAGES.iter().enumerate() {
            let (made, met) = (self.made[index], self.met[index]);
            match damage.meant {
                Some(due) => writeln!(
                    out,
                    "  {:<31} {made:>6}, {met:>6} refused {due}",
                    damage.name
                )?,
                None => writeln!(out, "  {:<31} {made:>6}", damage.name)?,
            }
        }
        Ok(())
    }
}
