//! The load by the two implementations, and how often each answer was met.

use crate::plans::{self, good, Compared};
use crate::text::Plain;
use crate::{add, converted};
use reference::{relaying_places, Refusal};
use std::fmt::{self, Display, Formatter};

/// How many routes each of eight servers relays.
type Counts = [usize; 8];

impl Plain for Counts {
    fn plain(&self) -> String {
        self.map(|count| count.to_string()).join(" ")
    }
}

/// How often each answer was met.
#[derive(Debug, Clone, Default)]
pub struct Tally {
    /// Accepted and refused plans.
    pub plans: plans::Tally,
    /// Accepted plans by n and f, those without a relay and those with one.
    pub accepted: [[[usize; 2]; 3]; 9],
    /// What the counts of accepted plans come to for each server.
    pub relayed: Counts,
}

impl Tally {
    pub fn plans(&self) -> usize {
        self.plans.plans()
    }

    /// Accepted plans in which some route has a relay.
    pub fn with_relays(&self) -> usize {
        self.accepted.iter().flatten().map(|[_, with]| with).sum()
    }

    pub fn add(&mut self, other: &Tally) {
        self.plans.add(&other.plans);
        add(&mut self.relayed, &other.relayed);
        let sizes = self.accepted.iter_mut().flatten();
        for (counts, more) in sizes.zip(other.accepted.iter().flatten()) {
            add(counts, more);
        }
    }
}

impl Compared for Tally {
    type Answer = Counts;

    fn of_library(card: &[u8], plan: &[u8]) -> Result<Counts, Refusal> {
        converted::load(agreement::load(card, plan))
    }

    fn of_reference(card: &[u8], plan: &[u8]) -> Result<Counts, Refusal> {
        reference::load(card, plan)
    }

    fn fault(card: &[u8], plan: &[u8], answer: &Result<Counts, Refusal>) -> Option<&'static str> {
        let checked = converted::totals(agreement::check_plan(card, plan));
        if answer.err() != checked.err() {
            return Some("the load and the plan check are not refused alike");
        }
        let counts = answer.ok()?;
        if counts.iter().sum::<usize>() != relaying_places(plan) {
            return Some("the counts do not add up to the relaying places");
        }
        let from_n_on = &counts[servers(card)..];
        let stranger = from_n_on.iter().any(|&count| count > 0);
        if stranger {
            return Some("a server that is not there relays");
        }
        good::fault(card)
    }

    fn count(&mut self, card: &[u8], answer: &Result<Counts, Refusal>) {
        self.plans.count_refusal(answer.err());
        if let Ok(counts) = answer {
            let (n, f) = (servers(card), usize::from(card[2]));
            let relays = counts.iter().any(|&count| count > 0);
            self.accepted[n][f][usize::from(relays)] += 1;
            add(&mut self.relayed, counts);
        }
    }
}

/// The n of a card with an accepted plan, which is therefore sound.
fn servers(card: &[u8]) -> usize {
    usize::from(card[1])
}

impl Display for Tally {
    fn fmt(&self, out: &mut Formatter) -> fmt::Result {
        write!(
            out,
            "{}; {} with relays, relayed by servers 0 to 7: {:?}",
            self.plans,
            self.with_relays(),
            self.relayed
        )
    }
}
