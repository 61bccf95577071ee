//! The plans to be timed: accepted ones for complete networks, and one that is
//! refused at the last command before its end.

use compare::converted;
use generate::{complete_card, places, plan, Rng};
use reference::{Refusal, Totals};

/// The command 14 of a plan.
const NEIGHBOURS: u8 = 0x14;

/// A plan with its card, a name for the table and what is answered on it.
pub struct Case {
    pub name: &'static str,
    pub card: Vec<u8>,
    pub plan: Vec<u8>,
    /// Of the plan check, and how many routes each server relays; or the refusal of both.
    answer: Result<(Totals, [usize; 8]), Refusal>,
}

impl Case {
    pub fn is_accepted(&self) -> bool {
        self.answer.is_ok()
    }

    /// Times of wrong answers would be worth nothing.
    pub fn assert_answers(&self) {
        let totals = self.answer.map(|(totals, _)| totals);
        let library = converted::totals(agreement::check_plan(&self.card, &self.plan));
        assert_eq!(library, totals, "library on {}", self.name);
        let reference = reference::check_plan(&self.card, &self.plan);
        assert_eq!(reference, totals, "reference on {}", self.name);

        let relayed = self.answer.map(|(_, relayed)| relayed);
        let library = converted::load(agreement::load(&self.card, &self.plan));
        assert_eq!(library, relayed, "load by the library on {}", self.name);
        let reference = reference::load(&self.card, &self.plan);
        assert_eq!(reference, relayed, "load by the reference on {}", self.name);
    }
}

pub fn cases() -> Vec<Case> {
    let (small_card, small) = planned(5, 1);
    let (large_card, large) = planned(8, 2);
    let (refused, place) = refused_late(&large);
    vec![
        Case {
            name: "n 5 f 1, 50 blocks, 4,896 bytes",
            card: small_card,
            plan: small,
            answer: accepted(50, 580, [42, 33, 39, 40, 53, 0, 0, 0]),
        },
        Case {
            name: "n 8 f 2, 1,499 blocks, 342,243 bytes",
            card: large_card.clone(),
            plan: large,
            answer: accepted(
                1_499,
                43_334,
                [3_713, 3_672, 3_699, 3_562, 3_654, 3_717, 3_495, 3_697],
            ),
        },
        Case {
            name: "n 8 f 2, the same refused at its last N",
            card: large_card,
            plan: refused,
            answer: Err(Refusal::Plan { number: 11, place }),
        },
    ]
}

fn accepted(
    blocks: usize,
    carriages: usize,
    relayed: [usize; 8],
) -> Result<(Totals, [usize; 8]), Refusal> {
    Ok((Totals { blocks, carriages }, relayed))
}

/// The complete network and a random plan for it, always the same one, in which all
/// commands come up.
pub fn planned(n: u8, f: u8) -> (Vec<u8>, Vec<u8>) {
    let card = complete_card(n, f);
    let plan = plan(&mut Rng::new(2), &card).expect("n is over 3f");
    (card, plan)
}

/// `plan` with an empty N in its last 14 command, and the place of that command.
fn refused_late(plan: &[u8]) -> (Vec<u8>, usize) {
    let mut refused = plan.to_vec();
    let sets = places(plan, &[NEIGHBOURS]);
    let place = *sets.last().expect("f is not 0");
    refused[place + 2] = 0;
    (refused, place)
}
