//! The runs to be timed: accepted plans for complete networks, with as many faulty
//! servers as there may be and a table of random bits.

use crate::plans::planned;
use agreement::ServerSet;
use compare::converted;
use generate::Rng;
use reference::{Refusal, Totals};

/// What a run of the library answers, and the lent buffer after it.
type OfLibrary = (Result<agreement::Totals, agreement::Refusal>, [u8; 8]);
/// The same of a run of the reference.
type OfReference = (Result<Totals, Refusal>, [u8; 8]);

/// What the lent bytes start out as.
pub const UNTOUCHED: u8 = 9;

/// A call to run with a name for the table and what it comes to.
pub struct Case {
    pub name: &'static str,
    pub card: Vec<u8>,
    pub plan: Vec<u8>,
    pub inputs: Vec<u8>,
    pub faulty: u8,
    pub table: Vec<u8>,
    totals: Totals,
    lent: [u8; 8],
}

impl Case {
    /// Times of wrong answers would be worth nothing.
    pub fn assert_answers(&self) {
        let expected = (Ok(self.totals), self.lent);
        let (answer, lent) = self.library();
        let library = (converted::totals(answer), lent);
        assert_eq!(library, expected, "library on {}", self.name);
        assert_eq!(self.reference(), expected, "reference on {}", self.name);
    }

    pub fn library(&self) -> OfLibrary {
        let mut lent = [UNTOUCHED; 8];
        let answer = agreement::run(
            &self.card,
            &self.plan,
            &self.inputs,
            ServerSet::from_bits(self.faulty),
            &self.table,
            &mut lent,
        );
        (answer, lent)
    }

    pub fn reference(&self) -> OfReference {
        let mut lent = [UNTOUCHED; 8];
        let answer = reference::run(
            &self.card,
            &self.plan,
            &self.inputs,
            self.faulty,
            &self.table,
            &mut lent,
        );
        (answer, lent)
    }
}

pub fn cases() -> Vec<Case> {
    let (small_card, small) = planned(5, 1);
    let (large_card, large) = planned(8, 2);
    vec![
        Case {
            name: "run n 5 f 1",
            card: small_card,
            plan: small,
            inputs: vec![0, 1, 0, 1, 1],
            faulty: 0b0_0100,
            table: random_bits(580),
            totals: Totals {
                blocks: 50,
                carriages: 580,
            },
            lent: [1, 1, 2, 1, 1, UNTOUCHED, UNTOUCHED, UNTOUCHED],
        },
        Case {
            name: "run n 8 f 2",
            card: large_card,
            plan: large,
            inputs: vec![0, 1, 0, 1, 1, 0, 1, 0],
            faulty: 0b0010_0100,
            table: random_bits(43_334),
            totals: Totals {
                blocks: 1_499,
                carriages: 43_334,
            },
            lent: [1, 1, 2, 1, 1, 2, 1, 1],
        },
    ]
}

fn random_bits(count: usize) -> Vec<u8> {
    let mut rng = Rng::new(3);
    (0..count).map(|_| rng.below(2) as u8).collect()
}
