//! The cards to be timed with the plan writer: networks with all links, and with so few that
//! without any of them a split is bad.

use compare::converted;
use generate::{bare_card, complete_card, Rng};

/// A card with a name for the table and the length of its plan.
pub struct Case {
    pub name: &'static str,
    pub card: Vec<u8>,
    bytes: usize,
}

impl Case {
    /// Times of wrong answers would be worth nothing.
    pub fn assert_answers(&self) {
        let (answer, plan) = self.library();
        assert_eq!(
            converted::written(answer),
            Ok(self.bytes),
            "library on {}",
            self.name
        );
        let checked = agreement::check_plan(&self.card, &plan);
        assert!(checked.is_ok(), "plan of the library on {}", self.name);
        let (answer, _) = self.reference();
        assert_eq!(answer, Ok(self.bytes), "reference on {}", self.name);
    }

    /// The plan written into a fresh buffer that has just room for it.
    pub fn library(&self) -> (Result<usize, agreement::Unwritten>, Vec<u8>) {
        let mut lent = vec![0; self.bytes];
        (agreement::write_plan(&self.card, &mut lent), lent)
    }

    /// The same by the reference.
    pub fn reference(&self) -> (Result<usize, reference::Unwritten>, Vec<u8>) {
        let mut lent = vec![0; self.bytes];
        (reference::write_plan(&self.card, &mut lent), lent)
    }
}

pub fn cases() -> Vec<Case> {
    vec![
        Case {
            name: "n 5 f 1, as few links as can be",
            card: sparse_card(5, 1),
            bytes: 3_276,
        },
        Case {
            name: "n 5 f 1, all links",
            card: complete_card(5, 1),
            bytes: 3_276,
        },
        Case {
            name: "n 8 f 2, as few links as can be",
            card: sparse_card(8, 2),
            bytes: 235_548,
        },
        Case {
            name: "n 8 f 2, all links",
            card: complete_card(8, 2),
            bytes: 235_548,
        },
    ]
}

/// A network that can lack no link, always the same one.
fn sparse_card(n: u8, f: u8) -> Vec<u8> {
    bare_card(&mut Rng::new(2), n, f).expect("n is over 3f")
}
