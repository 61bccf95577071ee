//! The limits that are no single number, asked of the library: which cards, plans and
//! calls are within them.

use super::library::*;
use super::plans::{plan, shortest, EXTREMES};
use crate::rehearsals::FILE_LIMIT;
use agreement::{check_plan, read_card, run, CallGround, CardGround, Refusal, ServerSet};
use generate::{card_of, complete_card};

/// A card is too long from the limit on and not before, and a plan around its limit.
pub fn lengths_are_kept() {
    for length in 0..=2 * *CARD_LIMIT {
        let ground = CardGround::TooLong;
        let refused = read_card(&vec![0; length]) == Err(Refusal::Card { ground, place: 0 });
        assert_eq!(refused, length > *CARD_LIMIT, "a card of {length} bytes");
    }
    let card = complete_card(2, 0);
    for (length, number) in [(*PLAN_LIMIT, 2), (*PLAN_LIMIT + 1, 1)] {
        let refusal = check_plan(&card, &vec![0; length]).expect_err("zeros are no plan");
        let answer = (refusal.number(), refusal.place());
        assert_eq!(answer, (number, Some(0)), "a plan of {length} bytes");
    }
}

/// The servers are 0 to n-1: of all bytes a link leads between two different ones of them.
pub fn servers_are_the_first_n() {
    for n in SIZES.n.iter() {
        for (u, v) in (0..=u8::MAX).flat_map(|u| (0..=u8::MAX).map(move |v| (u, v))) {
            let answer = read_card(&card_of(n, 0, &[(u, v)])).map(|network| network.linked(u, v));
            let ground = CardGround::Range;
            let expected = match u < n && v < n && u != v {
                true => Ok(true),
                false => Err(Refusal::Card { ground, place: 3 }),
            };
            assert_eq!(answer, expected, "n {n}, a link from {u} to {v}");
        }
    }
}

/// A network with an accepted plan, to be run.
struct Site {
    n: u8,
    f: u8,
    card: Vec<u8>,
    plan: Vec<u8>,
}

impl Site {
    fn of(n: u8, f: u8) -> Site {
        Site {
            n,
            f,
            card: complete_card(n, f),
            plan: plan(f, &shortest(n, f)),
        }
    }

    fn inputs(&self) -> Vec<u8> {
        vec![0; usize::from(self.n)]
    }

    /// Why a call is refused, if it is.
    fn refused(&self, inputs: &[u8], faulty: u8, table: &[u8], lent: usize) -> Option<CallGround> {
        let mut lent = vec![0; lent];
        let faulty = ServerSet::from_bits(faulty);
        match run(&self.card, &self.plan, inputs, faulty, table, &mut lent) {
            Err(Refusal::Call { ground }) => Some(ground),
            Err(refusal) => panic!("n {} f {}: {refusal}", self.n, self.f),
            Ok(_) => None,
        }
    }
}

/// Inputs, faulty set, message table and lent buffer are each within their limit or not.
pub fn calls_are_kept() {
    for extreme in EXTREMES.iter() {
        let site = Site::of(extreme.n, extreme.f);
        inputs_are_n_bits(&site);
        at_most_f_are_faulty(&site);
        tables_are_any_bytes(&site);
        buffers_have_n_bytes(&site);
    }
}

/// Of the bytes, fewer where a plan is long and each call takes a millisecond.
fn bytes(site: &Site) -> impl Iterator<Item = u8> {
    let step = if site.plan.len() > FILE_LIMIT { 5 } else { 1 };
    (0..=u8::MAX).step_by(step)
}

fn inputs_are_n_bits(site: &Site) {
    let right = site.inputs();
    for length in 0..=right.len() + 2 {
        let ground = (length != right.len()).then_some(CallGround::Inputs);
        let answer = site.refused(&vec![0; length], 0, &[], right.len());
        assert_eq!(answer, ground, "{length} inputs of {} servers", site.n);
    }
    for byte in bytes(site) {
        let mut inputs = right.clone();
        inputs[usize::from(byte % site.n)] = byte;
        let ground = (byte > 1).then_some(CallGround::Inputs);
        assert_eq!(
            site.refused(&inputs, 0, &[], right.len()),
            ground,
            "input {byte}"
        );
    }
}

fn at_most_f_are_faulty(site: &Site) {
    let right = site.inputs();
    for byte in bytes(site) {
        let set = ServerSet::from_bits(byte);
        let may_fail = set.len() <= usize::from(site.f) && set.is_within(all_servers(site.n));
        let ground = (!may_fail).then_some(CallGround::FaultSet);
        let answer = site.refused(&right, byte, &[], right.len());
        assert_eq!(
            answer, ground,
            "n {} f {}, faulty set {set:?}",
            site.n, site.f
        );
    }
}

fn tables_are_any_bytes(site: &Site) {
    let right = site.inputs();
    for length in [0, 1, 100, 100_000] {
        let table: Vec<u8> = (0..length).map(|index| index as u8).collect();
        let answer = site.refused(&right, 0, &table, right.len());
        assert_eq!(answer, None, "a message table of {length} bytes");
    }
}

fn buffers_have_n_bytes(site: &Site) {
    let right = site.inputs();
    for length in 0..=usize::from(SIZES.n.most()) + 1 {
        let ground = (length < right.len()).then_some(CallGround::Buffer);
        let answer = site.refused(&right, 0, &[], length);
        assert_eq!(answer, ground, "{length} bytes lent to {} servers", site.n);
    }
}
