//! The plan writer and separate routes, as docs/FORMATS.md and docs/THEOREMS.md tell of them,
//! beside what the library answers.

use super::commands::route_operand;
use super::examples::bytes;
use super::library::*;
use super::numbers::{hexadecimal, listed, quoted};
use super::page::Held;
use super::rehearsal::line;
use super::Documents;
use agreement::{
    plan_for, routes_for, separate_routes, write_plan, CallGround, Refusal, Routes, Separate,
    ServerSet, Unwritten,
};
use generate::complete_card;
use std::sync::LazyLock;

/// What the plan writer refuses beside the card, and what separate routes do, in their order.
pub const OF_WRITER: [CallGround; 2] = [CallGround::BadSplit, CallGround::PlanBuffer];
pub const OF_ROUTES: [CallGround; 2] = [CallGround::FaultSet, CallGround::Buffer];

/// What the plan writer answers with so many bytes lent, in the line of an example.
pub fn written(card: &[u8], lent: usize) -> String {
    let mut lent = vec![0; lent];
    match write_plan(card, &mut lent) {
        Ok(bytes) => format!("written {}", hexadecimal(&lent[..bytes])),
        Err(unwritten) => {
            let refused = line(unwritten.refusal());
            match unwritten {
                Unwritten::BadSplit(split) => {
                    let sets = [split.f, split.l, split.c, split.r].map(ServerSet::bits);
                    let [f, l, c, r] = sets.map(|set| format!("{set:02X}"));
                    format!("{refused}, F {f} L {l} C {c} R {r}")
                }
                Unwritten::Refused(_) => refused,
            }
        }
    }
}

/// From where, to where, and without whom.
#[derive(Debug)]
pub struct Way {
    faults: ServerSet,
    pub sources: ServerSet,
    pub receiver: u8,
}

/// The way of a line `routes 00 03 2`.
pub fn way(text: &str) -> Result<Way, String> {
    let none = || format!("`{text}` is no way");
    let (sets, receiver) = text.rsplit_once(' ').ok_or_else(none)?;
    let [faults, sources] = bytes(sets)?[..] else {
        return Err(none());
    };
    Ok(Way {
        faults: ServerSet::from_bits(faults),
        sources: ServerSet::from_bits(sources),
        receiver: receiver.parse().map_err(|_| none())?,
    })
}

/// What separate routes are answered with, in the line of an example.
pub fn routed(card: &[u8], way: &Way) -> String {
    match routes_for(card, way.faults, way.sources, way.receiver) {
        Ok(Routes::Separate(routes)) => {
            let routes = routes.iter().map(|route| {
                let servers: Vec<String> = route.iter().map(u8::to_string).collect();
                servers.join(" ")
            });
            format!("separate {}", listed(routes))
        }
        Ok(Routes::Cut(servers)) => format!("met {:02X}", servers.bits()),
        Err(refusal) => line(refusal),
    }
}

/// How many routes are found at most.
pub static MOST_ROUTES: LazyLock<usize> = LazyLock::new(|| {
    let found = every_size().filter_map(|(n, f)| routes_of_all(n, f));
    found.max().expect("some routes are separate")
});

/// The separate routes to server 0 from all others, where all links are there.
fn routes_of_all(n: u8, f: u8) -> Option<usize> {
    match routes_for(&complete_card(n, f), ServerSet::EMPTY, all_servers(n), 0) {
        Ok(Routes::Separate(routes)) => Some(routes.len()),
        _ => None,
    }
}

/// A buffer of a plan's limit is enough for the plan of every size, and one of the most routes
/// for every number of them; one byte fewer than the routes take is refused.
pub fn limits_are_enough() {
    for (n, f) in every_size() {
        let card = complete_card(n, f);
        if has_plan(n, f) {
            let plan = plan_for(&card).expect("no split is bad");
            assert!(plan.len() <= *PLAN_LIMIT, "n {n} f {f}");
        }
        let Some(routes) = routes_of_all(n, f) else {
            continue;
        };
        let due = route_operand() * routes;
        let mut lent = vec![0; due];
        let mut asked = |length| {
            let lent = &mut lent[..length];
            separate_routes(&card, ServerSet::EMPTY, all_servers(n), 0, lent)
        };
        assert_eq!(asked(due), Ok(Separate::Found { routes }), "n {n} f {f}");
        let ground = CallGround::Buffer;
        assert_eq!(asked(due - 1), Err(Refusal::Call { ground }), "n {n} f {f}");
    }
}

pub fn stated(documents: &Documents) -> Held {
    let [bad_split, short] = OF_WRITER.map(CallGround::number);
    let [strangers, buffer] = OF_ROUTES.map(CallGround::number);
    let [to_s, from_s] = [TO_S, FROM_S].map(|command| quoted(&[command]));
    documents.formats.says_all(&[
        format!("then {bad_split}, exactly if the split test finds a bad split,"),
        format!("then {short}, where the buffer is shorter than the plan."),
        format!("What a {to_s} and a {from_s} are made of can be asked for by itself:"),
        format!("{} bytes for each, as a plan has them.", route_operand()),
        format!("then {strangers}, where the faulty set has more than f servers,"),
        format!("then {buffer}, where routes are found and the buffer is shorter than they are."),
    ])?;
    documents.theorems.says_all(&[
        format!(
            "the card's, then {bad_split} with the first bad split, then {short}; and every byte"
        ),
        format!("or the refusal, the card's, then {strangers}, then {buffer}; and every byte"),
        format!("{bad_split} with the first bad split exactly when there is one, then {short}.*"),
        format!("| refused {bad_split} with a split exactly if the split test reports that split,"),
        format!("refused {short} exactly if the plan is longer than what is lent |"),
    ])
}
