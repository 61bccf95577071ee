//! The quick test, as header, docs/FORMATS.md and docs/THEOREMS.md tell of it, beside what
//! the library answers.

use super::header::name;
use super::library::*;
use super::numbers::word;
use super::page::Held;
use super::rehearsal::line;
use super::Documents;
use agreement::{quick_test, CallGround, Quick};
use generate::{all_pairs, card_of, complete_card, two_way_card_of};

/// What the library answers, in the line of an example.
pub fn answered(card: &[u8]) -> String {
    match quick_test(card) {
        Ok(Quick { holds, n, least }) => {
            let yes_or_no = if holds { "yes" } else { "no" };
            format!("{yes_or_no}, n {n}, least {least}")
        }
        Err(refusal) => line(refusal),
    }
}

fn of_two_way(card: &[u8]) -> Quick {
    quick_test(card).expect("each link has a return")
}

/// The least n with which the rule holds at this f: that of a network with all links, where
/// the other number is as large as it can be.
fn fewest_servers(f: u8) -> u8 {
    let holds = |n: &u8| of_two_way(&complete_card(*n, f)).holds;
    let found = SIZES.n.iter().find(holds);
    found.expect("some network agrees")
}

/// The least number of servers to be taken away with which it holds at this f, where there
/// are as many servers as there can be.
fn fewest_away(f: u8) -> u8 {
    let n = SIZES.n.most();
    // The first servers are linked with all, and the last with none of the others.
    let around = |least: u8| {
        let mut pairs = all_pairs(n);
        pairs.retain(|&(u, v)| u < least || v < n - 1);
        of_two_way(&two_way_card_of(n, f, &pairs))
    };
    let mut all = (0..n - 1).map(|least| {
        let quick = around(least);
        assert_eq!(quick.least, least, "n {n} f {f}");
        quick
    });
    let found = all.find(|quick| quick.holds);
    found.expect("some network agrees").least
}

/// `3f+1`, from what is asked for at f 1 and at f 2.
pub fn formula(asked: fn(u8) -> u8) -> String {
    let times = asked(2) - asked(1);
    format!("{times}f+{}", asked(1) - times)
}

/// A ring of so many servers.
fn ring(n: u8) -> Vec<u8> {
    let pairs: Vec<(u8, u8)> = (0..n).map(|u| (u, (u + 1) % n)).collect();
    two_way_card_of(n, 0, &pairs)
}

/// The sections of the quick test, and what stands above its declaration.
pub fn stated(documents: &Documents) -> Held {
    let (servers, away) = (formula(fewest_servers), formula(fewest_away));
    let one_way = CallGround::OneWay.number();
    let apart = of_two_way(&card_of(2, 0, &[])).least;
    let rule = format!(
        "n is at least {servers}, and at least {away} servers must be taken away before the rest falls apart"
    );
    let page = &documents.header;
    let of = |which: &str| name(page, which).map(|name| name.value);
    let (answered, refused) = (of("AGREEMENT_ANSWERED")?, of("AGREEMENT_REFUSED")?);
    page.says_all(&[
        rule.clone(),
        format!("answer: {answered}, 1 if the rule holds and 0 if not, n, least."),
        format!("must be taken away, {apart} where the network is apart as it is;"),
        format!("The rule holds exactly if the split test answers {answered}, 0, 0, 0, 0."),
        format!(
            "Or answer: {refused}, what is at fault, number, place: the card's refusal, or {one_way} where \
             some link has no return."
        ),
    ])?;
    let round = of_two_way(&ring(4));
    let [three, four] = [3, 4].map(|n| of_two_way(&complete_card(n, 1)));
    assert_eq!(
        [round, three, four].map(|quick| quick.holds),
        [true, false, true]
    );
    documents.formats.says_all(&[
        rule,
        format!("without which the rest falls apart; {apart} if the network is apart as it is."),
        format!("and after that {one_way}, where some link has no return."),
        format!(
            "Four servers in a ring, f 0: the rule asks for {} and {}, and the ring has {} and {}.",
            // With no fault the rule asks for what is left of its formulas.
            servers.replace("3f+", ""),
            away.replace("2f+", ""),
            round.n,
            round.least
        ),
        format!(
            "P4 below, n {n} f 1 with all links, is answered yes with {n} and {},",
            four.least,
            n = four.n
        ),
        format!(
            "and P3, n {n} f 1 with all links, no with {n} and {}: f 1 takes {} servers.",
            three.least,
            word(usize::from(fewest_servers(1))),
            n = three.n
        ),
        "There is a link from 0 to 1 and none back:".to_string(),
    ])?;
    documents.theorems.says_all(&[
        format!("n and the least number, or the refusal, the card's, then {one_way}"),
        format!("by the rule for their n and f, and refuses {one_way} for the others"),
        format!("the same with a return missing, which is {one_way},"),
    ])
}
