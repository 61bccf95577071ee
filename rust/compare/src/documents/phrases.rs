//! Commands, places and refusals that the documents name in the middle of a sentence.

use super::blocks::due;
use super::library::*;
use super::numbers::{quoted, row};
use super::page::Held;
use super::plans::{choices, plan, shortest};
use super::Documents;
use agreement::{check_plan, read_card, CardGround, PlanGround, Refusal};
use generate::{card_of, complete_card, places};
use std::sync::LazyLock;

/// Those of docs/FORMATS.md, made once.
static OF_FORMATS: LazyLock<Vec<String>> =
    LazyLock::new(|| [on_cards(), on_blocks(), on_routes(), on_run_in()].concat());

pub fn stated(documents: &Documents) -> Held {
    documents.formats.says_all(&OF_FORMATS)?;
    documents.theorems.says_all(&[
        format!("`Fan` for {TO_S:02X} and {FROM_S:02X}, `Mesh` for {WITHIN_S:02X}, `IsReport` for {REPORT:02X}"),
        format!("{PLAN_END:02X} early and bytes after it"),
    ])
}

fn on_cards() -> Vec<String> {
    let [head, link, end, plan_end] =
        [HEAD, LINK, CARD_END, PLAN_END].map(|command| quoted(&[command]));
    // The first byte is at fault here, and the length there.
    let place = |card: &[u8]| read_card(card).expect_err("a refused card").place();
    let first = place(&[LINK, 0, 1]).expect("the card is at fault");
    let too_long = place(&vec![HEAD; *CARD_LIMIT + 1]).expect("the card is at fault");
    let [zero, one, newline] = [b'0', b'1', b'\n'].map(|text| quoted(&[text]));
    vec![
        format!("The first byte has place {first}."),
        format!("{head} is the first command, at place {first}, and stands only there."),
        format!("{end} is the last byte of the card."),
        format!("first command not {head}, or {head} again"),
        format!("another command than {head} (place {first}), or {head} stands again"),
        format!("Begin the card with {head}, n and f, and give them once."),
        format!("The place is that of the {head} or {link}."),
        "Number the offices from 0, so that the last one is n−1".to_string(),
        format!("A byte follows {end} in a card or {plan_end} in a plan."),
        format!("in an empty card, a card without {end} and a plan without {plan_end}:"),
        format!("then {end}, a command of the card, stands in a plan:"),
        format!("{newline} is a newline that an editor added."),
        format!("{zero} or {one} at place {first} is a digit written as text."),
        format!("{zero} and {one} are digits written as text."),
        format!(
            "| {} | card, plan | over its length | {too_long} |",
            CardGround::TooLong.number()
        ),
    ]
}

fn on_blocks() -> Vec<String> {
    let [block, to_s, within_s, from_s, report, end] =
        [BLOCK, TO_S, WITHIN_S, FROM_S, REPORT, PLAN_END].map(|command| quoted(&[command]));
    let not_due = PlanGround::NotDue.number();
    let reporters = PlanGround::Reporters.number();
    vec![
        mesh(),
        format!("If S lies within A there is no {to_s}, if S has one server no {within_s},"),
        format!("if S is V−F no {from_s}, if F is empty no {report}."),
        "Carriages are numbered from 0 in plan order".to_string(),
        format!("So a route has one number and a {report} has f+1."),
        format!("{end} before the last block is done and any other command"),
        format!("where {end} is due are {not_due} too."),
        format!("Or it is a {block} with another F than the one due"),
        format!("a server outside V in F or A is {not_due}."),
        format!("or one outside V. The place is that of the {block}."),
        format!("The operands of {block} stand in the order F, A, S."),
        format!("All faults of a {report} that is due are {reporters}: another k"),
        format!("without a link to k. The place is that of the {report}."),
    ]
}

/// The order of the routes within an S of three servers.
fn mesh() -> String {
    let all = all_servers(3);
    let mut blocks = shortest(3, 0);
    let whole = choices(due(3, 0)[0]).find(|choice| choice.s == all);
    blocks[0] = whole.expect("S may be all of V");
    let plan = plan(0, &blocks);
    let answer = check_plan(&complete_card(3, 0), &plan);
    assert!(answer.is_ok(), "a plan with S {all:?}: {answer:?}");
    let first = places(&plan, &[WITHIN_S]).into_iter().take(6);
    let routes = first.map(|place| format!("{} to {}", plan[place + 1], plan[place + 2]));
    let (s, command) = (quoted(&[all.bits()]), quoted(&[WITHIN_S]));
    format!(
        "For S {s} the {command} routes go, source first, {}.",
        row(routes)
    )
}

fn on_routes() -> Vec<String> {
    let [to_s, within_s, from_s, fill] =
        [TO_S, WITHIN_S, FROM_S, FILL].map(|command| quoted(&[command]));
    let route = PlanGround::Route.number();
    vec![
        relayed(),
        not_separate(),
        format!("The fill starts at the first {fill}, and every byte after that is {fill}."),
        format!("The f+1 routes of a {to_s} or a {from_s} to one receiver share nothing"),
        format!("Routes of {within_s} may share."),
        format!("a route of {to_s} or {from_s} shares a server, the receiver aside"),
        format!("A route of {to_s} or {from_s} shares a server"),
        format!("a wrong one is {route}, for {within_s} too."),
        format!("sources of {to_s} are in A, of {from_s} in S."),
    ]
}

/// A route over a relay, which the library takes where its two links are there.
fn relayed() -> String {
    let (source, relay, receiver) = (0, 2, 1);
    let route = [&[FROM_S, source, relay, receiver][..], &[FILL; 5]].concat();
    let plan = [&[BLOCK, 0, 1, 1], &route[..]].concat();
    let card = card_of(3, 0, &[(source, relay), (relay, receiver)]);
    // The next command is missing: the route was taken.
    let (ground, place) = (PlanGround::Cut, plan.len());
    assert_eq!(
        check_plan(&card, &plan),
        Err(Refusal::Plan { ground, place })
    );
    format!(
        "{} goes from source {source} over relay {relay} to receiver {receiver}.",
        quoted(&route)
    )
}

/// Two routes that the library finds to share their source.
fn not_separate() -> String {
    let (source, relay, receiver) = (2, 0, 4);
    // Of five servers 2 and 3 are S, and 4 is the third receiver outside it.
    let direct = |kind, from, to| [&[kind, from, to][..], &[FILL; 6]].concat();
    let within = [direct(WITHIN_S, 3, 2), direct(WITHIN_S, 2, 3)].concat();
    let to_0 = [direct(FROM_S, 2, 0), direct(FROM_S, 3, 0)].concat();
    let to_1 = [direct(FROM_S, 2, 1), direct(FROM_S, 3, 1)].concat();
    let first = direct(FROM_S, source, receiver);
    let second = [&[FROM_S, source, relay, receiver][..], &[FILL; 5]].concat();
    let start = [&[BLOCK, 0, 0x1e, 0x0c], &within[..], &to_0, &to_1, &first].concat();
    let (ground, place) = (PlanGround::Shared, start.len());
    let answer = check_plan(&complete_card(5, 1), &[start, second].concat());
    assert_eq!(answer, Err(Refusal::Plan { ground, place }));
    format!(
        "sources included: {source} → {receiver} and {source} → {relay} → {receiver} are not separate."
    )
}

/// The places of `run.in`, which [`super::rehearsal`] goes by.
fn on_run_in() -> Vec<String> {
    vec![
        "`run.in` has the faulty set at place 0, the inputs of servers 0 to n−1 at places 1 to n,"
            .to_string(),
        "the byte of carriage k is at place n+1+k.".to_string(),
        "then `server I decided X` for I from 0 to n−1".to_string(),
        "Place 0 of `run.in` has a set".to_string(),
    ]
}
