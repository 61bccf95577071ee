//! The words of the answers, as the header tells of them.
//!
//! What each word is cannot be seen through the wrapper, which has made types of them:
//! here the header has to agree with itself and with the wrapper's declarations, and
//! campaign/refusals.c asks the library by the header's names.

use super::header::name;
use super::library::{HEAD, SIZES};
use super::numbers::{row, word};
use super::page::{Held, Page};
use super::runs::{FAULTY, SILENCE};
use super::Documents;
use agreement::CallGround;

/// What the wrapper declares, and calls.
const DECLARED: &str = include_str!("../../../agreement/src/library.rs");

const FUNCTIONS: [&str; 12] = [
    "agreement_read_card",
    "agreement_print_card",
    "agreement_split_test",
    "agreement_quick_test",
    "agreement_check_plan",
    "agreement_write_plan",
    "agreement_separate_routes",
    "agreement_load",
    "agreement_run",
    "agreement_start",
    "agreement_ask",
    "agreement_commit",
];

/// Those that take a state.
const OF_A_STATE: [&str; 2] = ["agreement_ask", "agreement_commit"];

/// The number after `before`, in the declaration of a function.
fn words(text: &str, function: &str, before: &str) -> Option<usize> {
    let (_, after) = text.split_once(&format!(" {function}("))?;
    let (_, after) = after.split_once(before)?;
    after.split(']').next()?.parse().ok()
}

/// The lengths of the answers, in the order of [`FUNCTIONS`].
fn lengths(page: &Page) -> Result<[usize; FUNCTIONS.len()], String> {
    let mut lengths = [0; FUNCTIONS.len()];
    for (length, function) in lengths.iter_mut().zip(FUNCTIONS) {
        *length = same_words(page, function, "*mut [u64; ", "uint64_t answer[")?;
    }
    Ok(lengths)
}

/// The length of a state.
fn state_length(page: &Page) -> Result<usize, String> {
    let mut length = 0;
    for function in OF_A_STATE {
        length = same_words(page, function, "*const [u64; ", "const uint64_t state[")?;
    }
    Ok(length)
}

/// How many words the wrapper's declaration of a function has after `ours`, which the
/// header's must have after `theirs`.
fn same_words(page: &Page, function: &str, ours: &str, theirs: &str) -> Result<usize, String> {
    let ours = words(DECLARED, function, ours).expect("the wrapper's declaration");
    if words(&page.lines.join("\n"), function, theirs) == Some(ours) {
        return Ok(ours);
    }
    let is_there = |line: &String| line.contains(&format!(" {function}("));
    let line = page.lines.iter().position(is_there).unwrap_or_default();
    Err(page.fault(line, format!("{function} has {ours} words there")))
}

pub fn stated(documents: &Documents) -> Held {
    let page = &documents.header;
    let [reader, _, split, _, check, write, routes, load, _, start, ask, _] = lengths(page)?;
    assert_eq!(routes, check, "words of the shortest answers");
    let state = state_length(page)?;
    let of = |which: &str| name(page, which).map(|name| name.value);
    let answered = of("AGREEMENT_ANSWERED")?;
    let (bad_split, refused) = (of("AGREEMENT_BAD_SPLIT")?, of("AGREEMENT_REFUSED")?);
    let buffer = CallGround::Buffer.number();
    let servers = usize::from(SIZES.n.most());
    let (eight, before_rows) = (word(servers), reader - servers);
    let before_counts = load - servers;
    // A refusal has four words, as that of the plan check.
    let not_of_refusal = word(load - check);
    let zeros = vec!["0"; split - 1].join(", ");
    let silence = *SILENCE;
    page.says_all(&[
        format!("`answer` points to {check}, {split}, {start}, {ask}, {write}, {load} or {reader} words"),
        format!("`state` points to {state} words, which it only reads."),
        "a call's refusal has place 0.".to_string(),
        format!("then zeros but for {}, which has F, L, C, R", CallGround::BadSplit.number()),
        format!("answer: {answered}, n, f, 0 and {eight} rows."),
        format!("Row u, the word answer[{before_rows} + u],"),
        "and it is 0 where u is no server.".to_string(),
        format!("Or answer: {refused}, AGREEMENT_CARD, number, place and {eight} zeros."),
        format!("answer: {answered}, bytes, 0, 0. Then the first `bytes` bytes of `lent` are"),
        format!(
            "Or answer: {refused}, what is at fault, number, place: the card's refusal, or {buffer} \
             where `lent` is shorter than the clean card."
        ),
        format!("answer: {answered}, {zeros} if they can"),
        format!("; {bad_split}, F, L, C, R, the first split that breaks it"),
        format!("or {refused}, AGREEMENT_CARD, number, place, 0."),
        format!("answer: {answered}, blocks, carriages, 0 exactly if it does;"),
        format!("or {refused}, AGREEMENT_CARD or AGREEMENT_PLAN, number, place."),
        // Of the plan writer, as many words as its declaration has.
        format!("answer: {answered}, bytes, {}. Then the first `bytes` bytes", row(vec![0; write - 2])),
        format!(
            "Or answer: {refused}, AGREEMENT_CALL, {}, 0, F, L, C, R exactly if agreement_split_test \
             answers {bad_split}, F, L, C, R;",
            CallGround::BadSplit.number()
        ),
        format!(
            "or {refused}, what is at fault, number, place, {}: the card's refusal or,",
            row(vec![0; write - check])
        ),
        format!("no split is bad, {} if `lent` is shorter than the plan.", CallGround::PlanBuffer.number()),
        // Of separate routes.
        format!("answer: {answered}, 1, f+1, 0 if there are so many routes."),
        format!("Else answer: {answered}, 0, servers, count."),
        format!(
            "Or answer: {refused}, what is at fault, number, place: the card's refusal; {} where `faults` \
             has more than f servers,",
            CallGround::FaultSet.number()
        ),
        format!("or {buffer} where there are f+1 routes and `lent` is shorter than they are."),
        format!("answer: {answered} and {eight} counts. The word answer[{before_counts} + i] is the number of"),
        "and it is 0 where i is no server.".to_string(),
        format!(
            "Or answer: {refused}, AGREEMENT_CARD or AGREEMENT_PLAN, number, place and {not_of_refusal} zeros:"
        ),
        format!("answer: {answered}, blocks, carriages, 0. Then the first n bytes of `lent`"),
        format!("are the decided bits, {FAULTY} for a faulty server"),
        format!("Or answer: {refused}, what is at fault, number, place."),
        format!("card: the first command is not {HEAD:02X}, or {HEAD:02X} again"),
        format!("{HEAD:02X} is not first, or not the only one"),
        "call: inputs not n bytes of 0 or 1".to_string(),
        "servers are 0 to n-1,".to_string(),
        format!("0 or 1, any other counting as unsure and a missing one as {silence}: no word"),
    ])
}
