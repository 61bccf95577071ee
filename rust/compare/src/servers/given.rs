//! The cases of `data/starts.tsv`, `data/asks.tsv` and `data/commits.tsv`, whose answers
//! neither implementation made.

use super::tally::{state, Call, Tally, What};
use crate::lent::Call as _;
use crate::text::{cases, plan_after, unhex};
use reference::State;
use std::str::FromStr;

/// Makes every given start to both implementations and counts the answers.
///
/// Panics at the first answer that is not the one stated, as do the two below.
pub fn given_starts() -> Tally {
    const STARTS: &str = include_str!("../../data/starts.tsv");
    held(STARTS, "data/starts.tsv", |fields, _| match fields {
        [input] => What::Start {
            input: number(input),
        },
        _ => panic!("a start has an input: {fields:?}"),
    })
}

/// The same for every given ask.
pub fn given_asks() -> Tally {
    const ASKS: &str = include_str!("../../data/asks.tsv");
    held(ASKS, "data/asks.tsv", |fields, _| match fields {
        [state, lent] => What::Ask {
            state: of_words(state),
            lent: number(lent),
        },
        _ => panic!("an ask has a state and a length: {fields:?}"),
    })
}

/// The same for every given commit.
pub fn given_commits() -> Tally {
    const COMMITS: &str = include_str!("../../data/commits.tsv");
    held(COMMITS, "data/commits.tsv", |fields, bytes| match fields {
        [state, arrived] => {
            *bytes = unhex(arrived);
            What::Commit {
                state: of_words(state),
                arrived: bytes,
            }
        }
        _ => panic!("a commit has a state and arrivals: {fields:?}"),
    })
}

/// The call that the fields between server and answer stand for; its bytes, if it has any,
/// are put down in what is handed over for them.
type Parse = for<'a> fn(&[&str], &'a mut Vec<u8>) -> What<'a>;

/// Every case of a file.
fn held(file: &'static str, name: &str, parse: Parse) -> Tally {
    let mut tally = Tally::default();
    let mut plan = Vec::new();
    for fields in cases(file) {
        let [note, card, plan_field, server, rest @ .., answer] = &fields[..] else {
            panic!("a case has note, card, plan, server and answer: {fields:?}");
        };
        plan = plan_after(plan, plan_field);
        let mut bytes = Vec::new();
        let call = Call {
            card: &unhex(card),
            plan: &plan,
            server: number(server),
            what: parse(rest, &mut bytes),
        };
        let made_by = format_args!("{name}, {note}");
        call.held_to(answer, made_by);
        // They are alike by now; this looks at the rest of the memory and counts.
        tally.compare(&call, made_by);
    }
    tally
}

fn number<T: FromStr>(field: &str) -> T {
    let number = field.parse().ok();
    number.unwrap_or_else(|| panic!("not a number that can stand here: {field}"))
}

fn of_words(field: &str) -> State {
    let words: Vec<u64> = field.split(' ').map(number).collect();
    state(words.try_into().expect("a state has five words"))
}
