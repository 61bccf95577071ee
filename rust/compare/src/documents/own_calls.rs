//! The calls for a single server in the examples of docs/FORMATS.md.

use super::examples::bytes;
use super::numbers::{hexadecimal, number};
use super::rehearsal::{line, Files};
use agreement::{ask, commit, start, Refusal, State, VALUES_LIMIT};

/// A call of an example.
#[derive(Debug)]
pub struct Call {
    pub server: u8,
    pub what: What,
}

/// Which one. An ask and a commit are made in the example's state.
#[derive(Debug)]
pub enum What {
    Start { input: u8 },
    Ask,
    Commit { arrived: Vec<u8> },
}

/// A state as an example gives it: the kind as a byte, the other words as numbers.
pub fn state(text: &str) -> Result<State, String> {
    let words: Vec<&str> = text.split(' ').collect();
    let parsed = match words[..] {
        [block, kind, v, t, open] => {
            let word = |text| number(text).map(|word| word as u64);
            let kind = u64::from_str_radix(kind, 16).ok();
            let words = [word(block), kind, word(v), word(t), word(open)];
            words.into_iter().collect::<Option<Vec<u64>>>()
        }
        _ => None,
    };
    let words = parsed.and_then(|words| words.try_into().ok());
    let state = words.map(State::from_words);
    state.ok_or_else(|| format!("`{text}` is no state"))
}

/// The call that a line `start 1 00`, `ask 1` or `commit 1 00` stands for.
pub fn call(first: &str, rest: &str) -> Result<Call, String> {
    let (server, rest) = rest.split_once(' ').unwrap_or((rest, ""));
    let server = number(server).and_then(|server| u8::try_from(server).ok());
    let server = server.ok_or_else(|| format!("`{first}` is for a server"))?;
    let what = match (first, &bytes(rest)?[..]) {
        ("start", &[input]) => What::Start { input },
        ("ask", []) => What::Ask,
        ("commit", arrived) => What::Commit {
            arrived: arrived.to_vec(),
        },
        _ => return Err(format!("`{rest}` is no part of `{first}`")),
    };
    Ok(Call { server, what })
}

/// What the library answers to the call of an example in this state, as lines of text.
pub fn answered(files: &Files, state: State, call: &Call) -> String {
    let answer = match &call.what {
        What::Start { input } => start(&files.card, &files.plan, call.server, *input).map(written),
        What::Ask => asked(files, state, call.server),
        What::Commit { arrived } => {
            commit(&files.card, &files.plan, call.server, state, arrived).map(written)
        }
    };
    answer.unwrap_or_else(line)
}

fn asked(files: &Files, state: State, server: u8) -> Result<String, Refusal> {
    let mut lent = [0; VALUES_LIMIT];
    let asked = ask(&files.card, &files.plan, server, state, &mut lent)?;
    let values = match &lent[..asked.values] {
        [] => "nothing".to_string(),
        values => hexadecimal(values),
    };
    Ok(format!("{}\nsends {values}", written(asked.state)))
}

fn written(state: State) -> String {
    let State {
        block,
        kind,
        v,
        t,
        open,
    } = state;
    format!("block {block} kind {kind:02X} v {v} t {t} open {open}")
}
