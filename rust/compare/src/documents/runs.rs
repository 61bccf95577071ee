//! What a run writes, and what it takes from the message table.

use super::library::*;
use super::numbers::{listed, quoted};
use super::page::Held;
use super::plans::{plan, shortest};
use super::steps::UNSURE;
use super::Documents;
use agreement::{run, ServerSet};
use generate::complete_card;
use std::sync::LazyLock;

/// The byte of a faulty server in the lent buffer.
pub const FAULTY: u8 = 2;

/// Four servers, one of which fails, with every input list and a table of one byte all
/// through: the bytes that the runs write.
fn written(table: &[u8]) -> Vec<[u8; 4]> {
    let (n, f) = (4, 1);
    let (card, plan) = (complete_card(n, f), plan(f, &shortest(n, f)));
    let mut all = Vec::new();
    for (faulty, bits) in (0..n).flat_map(|faulty| (0..16).map(move |bits| (faulty, bits))) {
        let inputs: [u8; 4] = std::array::from_fn(|server| bits >> server & 1);
        let faulty = ServerSet::from_bits(1 << faulty);
        let mut lent = [0; 4];
        let answer = run(&card, &plan, &inputs, faulty, table, &mut lent);
        let call = format!("faulty {faulty:?}, inputs {inputs:?}");
        assert!(answer.is_ok(), "{call}: {answer:?}");
        for (server, byte) in (0..n).zip(lent) {
            let is_right = if faulty.contains(server) {
                byte == FAULTY
            } else {
                byte <= 1
            };
            assert!(is_right, "{call}: {lent:?}");
        }
        all.push(lent);
    }
    all
}

/// The bytes with which a table that has no other does what `table` does.
fn alike(table: &[u8]) -> Vec<u8> {
    let expected = written(table);
    // More bytes than the plan has carriages.
    let is_alike = |byte: &u8| written(&[*byte; 1_000]) == expected;
    (0..=u8::MAX).filter(is_alike).collect()
}

/// The bytes of a message table that count as unsure.
static NO_BIT: LazyLock<Span> =
    LazyLock::new(|| Span::over("a message that is no bit", &alike(&[UNSURE; 1_000])));

/// The one byte of a message table that does the same as a missing one.
pub static SILENCE: LazyLock<u8> = LazyLock::new(|| {
    let alike = alike(&[]);
    match alike[..] {
        [silence] => silence,
        _ => panic!("{alike:?} do what a missing byte does"),
    }
});

/// The sentences on bytes, bits and values.
pub fn stated(documents: &Documents) -> Held {
    let as_they_are = (0..NO_BIT.least()).map(|byte| quoted(&[byte]));
    let bits = listed(as_they_are);
    let [first, last] = [NO_BIT.least(), NO_BIT.most()].map(|byte| quoted(&[byte]));
    let silence = *SILENCE;
    let [to_s, within_s, from_s, report] =
        [TO_S, WITHIN_S, FROM_S, REPORT].map(|command| quoted(&[command]));
    documents.formats.says_all(&[
        format!("v of each sound server, {FAULTY} for a faulty one."),
        format!("{bits} as they are, {first} to {last} as {UNSURE}, a missing byte as {silence}."),
        "a table and the same with zeros after it do the same.".to_string(),
        "Each server keeps a value v, 0 or 1, at first its input,".to_string(),
        format!("and a working value t: 0, 1, or {UNSURE} for unsure."),
        format!("t at first is {UNSURE}, and no step reads"),
        format!("arrivals (by {to_s}) are alike, else {UNSURE}."),
        format!("if every arrival (by {within_s}) equals it, else it becomes {UNSURE}."),
        format!("as in step 2 (by {from_s})."),
        "if t is 0 or 1, v becomes t.".to_string(),
        format!("arrivals (by {report}), the values v after step 5, are alike and 0 or 1,"),
        format!("Arrivals that are all {UNSURE} are alike."),
        "X is 0 or 1, for a faulty server `faulty`".to_string(),
        "inputs not n bytes of 0 or 1".to_string(),
        "or one of them is not `00` or `01`, even that of a faulty server.".to_string(),
    ])?;
    let no_bit = NO_BIT.most();
    documents.theorems.says_all(&[
        format!("a missing byte of the message table does what the byte {silence} does:"),
        format!("and with {no_bit} in the place of its silence, which decides otherwise;"),
        format!("arrivals that are missing or {no_bit}, beside a bit"),
        format!("gives one value, 0, 1 or {UNSURE}, on each of its carriages,"),
    ])
}
