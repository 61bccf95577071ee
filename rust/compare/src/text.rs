//! How bytes and refusals are written down in the data files and in messages.

use reference::{Refusal, Totals};

/// The lines of a data file that are cases, in fields.
pub(crate) fn cases(file: &'static str) -> impl Iterator<Item = Vec<&'static str>> {
    let lines = file.lines().filter(|line| !line.starts_with('#'));
    lines.map(|line| line.split('\t').collect())
}

/// An answer that is no refusal, in the plain form of the data files.
pub trait Plain {
    fn plain(&self) -> String;
}

impl Plain for Totals {
    fn plain(&self) -> String {
        format!("{} {}", self.blocks, self.carriages)
    }
}

/// A number of bytes.
impl Plain for usize {
    fn plain(&self) -> String {
        self.to_string()
    }
}

/// An answer in the plain form of the data files.
pub(crate) fn plain<T: Plain>(answer: &Result<T, Refusal>) -> String {
    match answer {
        Ok(answer) => format!("ok {}", answer.plain()),
        Err(refusal) => plain_refusal(*refusal),
    }
}

/// A refusal in the plain form of the data files.
pub(crate) fn plain_refusal(refusal: Refusal) -> String {
    match refusal {
        Refusal::Card { number, place } => format!("refused card {number} {place}"),
        Refusal::Plan { number, place } => format!("refused plan {number} {place}"),
        Refusal::Call { number } => format!("refused call {number}"),
    }
}

/// `bytes` in hexadecimal, two digits each.
pub(crate) fn hex(bytes: &[u8]) -> String {
    bytes.iter().map(|byte| format!("{byte:02x}")).collect()
}

/// Like [`hex`], but of long bytes the beginning only.
pub(crate) fn hex_beginning(bytes: &[u8]) -> String {
    const SHOWN: usize = 2_000;
    match bytes.get(..SHOWN) {
        Some(beginning) => format!("{}.. ({} bytes)", hex(beginning), bytes.len()),
        None => hex(bytes),
    }
}

/// The bytes that a field of a data file stands for.
///
/// Panics if the field is not in hexadecimal.
pub(crate) fn unhex(digits: &str) -> Vec<u8> {
    let pairs = digits.as_bytes().chunks(2);
    pairs
        .map(|pair| match pair {
            [high, low] => digit(*high) << 4 | digit(*low),
            _ => panic!("half a byte at the end: {digits}"),
        })
        .collect()
}

/// What stands for the plan of the case before.
const SAME_PLAN: &str = "=";

/// The plan that a field stands for, where the case before has the plan `before`.
pub(crate) fn plan_after(before: Vec<u8>, field: &str) -> Vec<u8> {
    match field {
        SAME_PLAN => before,
        digits => unhex(digits),
    }
}

fn digit(character: u8) -> u8 {
    match char::from(character).to_digit(16) {
        Some(digit) => digit as u8,
        None => panic!("not hexadecimal: {}", char::from(character)),
    }
}
