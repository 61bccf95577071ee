//! What `rehearse` prints, made from the wrapper's answers.
//!
//! The program is proved to print this text, and `tests/rehearse.rs` runs it; here the
//! text is wanted without the program.

use super::page::Page;
use crate::converted;
use crate::rehearsals::FILE_LIMIT;
use crate::text::plain_refusal;
use agreement::{read_card, run, Network, Refusal, ServerSet, Totals};

/// The three files of a site; one that is not there counts as empty.
#[derive(Debug, Clone, Default)]
pub struct Files {
    pub card: Vec<u8>,
    pub plan: Vec<u8>,
    pub run_in: Vec<u8>,
}

/// How many bytes `rehearse` lends.
pub const LENT: usize = 8;
/// No answer holds this, so that a byte which was written shows.
const UNTOUCHED: u8 = 0xa5;

/// The definition that the program is proved to keep has these two numbers.
pub fn numbers_are_proved() {
    let definition = Page::read("crates/transcript/specs/Text.antt");
    let held = definition.says_all(&[
        format!("is_long file = ltb {FILE_LIMIT} (length file)"),
        format!("let lent : List ℕ = replicate {LENT} 0 in"),
    ]);
    held.unwrap_or_else(|fault| panic!("{fault}"));
}

/// The text of `rehearse`, each line with its newline.
pub fn rehearsed(files: &Files) -> String {
    let Files { card, plan, run_in } = files;
    let too_long = |file: &&Vec<u8>| file.len() > FILE_LIMIT;
    match [card, plan, run_in].iter().any(too_long) {
        true => "too long\n".to_string(),
        false => ran(files, LENT),
    }
}

/// The text of a run with so many bytes lent, without the limit of `rehearse`.
pub fn ran(files: &Files, lent: usize) -> String {
    match decided(files, lent) {
        Ok(ran) => ran.text(),
        Err(refusal) => format!("{}\n", line(refusal)),
    }
}

/// A run that was answered.
#[derive(Debug)]
pub struct Ran {
    totals: Totals,
    faulty: ServerSet,
    /// The byte of each server.
    pub decided: Vec<u8>,
}

/// What the library answers to the run of a site with so many bytes lent.
pub fn decided(files: &Files, lent: usize) -> Result<Ran, Refusal> {
    // Only the card says where in run.in the inputs end.
    let network = read_card(&files.card)?;
    let (faulty, inputs, table) = parts(&network, &files.run_in);
    let mut lent = vec![UNTOUCHED; lent];
    let answer = run(&files.card, &files.plan, inputs, faulty, table, &mut lent);
    let written = answer.map_or(0, |_| usize::from(network.n));
    let beyond = lent.split_off(written);
    let left_alone = beyond.iter().all(|&byte| byte == UNTOUCHED);
    assert!(left_alone, "the run wrote where it may not: {beyond:02x?}");
    Ok(Ran {
        totals: answer?,
        faulty,
        decided: lent,
    })
}

/// `run.in` as faulty set, inputs and message table.
fn parts<'a>(network: &Network, run_in: &'a [u8]) -> (ServerSet, &'a [u8], &'a [u8]) {
    let (&faulty, rest) = run_in.split_first().unwrap_or((&0, &[]));
    let (inputs, table) = rest.split_at(rest.len().min(usize::from(network.n)));
    (ServerSet::from_bits(faulty), inputs, table)
}

impl Ran {
    fn text(&self) -> String {
        let Totals { blocks, carriages } = self.totals;
        let mut text = format!("blocks {blocks} carriages {carriages}\n");
        for (server, bit) in (0..).zip(&self.decided) {
            let decided = match self.faulty.contains(server) {
                true => "faulty".to_string(),
                false => bit.to_string(),
            };
            text.push_str(&format!("server {server} decided {decided}\n"));
        }
        text
    }
}

/// A refusal in one line, without the newline.
pub fn line(refusal: Refusal) -> String {
    plain_refusal(converted::refusal(refusal))
}
