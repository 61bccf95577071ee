//! Calls that both implementations answer, each with a lent buffer of its own that lies
//! between bytes lent to nobody.

use crate::text::{hex, hex_beginning, plain, Plain};
use reference::Refusal;
use std::fmt::{self, Arguments, Display, Formatter};

/// How many bytes lie on either side of the lent ones.
const MARGIN: usize = 24;

/// Bytes that no call writes, different from place to place: the margins and between them
/// as many as are lent. Decided bits, values and the bytes of clean cards are below these.
fn pattern(lent: usize) -> Vec<u8> {
    let places = 0..MARGIN + lent + MARGIN;
    places.map(|place| 9 + (place % 247) as u8).collect()
}

/// What a call came to.
#[derive(Debug, Clone, PartialEq, Eq)]
pub(crate) struct Outcome<T> {
    pub answer: Result<T, Refusal>,
    /// The lent bytes after the call, with the margins around them.
    memory: Vec<u8>,
}

impl<T> Outcome<T> {
    /// Makes a call with so many bytes lent.
    pub fn of(lent: usize, call: impl FnOnce(&mut [u8]) -> Result<T, Refusal>) -> Outcome<T> {
        let mut memory = pattern(lent);
        let answer = call(&mut memory[MARGIN..MARGIN + lent]);
        Outcome { answer, memory }
    }

    /// The lent bytes.
    pub fn lent(&self) -> &[u8] {
        &self.memory[MARGIN..self.memory.len() - MARGIN]
    }

    /// The lent bytes up to the first that is as it was.
    pub fn written(&self) -> &[u8] {
        let before = pattern(self.lent().len());
        let mut lent = self.lent().iter().zip(&before[MARGIN..]);
        let kept = lent.position(|(after, before)| after == before);
        &self.lent()[..kept.unwrap_or(self.lent().len())]
    }

    /// What is wrong with the memory if an answered call writes just the first `count` of
    /// the lent bytes, and a refused one none.
    pub fn fault(&self, count: usize) -> Option<&'static str> {
        let before = pattern(self.lent().len());
        if self.answer.is_err() {
            return (self.memory != before).then_some("a refused call wrote");
        }
        if count > self.lent().len() {
            return Some("more bytes were written than are lent");
        }
        // Each byte that is written is another than the one that was there.
        let written = MARGIN..MARGIN + count;
        let mut places = before.iter().zip(&self.memory).enumerate();
        let wrong =
            places.any(|(place, (before, after))| written.contains(&place) == (before == after));
        wrong.then_some("the bytes that were written are not the first ones of the buffer")
    }
}

impl<T: Plain> Outcome<T> {
    /// The answer and what was written, in the plain form of the data files.
    pub fn plain(&self) -> String {
        let answer = plain(&self.answer);
        match self.written() {
            [] => answer,
            written => format!("{answer} {}", hex(written)),
        }
    }
}

impl<T: Plain> Display for Outcome<T> {
    fn fmt(&self, out: &mut Formatter) -> fmt::Result {
        let (before, rest) = self.memory.split_at(MARGIN);
        let (lent, after) = rest.split_at(rest.len() - MARGIN);
        write!(
            out,
            "{}, lent {} between {} and {}",
            plain(&self.answer),
            hex_beginning(lent),
            hex(before),
            hex(after)
        )
    }
}

/// Makes a call that may write any byte, with so many bytes lent, and hands its answer back with
/// the bytes that it wrote, the first `count` of the lent ones.
///
/// It is made twice, over a pattern and over one that differs from it in every byte, so that a
/// byte shows that is written where none should be, or left where one should stand. What is wrong
/// then is the error.
pub(crate) fn written<T: PartialEq>(
    lent: usize,
    count: impl Fn(&T) -> usize,
    call: impl Fn(&mut [u8]) -> T,
) -> Result<(T, Vec<u8>), &'static str> {
    let before = pattern(lent);
    let turned: Vec<u8> = before.iter().map(|byte| !byte).collect();
    let made = |before: &[u8]| {
        let mut memory = before.to_vec();
        let answer = call(&mut memory[MARGIN..MARGIN + lent]);
        (answer, memory)
    };
    let ((answer, memory), (again, other)) = (made(&before), made(&turned));
    if answer != again {
        return Err("the answer depends on what was in the lent bytes");
    }
    let count = count(&answer);
    if count > lent {
        return Err("more bytes were written than are lent");
    }
    let (written, after) = (MARGIN..MARGIN + count, MARGIN + count..);
    if memory[..MARGIN] != before[..MARGIN] || other[..MARGIN] != turned[..MARGIN] {
        return Err("a byte before the lent ones was written");
    }
    if memory[after.clone()] != before[after.clone()] || other[after.clone()] != turned[after] {
        return Err("a byte was written past those of the answer");
    }
    if memory[written.clone()] != other[written.clone()] {
        return Err("a byte of the answer was left as it was");
    }
    Ok((answer, memory[written].to_vec()))
}

/// A call that both implementations answer.
pub(crate) trait Call: Display {
    type Answer: Plain + PartialEq;

    fn of_library(&self) -> Outcome<Self::Answer>;

    fn of_reference(&self) -> Outcome<Self::Answer>;

    /// What is wrong with `outcome`, whoever made it, by the demands on every such call.
    fn fault(&self, outcome: &Outcome<Self::Answer>) -> Option<&'static str>;

    /// Makes the call to both and hands the outcome back.
    ///
    /// Panics if they differ, in the answer or in a byte of memory, or if what they agree
    /// on cannot be; `made_by` then says how to get the call again.
    fn compared(&self, made_by: Arguments) -> Outcome<Self::Answer>
    where
        Self: Sized,
    {
        let library = self.of_library();
        let reference = self.of_reference();
        if library != reference {
            panic!(
                "library and reference differ\n{self}\n  made by    {made_by}\
                 \n  library    {library}\n  reference  {reference}"
            );
        }
        if let Some(fault) = self.fault(&library) {
            panic!("{fault}\n{self}\n  made by    {made_by}\n  both       {library}");
        }
        library
    }

    /// Makes the call to both.
    ///
    /// Panics if one of them does not answer as `stated` by `note`.
    fn held_to(&self, stated: &str, note: Arguments)
    where
        Self: Sized,
    {
        let outcomes = [
            ("library", self.of_library()),
            ("reference", self.of_reference()),
        ];
        for (who, outcome) in outcomes {
            let answer = outcome.plain();
            assert!(
                answer == stated,
                "{who} does not answer as stated\n{self}\n  made by    {note}\
                 \n  stated     {stated}\n  answer     {answer}"
            );
        }
    }
}
