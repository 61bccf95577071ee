//! The examples of docs/FORMATS.md: the bytes of the files, and then what is printed.

use super::grounds::{self, File};
use super::load;
use super::numbers::number;
use super::own_calls::{self, Call};
use super::page::{Held, Page};
use super::quick;
use super::rehearsal::{ran, rehearsed, Files};
use super::writer::{self, Way};
use super::Documents;
use agreement::State;
use std::collections::BTreeSet;
use std::ops::Range;

/// One example.
#[derive(Debug)]
pub struct Example {
    /// The line of its first line of text, from 0.
    pub line: usize,
    pub files: Files,
    /// That of a server, where one is given.
    pub state: State,
    asked: Asked,
    /// Its lines of text.
    pub text: Vec<String>,
}

/// Who answers an example.
#[derive(Debug, Default)]
enum Asked {
    #[default]
    Rehearse,
    /// The library's run, with so many bytes lent.
    Run(usize),
    QuickTest,
    Load,
    /// The plan writer, with so many bytes lent.
    Write(usize),
    /// Separate routes.
    Routes(Way),
    /// A call for a single server.
    Own(Call),
}

/// The examples within `lines`, in order.
pub fn examples(page: &Page, lines: Range<usize>) -> Result<Vec<Example>, String> {
    let blocks = page.fenced(lines, "example").into_iter();
    blocks.map(|lines| example(page, lines)).collect()
}

fn example(page: &Page, lines: Range<usize>) -> Result<Example, String> {
    let mut example = Example {
        line: lines.start,
        files: Files::default(),
        state: State::from_words([0; 5]),
        asked: Asked::default(),
        text: Vec::new(),
    };
    for line in lines {
        let text = page.lines[line].as_str();
        let (first, rest) = text.split_once(' ').unwrap_or((text, ""));
        let Example {
            files,
            state,
            asked,
            ..
        } = &mut example;
        let fault = |what: String| page.fault(line, what);
        match first {
            "card" => files.card = bytes(rest).map_err(fault)?,
            "plan" => files.plan = bytes(rest).map_err(fault)?,
            "run.in" => files.run_in = bytes(rest).map_err(fault)?,
            "buffer" => *asked = Asked::Run(number(rest).ok_or_else(|| fault(no_count(rest)))?),
            "quick" if rest == "test" => *asked = Asked::QuickTest,
            "load" if rest.is_empty() => *asked = Asked::Load,
            "write" => *asked = Asked::Write(number(rest).ok_or_else(|| fault(no_count(rest)))?),
            "routes" => *asked = Asked::Routes(writer::way(rest).map_err(fault)?),
            "state" => *state = own_calls::state(rest).map_err(fault)?,
            "start" | "ask" | "commit" => {
                *asked = Asked::Own(own_calls::call(first, rest).map_err(fault)?);
            }
            _ => {
                if example.text.is_empty() {
                    example.line = line;
                }
                example.text.push(text.to_string());
                continue;
            }
        }
        if !example.text.is_empty() {
            return Err(page.fault(line, "a file of an example stands after its text"));
        }
    }
    Ok(example)
}

/// Bytes as an example writes them: two digits each, `FF x 6` for six of them.
pub fn bytes(text: &str) -> Result<Vec<u8>, String> {
    let mut bytes = Vec::new();
    let mut words = text.split_whitespace();
    while let Some(word) = words.next() {
        if word == "x" {
            let count = words.next().unwrap_or_default();
            let last = bytes.pop().ok_or("no byte stands before an `x`")?;
            let count = number(count).ok_or_else(|| no_count(count))?;
            bytes.extend(std::iter::repeat_n(last, count));
        } else {
            bytes.push(byte(word)?);
        }
    }
    Ok(bytes)
}

fn byte(word: &str) -> Result<u8, String> {
    let value = u8::from_str_radix(word, 16).ok();
    let value = value.filter(|value| format!("{value:02X}") == word);
    value.ok_or_else(|| format!("`{word}` is no byte"))
}

fn no_count(word: &str) -> String {
    format!("`{word}` is no number of bytes")
}

impl Example {
    /// What the library answers, as lines of text.
    fn answered(&self) -> Vec<String> {
        let text = match &self.asked {
            Asked::Rehearse => rehearsed(&self.files),
            Asked::Run(lent) => ran(&self.files, *lent),
            Asked::QuickTest => quick::answered(&self.files.card),
            Asked::Load => load::answered(&self.files),
            Asked::Write(lent) => writer::written(&self.files.card, *lent),
            Asked::Routes(way) => writer::routed(&self.files.card, way),
            Asked::Own(call) => own_calls::answered(&self.files, self.state, call),
        };
        text.lines().map(str::to_string).collect()
    }

    /// How many bytes the plan writer is lent, if it is asked.
    pub fn lent_to_writer(&self) -> Option<usize> {
        match self.asked {
            Asked::Write(lent) => Some(lent),
            _ => None,
        }
    }

    /// The way that separate routes are asked for, if they are.
    pub fn way(&self) -> Option<&Way> {
        match &self.asked {
            Asked::Routes(way) => Some(way),
            _ => None,
        }
    }

    /// The call for a single server, if it is one.
    pub fn own_call(&self) -> Option<&Call> {
        match &self.asked {
            Asked::Own(call) => Some(call),
            _ => None,
        }
    }

    /// The file that the text says is refused, and the number.
    pub fn refused(&self) -> Option<(File, u8)> {
        let words: Vec<&str> = self.text.first()?.split(' ').collect();
        let ["refused", file, number, ..] = words[..] else {
            return None;
        };
        // A comma follows the number where more is said.
        Some((
            File::named(file)?,
            number.trim_end_matches(',').parse().ok()?,
        ))
    }
}

/// Every example's text is what the library answers.
pub fn answered(documents: &Documents) -> Held {
    let page = &documents.formats;
    for example in examples(page, 0..page.lines.len())? {
        let answered = example.answered();
        let lines = example.text.len().max(answered.len());
        for at in 0..lines {
            let (stated, found) = (example.text.get(at), answered.get(at));
            if stated != found {
                let [stated, found] = [stated, found].map(|line| match line {
                    Some(line) => format!("`{line}`"),
                    None => "nothing more".to_string(),
                });
                let what = format!("the example says {stated}, and the library {found}");
                return Err(page.fault(example.line + at, what));
            }
        }
    }
    Ok(())
}

/// Under each heading `Refusal N` the examples are of that refusal, and each file that
/// has it is met.
pub fn every_refusal(documents: &Documents) -> Held {
    let page = &documents.formats;
    for (line, _, title) in page.headings() {
        let Some(number) = super::refusals::headed(title) else {
            continue;
        };
        let mut met = BTreeSet::new();
        for example in examples(page, page.section(title)?)? {
            match example.refused() {
                Some((file, found)) if found == number => met.insert(file),
                _ => {
                    let what = format!("an example of refusal {number} answers something else");
                    return Err(page.fault(example.line, what));
                }
            };
        }
        for file in grounds::files(number) {
            if !met.contains(&file) {
                let what = format!("refusal {number} of a {file} has no example below");
                return Err(page.fault(line, what));
            }
        }
    }
    Ok(())
}
