//! The sentences of a document, wherever its lines break.

use super::numbers::numbers;
use super::page::{Held, Page};
use std::ops::Range;

/// A text as one line, with a space for each end of a line. Of a comment in C the stars
/// at the side are left off.
#[derive(Debug, Default)]
pub struct Flow {
    pub text: String,
    /// Where each line starts.
    starts: Vec<usize>,
}

impl Flow {
    pub fn of(lines: &[String]) -> Flow {
        let mut flow = Flow::default();
        for line in lines {
            let kept = line.trim_start();
            let kept = kept.strip_prefix("* ").unwrap_or(kept).trim_start();
            flow.starts.push(flow.text.len());
            flow.text.push_str(kept.trim_end());
            flow.text.push(' ');
        }
        flow
    }

    fn line(&self, place: usize) -> usize {
        self.starts.partition_point(|&start| start <= place) - 1
    }

    /// Wherever the sentence stands, as whole words.
    pub fn all<'a>(&'a self, sentence: &'a str) -> impl Iterator<Item = Range<usize>> + 'a {
        let places = self.text.match_indices(sentence).map(|(place, _)| place);
        let ranges = places.map(|place| place..place + sentence.len());
        ranges.filter(|range| {
            let before = self.text[..range.start].chars().next_back();
            let after = self.text[range.end..].chars().next();
            !goes_on(before, sentence.chars().next())
                && !goes_on(sentence.chars().next_back(), after)
        })
    }
}

/// Whether two neighbouring characters are of one word or number.
fn goes_on(one: Option<char>, next: Option<char>) -> bool {
    let of_word = |side: Option<char>| side.is_some_and(char::is_alphanumeric);
    of_word(one) && of_word(next)
}

/// What stands for any number.
pub const ANY: &str = "№";

/// The text with [`ANY`] in the place of each number.
fn blurred(text: &str) -> String {
    let mut blurred = text.to_string();
    for number in numbers(text).into_iter().rev() {
        blurred.replace_range(number, ANY);
    }
    blurred
}

impl Page {
    /// Holds the document to a sentence or a part of one.
    ///
    /// If it is not there, the fault names the line where the same words stand with
    /// other numbers.
    pub fn says(&self, sentence: &str) -> Held {
        if self.flow().all(sentence).next().is_some() {
            return Ok(());
        }
        let (flow, wanted) = (self.blurred_flow(), blurred(sentence));
        let found = flow.all(&wanted).next();
        match found {
            Some(range) => {
                let line = flow.line(range.start);
                Err(self.fault(line, format!("it should say `{sentence}`")))
            }
            None => Err(format!("{} nowhere says `{sentence}`", self.name)),
        }
    }

    /// The text as one line, with [`ANY`] for each number.
    pub fn blurred_flow(&self) -> Flow {
        let lines: Vec<String> = self.lines.iter().map(|line| blurred(line)).collect();
        Flow::of(&lines)
    }

    /// Holds it to each of these.
    pub fn says_all(&self, sentences: &[String]) -> Held {
        sentences
            .iter()
            .try_for_each(|sentence| self.says(sentence))
    }
}
