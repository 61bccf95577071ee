//! What a verb answers: bytes for standard output, notes for standard error, a status.

use crate::site::Unreadable;

/// A card, a plan, a call or a chart is refused, or the network has a bad split.
pub const REFUSED: u8 = 1;
/// The command line is wrong, or a file is missing or cannot be read or written.
pub const UNUSABLE: u8 = 2;

#[derive(Debug, Clone, Default, PartialEq, Eq)]
pub struct Answer {
    pub out: Vec<u8>,
    pub notes: Vec<String>,
    /// 0 where everything asked was answered.
    pub status: u8,
}

impl Answer {
    pub fn of(out: impl Into<Vec<u8>>) -> Answer {
        Answer {
            out: out.into(),
            ..Answer::default()
        }
    }

    pub fn line(&mut self, line: &str) {
        self.text(line);
        self.out.push(b'\n');
    }

    pub fn text(&mut self, text: &str) {
        self.out.extend(text.as_bytes());
    }

    /// What was answered so far, with a refusal or a bad split as its end.
    pub fn refused(mut self) -> Answer {
        self.status = REFUSED;
        self
    }

    /// What was answered so far, up to a file that cannot be read.
    pub fn unreadable(mut self, Unreadable(why): Unreadable) -> Answer {
        self.notes.push(why);
        self.status = UNUSABLE;
        self
    }
}
