//! A document by its lines: headings, sections and fenced blocks.

use super::sentences::Flow;
use std::fs;
use std::ops::Range;
use std::path::{Path, PathBuf};
use std::sync::OnceLock;

/// Whether the documents are right, or else what is wrong with them and where.
pub type Held = Result<(), String>;

/// The repository's root.
pub fn root() -> PathBuf {
    Path::new(env!("CARGO_MANIFEST_DIR")).join("../..")
}

#[derive(Debug)]
pub struct Page {
    /// Its path from the repository's root.
    pub name: &'static str,
    pub lines: Vec<String>,
    /// The text as one line, once it was asked for a sentence.
    flow: OnceLock<Flow>,
}

impl Page {
    pub fn read(name: &'static str) -> Page {
        let path = root().join(name);
        let text = fs::read_to_string(&path)
            .unwrap_or_else(|why| panic!("{} cannot be read: {why}", path.display()));
        Page::of(name, text.lines().map(str::to_string).collect())
    }

    pub fn of(name: &'static str, lines: Vec<String>) -> Page {
        let flow = OnceLock::new();
        Page { name, lines, flow }
    }

    pub fn flow(&self) -> &Flow {
        self.flow.get_or_init(|| Flow::of(&self.lines))
    }

    /// What is wrong at a line, which counts from 0 here and from 1 in the message.
    pub fn fault(&self, line: usize, what: impl AsRef<str>) -> String {
        format!("{} line {}: {}", self.name, line + 1, what.as_ref())
    }

    /// All headings, as line, level and title. A `#` within a fenced block is none.
    pub fn headings(&self) -> Vec<(usize, usize, &str)> {
        let mut fenced = false;
        let mut found = Vec::new();
        for (line, text) in self.lines.iter().enumerate() {
            fenced ^= text.starts_with("```");
            let title = text.trim_start_matches('#');
            let level = text.len() - title.len();
            if !fenced && level > 0 {
                found.push((line, level, title.trim()));
            }
        }
        found
    }

    /// The lines under a heading, those of its own sub-headings included.
    pub fn section(&self, title: &str) -> Result<Range<usize>, String> {
        let headings = self.headings();
        let Some(at) = headings.iter().position(|heading| heading.2 == title) else {
            return Err(format!("{} has no heading `{title}`", self.name));
        };
        let (line, level, _) = headings[at];
        let next = headings[at + 1..].iter().find(|next| next.1 <= level);
        Ok(line + 1..next.map_or(self.lines.len(), |next| next.0))
    }

    /// The lines inside each block of `lines` that is fenced with this word behind the
    /// opening fence.
    pub fn fenced(&self, lines: Range<usize>, word: &str) -> Vec<Range<usize>> {
        let mut found = Vec::new();
        let mut open = None;
        for line in lines {
            let Some(after) = self.lines[line].strip_prefix("```") else {
                continue;
            };
            open = match open {
                None => Some((line + 1, after == word)),
                Some((start, wanted)) => {
                    if wanted {
                        found.push(start..line);
                    }
                    None
                }
            };
        }
        found
    }
}
