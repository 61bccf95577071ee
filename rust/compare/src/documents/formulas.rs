//! Numbers that stand in every part of the documents.

use super::page::{Held, Page};
use super::plans::MORE_THAN_F;
use super::Documents;

/// What follows each of these is one number throughout: f+1 routes, and servers up to n-1.
const FORMULAS: [(&str, usize); 3] = [("f+", MORE_THAN_F), ("n−", 1), ("n-", 1)];

/// Every f+1 and n-1 of the documents.
pub fn everywhere(documents: &Documents) -> Held {
    for page in documents.pages() {
        for (line, text) in page.lines.iter().enumerate() {
            for (start, number) in FORMULAS {
                same(page, line, text, start, number)?;
            }
        }
    }
    Ok(())
}

fn same(page: &Page, line: usize, text: &str, start: &str, number: usize) -> Held {
    for (place, _) in text.match_indices(start) {
        let is_name = text[..place].ends_with(|before: char| before.is_alphanumeric());
        let after = text[place + start.len()..].split(|next: char| !next.is_ascii_digit());
        let found = after
            .into_iter()
            .next()
            .and_then(|found| found.parse::<usize>().ok());
        if !is_name && found.is_some_and(|found| found != number) {
            return Err(page.fault(line, format!("it should be {start}{number}")));
        }
    }
    Ok(())
}

/// The items of a numbered list count from 1.
pub fn lists(documents: &Documents) -> Held {
    for page in documents.pages() {
        let mut last = 0;
        for (line, text) in page.lines.iter().enumerate() {
            let item = text
                .split_once(". ")
                .and_then(|(item, _)| item.parse::<usize>().ok());
            match item {
                Some(item) if item == last + 1 => last = item,
                Some(_) => return Err(page.fault(line, format!("{} should stand here", last + 1))),
                // An item may go on below, further to the right.
                None if text.starts_with("   ") => {}
                None => last = 0,
            }
        }
    }
    Ok(())
}
