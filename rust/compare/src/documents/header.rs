//! include/agreement.h: its names, and the table in its comment.

use super::grounds::{self, File};
use super::page::{Held, Page};

/// A name with its number.
#[derive(Debug)]
pub struct Name {
    pub line: usize,
    pub name: String,
    pub value: usize,
    /// The line that opens its enum; a `#define` has none.
    list: Option<usize>,
}

/// A number, decimal or hexadecimal.
fn value(text: &str) -> Option<usize> {
    match text.strip_prefix("0x") {
        Some(digits) => usize::from_str_radix(digits, 16).ok(),
        None => text.parse().ok(),
    }
}

/// Every `AGREEMENT_NAME = NUMBER` of an enum and every `#define AGREEMENT_NAME NUMBER`.
fn names(page: &Page) -> Vec<Name> {
    let mut names = Vec::new();
    let mut list = None;
    for (line, text) in page.lines.iter().enumerate() {
        if text.contains("enum {") {
            list = Some(line);
        }
        let mut add = |name: &str, value: &str, list| {
            if let (true, Some(value)) = (name.starts_with("AGREEMENT_"), self::value(value)) {
                let name = name.to_string();
                names.push(Name {
                    line,
                    name,
                    value,
                    list,
                });
            }
        };
        let words: Vec<&str> = text.split([' ', ',', '{', '}', ';']).collect();
        for part in words.windows(3) {
            match (part, list) {
                (["#define", name, value], _) => add(name, value, None),
                ([name, "=", value], Some(_)) => add(name, value, list),
                _ => {}
            }
        }
        if text.contains('}') {
            list = None;
        }
    }
    names
}

/// One name.
pub fn name(page: &Page, name: &str) -> Result<Name, String> {
    let found = names(page).into_iter().find(|found| found.name == name);
    found.ok_or_else(|| format!("{} has no {name}", page.name))
}

/// Where the comment says `AGREEMENT_NAME (NUMBER)`, the number is the name's.
pub fn in_parentheses(page: &Page) -> Held {
    let names = names(page);
    for (line, text) in page.lines.iter().enumerate() {
        for Name { name, value, .. } in &names {
            let after = text.split_once(&format!("{name} ("));
            let number = after.and_then(|(_, after)| after.split(')').next());
            if number.is_some_and(|number| number != value.to_string()) {
                return Err(page.fault(line, format!("{name} is {value}")));
            }
        }
    }
    Ok(())
}

/// The enum of the refusals, the one beside those of answers, of what is at fault and of
/// the kinds of carriages, has the wrapper's numbers, ascending.
pub fn refusals(page: &Page) -> Held {
    let known = [
        name(page, "AGREEMENT_ANSWERED")?.list,
        name(page, "AGREEMENT_CARD")?.list,
        name(page, "AGREEMENT_END")?.list,
    ];
    let names = names(page).into_iter();
    let mut refusals = names.filter(|name| name.list.is_some() && !known.contains(&name.list));
    for number in grounds::numbers() {
        match refusals.next() {
            Some(name) if name.value == usize::from(number) => {}
            Some(name) => {
                let what = format!("{} should be {number}, the next refusal", name.name);
                return Err(page.fault(name.line, what));
            }
            None => {
                let what = "has no enum with a name for refusal";
                return Err(format!("{} {what} {number}", page.name));
            }
        }
    }
    match refusals.next() {
        Some(name) => Err(page.fault(name.line, format!("{} is no refusal", name.name))),
        None => Ok(()),
    }
}

/// A row of the table in the comment.
struct Entry {
    line: usize,
    number: u8,
    words: String,
}

fn table(page: &Page) -> Vec<Entry> {
    let is_head = |text: &String| text.split_whitespace().eq(["*", "number", "when"]);
    let head = page.lines.iter().position(is_head);
    let first = head.map_or(page.lines.len(), |head| head + 1);
    let mut rows = Vec::new();
    for (line, text) in page.lines.iter().enumerate().skip(first) {
        let text = text.trim_start_matches(" *");
        let (number, words) = text.trim().split_once("  ").unwrap_or_default();
        match number.parse() {
            Ok(number) => rows.push(Entry {
                line,
                number,
                words: words.trim().to_string(),
            }),
            // The words of a row may go on below.
            Err(_) if text.starts_with("        ") => {}
            Err(_) => break,
        }
    }
    rows
}

impl Entry {
    /// A row that begins with `card:`, `plan:` or `call:` is of that alone, any other of
    /// card and plan.
    fn files(&self) -> Vec<File> {
        let before = self.words.split_once(": ").map(|(before, _)| before);
        match before.and_then(File::named) {
            Some(file) => vec![file],
            None => vec![File::Card, File::Plan],
        }
    }
}

/// The table has the wrapper's numbers, ascending, each with its files; a number that is
/// no longer given is among them, and says so.
pub fn same_table(page: &Page) -> Held {
    let no_longer_given = grounds::no_longer_given();
    let mut numbers = [grounds::numbers(), no_longer_given.clone()].concat();
    numbers.sort_unstable();
    let rows = table(page);
    for (row, &number) in rows.iter().zip(&numbers) {
        let (files, stated) = (grounds::files(number), row.files());
        if row.number != number {
            return Err(page.fault(row.line, format!("refusal {number} should stand here")));
        }
        if no_longer_given.contains(&number) {
            if !row.words.starts_with("no longer given: ") {
                return Err(page.fault(row.line, format!("refusal {number} is no longer given")));
            }
        } else if stated != files {
            let what = format!("refusal {number} is of {files:?}, not of {stated:?}");
            return Err(page.fault(row.line, what));
        }
    }
    let (found, count) = (rows.len(), numbers.len());
    match found == count {
        true => Ok(()),
        false => {
            let what = format!("has a table of {found} refusals, and there are {count}");
            Err(format!("{} {what}", page.name))
        }
    }
}
