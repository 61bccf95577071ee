//! That every number is held: each is changed in its turn, and some check must notice.

use super::numbers::{next, numbers};
use super::page::Page;
use super::sentences::ANY;
use super::{checks, Check, Documents};
use std::collections::BTreeSet;
use std::ops::Range;

/// Where a number, written `№`, is not held: what a number there means is no answer of
/// the library.
const NOT_HELD: [&str; 33] = [
    // Names: of theorems and demands, of the paper's cases, of the steps of a block, of
    // rules by their place in a list, of must-fail edits, of bits and bytes.
    "Theorem №",
    "Definition №",
    "Demand №",
    "case №",
    "step №",
    "step № or №",
    "steps № and №",
    "rules № to №",
    "step-№-left-out",
    "step-№-late",
    "numbered-from-№",
    "buffer-of-№",
    "-without-№",
    "x86-№",
    "UTF-№",
    // P8 and P9 are about a single step. They are proved, in crates/table.
    "| f №, arrivals № and missing, at a receiver of step № or № | t is № |",
    "| f №, arrivals № and №, at a receiver of step № or № | t is № |",
    "a plan of f № accepted and run with a faulty server",
    // How the run is written, and why.
    "at f № two failing servers outvote a sound one",
    "the servers with an arrival other than № and those with one other than №.",
    "The pointer is not null, also where the length is №",
    // The link chart, which lirgoth reads and not the library.
    "may fail №",
    "№ -> №",
    "the first being office №.",
    "A name has № to № characters",
    // Version and stack: tools/examples and tools/stack hold these.
    "AGREEMENT_VERSION_MAJOR №",
    "AGREEMENT_VERSION_MINOR №",
    "AGREEMENT_VERSION_PATCH №",
    "(UINT64_C(№) * AGREEMENT_VERSION_MAJOR + UINT64_C(№) *",
    "№ * major + № * minor + patch.",
    "AGREEMENT_STACK №",
    "№ bytes at the deepest, in agreement_write_plan:",
    "agreement_separate_routes needs № bytes, the other calls a fifth",
];

/// The numbers that can be changed without any check noticing, but for those that
/// [`NOT_HELD`] names.
pub fn not_held(documents: &Documents) -> Vec<String> {
    // A check that fails as it is would notice everything.
    let holding = checks()
        .into_iter()
        .filter(|check| check(documents).is_ok());
    let holding: Vec<Check> = holding.collect();
    let mut found = Vec::new();
    for (which, page) in documents.pages().into_iter().enumerate() {
        let excused = excused(page);
        for (index, (line, place)) in places(page).into_iter().enumerate() {
            if excused.contains(&index) || is_given(page, line) {
                continue;
            }
            let number = page.lines[line][place.clone()].to_string();
            let changed = changed(documents, which, line, place);
            if holding.iter().all(|check| check(&changed).is_ok()) {
                let what = format!("nothing holds the number {number}:");
                found.push(page.fault(line, format!("{what} {}", page.lines[line])));
            }
        }
    }
    found
}

/// Line and place of each number of a page.
fn places(page: &Page) -> Vec<(usize, Range<usize>)> {
    let lines = page.lines.iter().enumerate();
    let places = lines.flat_map(|(line, text)| {
        let numbers = numbers(text).into_iter();
        numbers.map(move |place| (line, place))
    });
    places.collect()
}

/// Which of the numbers of a page stand where [`NOT_HELD`] has one.
fn excused(page: &Page) -> BTreeSet<usize> {
    let flow = page.blurred_flow();
    let ranges = NOT_HELD.iter().flat_map(|words| flow.all(words));
    let ranges: Vec<Range<usize>> = ranges.collect();
    let numbers = flow.text.match_indices(ANY).enumerate();
    let excused =
        numbers.filter(|(_, (place, _))| ranges.iter().any(|range| range.contains(place)));
    excused.map(|(index, _)| index).collect()
}

/// How the lines of an example begin that say what is asked.
const GIVEN: [&str; 11] = [
    "card", "plan", "run.in", "buffer", "load", "write", "routes", "state", "start", "ask",
    "commit",
];

/// Whether the line is of the bytes of an example: these are no statement, but what the
/// library is asked.
fn is_given(page: &Page, line: usize) -> bool {
    let examples = page.fenced(0..page.lines.len(), "example");
    let first = page.lines[line].split(' ').next().unwrap_or_default();
    examples.iter().any(|lines| lines.contains(&line)) && GIVEN.contains(&first)
}

/// The documents with the next number in a place of one of them.
fn changed(documents: &Documents, which: usize, line: usize, place: Range<usize>) -> Documents {
    let copy = |page: &Page| Page::of(page.name, page.lines.clone());
    let mut pages = documents.pages().map(copy);
    let text = &mut pages[which].lines[line];
    let next = next(&text[place.clone()]);
    text.replace_range(place, &next);
    let [header, formats, theorems] = pages;
    Documents {
        header,
        formats,
        theorems,
    }
}
