//! The numbers of include/agreement.h, docs/FORMATS.md and docs/THEOREMS.md beside what
//! the library answers.
//!
//! A number is made anew here: it is asked of the library through the wrapper, or worked
//! out by a rule that is held to the library where it can answer. Then the table, the
//! example or the sentence with that number must stand in the document. A check answers
//! with the first place where another stands; [`not_held`] changes each number of the
//! documents in its turn to see whether some check notices.
//!
//! What a C compiler makes of the header's names is looked at in campaign/refusals.c.

mod blocks;
mod calls;
mod captions;
mod cases;
mod clean;
mod commands;
mod examples;
mod formulas;
mod good;
mod grounds;
mod header;
mod held;
mod lengths;
mod library;
mod limits;
mod load;
mod numbers;
mod own_calls;
mod own_part;
mod page;
mod phrases;
mod plans;
mod quick;
mod refusals;
mod rehearsal;
mod runs;
mod sentences;
mod sets;
mod site;
mod steps;
mod tables;
mod words;
mod writer;

pub use held::not_held;
pub use page::Held;

use page::Page;

/// The three documents.
#[derive(Debug)]
pub struct Documents {
    header: Page,
    formats: Page,
    theorems: Page,
}

impl Documents {
    /// As they stand in the repository.
    pub fn read() -> Documents {
        Documents {
            header: Page::read("include/agreement.h"),
            formats: Page::read("docs/FORMATS.md"),
            theorems: Page::read("docs/THEOREMS.md"),
        }
    }

    fn pages(&self) -> [&Page; 3] {
        [&self.header, &self.formats, &self.theorems]
    }
}

/// Holds the documents to something.
pub type Check = fn(&Documents) -> Held;

/// The examples, each answered as printed, and what is said above them.
pub const EXAMPLES: &[Check] = &[
    examples::answered,
    examples::every_refusal,
    captions::stated,
];
/// The site examples/small, byte by byte.
pub const SITE: &[Check] = &[site::small];
/// The numbers of the refusals, and the order in which they are met.
pub const REFUSALS: &[Check] = &[refusals::numbered, refusals::listed, refusals::in_order];
/// The header's enum of them.
pub const NAMES: &[Check] = &[refusals::named];
/// Limits, in bytes and in servers.
pub const LIMITS: &[Check] = &[limits::stated, limits::in_header];
/// The commands of card and plan, and sets of servers.
pub const BYTES: &[Check] = &[commands::stated, sets::stated];
/// Which blocks are due, and how many.
pub const BLOCKS: &[Check] = &[blocks::counted, blocks::ordered, blocks::least_sizes];
/// How long cards and plans can be.
pub const LENGTHS: &[Check] = &[lengths::stated, clean::stated];
/// The small cases.
pub const CASES: &[Check] = &[cases::stated, cases::proved, sets::split, quick::stated];
/// What an accepted plan shows.
pub const GOOD: &[Check] = &[good::stated];
/// What a run does.
pub const RUNS: &[Check] = &[steps::stated, runs::stated];
/// The load on each relay.
pub const LOAD: &[Check] = &[load::stated];
/// The plan writer and separate routes.
pub const WRITER: &[Check] = &[writer::stated];
/// What a server does that knows only itself.
pub const OWN_PART: &[Check] = &[own_part::stated];
/// The words of the header's answers.
pub const WORDS: &[Check] = &[words::stated];
/// What stands in the middle of sentences.
pub const PHRASES: &[Check] = &[phrases::stated, formulas::everywhere, formulas::lists];

/// All of them, those that take longest last.
fn checks() -> Vec<Check> {
    [
        PHRASES, LIMITS, BYTES, BLOCKS, LENGTHS, CASES, GOOD, RUNS, LOAD, WRITER, OWN_PART,
        REFUSALS, NAMES, WORDS, SITE, EXAMPLES,
    ]
    .concat()
}

/// The limits that the checks go by are those that the library and `rehearse` keep.
///
/// Panics where they are not, as do the five below.
pub fn library_keeps_the_limits() {
    calls::lengths_are_kept();
    calls::servers_are_the_first_n();
    calls::calls_are_kept();
    sets::bytes_are_right();
    rehearsal::numbers_are_proved();
}

/// The blocks that the checks list and count are those that the library takes.
pub fn library_takes_the_blocks() {
    blocks::formula_is_right();
    blocks::order_is_right();
}

/// The lengths that the checks work out are those of plans and cards that it accepts.
pub fn library_takes_the_lengths() {
    lengths::formula_is_right();
    lengths::too_few_sources_are_refused();
    lengths::no_link_is_left();
    clean::lengths_are_right();
}

/// The order in which the checks list what a server's calls refuse is that of the library.
pub fn library_refuses_servers_in_order() {
    own_part::refusals_are_in_order();
}

/// The lengths of the buffers that the checks give as always enough are so for the library.
pub fn library_writes_into_the_limits() {
    writer::limits_are_enough();
}

/// The steps that the checks go through decide as it does.
pub fn library_takes_the_steps() {
    steps::decide_as_the_library();
}
