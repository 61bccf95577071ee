//! Times of the proved library beside those of the reference, on a few cards, plans
//! and runs.
//!
//! ```text
//! cargo run --release -p bench
//! ```
//!
//! Both are called in one process on the same bytes, by turns, and the middle one of
//! many rounds is what counts, for the ratio too, so that a busy machine disturbs both
//! alike.
//!
//! Where `AGREEMENT_BEFORE` is the absolute path of an older libagreement.a, the same
//! tables follow with that one in the reference's place, those of the quick test, of the load
//! and of the plan writer aside: an older archive need not have them.

#![cfg_attr(not(before), forbid(unsafe_code))]
#![cfg_attr(before, deny(unsafe_code))]

#[cfg(before)]
#[allow(unsafe_code)]
mod before;
mod cards;
mod clock;
mod plans;
mod quicks;
mod runs;
mod writes;

use agreement::CLEAN_CARD_LIMIT;
use clock::{nanoseconds_per_call, ROUNDS};
use std::hint::black_box;
use std::process;

fn main() {
    if cfg!(debug_assertions) {
        eprintln!("times of a debug build say nothing: cargo run --release -p bench");
        process::exit(2);
    }
    println!("Times in nanoseconds per call, the median of {ROUNDS} rounds by turns; the ratio is");
    println!("the median of the rounds' ratios, so the two times need not divide to it exactly.");
    println!("The two of a table are built for release, in one process, on one input;");
    println!("a call leaves nothing behind, and each that writes gets a fresh buffer.");
    let cases = cards::cases();
    for case in &cases {
        case.assert_answers();
    }
    let quicks = quicks::cases();
    for case in &quicks {
        case.assert_answers();
    }
    let plans = plans::cases();
    for case in &plans {
        case.assert_answers();
    }
    let writes = writes::cases();
    for case in &writes {
        case.assert_answers();
    }
    let runs = runs::cases();
    for case in &runs {
        case.assert_answers();
    }
    beside_reference(&cases, &quicks, &plans, &writes, &runs);
    #[cfg(before)]
    before::tables(&cases, &plans, &runs);
}

fn beside_reference(
    cases: &[cards::Case],
    quicks: &[quicks::Case],
    plans: &[plans::Case],
    writes: &[writes::Case],
    runs: &[runs::Case],
) {
    println!();
    heading("split test", "reference");
    for case in cases {
        row(
            case.name,
            || agreement::split_test(black_box(&case.card)),
            || reference::split_test(black_box(&case.card)),
        );
    }
    println!();
    heading("quick test", "reference");
    for case in quicks {
        row(
            case.name,
            || agreement::quick_test(black_box(&case.card)),
            || reference::quick_test(black_box(&case.card)),
        );
    }
    println!();
    // Both are the library's. Where no split is bad the split test goes through all of them, and
    // the quick test is to take at most twice its time; where there is an early one it stops there.
    columns("quick test beside split test", "quick", "split");
    for case in quicks.iter().filter(|case| case.is_answered()) {
        row(
            case.name,
            || agreement::quick_test(black_box(&case.card)),
            || agreement::split_test(black_box(&case.card)),
        );
    }
    println!();
    // Both answer with n, f and all links, the library with a set for each server, the
    // reference with a mark for each pair.
    heading("card reader", "reference");
    for case in cases {
        row(
            case.name,
            || agreement::read_card(black_box(&case.card)),
            || reference::read_card(black_box(&case.card)),
        );
    }
    println!();
    // Both read the card first and write into a fresh buffer that is long enough; the
    // reference makes the clean card in memory of its own before.
    heading("card printed back", "reference");
    for case in cases {
        row(
            case.name,
            || printed(black_box(&case.card), agreement::print_card),
            || printed(black_box(&case.card), reference::print_card),
        );
    }
    println!();
    heading("plan check", "reference");
    for case in plans {
        row(
            case.name,
            || agreement::check_plan(black_box(&case.card), black_box(&case.plan)),
            || reference::check_plan(black_box(&case.card), black_box(&case.plan)),
        );
    }
    println!();
    // Both make the split test first and choose the same A and S for every block.
    heading("plan writer", "reference");
    for case in writes {
        row(
            case.name,
            || black_box(case).library(),
            || black_box(case).reference(),
        );
    }
    println!();
    // Both check card and plan too: a plan that is refused takes what its check takes.
    heading("load", "reference");
    for case in plans.iter().filter(|case| case.is_accepted()) {
        row(
            case.name,
            || agreement::load(black_box(&case.card), black_box(&case.plan)),
            || reference::load(black_box(&case.card), black_box(&case.plan)),
        );
    }
    println!();
    // Both check card and plan first, so most of a run is the plan check.
    heading("run", "reference");
    for case in runs {
        row(
            case.name,
            || black_box(case).library(),
            || black_box(case).reference(),
        );
    }
}

/// The card printed into a fresh buffer that has room for every clean card.
fn printed<A>(card: &[u8], print: impl Fn(&[u8], &mut [u8]) -> A) -> (A, [u8; CLEAN_CARD_LIMIT]) {
    let mut lent = [0; CLEAN_CARD_LIMIT];
    (print(card, &mut lent), lent)
}

fn heading(function: &str, other: &str) {
    columns(function, "ours", other);
}

/// The names of a table's columns, the first two being those of the times.
fn columns(title: &str, one: &str, other: &str) {
    let ratio = format!("{one}/{other}");
    println!("{title:<44} {one:>10} {other:>10} {ratio:>15}");
}

fn row<A, B>(name: &str, one: impl Fn() -> A, other: impl Fn() -> B) {
    let times = nanoseconds_per_call(one, other);
    println!(
        "{name:<44} {:>10.1} {:>10.1} {:>15.3}",
        times.one, times.other, times.ratio
    );
}
