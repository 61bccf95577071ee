//! The library beside an older archive of it. Both are called through the C interface, as
//! the wrapper would take the same time for either.

use crate::{cards, heading, plans, row, runs};
use std::fmt::Debug;
use std::hint::black_box;

/// The functions of one archive, which have its prefix.
macro_rules! archive {
    ($archive:ident, $prefix:literal) => {
        mod $archive {
            use crate::runs;
            use agreement::CLEAN_CARD_LIMIT;

            extern "C" {
                #[link_name = concat!($prefix, "agreement_version")]
                fn version_number() -> u64;
                #[link_name = concat!($prefix, "agreement_split_test")]
                fn split_words(card: *const u8, length: usize, answer: *mut [u64; 5]);
                #[link_name = concat!($prefix, "agreement_read_card")]
                fn card_words(card: *const u8, length: usize, answer: *mut [u64; 12]);
                #[link_name = concat!($prefix, "agreement_print_card")]
                fn print_words(
                    card: *const u8,
                    card_length: usize,
                    lent: *mut u8,
                    lent_length: usize,
                    answer: *mut [u64; 4],
                );
                #[link_name = concat!($prefix, "agreement_check_plan")]
                fn plan_words(
                    card: *const u8,
                    card_length: usize,
                    plan: *const u8,
                    plan_length: usize,
                    answer: *mut [u64; 4],
                );
                #[link_name = concat!($prefix, "agreement_run")]
                fn run_words(
                    card: *const u8,
                    card_length: usize,
                    plan: *const u8,
                    plan_length: usize,
                    inputs: *const u8,
                    inputs_length: usize,
                    faulty: u8,
                    table: *const u8,
                    table_length: usize,
                    lent: *mut u8,
                    lent_length: usize,
                    answer: *mut [u64; 4],
                );
            }

            pub fn version() -> u64 {
                // SAFETY: the function takes nothing and touches no memory.
                unsafe { version_number() }
            }

            // What holds of every call below: its signature is that of the archive, for
            // which `assert_signatures` looks at the version; pointer and length are those
            // of one live slice, and an empty slice's pointer is not null either; only
            // `lent` and `answer` are written, and nothing else refers to them.

            pub fn split_test(card: &[u8]) -> [u64; 5] {
                let mut answer = [0; 5];
                // SAFETY: as said above.
                unsafe { split_words(card.as_ptr(), card.len(), &mut answer) };
                answer
            }

            pub fn read_card(card: &[u8]) -> [u64; 12] {
                let mut answer = [0; 12];
                // SAFETY: as said above.
                unsafe { card_words(card.as_ptr(), card.len(), &mut answer) };
                answer
            }

            pub fn print_card(card: &[u8]) -> ([u64; 4], [u8; CLEAN_CARD_LIMIT]) {
                let (mut answer, mut lent) = ([0; 4], [0; CLEAN_CARD_LIMIT]);
                // SAFETY: as said above.
                unsafe {
                    print_words(
                        card.as_ptr(),
                        card.len(),
                        lent.as_mut_ptr(),
                        lent.len(),
                        &mut answer,
                    )
                };
                (answer, lent)
            }

            pub fn check_plan(card: &[u8], plan: &[u8]) -> [u64; 4] {
                let mut answer = [0; 4];
                // SAFETY: as said above.
                unsafe {
                    plan_words(
                        card.as_ptr(),
                        card.len(),
                        plan.as_ptr(),
                        plan.len(),
                        &mut answer,
                    )
                };
                answer
            }

            pub fn run(case: &runs::Case) -> ([u64; 4], [u8; 8]) {
                let (mut answer, mut lent) = ([0; 4], [runs::UNTOUCHED; 8]);
                // SAFETY: as said above.
                unsafe {
                    run_words(
                        case.card.as_ptr(),
                        case.card.len(),
                        case.plan.as_ptr(),
                        case.plan.len(),
                        case.inputs.as_ptr(),
                        case.inputs.len(),
                        case.faulty,
                        case.table.as_ptr(),
                        case.table.len(),
                        lent.as_mut_ptr(),
                        lent.len(),
                        &mut answer,
                    )
                };
                (answer, lent)
            }
        }
    };
}

archive!(now, "now_");
archive!(before, "before_");

/// The first version with all of the signatures above, 0.3.0. Where one of them changes,
/// this follows.
const SIGNATURES_SINCE: u64 = 3_000;

/// A call to an archive with other signatures could write past an answer.
fn assert_signatures() {
    let (now, before) = (now::version(), before::version());
    assert!(
        (SIGNATURES_SINCE..=now).contains(&before),
        "the older archive has version {before}: from {SIGNATURES_SINCE} to {now} can be timed"
    );
}

/// The rows of all tables, this library's time over the older one's.
pub fn tables(cards: &[cards::Case], plans: &[plans::Case], runs: &[runs::Case]) {
    assert_signatures();
    of_cards("split test", cards, now::split_test, before::split_test);
    of_cards("card reader", cards, now::read_card, before::read_card);
    of_cards(
        "card printed back",
        cards,
        now::print_card,
        before::print_card,
    );
    table(
        "plan check",
        plans,
        |case| case.name,
        |case| now::check_plan(&case.card, &case.plan),
        |case| before::check_plan(&case.card, &case.plan),
    );
    table("run", runs, |case| case.name, now::run, before::run);
}

fn of_cards<A: Debug + PartialEq>(
    function: &str,
    cases: &[cards::Case],
    now: impl Fn(&[u8]) -> A,
    before: impl Fn(&[u8]) -> A,
) {
    table(
        function,
        cases,
        |case| case.name,
        |case| now(&case.card),
        |case| before(&case.card),
    );
}

/// A row for each case, on which the two archives have to give the same.
fn table<C, A: Debug + PartialEq>(
    function: &str,
    cases: &[C],
    name: impl Fn(&C) -> &'static str,
    now: impl Fn(&C) -> A,
    before: impl Fn(&C) -> A,
) {
    println!();
    heading(function, "before");
    for case in cases {
        assert_eq!(now(case), before(case), "the two on {}", name(case));
        row(
            name(case),
            || now(black_box(case)),
            || before(black_box(case)),
        );
    }
}
