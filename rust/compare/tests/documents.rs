//! The numbers of the header and of the documents, held to the library; run with
//! `cargo test --release`.
//!
//! Each test fails at the first number that is another and names its file and line.

use compare::documents::{self, Check, Documents};

fn hold(checks: &[Check]) {
    let documents = Documents::read();
    for check in checks {
        if let Err(fault) = check(&documents) {
            panic!("{fault}");
        }
    }
}

#[test]
fn examples_are_answered_as_printed() {
    hold(documents::EXAMPLES);
}

#[test]
fn the_small_site_has_the_bytes_of_its_files() {
    hold(documents::SITE);
}

#[test]
fn refusals_have_the_numbers_of_the_wrapper() {
    hold(documents::REFUSALS);
}

#[test]
fn the_header_has_a_name_for_each_refusal() {
    hold(documents::NAMES);
}

#[test]
fn limits_are_those_of_the_library() {
    documents::library_keeps_the_limits();
    hold(documents::LIMITS);
}

#[test]
fn commands_and_sets_have_their_bytes() {
    hold(documents::BYTES);
}

#[test]
fn blocks_are_counted_and_in_order() {
    documents::library_takes_the_blocks();
    hold(documents::BLOCKS);
}

#[test]
fn cards_and_plans_are_as_long_as_they_can_be() {
    documents::library_takes_the_lengths();
    hold(documents::LENGTHS);
}

#[test]
fn small_cases_are_answered_as_stated() {
    hold(documents::CASES);
}

#[test]
fn an_accepted_plan_shows_what_is_stated() {
    hold(documents::GOOD);
}

#[test]
fn runs_go_as_stated() {
    documents::library_takes_the_steps();
    hold(documents::RUNS);
}

#[test]
fn the_load_is_as_stated() {
    hold(documents::LOAD);
}

#[test]
fn plans_and_routes_are_written_as_stated() {
    documents::library_writes_into_the_limits();
    hold(documents::WRITER);
}

#[test]
fn a_server_s_own_part_goes_as_stated() {
    documents::library_refuses_servers_in_order();
    hold(documents::OWN_PART);
}

#[test]
fn the_header_tells_the_words_of_its_answers() {
    hold(documents::WORDS);
}

#[test]
fn sentences_have_the_right_numbers() {
    hold(documents::PHRASES);
}

#[test]
fn every_number_is_held() {
    let found = documents::not_held(&Documents::read());
    assert!(found.is_empty(), "{}", found.join("\n"));
}
