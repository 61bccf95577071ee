//! The library's separate routes, or the servers that they all meet, beside the reference; run with
//! `cargo test --release`.
//!
//! Each test fails at the first call on which they differ, or whose routes break a rule, and shows
//! it.

use compare::routes::{self, Tally, LENGTHS};

#[test]
fn every_call_on_small_networks() {
    let mut all = 0;
    for (n, f, seeds) in [
        (2, 0, 8),
        (3, 0, 40),
        (4, 0, 40),
        (5, 0, 20),
        (6, 0, 8),
        (4, 1, 40),
        (5, 1, 40),
        (6, 1, 16),
        (5, 2, 16),
        (7, 2, 1),
    ] {
        let tally: Tally = routes::every_call(n, f, 0..seeds);
        println!("every call, n {n} f {f}: {tally}");
        assert_eq!(tally.refused[..14].iter().sum::<usize>(), 0);
        assert!(tally.found[usize::from(f)] > 0 && tally.cut[usize::from(f)] > 0);
        all += tally.calls();
    }
    assert!(all >= 500_000, "{all}");
}

#[test]
fn any_calls() {
    let tally = routes::any_calls(100, 120);
    println!("any calls: {tally}");
    assert_eq!(tally.calls(), 21 * 100 * 120 * LENGTHS);
    assert!(tally.found.iter().all(|&count| count >= 10_000));
    assert!(tally.cut.iter().all(|&count| count >= 10_000));
    assert!(tally.relayed >= 10_000);
    assert!(tally.refused[14] >= 10_000);
}

#[test]
fn servers_that_are_not_there() {
    let tally = routes::strangers(0..3_000, 20);
    println!("strangers: {tally}");
    assert_eq!(tally.calls(), 3_000 * 20 * LENGTHS);
    assert!(tally.refused[13] >= 20_000);
}

#[test]
fn cards_that_are_refused() {
    let tally = routes::refused_cards(0..20_000);
    println!("any cards: {tally}");
    for (number, &count) in tally.refused[..6].iter().enumerate().skip(1) {
        assert!(count >= 1_000, "refusal {number} was met {count} times");
    }
}
