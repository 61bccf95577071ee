//! A search for tables that make sound servers decide differently: it must find none.
//!
//! Each test fails at the first such table and shows it. There is no plan, and so no run,
//! for one faulty server out of two or three.

use compare::runs::{search, Effort, Search};

#[test]
fn without_faulty_servers_there_is_nothing_to_change() {
    let mut all = Search::default();
    for n in 2..=5 {
        let effort = Effort {
            input_lists: 12,
            climbs: 2,
            tables: 1,
        };
        all.add(&search(n, 0, 0..40, effort));
    }
    println!("f 0: {all}");
    assert_eq!((all.runs, all.gained), (all.climbs, 0));
}

#[test]
fn one_faulty_server_of_four_to_six() {
    let mut all = Search::default();
    for (n, seeds, climbs) in [(4, 0..16, 3), (5, 0..10, 3), (6, 0..2, 1)] {
        let effort = Effort {
            input_lists: 6,
            climbs,
            tables: 150,
        };
        let found = search(n, 1, seeds, effort);
        println!("n {n} f 1: {found}");
        all.add(&found);
    }
    assert!(all.runs >= 300_000);
    // The search is no idle one: more often than not it keeps the sound servers apart
    // for as long as the faulty one has anything in hand.
    assert!(2 * all.to_the_last >= all.climbs && 3 * all.gained >= all.climbs);
}

#[test]
fn two_faulty_servers_of_seven() {
    let effort = Effort {
        input_lists: 3,
        climbs: 1,
        tables: 60,
    };
    let found = search(7, 2, 0..1, effort);
    println!("n 7 f 2: {found}");
    assert!(found.runs >= 3_000 && found.gained > 0);
}
