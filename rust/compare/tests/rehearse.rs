//! The program `rehearse` and the reference on given and random triples of files; run with
//! `cargo test --release`, after `rt ci`.

use compare::rehearsals::{given_files, random_files};

#[test]
fn given_sites_are_rehearsed_as_stated() {
    let printed = given_files();
    println!("{printed:?}");
    let refused = [printed.card, printed.plan, printed.call];
    assert_eq!((printed.decided, printed.too_long), (44, 1));
    assert_eq!(refused, [4, 20, 12]);
}

#[test]
fn rehearse_prints_what_the_reference_prints() {
    let printed = random_files(1, 2_000);
    println!("{printed:?}");
    assert!(printed.decided >= 300, "{printed:?}");
    for refused in [printed.card, printed.plan, printed.call, printed.too_long] {
        assert!(refused >= 50, "{printed:?}");
    }
}
