//! The installer's program: a site's chart, card, plan and picture, its network and plan in
//! words, the plan check alone, the load on its relays, separate routes, and drills.
//!
//! ```text
//! cargo run --release -p lirgoth -- --help
//! ```

#![forbid(unsafe_code)]

mod answer;
mod apart;
mod args;
mod chart;
mod check;
mod cut;
mod drill;
mod explain;
mod help;
mod lies;
mod load;
mod names;
mod picture;
mod plan;
mod planned;
mod planner;
mod progress;
mod refused;
mod site;
mod verbs;
mod words;

use answer::{Answer, UNUSABLE};
use std::env;
use std::ffi::OsString;
use std::io::{self, Write};
use std::process::ExitCode;

fn main() -> ExitCode {
    let mut args = env::args_os().skip(1);
    let answer = match args.next() {
        Some(verb) => answered(&verb, args.collect()),
        None => unusable(format!("a verb is missing\n\n{}", help::ALL)),
    };
    ExitCode::from(print(&answer))
}

fn answered(verb: &OsString, args: Vec<OsString>) -> Answer {
    let Some(verb) = verb.to_str().and_then(verbs::find) else {
        let verb = verb.to_string_lossy();
        return unusable(format!(
            "there is no verb \"{verb}\"; `lirgoth --help` lists them"
        ));
    };
    if args.iter().any(|arg| arg == "--help" || arg == "-h") {
        return Answer::of(verb.help);
    }
    let done = args::Args::parse(args, verb.known).and_then(|args| (verb.run)(&args));
    done.unwrap_or_else(|why| unusable(format!("{why}; `lirgoth {} --help` says more", verb.name)))
}

fn unusable(why: String) -> Answer {
    Answer {
        notes: vec![why],
        status: UNUSABLE,
        ..Answer::default()
    }
}

/// Writes the answer out and hands its status on. Nobody may be left to read it: then
/// there is no more to do.
fn print(answer: &Answer) -> u8 {
    let mut out = io::stdout().lock();
    let written = out.write_all(&answer.out).and_then(|()| out.flush());
    for note in &answer.notes {
        eprintln!("lirgoth: {}", note.trim_end());
    }
    match written {
        Err(error) if error.kind() != io::ErrorKind::BrokenPipe => {
            eprintln!("lirgoth: standard output cannot be written: {error}");
            UNUSABLE
        }
        _ => answer.status,
    }
}
