//! The program as it is run: what its offices decide is what the library's run of the same site
//! decides.

use agreement::ServerSet;
use generate::{good_card, Rng};
use std::fs;
use std::io::Read;
use std::path::{Path, PathBuf};
use std::process::{Command, Stdio};
use std::sync::atomic::{AtomicUsize, Ordering};
use std::thread;
use std::time::{Duration, Instant};

const DECIDED: i32 = 0;
const REFUSED: i32 = 1;
const UNUSABLE: i32 = 2;

/// No run of these tests takes longer; one that does is ended.
const LIMIT: Duration = Duration::from_secs(60);

/// Where nothing is waited for in vain, a long wait costs nothing, and no sound value is missed
/// on a machine that is busy with other things.
const PATIENT: [&str; 2] = ["--wait", "30000"];

/// Standard output and status of the program.
fn offices(folder: &Path, options: &[&str]) -> (String, i32) {
    let mut process = Command::new(env!("CARGO_BIN_EXE_offices"))
        .arg(folder)
        .args(options)
        .stdin(Stdio::null())
        .stdout(Stdio::piped())
        .stderr(Stdio::null())
        .spawn()
        .expect("the program starts");
    let begun = Instant::now();
    // It prints less than a pipe holds, so that it can be read at the end.
    let status = loop {
        match process.try_wait().expect("the program can be waited for") {
            Some(status) => break status,
            None if begun.elapsed() > LIMIT => {
                process.kill().expect("the program can be ended");
                panic!("{} with {options:?} comes to no end", folder.display());
            }
            None => thread::sleep(Duration::from_millis(5)),
        }
    };
    let mut printed = String::new();
    let mut out = process.stdout.take().expect("it is piped");
    out.read_to_string(&mut printed).expect("it prints text");
    (printed, status.code().expect("it ends by itself"))
}

/// The files of a site.
struct Site {
    card: Vec<u8>,
    plan: Vec<u8>,
    faulty: u8,
    inputs: Vec<u8>,
    table: Vec<u8>,
}

impl Site {
    fn example(name: &str) -> Site {
        let file = |file: &str| fs::read(example(name).join(file)).expect("the example is there");
        let (card, run) = (file("network.card"), file("run.in"));
        let (inputs, table) = run[1..].split_at(card[1].into());
        Site {
            plan: file("network.plan"),
            faulty: run[0],
            inputs: inputs.to_vec(),
            table: table.to_vec(),
            card,
        }
    }

    /// A good network with a plan for it, in which what the failing offices say sways the
    /// others: had they said nothing, the others would have decided otherwise. So it is noticed
    /// where the offices do not hear what the table has for them.
    fn swayed(rng: &mut Rng, n: u8, f: u8) -> Site {
        loop {
            let card = good_card(rng, n, f).expect("n is over 3f");
            let plan = generate::plan(rng, &card).expect("a good network has a plan");
            let totals = agreement::check_plan(&card, &plan).expect("a sound plan");
            for _ in 0..100 {
                let site = Site {
                    card: card.clone(),
                    plan: plan.clone(),
                    faulty: servers(rng, n, f),
                    inputs: (0..n).map(|_| rng.below(2) as u8).collect(),
                    table: (0..totals.carriages).map(|_| rng.below(3) as u8).collect(),
                };
                if site.run(&site.table) != site.run(&[]) {
                    return site;
                }
            }
        }
    }

    /// What the library's run says with this table, in the words of `rehearse`.
    fn run(&self, table: &[u8]) -> String {
        let mut bits = [9; 8];
        let faulty = ServerSet::from_bits(self.faulty);
        let ran = agreement::run(
            &self.card,
            &self.plan,
            &self.inputs,
            faulty,
            table,
            &mut bits,
        );
        let totals = ran.expect("a sound call");
        let mut text = format!("blocks {} carriages {}\n", totals.blocks, totals.carriages);
        for (server, bit) in bits.iter().enumerate().take(self.inputs.len()) {
            text += &match bit {
                2 => format!("server {server} decided faulty\n"),
                bit => format!("server {server} decided {bit}\n"),
            };
        }
        text
    }

    /// The site in a folder, with this table.
    fn folder(&self, table: &[u8]) -> Folder {
        let run = [&[self.faulty], &self.inputs[..], table].concat();
        Folder::with(&[
            ("network.card", &self.card),
            ("network.plan", &self.plan),
            ("run.in", &run),
        ])
    }
}

/// Any `count` of `n` servers.
fn servers(rng: &mut Rng, n: u8, count: u8) -> u8 {
    let mut set: u8 = 0;
    while set.count_ones() < count.into() {
        set |= 1 << rng.below(n.into());
    }
    set
}

fn example(name: &str) -> PathBuf {
    Path::new(env!("CARGO_MANIFEST_DIR")).join("..").join(name)
}

/// A folder that is gone with the test.
struct Folder(PathBuf);

impl Folder {
    fn with(files: &[(&str, &[u8])]) -> Folder {
        static COUNT: AtomicUsize = AtomicUsize::new(0);
        let count = COUNT.fetch_add(1, Ordering::Relaxed);
        let path = std::env::temp_dir().join(format!("offices-{}-{count}", std::process::id()));
        fs::create_dir_all(&path).expect("a temporary folder can be made");
        for (name, bytes) in files {
            fs::write(path.join(name), bytes).expect("the folder can be written to");
        }
        Folder(path)
    }
}

impl Drop for Folder {
    fn drop(&mut self) {
        let _ = fs::remove_dir_all(&self.0);
    }
}

#[test]
fn example_sites_end_as_they_are_rehearsed() {
    for (name, status) in [
        ("dry-bulk", DECIDED),
        ("eastward", DECIDED),
        ("patched", DECIDED),
        ("ship", DECIDED),
        ("shore", DECIDED),
        ("small", DECIDED),
        ("tanker", REFUSED),
        ("two-regions", REFUSED),
    ] {
        let stored = example(name).join("expected/rehearse.txt");
        let rehearsed = fs::read_to_string(stored).expect("the example is there");
        assert_eq!(offices(&example(name), &PATIENT), (rehearsed, status));
    }
}

#[test]
fn what_failing_offices_say_is_heard_by_the_others() {
    let mut rng = Rng::new(11);
    for (n, f) in [(4, 1), (5, 1), (6, 1)].repeat(4) {
        let site = Site::swayed(&mut rng, n, f);
        let folder = site.folder(&site.table);
        let printed = offices(&folder.0, &PATIENT);
        assert_eq!(printed, (site.run(&site.table), DECIDED));
    }
}

#[test]
fn two_offices_may_fail_at_once() {
    let site = Site::swayed(&mut Rng::new(12), 7, 2);
    let folder = site.folder(&site.table);
    let printed = offices(&folder.0, &PATIENT);
    assert_eq!(printed, (site.run(&site.table), DECIDED));
}

/// An office that is not there at all is one with an empty message table.
#[test]
fn absent_offices_are_missed() {
    let absent = ["--absent", PATIENT[0], PATIENT[1]];
    for name in ["dry-bulk", "eastward", "ship", "shore"] {
        let expected = Site::example(name).run(&[]);
        assert_eq!(offices(&example(name), &absent), (expected, DECIDED));
    }
    let mut rng = Rng::new(13);
    for (n, f) in [(4, 1), (5, 1), (6, 1)].repeat(2) {
        let site = Site::swayed(&mut rng, n, f);
        let folder = site.folder(&site.table);
        let printed = offices(&folder.0, &absent);
        assert_eq!(printed, (site.run(&[]), DECIDED));
    }
}

/// One that is there and says nothing is missed too, but only when its time is up: here after
/// two slots, when each office that it has a link to has waited for it.
#[test]
fn silent_offices_are_missed_in_time() {
    let site = Site::example("ship");
    let folder = site.folder(&[]);
    let begun = Instant::now();
    let printed = offices(&folder.0, &["--wait", "5000"]);
    assert_eq!(printed, (site.run(&[]), DECIDED));
    assert!(begun.elapsed() >= Duration::from_secs(10));
}

/// The site `silent`, and what its run decides where its failing office says closed by this
/// many carriages and then nothing. The others would decide otherwise if silence counted as
/// unsure.
fn silent_after(said: usize) -> (Site, Vec<u8>, String) {
    let site = Site::example("silent");
    let table = vec![1; said];
    let expected = site.run(&table);
    let totals = agreement::check_plan(&site.card, &site.plan).expect("a sound plan");
    let mut unsure = table.clone();
    unsure.resize(totals.carriages, 2);
    assert_ne!(site.run(&unsure), expected);
    (site, table, expected)
}

/// Silence counts as open, whether the office is there or not. Those who wait for it in vain
/// do so to the end of nine slots.
#[test]
fn silent_offices_say_open() {
    let (_, _, expected) = silent_after(0);
    let stored = example("silent").join("expected/rehearse.txt");
    let rehearsed = fs::read_to_string(stored).expect("the example is there");
    assert_eq!(expected, rehearsed);
    let absent = offices(&example("silent"), &["--absent", PATIENT[0], PATIENT[1]]);
    assert_eq!(absent, (expected.clone(), DECIDED));
    let begun = Instant::now();
    let waited_for = offices(&example("silent"), &["--wait", "2000"]);
    assert_eq!(waited_for, (expected, DECIDED));
    assert!(begun.elapsed() >= Duration::from_secs(18));
}

/// So does that of one that falls silent later on: its first value still comes.
#[test]
fn offices_that_fall_silent_say_open_from_there_on() {
    let (site, table, expected) = silent_after(9);
    let printed = offices(&site.folder(&table).0, &["--wait", "2000"]);
    assert_eq!(printed, (expected, DECIDED));
}

#[test]
fn what_cannot_run_is_refused() {
    let site = Site::example("dry-bulk");
    let run_in = |bytes: &[u8]| {
        Folder::with(&[
            ("network.card", &site.card),
            ("network.plan", &site.plan),
            ("run.in", bytes),
        ])
    };
    for (bytes, line) in [
        (&[][..], "refused call 12\n"),
        (&[0x04, 1, 1, 0, 1], "refused call 12\n"),
        (&[0x04, 1, 1, 0, 1, 2], "refused call 12\n"),
        (&[0x06, 1, 1, 0, 1, 0], "refused call 13\n"),
        (&[0x20, 1, 1, 0, 1, 0], "refused call 13\n"),
    ] {
        let printed = offices(&run_in(bytes).0, &[]);
        assert_eq!(printed, (line.to_string(), REFUSED));
    }
    let nothing = Folder::with(&[]);
    let printed = offices(&nothing.0, &[]);
    assert_eq!(printed, ("refused card 2 0\n".to_string(), REFUSED));
}

#[test]
fn what_is_no_site_is_said_to_be_none() {
    let nothing = Folder::with(&[]);
    let missing = nothing.0.join("site");
    assert_eq!(offices(&missing, &[]), (String::new(), UNUSABLE));
    assert_eq!(offices(&nothing.0, &["--often"]), (String::new(), UNUSABLE));
}
