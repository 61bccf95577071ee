//! The program `rehearse` beside the reference: the same three files, the same text.
//!
//! The program is proved down to the reading and writing of files; here it is run as it
//! is built, in a folder of its own for each triple of files.

use crate::planned;
use crate::plans::good;
use crate::text::{cases, unhex};
use generate::{card, damaged_plan, faulty, inputs, plan_like_bytes, table, with_twins, Rng};
use reference::rehearse;
use std::fs;
use std::path::{Path, PathBuf};
use std::process::Command;

/// The names of the three files, in the order of the program.
const FILES: [&str; 3] = ["network.card", "network.plan", "run.in"];
/// A file with more bytes is too long.
pub(crate) const FILE_LIMIT: usize = 65_536;

/// The three files of a site, `None` for one that is not there.
type Files = [Option<Vec<u8>>; 3];

/// The program as `rt run` and `rt ci` build it.
fn program() -> PathBuf {
    let path = Path::new(env!("CARGO_MANIFEST_DIR")).join("../../crates/rehearse/out/rehearse");
    assert!(
        path.is_file(),
        "there is no {}: run `rt run` in crates/rehearse first",
        path.display()
    );
    path
}

/// What the program prints in a folder with these files.
fn printed(program: &Path, folder: &Path, files: &Files) -> String {
    for (name, bytes) in FILES.iter().zip(files) {
        let path = folder.join(name);
        match bytes {
            Some(bytes) => fs::write(path, bytes).expect("the folder can be written to"),
            // It need not have been there before.
            None => drop(fs::remove_file(path)),
        }
    }
    let output = Command::new(program).current_dir(folder).output();
    let output = output.expect("the program can be run");
    assert!(
        output.status.success(),
        "the program ended with {}",
        output.status
    );
    String::from_utf8(output.stdout).expect("the program prints ASCII")
}

/// How often each kind of text was printed.
#[derive(Debug, Default)]
pub struct Printed {
    pub decided: usize,
    pub card: usize,
    pub plan: usize,
    pub call: usize,
    pub too_long: usize,
}

impl Printed {
    fn count(&mut self, text: &str) {
        let kinds = [
            ("blocks ", &mut self.decided),
            ("refused card ", &mut self.card),
            ("refused plan ", &mut self.plan),
            ("refused call ", &mut self.call),
            ("too long", &mut self.too_long),
        ];
        let kind = kinds.into_iter().find(|(start, _)| text.starts_with(start));
        *kind.unwrap_or_else(|| panic!("what is {text:?}?")).1 += 1;
    }
}

/// Runs the program on `count` random triples of files.
pub fn random_files(seed: u64, count: usize) -> Printed {
    let mut rng = Rng::new(seed);
    let files = (0..count).map(|_| draw(&mut rng));
    on_each(&format!("random-{seed}"), files.map(|files| (files, None)))
}

/// The sites with what the program should print for them, which neither implementation made.
const SITES: &str = include_str!("../data/sites.tsv");

/// Runs the program on every given site.
pub fn given_files() -> Printed {
    on_each(
        "given",
        cases(SITES).map(|fields| {
            let [_, card, plan, run_in, text] = fields[..] else {
                panic!("a case has five fields: {fields:?}");
            };
            let file = |field: &str| (field != "-").then(|| unhex(field));
            let lines = text.split('/').map(|line| format!("{line}\n"));
            ([card, plan, run_in].map(file), Some(lines.collect()))
        }),
    )
}

/// Runs the program on each triple of files: it prints what the reference prints, and what is
/// stated, where something is.
fn on_each(name: &str, triples: impl Iterator<Item = (Files, Option<String>)>) -> Printed {
    let program = program();
    let folder = std::env::temp_dir().join(format!("rehearse-{}-{name}", std::process::id()));
    fs::create_dir_all(&folder).expect("a temporary folder can be made");
    let mut tally = Printed::default();
    for (files, stated) in triples {
        let [card, plan, run_in] = &files;
        let expected = rehearse(card.as_deref(), plan.as_deref(), run_in.as_deref());
        let text = printed(&program, &folder, &files);
        assert_eq!(text, expected, "on {card:02x?}, {plan:02x?}, {run_in:02x?}");
        if let Some(stated) = stated {
            assert_eq!(text, stated, "on {card:02x?}, {plan:02x?}, {run_in:02x?}");
        }
        // Card and plan come before the call.
        if text.starts_with("blocks ") || text.starts_with("refused call ") {
            let fault = good::fault(card.as_deref().unwrap_or_default());
            assert_eq!(fault, None, "on {card:02x?}, {plan:02x?}, {run_in:02x?}");
        }
        tally.count(&text);
    }
    fs::remove_dir_all(&folder).expect("the folder can be removed");
    tally
}

/// A triple of files: mostly a network with its plan and a run, at times with twin
/// cables, damaged, absent or too long.
fn draw(rng: &mut Rng) -> Files {
    let sizes = [(2, 0), (3, 0), (4, 0), (5, 0), (4, 1), (5, 1)];
    let (n, f) = sizes[rng.below(sizes.len())];
    let (sound, accepted) = planned(rng, n, f);
    let mut run_in = vec![faulty(rng, n, f)];
    run_in.extend(inputs(rng, n));
    run_in.extend(table(rng, accepted.len() / 8));
    let mut files = [sound, accepted, run_in];
    match rng.below(8) {
        0 => files[0] = card(rng),
        1 | 2 => files[1] = damaged_plan(rng, &files[0], &files[1]),
        3 => files[1] = plan_like_bytes(rng, &files[1]),
        4 => files[2].truncate(rng.below(usize::from(n) + 2)),
        5 => {
            // Around the limit: the last byte that may be, or one more.
            let which = rng.below(3);
            files[which].resize(FILE_LIMIT + rng.below(2), 0);
        }
        6 => files[0] = with_twins(rng, &files[0]),
        _ => {}
    }
    files.map(|file| if rng.below(40) == 0 { None } else { Some(file) })
}
