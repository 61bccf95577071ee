//! The program as an installer runs it: what it prints, and its status.

use generate::{
    all_pairs, bare_card, card_of, complete_card, good_card, network_card, two_way_card_of,
    with_twins, Rng,
};
use std::fs;
use std::path::{Path, PathBuf};
use std::process::{Command, Output};
use std::sync::atomic::{AtomicUsize, Ordering};

const ANSWERED: i32 = 0;
const REFUSED: i32 = 1;
const UNUSABLE: i32 = 2;

/// A chart of five offices as one would type it.
const CHART: &str = "\
# five offices of a dry-bulk desk
offices Geneva, Oslo, Lima, Pusan, Dakar
may fail 1

Geneva <-> Lima      # both ways
Geneva -> Pusan, Dakar
Oslo -> Geneva
Oslo <-> Lima
Oslo <-> Pusan
Lima -> Dakar
Pusan -> Geneva, Lima, Dakar
Dakar -> Oslo, Pusan
";

/// A folder that is gone with the test.
struct Folder(PathBuf);

impl Folder {
    fn new() -> Folder {
        static COUNT: AtomicUsize = AtomicUsize::new(0);
        let count = COUNT.fetch_add(1, Ordering::Relaxed);
        let path = std::env::temp_dir().join(format!("lirgoth-{}-{count}", std::process::id()));
        fs::create_dir_all(&path).expect("a temporary folder can be made");
        Folder(path)
    }

    fn with(files: &[(&str, &[u8])]) -> Folder {
        let folder = Folder::new();
        for (name, bytes) in files {
            fs::write(folder.path(name), bytes).expect("the folder can be written to");
        }
        folder
    }

    fn path(&self, name: &str) -> PathBuf {
        self.0.join(name)
    }

    fn shown(&self, name: &str) -> String {
        self.path(name).display().to_string()
    }
}

impl Drop for Folder {
    fn drop(&mut self) {
        let _ = fs::remove_dir_all(&self.0);
    }
}

fn example(site: &str) -> String {
    let path = Path::new(env!("CARGO_MANIFEST_DIR"))
        .join("../../examples")
        .join(site);
    path.display().to_string()
}

/// Card and plan of an example, in a folder that can be written to.
fn copy_of(site: &str) -> Folder {
    let file = |name: &str| fs::read(example(site) + "/" + name).expect("the example is there");
    Folder::with(&[
        ("network.card", &file("network.card")),
        ("network.plan", &file("network.plan")),
    ])
}

fn lirgoth(args: &[&str]) -> Output {
    let mut program = Command::new(env!("CARGO_BIN_EXE_lirgoth"));
    program.args(args).output().expect("the program can be run")
}

/// What a call with that status puts on standard output and standard error.
fn said(args: &[&str], status: i32) -> (String, String) {
    let Output {
        status: ended,
        stdout,
        stderr,
    } = lirgoth(args);
    let [out, err] = [stdout, stderr].map(|bytes| String::from_utf8(bytes).expect("text"));
    assert_eq!(ended.code(), Some(status), "{args:?} said {out}{err}");
    (out, err)
}

fn out(args: &[&str], status: i32) -> String {
    said(args, status).0
}

#[test]
fn twin_cables_are_one_link_and_are_told() {
    let site = copy_of("dry-bulk");
    let card = fs::read(site.path("network.card")).expect("it was written");
    let before = out(&["chart", &site.shown("")], ANSWERED);
    // The first two links once more, and one of them a third time.
    let twins = [&card[..9], &card[3..9], &card[3..6], &card[9..]].concat();
    fs::write(site.path("network.card"), &twins).expect("it can be written");
    let explained = out(&["explain", &site.shown("")], UNUSABLE);
    let size = "5 offices, at most 1 may fail, 15 links (3 given again)\n";
    let rest = "no bad split: the offices can agree, whichever one of them fails\n\
                plan accepted: 50 blocks and 464 carriages\n";
    assert_eq!(explained, format!("{size}{rest}"));
    assert_eq!(out(&["chart", &site.shown("")], ANSWERED), before);

    let chart = format!("{CHART}Oslo -> Geneva, Geneva\nGeneva <-> Oslo # the way back is new\n");
    let folder = Folder::with(&[("desk.chart", chart.as_bytes())]);
    let hex = out(&["card", "--hex", &folder.shown("desk.chart")], ANSWERED);
    let given = |link: &str| hex.lines().filter(|line| *line == link).count();
    assert_eq!([given("02 01 00"), given("02 00 01")], [1, 1], "{hex}");
}

/// What `print` writes for this card, without --hex and with it.
fn printed(card: &[u8]) -> (Vec<u8>, String) {
    let site = Folder::with(&[("network.card", card)]);
    let own = site.0.display().to_string();
    let Output { status, stdout, .. } = lirgoth(&["print", &own]);
    assert_eq!(status.code(), Some(ANSWERED));
    (stdout, out(&["print", "--hex", &own], ANSWERED))
}

#[test]
fn a_card_is_printed_clean() {
    let clean = [1, 4, 1, 2, 0, 3, 2, 1, 0, 2, 1, 2, 2, 3, 0, 3];
    let hex = "01 04 01\n02 00 03\n02 01 00\n02 01 02\n02 03 00\n03\n";
    // In order, in another order, and with links given again.
    for links in [
        &[[2, 0, 3], [2, 1, 0], [2, 1, 2], [2, 3, 0]][..],
        &[[2, 3, 0], [2, 1, 2], [2, 0, 3], [2, 1, 0]],
        &[
            [2, 1, 2],
            [2, 1, 2],
            [2, 3, 0],
            [2, 1, 0],
            [2, 0, 3],
            [2, 1, 2],
        ],
    ] {
        let card = [&[1, 4, 1][..], &links.concat(), &[3]].concat();
        assert_eq!(printed(&card), (clean.to_vec(), hex.to_string()));
    }
    let without_links = (vec![1, 2, 0, 3], "01 02 00\n03\n".to_string());
    assert_eq!(printed(&[1, 2, 0, 3]), without_links);
    let longest = complete_card(8, 2);
    assert_eq!(printed(&longest).0, longest);
}

#[test]
fn a_printed_card_is_of_the_same_site() {
    let mut rng = Rng::new(2);
    for (n, f) in [(2, 0), (5, 1), (8, 2)] {
        let card = network_card(&mut rng, n, f);
        let card = with_twins(&mut rng, &card);
        let (clean, _) = printed(&card);
        assert_eq!(agreement::read_card(&clean), agreement::read_card(&card));
        assert_eq!(printed(&clean).0, clean);
        let [before, after] = [&card, &clean].map(|card| {
            let site = Folder::with(&[("network.card", card)]);
            out(&["chart", &site.shown("")], ANSWERED)
        });
        assert_eq!(after, before);
    }
    // The chart of a card makes the clean card too.
    let site = copy_of("dry-bulk");
    let chart = out(&["chart", &site.shown("")], ANSWERED);
    fs::write(site.path("network.chart"), chart).expect("the folder can be written to");
    let card = lirgoth(&["card", &site.shown("network.chart")]).stdout;
    assert_eq!(lirgoth(&["print", &site.shown("")]).stdout, card);
}

#[test]
fn a_card_that_cannot_be_read_is_not_printed() {
    for (card, words) in [
        (
            &[1; 1_025][..],
            "1 at byte 0: 1,025 bytes, and a card has at most 1,024",
        ),
        (
            &[1, 2, 0, 2, 0, 1],
            "2 at byte 6: the card ends here, and a command is due",
        ),
        (
            &[1, 2, 0, 3, 3],
            "3 at byte 4: a byte follows the end command",
        ),
        (
            &[3],
            "4 at byte 0: a card begins with 01, and this one with 03",
        ),
        (
            &[1, 2, 0, 2, 0, 2, 3],
            "5 at byte 3: link 0 → 2: there is no office 2, offices are 0 to 1",
        ),
    ] {
        let site = Folder::with(&[("network.card", card)]);
        for args in [
            &["print", &site.shown("")][..],
            &["print", &site.shown(""), "--hex"],
        ] {
            let (printed, error) = said(args, REFUSED);
            assert_eq!(
                (printed, error),
                (String::new(), format!("lirgoth: refused card {words}\n"))
            );
        }
    }
}

#[test]
fn from_a_chart_typed_by_hand_to_a_card_and_a_picture() {
    let folder = Folder::with(&[("desk.chart", CHART.as_bytes())]);
    let (chart, site) = (folder.shown("desk.chart"), folder.shown("site"));
    let stored = out(&["card", &chart, "--site", &site], ANSWERED);
    assert_eq!(stored, format!("{site}/network.card written, 49 bytes\n"));

    let card = fs::read(folder.path("site/network.card")).expect("it was written");
    let network = agreement::read_card(&card).expect("the library reads it");
    assert_eq!((network.n, network.f), (5, 1));
    // It is the network of the site dry-bulk.
    assert_eq!(
        card,
        fs::read(example("dry-bulk") + "/network.card").expect("it is there")
    );
    assert_eq!(lirgoth(&["card", &chart]).stdout, card);
    let hex = out(&["card", "--hex", &chart], ANSWERED);
    assert!(hex.starts_with("01 05 01\n02 00 02\n02 00 03\n"), "{hex}");
    assert!(hex.ends_with("\n03\n"), "{hex}");

    // The chart of the card makes the same card again.
    let again = out(&["chart", &site], ANSWERED);
    assert!(
        again.starts_with("offices Geneva, Oslo, Lima, Pusan, Dakar\nmay fail 1\n"),
        "{again}"
    );
    fs::write(folder.path("again.chart"), again).expect("the folder can be written to");
    assert_eq!(
        lirgoth(&["card", &folder.shown("again.chart")]).stdout,
        card
    );

    let picture = out(&["picture", &site], ANSWERED);
    assert!(
        picture.starts_with("<?xml") || picture.starts_with("<svg"),
        "{picture}"
    );
    assert!(picture.contains("Pusan") && picture.trim_end().ends_with("</svg>"));

    let (explained, missing) = said(&["explain", &site], UNUSABLE);
    assert!(
        explained.starts_with("5 offices, at most 1 may fail, 15 links\n"),
        "{explained}"
    );
    assert!(
        missing.contains(&format!("{site}/network.plan is missing")),
        "{missing}"
    );
}

fn readme() -> String {
    let path = Path::new(env!("CARGO_MANIFEST_DIR")).join("../../README.md");
    fs::read_to_string(path).expect("it is there")
}

/// The chart of README.md that begins with this comment.
fn chart_of_readme(comment: &str) -> String {
    let readme = readme();
    let lines = readme
        .lines()
        .map(|line| line.strip_prefix("       ").unwrap_or_default());
    let chart = lines
        .skip_while(|line| *line != comment)
        .take_while(|line| !line.is_empty());
    chart.map(|line| format!("{line}\n")).collect()
}

/// What README.md has an installer type, step by step.
#[test]
fn the_installers_way_of_the_readme() {
    let readme = readme();
    let tanker = fs::read_to_string(example("tanker") + "/expected/explain.txt");
    let tanker = tanker.expect("stored words");
    assert!(readme.contains(tanker.lines().last().expect("a refusal in words")));
    let check = out(&["check", &example("dry-bulk")], ANSWERED);
    let check: String = check.lines().map(|line| format!("    {line}\n")).collect();
    assert!(readme.contains(&check), "{check}");
    let chart = chart_of_readme("# dry-bulk desk");
    let folder = Folder::with(&[("desk.chart", chart.as_bytes())]);
    let (chart, site) = (folder.shown("desk.chart"), folder.shown("desk"));
    out(&["card", &chart, "--site", &site], ANSWERED);
    let planned = out(&["plan", &site], ANSWERED);
    let accepted = "plan accepted: 50 blocks and 400 carriages\n";
    assert!(planned.ends_with(accepted), "{planned}");
    assert!(readme.contains("       blocks 50 carriages 400\n"));
    let way = [
        "--from",
        "Geneva,Lima",
        "--to",
        "Dakar",
        "--without",
        "Pusan",
    ];
    out(&[&["cut", &site][..], &way].concat(), ANSWERED);
    let load = out(&["load", &site], ANSWERED);
    let load: String = load
        .lines()
        .map(|line| format!("       {line}\n"))
        .collect();
    assert!(readme.contains(&load), "{load}");
    let drill = [
        "drill", &site, "--faulty", "Lima", "--inputs", "11010", "--lies", "split", "--write",
    ];
    out(&drill, ANSWERED);
    assert!(out(&["explain", &site], ANSWERED)
        .ends_with("office 4 (Dakar) entered open and shows closed\n"));
}

/// The first two of the three commands of README.md; the third is `rehearse`, which tools/examples
/// runs on the same three files.
#[test]
fn from_a_chart_typed_by_hand_to_decided_bits_in_three_commands() {
    let readme = readme();
    for command in [
        "lirgoth plan eastward.chart --site eastward",
        "lirgoth drill eastward --faulty Tokyo --inputs 110010 --write",
        "rehearse eastward",
    ] {
        assert!(readme.contains(&format!("    sh tools/{command}\n")));
    }
    let chart = chart_of_readme("# eastward");
    let folder = Folder::with(&[("eastward.chart", chart.as_bytes())]);
    let (chart, site) = (folder.shown("eastward.chart"), folder.shown("eastward"));
    let planned = out(&["plan", &chart, "--site", &site], ANSWERED);
    assert_eq!(
        planned,
        format!(
            "{site}/network.card written, 58 bytes\n\
             {site}/network.plan written, 10,025 bytes\n\
             plan accepted: 121 blocks and 1,210 carriages\n"
        )
    );
    let drill = [
        "drill", &site, "--faulty", "Tokyo", "--inputs", "110010", "--write",
    ];
    let drilled = out(&drill, ANSWERED);
    let shows = |line: &&str| line.ends_with(" and shows closed");
    assert_eq!(drilled.lines().filter(shows).count(), 5, "{drilled}");
    // It is the example, file by file.
    for name in ["network.chart", "network.card", "network.plan", "run.in"] {
        let [made, stored] = [
            folder.path("eastward").join(name),
            Path::new(&example("eastward")).join(name),
        ]
        .map(|path| fs::read(path).expect("it is there"));
        assert_eq!(made, stored, "{name}");
    }
}

/// Every office hears as few others as it can: with any link left out a split is bad.
#[test]
fn eastward_can_lack_no_link() {
    let card = fs::read(example("eastward") + "/network.card").expect("it is there");
    assert_eq!(agreement::split_test(&card), Ok(None));
    for place in (3..card.len() - 1).step_by(3) {
        let less = [&card[..place], &card[place + 3..]].concat();
        assert!(matches!(agreement::split_test(&less), Ok(Some(_))));
    }
}

#[test]
fn a_plan_is_written_for_every_site_without_a_bad_split() {
    let mut rng = Rng::new(9);
    for (n, f) in [(2, 0), (4, 0), (8, 0), (4, 1), (6, 1), (7, 2)] {
        for card in [bare_card(&mut rng, n, f), good_card(&mut rng, n, f)] {
            let card = card.expect("n is over 3f");
            let site = Folder::with(&[("network.card", &card)]);
            let own = site.0.display().to_string();
            let printed = out(&["plan", &own], ANSWERED);
            let plan = fs::read(site.path("network.plan")).expect("it was written");
            assert_eq!(agreement::plan_for(&card), Ok(plan));
            let written = format!("{own}/network.plan written, ");
            assert!(printed.starts_with(&written), "{printed}");
            assert!(printed.contains("\nplan accepted: "), "{printed}");
            let checked = out(&["check", &own], ANSWERED);
            assert!(checked.starts_with("plan accepted: "), "{checked}");
            // Once more: the same plan is no other one.
            assert_eq!(out(&["plan", &own], ANSWERED), printed);
        }
    }
}

#[test]
fn a_bad_split_is_named_in_the_place_of_a_plan() {
    // Lima and Pusan hear Oslo alone.
    let chart = "offices Geneva, Oslo, Lima, Pusan\nmay fail 1\n\
                 Geneva <-> Oslo\nOslo <-> Lima, Pusan\nLima <-> Pusan\n";
    let folder = Folder::with(&[("desk.chart", chart.as_bytes())]);
    let (chart, site) = (folder.shown("desk.chart"), folder.shown("desk"));
    let refused = out(&["plan", &chart, "--site", &site], REFUSED);
    let lines: Vec<&str> = refused.lines().collect();
    assert_eq!(lines[0], "refused call 17: the network has a bad split");
    assert!(lines[1].starts_with("bad split (F none, L 0"), "{refused}");
    assert!(lines[1].contains("(Geneva)"), "{refused}");
    assert!(refused.ends_with("and no plan can help\n"), "{refused}");
    assert!(!folder.path("desk").exists(), "nothing is written");

    // The same of a card, with the names of the chart beside it.
    out(&["card", &chart, "--site", &site], ANSWERED);
    assert_eq!(out(&["plan", &site], REFUSED), refused);
    assert!(!folder.path("desk/network.plan").exists());
    let explained = out(&["explain", &site], REFUSED);
    assert!(explained.contains(lines[1]), "{explained}");

    let regions = out(&["plan", &example("two-regions")], REFUSED);
    assert!(
        regions.contains("\nbad split (F none, L 1 2, C 0 3, R 4 5): "),
        "{regions}"
    );
}

#[test]
fn another_plan_is_written_over_only_where_that_is_asked_for() {
    let site = copy_of("dry-bulk");
    let own = site.0.display().to_string();
    let bought = fs::read(site.path("network.plan")).expect("it is there");
    let (printed, error) = said(&["plan", &own], UNUSABLE);
    assert_eq!(printed, "");
    assert_eq!(
        error,
        format!(
            "lirgoth: {own}/network.plan is there already, and is another plan: add --replace to \
             write over it\n"
        )
    );
    assert_eq!(
        fs::read(site.path("network.plan")).expect("it is there"),
        bought
    );
    out(&["plan", &own, "--replace"], ANSWERED);
    let card = fs::read(site.path("network.card")).expect("it is there");
    let written = fs::read(site.path("network.plan")).expect("it is there");
    assert_eq!(agreement::plan_for(&card), Ok(written));

    // From a chart, the card is left as it is too.
    fs::write(site.path("network.plan"), &bought).expect("the folder can be written to");
    let chart = Folder::with(&[("new.chart", b"offices 2\nmay fail 0\n0 -> 1\n")]);
    let new = [
        "plan",
        &chart.shown("new.chart"),
        "--site",
        &own,
        "--replace",
    ];
    said(&new[..4], UNUSABLE);
    assert_eq!(
        fs::read(site.path("network.card")).expect("it is there"),
        card
    );
    let replaced = out(&new, ANSWERED);
    assert_eq!(
        replaced,
        format!(
            "{own}/network.card written, 7 bytes\n{own}/network.plan written, 14 bytes\n\
             plan accepted: 1 block and 1 carriage\n"
        )
    );
}

#[test]
fn a_chart_or_a_site_without_its_card_has_no_plan() {
    let folder = Folder::with(&[
        ("bad.chart", b"offices 3\nmay fail 1\n0 -> 3\n"),
        ("good.chart", CHART.as_bytes()),
    ]);
    let own = folder.0.display().to_string();
    let site = folder.shown("site");
    let [bad, good, nothing] =
        ["bad.chart", "good.chart", "nothing.chart"].map(|name| folder.shown(name));
    let (_, error) = said(&["plan", &bad, "--site", &site], REFUSED);
    assert!(
        error.contains("line 3: there is no office \"3\""),
        "{error}"
    );
    let (_, error) = said(&["plan", &nothing, "--site", &site], UNUSABLE);
    assert!(error.contains("nothing.chart is missing"), "{error}");
    let (_, error) = said(&["plan", &good], UNUSABLE);
    assert!(
        error.contains("is a chart, and --site is missing"),
        "{error}"
    );
    let (_, error) = said(&["plan", &own, "--site", &site], UNUSABLE);
    assert!(error.contains("--site goes with a chart"), "{error}");
    let (_, error) = said(&["plan", &good, "--site", &bad], UNUSABLE);
    assert!(
        error.contains("is a file, and a site is a folder"),
        "{error}"
    );
    assert!(!folder.path("site").exists());
}

/// A row of routes, each from source to receiver.
fn told_routes(text: &str) -> Vec<Vec<&str>> {
    let lines = text.lines().filter_map(|line| line.strip_prefix("  "));
    lines.map(|line| line.split(" → ").collect()).collect()
}

#[test]
fn separate_routes_are_shown_by_the_names_of_offices() {
    let site = example("eastward");
    let cut = |from: &str, to: &str, without: &str| {
        let args = [
            "cut",
            &site,
            "--from",
            from,
            "--to",
            to,
            "--without",
            without,
        ];
        out(&args, ANSWERED)
    };
    // Houston hears Tokyo, Vancouver and Singapore.
    let shown = cut("Singapore,Vancouver", "Houston", "none");
    assert_eq!(
        shown,
        "2 routes from offices 2 (Singapore), 4 (Vancouver) to office 5 (Houston), that share \
         nothing but the last:\n  Singapore → Houston\n  Vancouver → Houston\n"
    );
    let shown = cut("London,Dubai", "Houston", "Tokyo");
    let first =
        "2 routes from offices 0 (London), 1 (Dubai) to office 5 (Houston), without office 3 \
                 (Tokyo), that share nothing but the last:\n";
    assert!(shown.starts_with(first), "{shown}");
    let routes = told_routes(&shown);
    let mut met: Vec<&str> = Vec::new();
    for route in &routes {
        assert_eq!(route.last(), Some(&"Houston"), "{shown}");
        met.extend(&route[..route.len() - 1]);
    }
    let count = met.len();
    met.sort_unstable();
    met.dedup();
    assert_eq!((routes.len(), met.len()), (2, count), "{shown}");
    assert!(!met.contains(&"Tokyo"), "{shown}");
    // Numbers do as well, and without --without none is left out.
    let by_number = ["cut", &site, "--to", "5", "--from", "2,4"];
    assert_eq!(
        out(&by_number, ANSWERED),
        cut("Singapore,Vancouver", "Houston", "none")
    );
}

#[test]
fn offices_that_every_route_meets_are_shown_by_their_names() {
    let told = |site: &str, way: &[&str]| out(&[&["cut", site][..], way].concat(), ANSWERED);
    assert_eq!(
        told(
            &example("eastward"),
            &["--from", "London", "--to", "Houston"]
        ),
        "fewer than 2 separate routes from office 0 (London) to office 5 (Houston): every route \
         meets office 0 (London)\n"
    );
    // One link leads from each region to the other.
    assert_eq!(
        told(&example("two-regions"), &["--from", "0,1,2", "--to", "3"]),
        "fewer than 2 separate routes from offices 0 1 2 to office 3: every route meets office 0\n"
    );
    // The ship cannot reply.
    assert_eq!(
        told(&example("ship"), &["--from", "MV Alma", "--to", "Houston"]),
        "no route from office 4 (MV Alma) to office 2 (Houston)\n"
    );
}

#[test]
fn ways_that_cannot_be_asked_for() {
    let site = example("eastward");
    let refused = out(
        &[
            "cut",
            &site,
            "--from",
            "0",
            "--to",
            "5",
            "--without",
            "London,Tokyo",
        ],
        REFUSED,
    );
    assert_eq!(
        refused,
        "refused call 13: offices 0 (London), 3 (Tokyo) are to fail, and at most 1 may\n"
    );
    for (args, why) in [
        (&["--to", "5"][..], "--from is missing"),
        (&["--from", "0"], "--to is missing"),
        (&["--from", "none", "--to", "5"], "--from names no office"),
        (
            &["--from", "0", "--to", "4,5"],
            "--to names 2 offices, and wants one",
        ),
        (
            &["--from", "0,Oslo", "--to", "5"],
            "--from has \"Oslo\", and offices are 0 to 5 or their names",
        ),
        (&["--from", "0", "--to", "6"], "--to has \"6\""),
        (
            &["--from", "0", "--to", "5", "--without", "7"],
            "--without has \"7\"",
        ),
    ] {
        let (printed, error) = said(&[&["cut", &site][..], args].concat(), UNUSABLE);
        assert_eq!(printed, "");
        assert!(error.contains(why), "{args:?}: {error}");
    }
}

#[test]
fn mistakes_in_a_chart_are_named_by_their_lines() {
    let folder = Folder::with(&[("bad.chart", b"offices 3\nmay fail 1\n0 -> 3\n1 -> 1\n")]);
    let chart = folder.shown("bad.chart");
    let (printed, mistakes) = said(&["card", &chart, "--site", &folder.shown("site")], REFUSED);
    assert_eq!(printed, "");
    let lines: Vec<&str> = mistakes.lines().collect();
    assert_eq!(
        lines,
        [
            format!("lirgoth: {chart}, line 3: there is no office \"3\": offices are 0 to 2, or their names"),
            format!("lirgoth: {chart}, line 4: a link from office 1 to itself"),
        ]
    );
    assert!(!folder.path("site").exists());
}

#[test]
fn the_example_sites_in_words() {
    for (site, status) in [
        ("dry-bulk", ANSWERED),
        ("eastward", ANSWERED),
        ("patched", ANSWERED),
        ("ship", ANSWERED),
        ("shore", ANSWERED),
        ("silent", ANSWERED),
        ("small", ANSWERED),
        ("tanker", REFUSED),
        ("two-regions", REFUSED),
    ] {
        let folder = example(site);
        let expected = fs::read_to_string(format!("{folder}/expected/explain.txt"));
        assert_eq!(
            out(&["explain", &folder], status),
            expected.expect("stored words"),
            "{site}"
        );
        let expected = fs::read_to_string(format!("{folder}/expected/load.txt"));
        assert_eq!(
            out(&["load", &folder], status),
            expected.expect("a stored load"),
            "{site}"
        );
        // Nothing is said of a plan that is not there.
        if site != "two-regions" {
            let expected = fs::read_to_string(format!("{folder}/expected/check.txt"));
            assert_eq!(
                out(&["check", &folder], status),
                expected.expect("a stored check"),
                "{site}"
            );
        }
        let expected = fs::read_to_string(format!("{folder}/expected/picture.svg"));
        let status = if site == "two-regions" {
            REFUSED
        } else {
            ANSWERED
        };
        assert_eq!(
            out(&["picture", &folder], status),
            expected.expect("a stored picture"),
            "{site}"
        );
        let expected = fs::read_to_string(format!("{folder}/expected/print.txt"));
        assert_eq!(
            out(&["print", "--hex", &folder], ANSWERED),
            expected.expect("a stored card"),
            "{site}"
        );
    }
}

#[test]
fn the_drill_with_split_lies_is_the_run_of_shore() {
    let site = copy_of("shore");
    let drill = [
        "drill",
        &site.shown(""),
        "--faulty",
        "3",
        "--inputs",
        "111000",
        "--lies",
        "split",
        "--write",
    ];
    let printed = out(&drill, ANSWERED);
    let shows = |line: &&str| line.ends_with(" and shows closed");
    assert_eq!(printed.lines().filter(shows).count(), 5, "{printed}");
    let [stored, given] = [
        site.path("run.in"),
        Path::new(&example("shore")).join("run.in"),
    ]
    .map(|path| fs::read(path).expect("it is there"));
    assert_eq!(stored, given);
}

#[test]
fn shore_is_two_regions_with_two_more_links_each_way() {
    let links = |site: &str| -> Vec<String> {
        let card = out(&["print", "--hex", &example(site)], ANSWERED);
        let links = card.lines().filter(|line| line.starts_with("02"));
        links.map(str::to_string).collect()
    };
    let (shore, regions) = (links("shore"), links("two-regions"));
    assert!(regions.iter().all(|link| shore.contains(link)));
    assert_eq!(shore.len(), regions.len() + 4);
}

#[test]
fn the_picture_of_shore_marks_the_offices_to_take_away() {
    let picture = out(&["picture", &example("shore")], ANSWERED);
    // One letter in the legend.
    assert_eq!(marked(&picture), 3 + 1);
}

/// How many routes the program says that each of `n` offices relays, by their numbers.
fn told_loads(loads: &str, n: u8) -> Vec<usize> {
    let relays = |office: u8| {
        let start = format!("office {office} ");
        let line = loads.lines().find(|line| line.starts_with(&start));
        let (_, after) = line
            .and_then(|line| line.split_once(" relays "))
            .expect("a line");
        let number = after.split(' ').next().unwrap_or_default().replace(',', "");
        number.parse().expect("a number")
    };
    (0..n).map(relays).collect()
}

#[test]
fn the_load_of_every_office_is_told_the_widest_relay_first() {
    let mut rng = Rng::new(5);
    for (n, f) in [(2, 0), (3, 0), (5, 0), (8, 0), (4, 1), (6, 1), (7, 2)] {
        let card = generate::good_card(&mut rng, n, f).expect("n is over 3f");
        let plan = generate::plan(&mut rng, &card).expect("a good network has a plan");
        let site = Folder::with(&[("network.card", &card), ("network.plan", &plan)]);
        let told = out(&["load", &site.shown("")], ANSWERED);
        let loads = told_loads(&told, n);
        let load = agreement::load(&card, &plan).expect("an accepted plan");
        assert_eq!(loads, load.routes[..usize::from(n)], "{told}");
        // A line for them all, and then one for each, the widest first.
        let lines: Vec<&str> = told.lines().collect();
        assert_eq!(lines.len(), 1 + usize::from(n), "{told}");
        let office = |line: &&str| -> usize { line[7..8].parse().expect("a number") };
        let offices: Vec<usize> = lines[1..].iter().map(office).collect();
        let before = |pair: &[usize]| {
            let [one, next] = [pair[0], pair[1]].map(|office| (loads[office], office));
            one.0 > next.0 || one.0 == next.0 && one.1 < next.1
        };
        assert!(offices.windows(2).all(before), "{told}");
    }
}

#[test]
fn a_site_without_an_accepted_plan_has_no_load() {
    let site = copy_of("dry-bulk");
    let own = site.0.display().to_string();
    let plan = fs::read(site.path("network.plan")).expect("it was written");
    fs::write(site.path("network.plan"), &plan[..plan.len() - 1]).expect("it can be written");
    // As `explain` tells it, but alone.
    let explained = out(&["explain", &own], REFUSED);
    let refused = explained.lines().last().expect("a refusal in words");
    assert!(refused.starts_with("refused plan 2 at byte "), "{refused}");
    assert_eq!(out(&["load", &own], REFUSED), format!("{refused}\n"));
    fs::remove_file(site.path("network.plan")).expect("it is there");
    let (printed, missing) = said(&["load", &own], UNUSABLE);
    let expected = format!("lirgoth: {own}/network.plan is missing\n");
    assert_eq!((printed, missing), (String::new(), expected));
}

/// What `check` adds to a refused plan.
const SAYS_NOTHING: &str = "by itself a refused plan says nothing about the network, \
                            which `lirgoth explain SITE` tests\n";

#[test]
fn an_accepted_plan_is_enough_to_show_a_good_network() {
    // No run is wanted.
    for (site, plan, fails) in [
        (
            "dry-bulk",
            "50 blocks and 464 carriages, for 5 offices (at least 4 wanted) of which at most 1 may fail",
            "whichever one of them fails",
        ),
        (
            "small",
            "1 block and 1 carriage, for 2 offices of which none may fail",
            "as long as none of them fails",
        ),
    ] {
        let folder = copy_of(site);
        let own = folder.0.display().to_string();
        let expected = format!(
            "plan accepted: {plan}\n\
             no bad split: the offices can agree, {fails}; \
             the accepted plan shows this, and no other check is needed\n"
        );
        let checked = said(&["check", &own], ANSWERED);
        assert_eq!(checked, (expected, String::new()), "{site}");
        // Where `explain` says the same it has the same words.
        let explained = out(&["explain", &own], UNUSABLE);
        for line in checked.0.lines() {
            let same = |told: &str| line.starts_with(told);
            assert!(explained.lines().any(same), "{line}: {explained}");
        }
    }
}

#[test]
fn an_accepted_plan_of_any_size_shows_a_good_network() {
    let mut rng = Rng::new(8);
    for (n, f) in [(2, 0), (8, 0), (4, 1), (7, 1), (7, 2), (8, 2)] {
        let card = generate::good_card(&mut rng, n, f).expect("n is over 3f");
        let plan = generate::plan(&mut rng, &card).expect("a good network has a plan");
        let site = Folder::with(&[("network.card", &card), ("network.plan", &plan)]);
        let checked = out(&["check", &site.shown("")], ANSWERED);
        let explained = out(&["explain", &site.shown("")], UNUSABLE);
        let good = explained
            .lines()
            .find(|line| line.starts_with("no bad split: "));
        let shown = checked.lines().last().expect("what it shows");
        assert!(
            shown.starts_with(good.expect("a good network")),
            "{checked}"
        );
        assert!(checked.contains(&format!(", for {n} offices")), "{checked}");
        assert_eq!(checked.lines().count(), 2, "{checked}");
    }
}

#[test]
fn a_refused_plan_says_nothing_about_the_network() {
    // On a good network it is told as `explain` tells it.
    let site = copy_of("tanker");
    let own = site.0.display().to_string();
    let explained = out(&["explain", &own], REFUSED);
    assert!(explained.contains("\nno bad split: "), "{explained}");
    let refused = explained.lines().last().expect("a refusal in words");
    assert!(refused.starts_with("refused plan 10 at byte "), "{refused}");
    let checked = said(&["check", &own], REFUSED);
    let expected = format!("{refused}\n{SAYS_NOTHING}");
    assert_eq!(checked, (expected, String::new()));

    // On one with a bad split too, whatever the plan: `explain` tells of the split instead.
    let card = fs::read(example("two-regions") + "/network.card").expect("it is there");
    let begun = generate::broken_off_plan(&mut Rng::new(8), &card);
    let other = fs::read(example("shore") + "/network.plan").expect("it is there");
    for plan in [&begun[..], &other, &[]] {
        let site = Folder::with(&[("network.card", &card), ("network.plan", plan)]);
        let checked = out(&["check", &site.shown("")], REFUSED);
        let (refused, after) = checked.split_once('\n').expect("two lines");
        assert!(refused.starts_with("refused plan "), "{checked}");
        assert_eq!(after, SAYS_NOTHING);
        let explained = out(&["explain", &site.shown("")], REFUSED);
        assert!(explained.contains("\nbad split ("), "{explained}");
    }
}

#[test]
fn a_refused_plan_has_the_names_of_the_chart() {
    let file = |name: &str| fs::read(example("ship") + "/" + name).expect("the example is there");
    let mut plan = file("network.plan");
    // The first route leads to no office.
    plan[6] = 7;
    let site = Folder::with(&[
        ("network.card", &file("network.card")),
        ("network.plan", &plan),
        ("network.chart", &file("network.chart")),
    ]);
    let own = site.0.display().to_string();
    let explained = out(&["explain", &own], REFUSED);
    let refused = explained.lines().last().expect("a refusal in words");
    assert!(refused.contains(" (Singapore)"), "{refused}");
    let checked = said(&["check", &own], REFUSED);
    let expected = format!("{refused}\n{SAYS_NOTHING}");
    assert_eq!(checked, (expected, String::new()));

    // A chart of another network is told where an office could be named, and else not looked at.
    fs::write(site.path("network.chart"), CHART).expect("the folder can be written to");
    let (_, note) = said(&["check", &own], REFUSED);
    assert!(note.contains("is of another network"), "{note}");
    fs::write(site.path("network.plan"), file("network.plan")).expect("it can be written");
    let (_, note) = said(&["check", &own], ANSWERED);
    assert_eq!(note, "");
}

#[test]
fn a_site_without_card_or_plan_is_not_checked() {
    let site = copy_of("dry-bulk");
    let own = site.0.display().to_string();
    let not_checked = |name: &str, why: &str| {
        let expected = format!("lirgoth: {own}/{name} {why}\n");
        assert_eq!(said(&["check", &own], UNUSABLE), (String::new(), expected));
    };
    fs::remove_file(site.path("network.plan")).expect("it is there");
    not_checked("network.plan", "is missing");
    fs::create_dir(site.path("network.plan")).expect("the folder can be written to");
    not_checked("network.plan", "is a folder, and a file is wanted");

    // Of a refused card nothing but its refusal is told, with or without a plan.
    fs::write(site.path("network.card"), [1, 9, 0, 3]).expect("it can be written");
    let refused = "refused card 5 at byte 0: 9 offices, and there can be 2 to 8\n".to_string();
    let expected = (refused, String::new());
    assert_eq!(said(&["check", &own], REFUSED), expected);
    fs::remove_dir(site.path("network.plan")).expect("it is there");
    assert_eq!(said(&["check", &own], REFUSED), expected);
    fs::write(site.path("network.plan"), [0x15]).expect("the folder can be written to");
    assert_eq!(said(&["check", &own], REFUSED), expected);

    fs::remove_file(site.path("network.card")).expect("it is there");
    not_checked("network.card", "is missing");
}

#[test]
fn the_help_of_check_says_why_it_is_enough() {
    let help = out(&["check", "--help"], ANSWERED);
    assert!(
        help.contains("accepted plan shows that the network has no bad split"),
        "{help}"
    );
    assert!(help.contains("at least 3f+1 offices"), "{help}");
}

#[test]
fn the_picture_shows_the_load_of_an_accepted_plan_alone() {
    let site = copy_of("dry-bulk");
    let own = site.0.display().to_string();
    let plan = fs::read(site.path("network.plan")).expect("it was written");
    let with_load = out(&["picture", &own], ANSWERED);
    let load = agreement::load(
        &fs::read(site.path("network.card")).expect("it was written"),
        &plan,
    );
    for (office, routes) in (0..5).zip(load.expect("an accepted plan").routes) {
        let beside = format!(">relays {routes}</text>");
        assert!(with_load.contains(&beside), "office {office}: {with_load}");
    }
    // Without a plan nothing is said; with one that is refused the picture is the same, and
    // what is wrong is said beside it.
    fs::remove_file(site.path("network.plan")).expect("it is there");
    let (without, note) = said(&["picture", &own], ANSWERED);
    assert!(!without.contains("relays") && note.is_empty(), "{note}");
    fs::write(site.path("network.plan"), &plan[1..]).expect("the folder can be written to");
    let (refused, note) = said(&["picture", &own], ANSWERED);
    assert_eq!(refused, without);
    let expected = format!(
        "lirgoth: {own}/network.plan is refused, and `lirgoth explain` says why; \
         the offices are drawn without their load\n"
    );
    assert_eq!(note, expected);
    // A plan is not looked at where none can help.
    let regions = fs::read(example("two-regions") + "/network.card").expect("it is there");
    let site = Folder::with(&[("network.card", &regions), ("network.plan", &plan)]);
    let (_, note) = said(&["picture", &site.shown("")], REFUSED);
    assert_eq!(note, "");
}

/// What `explain` says of a card alone, and the picture of it.
fn told(card: &[u8], has_bad_split: bool) -> (String, String) {
    let site = Folder::with(&[("network.card", card)]);
    let own = site.0.display().to_string();
    let (explained, drawn) = match has_bad_split {
        true => (REFUSED, REFUSED),
        // There is no plan.
        false => (UNUSABLE, ANSWERED),
    };
    (
        out(&["explain", &own], explained),
        out(&["picture", &own], drawn),
    )
}

/// How often the picture has the letter K: once for each office that is marked, once in the legend.
fn marked(picture: &str) -> usize {
    picture.matches(">K</text>").count()
}

#[test]
fn two_way_sites_by_the_older_rule() {
    // All links, and as many offices as are wanted.
    let (explained, picture) = told(&complete_card(4, 1), false);
    assert_eq!(
        explained,
        "4 offices, at most 1 may fail, 12 links\n\
         two-way site, by the older rule: 4 offices (at least 4 wanted), \
         3 must be taken away before the rest falls apart (at least 3 wanted): the rule holds\n  \
         no offices leave the rest apart, as every two are linked: \
         the rule counts this as 3, one less than there are offices\n\
         no bad split: the offices can agree, whichever one of them fails\n"
    );
    assert_eq!(marked(&picture), 0);

    // All links, and too few offices.
    let (explained, picture) = told(&complete_card(6, 2), true);
    assert!(
        explained.starts_with(
            "6 offices, at most 2 may fail, 30 links\n\
             two-way site, by the older rule: 6 offices (at least 7 wanted), \
             5 must be taken away before the rest falls apart (at least 5 wanted): \
             the rule fails, as there are too few offices\n  \
             no offices leave the rest apart, as every two are linked: \
             the rule counts this as 5, one less than there are offices\n\
             bad split (F 0 1, L 2 3, C none, R 4 5): "
        ),
        "{explained}"
    );
    assert_eq!(marked(&picture), 0);

    // Both fall short.
    let (explained, _) = told(&two_way_card_of(3, 1, &[(0, 1), (1, 2)]), true);
    assert!(
        explained.starts_with(
            "3 offices, at most 1 may fail, 4 links\n\
             two-way site, by the older rule: 3 offices (at least 4 wanted), \
             1 must be taken away before the rest falls apart (at least 3 wanted): \
             the rule fails, as there are too few offices and the rest falls apart too soon\n  \
             taking away office 1 leaves office 0 apart from office 2\n\
             bad split ("
        ),
        "{explained}"
    );

    // Enough offices, and a ring is cut at two places. The picture has the bad split alone.
    let ring = two_way_card_of(5, 1, &[(0, 1), (1, 2), (2, 3), (3, 4), (4, 0)]);
    let (explained, picture) = told(&ring, true);
    assert!(
        explained.starts_with(
            "5 offices, at most 1 may fail, 10 links\n\
             two-way site, by the older rule: 5 offices (at least 4 wanted), \
             2 must be taken away before the rest falls apart (at least 3 wanted): \
             the rule fails, as the rest falls apart too soon\n  \
             taking away offices 0 2 leaves office 1 apart from offices 3 4\n\
             bad split ("
        ),
        "{explained}"
    );
    assert_eq!(marked(&picture), 0);

    // Where none may fail a row will do, and its picture says where it can be cut.
    let (explained, picture) = told(&two_way_card_of(3, 0, &[(0, 1), (1, 2)]), false);
    assert_eq!(
        explained,
        "3 offices, none may fail, 4 links\n\
         two-way site, by the older rule: 3 offices (at least 1 wanted), \
         1 must be taken away before the rest falls apart (at least 1 wanted): the rule holds\n  \
         taking away office 1 leaves office 0 apart from office 2\n\
         no bad split: the offices can agree, as long as none of them fails\n"
    );
    assert_eq!(marked(&picture), 2);

    // No links at all.
    let (explained, _) = told(&two_way_card_of(4, 1, &[]), true);
    assert!(
        explained.contains("\n  the offices are apart as they are: office 0 from offices 1 2 3\n"),
        "{explained}"
    );
}

#[test]
fn the_older_rule_is_told_exactly_of_two_way_sites_and_holds_without_a_bad_split() {
    let mut rng = Rng::new(7);
    let mut seen = [0; 3];
    for round in 0..90 {
        let n = 2 + (round % 7) as u8;
        let mut pairs = all_pairs(n);
        pairs.retain(|_| rng.below(6) > 0);
        let f = (round % 3) as u8;
        let card = two_way_card_of(n, f, &pairs);
        let good = agreement::split_test(&card) == Ok(None);
        let (explained, picture) = told(&card, !good);
        let says = |words: &str| explained.contains(words);
        assert!(says("\ntwo-way site, by the older rule: "), "{explained}");
        assert_eq!(says(": the rule holds\n"), good, "{explained}");
        assert_eq!(says(": the rule fails, as "), !good, "{explained}");
        let least = agreement::quick_test(&card).expect("two-way").least;
        let all_links = pairs.len() == all_pairs(n).len();
        let letters = match good && !all_links {
            true => usize::from(least) + 1,
            false => 0,
        };
        assert_eq!(marked(&picture), letters, "{explained}");
        seen[usize::from(good) + usize::from(letters > 0)] += 1;

        // Without one of the returns nothing is said of the rule, and nothing is taken away.
        let Some(&(u, v)) = pairs.first() else {
            continue;
        };
        let network = agreement::read_card(&card).expect("a sound card");
        let one_less = generate::all_links(n)
            .into_iter()
            .filter(|&(a, b)| network.linked(a, b) && (a, b) != (v, u));
        let card = card_of(n, f, &one_less.collect::<Vec<_>>());
        let (explained, picture) = told(&card, agreement::split_test(&card) != Ok(None));
        assert!(!explained.contains("two-way site"), "{explained}");
        assert_eq!(
            (marked(&picture), picture.contains("Two-way site")),
            (0, false)
        );
    }
    assert!(seen.iter().all(|&count| count > 5), "{seen:?}");
}

#[test]
fn a_drill_can_be_stored_and_explained() {
    let folder = copy_of("dry-bulk");
    let own = folder.0.display().to_string();
    for lies in ["split", "turned", "silent", "random:7"] {
        let drill = [
            "drill", &own, "--faulty", "2", "--inputs", "11010", "--lies", lies,
        ];
        let printed = out(&drill, ANSWERED);
        let shows = printed
            .lines()
            .filter(|line| line.contains(" shows "))
            .count();
        assert_eq!(shows, 4, "{printed}");
        assert!(!folder.path("run.in").exists() || lies != "split");

        let written = out(&[&drill[..], &["--write"]].concat(), ANSWERED);
        let stored = fs::read(folder.path("run.in")).expect("it was stored");
        assert_eq!(stored[..6], [4, 1, 1, 0, 1, 0]);
        assert_eq!(stored.len(), if lies == "silent" { 6 } else { 470 });
        assert!(written.starts_with(&printed), "{written}");
        let explained = out(&["explain", &own], ANSWERED);
        let offices = |text: &str| -> Vec<String> {
            let lines = text
                .lines()
                .filter(|line| line.starts_with("office ") && !line.contains(" to "));
            lines
                .filter(|line| line.contains(" shows "))
                .map(str::to_string)
                .collect()
        };
        assert_eq!(offices(&explained), offices(&printed));
    }
}

#[test]
fn the_drill_with_split_lies_is_the_run_of_dry_bulk() {
    // Office 2 says closed to 0 and 1 and open to 3 and 4, and turns round what it relays.
    let folder = copy_of("dry-bulk");
    let own = folder.0.display().to_string();
    let drill = [
        "drill",
        &own,
        "--faulty=2",
        "--inputs=11010",
        "--lies=split",
    ];
    assert_eq!(
        out(&drill, ANSWERED),
        "office 2 says closed to 0 1 and open to 3 4, and turns round what it relays for others\n\
         office 0 entered closed and shows closed\n\
         office 1 entered closed and shows closed\n\
         office 2 fails\n\
         office 3 entered closed and shows closed\n\
         office 4 entered open and shows closed\n"
    );
    out(&[&drill[..], &["--write"]].concat(), ANSWERED);
    let [stored, given] = [
        folder.path("run.in"),
        Path::new(&example("dry-bulk")).join("run.in"),
    ]
    .map(|path| fs::read(path).expect("it is there"));
    assert_eq!(stored, given);
}

#[test]
fn the_drill_of_a_silent_office_is_the_run_of_silent() {
    let folder = copy_of("silent");
    let own = folder.0.display().to_string();
    let drill = [
        "drill",
        &own,
        "--faulty=3",
        "--inputs=11010",
        "--lies=silent",
        "--write",
    ];
    let all_show = |bit: &str| {
        format!(
            "office 0 entered closed and shows {bit}\n\
             office 1 entered closed and shows {bit}\n\
             office 2 entered open and shows {bit}\n\
             office 3 fails\n\
             office 4 entered open and shows {bit}\n"
        )
    };
    let printed = out(&drill, ANSWERED);
    let expected = "office 3 sends nothing, which counts as open\n".to_string();
    assert!(
        printed.starts_with(&(expected + &all_show("open"))),
        "{printed}"
    );
    let [stored, given] = [
        folder.path("run.in"),
        Path::new(&example("silent")).join("run.in"),
    ]
    .map(|path| fs::read(path).expect("it is there"));
    assert_eq!(stored, given);
    assert_eq!(stored, [8, 1, 1, 0, 1, 0]);
    // Where silence counts as unsure all show closed: this is a run in which it matters.
    let unsure = [&stored[..], &[2; 464]].concat();
    fs::write(folder.path("run.in"), unsure).expect("it can be written");
    let explained = out(&["explain", &own], ANSWERED);
    assert!(explained.ends_with(&all_show("closed")), "{explained}");
}

#[test]
fn every_drill_of_a_site() {
    let (printed, progress) = said(&["drill", &example("dry-bulk"), "--every"], ANSWERED);
    assert_eq!(
        printed,
        "all sound offices agreed in all of 672 runs, each time on what one of them had entered\n\
         tried: 6 sets of at most 1 failing, 32 lists of inputs, lies split, turned, silent, random:1\n"
    );
    assert!(progress.ends_with("672 of 672 runs\n"), "{progress}");
    let one = [
        "drill",
        &example("ship"),
        "--every",
        "--inputs",
        "10100",
        "--lies",
        "random:9",
    ];
    assert!(out(&one, ANSWERED).contains("all of 21 runs"));
}

#[test]
fn drills_that_cannot_be() {
    let site = example("dry-bulk");
    let refused = out(
        &["drill", &site, "--faulty", "0,2", "--inputs", "11010"],
        REFUSED,
    );
    assert_eq!(
        refused,
        "refused call 13: offices 0 2 are to fail, and at most 1 may\n"
    );
    let refused = out(&["drill", &example("tanker"), "--inputs", "11010"], REFUSED);
    assert!(
        refused.starts_with("refused plan 10 at byte 197: block 2"),
        "{refused}"
    );
    let split = out(
        &["drill", &example("two-regions"), "--inputs", "111111"],
        REFUSED,
    );
    assert!(
        split.starts_with("bad split (F none, L 1 2, C 0 3, R 4 5): "),
        "{split}"
    );
    let folder = Folder::with(&[("network.card", &complete_card(4, 1))]);
    let own = folder.0.display().to_string();
    let (_, missing) = said(&["drill", &own, "--inputs", "1111"], UNUSABLE);
    assert_eq!(missing, format!("lirgoth: {own}/network.plan is missing\n"));
    for (args, why) in [
        (
            &["--every", "--write"][..],
            "--every goes through all failing offices",
        ),
        (
            &["--every", "--lies", "split"],
            "--every tries each kind of lie",
        ),
        (&[], "--inputs is missing"),
        (
            &["--inputs", "1101"],
            "--inputs has 4 bits, and there are 5 offices",
        ),
        (&["--inputs", "11012"], "--inputs has \"2\""),
        (
            &["--inputs", "11010", "--faulty", "5"],
            "--faulty has \"5\"",
        ),
        (
            &["--inputs", "11010", "--lies", "loud"],
            "\"loud\" is no kind of lie",
        ),
    ] {
        let (printed, error) = said(&[&["drill", &site][..], args].concat(), UNUSABLE);
        assert_eq!(printed, "");
        assert!(error.contains(why), "{args:?}: {error}");
    }
}

#[test]
fn a_plan_longer_than_rehearse_takes_is_explained() {
    let card = complete_card(8, 1);
    let plan = generate::plan(&mut Rng::new(1), &card).expect("n is over 3f");
    assert!(plan.len() > 65_536);
    let folder = Folder::with(&[
        ("network.card", &card),
        ("network.plan", &plan),
        ("run.in", &[0b100, 1, 1, 1, 1, 0, 0, 0, 0]),
    ]);
    let explained = out(&["explain", &folder.0.display().to_string()], ANSWERED);
    assert_eq!(
        explained
            .lines()
            .filter(|line| line.contains(" shows "))
            .count(),
        7,
        "{explained}"
    );
}

#[test]
fn a_refused_call_is_told_in_words() {
    let folder = copy_of("small");
    fs::write(folder.path("run.in"), [0, 1]).expect("the folder can be written to");
    let explained = out(&["explain", &folder.0.display().to_string()], REFUSED);
    let last = explained.lines().last();
    assert_eq!(
        last,
        Some("refused call 12: 1 input given, and each of the 2 offices enters one")
    );
}

#[test]
fn files_that_cannot_be_read_are_named() {
    let folder = Folder::new();
    let own = folder.0.display().to_string();
    for verb in [
        "explain", "check", "chart", "plan", "print", "load", "picture",
    ] {
        let (_, error) = said(&[verb, &own], UNUSABLE);
        assert_eq!(error, format!("lirgoth: {own}/network.card is missing\n"));
        let nowhere = folder.shown("nowhere");
        let (_, error) = said(&[verb, &nowhere], UNUSABLE);
        assert!(error.contains(&format!("{nowhere} is missing")), "{error}");
    }
    let (_, error) = said(&["cut", &own, "--from", "0", "--to", "1"], UNUSABLE);
    assert_eq!(error, format!("lirgoth: {own}/network.card is missing\n"));
    fs::create_dir(folder.path("network.card")).expect("the folder can be written to");
    let (_, error) = said(&["explain", &own], UNUSABLE);
    assert_eq!(
        error,
        format!("lirgoth: {own}/network.card is a folder, and a file is wanted\n")
    );
    let (_, error) = said(&["card", &folder.shown("nothing.chart")], UNUSABLE);
    assert!(error.contains("nothing.chart is missing"), "{error}");
    fs::write(folder.path("desk.chart"), CHART).expect("the folder can be written to");
    let (_, error) = said(&["picture", &folder.shown("desk.chart")], UNUSABLE);
    assert!(
        error.contains("desk.chart is a file, and a site is a folder"),
        "{error}"
    );
}

#[test]
fn a_refused_card_is_told_by_every_verb() {
    let folder = Folder::with(&[("network.card", &[1, 9, 0, 3])]);
    let own = folder.0.display().to_string();
    let words = "refused card 5 at byte 0: 9 offices, and there can be 2 to 8";
    for args in [
        &["explain", &own][..],
        &["check", &own],
        &["chart", &own],
        &["print", &own],
        &["load", &own],
        &["picture", &own],
        &["plan", &own],
        &["cut", &own, "--from", "0", "--to", "1"],
        &["drill", &own, "--every"],
    ] {
        let (printed, error) = said(args, REFUSED);
        assert!(format!("{printed}{error}").contains(words), "{args:?}");
    }
}

#[test]
fn a_chart_of_another_network_gives_no_names() {
    let folder = Folder::with(&[
        ("network.card", &[1, 2, 0, 2, 0, 1, 3]),
        ("network.chart", b"offices Oslo, Lima\nmay fail 0\n"),
    ]);
    let (chart, note) = said(&["chart", &folder.0.display().to_string()], ANSWERED);
    assert_eq!(chart, "offices 2\nmay fail 0\n0 -> 1\n");
    assert!(
        note.contains("network.chart is of another network than network.card"),
        "{note}"
    );
}

#[test]
fn help_and_bad_usage() {
    let help = out(&["--help"], ANSWERED);
    for verb in [
        "card", "plan", "chart", "print", "explain", "check", "load", "cut", "drill", "picture",
    ] {
        assert!(help.contains(&format!("  lirgoth {verb} ")), "{verb}");
        let own = out(&[verb, "--help"], ANSWERED);
        assert!(own.starts_with(&format!("lirgoth {verb} ")), "{own}");
        let (_, error) = said(&[verb], UNUSABLE);
        assert!(error.contains("is missing"), "{error}");
        let (_, error) = said(&[verb, "a", "b"], UNUSABLE);
        assert!(error.contains("one word too many"), "{error}");
        let (_, error) = said(&[verb, "a", "--loud"], UNUSABLE);
        assert!(error.contains("there is no option --loud"), "{error}");
    }
    said(&[], UNUSABLE);
    said(&["sing"], UNUSABLE);
}
