//! The verbs of the program, each with its options. One that cannot be understood says
//! so in words; all else is an answer.

use crate::answer::{Answer, REFUSED};
use crate::apart::apart;
use crate::args::{Args, Known};
use crate::chart::{self, Chart};
use crate::check;
use crate::cut::{self, Way};
use crate::drill::{self, all_inputs, Drilled};
use crate::explain;
use crate::help;
use crate::lies::Lies;
use crate::load;
use crate::names::Names;
use crate::picture::{self, Mark};
use crate::planner;
use crate::progress::Progress;
use crate::refused;
use crate::site::{self, Site, Unreadable, CARD, CHART, PLAN, RUN};
use crate::words::{accepted, counted};
use agreement::{Load, Network, Refusal, ServerSet, CLEAN_CARD_LIMIT};
use std::fs;
use std::io::{self, IsTerminal};
use std::path::Path;

pub struct Verb {
    pub name: &'static str,
    pub help: &'static str,
    pub known: &'static [Known],
    pub run: fn(&Args) -> Result<Answer, String>,
}

pub fn find(name: &str) -> Option<&'static Verb> {
    VERBS.iter().find(|verb| verb.name == name)
}

const VERBS: [Verb; 13] = [
    Verb {
        name: "card",
        help: help::CARD,
        known: &[("--hex", None), ("--site", Some("a folder"))],
        run: card,
    },
    Verb {
        name: "plan",
        help: help::PLAN,
        known: &[("--site", Some("a folder")), ("--replace", None)],
        run: plan,
    },
    Verb {
        name: "chart",
        help: help::CHART,
        known: &[],
        run: |args| on_site(args, chart_of),
    },
    Verb {
        name: "print",
        help: help::PRINT,
        known: &[("--hex", None)],
        run: print,
    },
    Verb {
        name: "explain",
        help: help::EXPLAIN,
        known: &[],
        run: |args| on_site(args, |site| explain::explain(&site)),
    },
    Verb {
        name: "check",
        help: help::CHECK,
        known: &[],
        run: |args| on_site(args, |site| check::check(&site)),
    },
    Verb {
        name: "load",
        help: help::LOAD,
        known: &[],
        run: |args| on_site(args, |site| load::load(&site)),
    },
    Verb {
        name: "cut",
        help: help::CUT,
        known: &[
            ("--from", Some("offices")),
            ("--to", Some("an office")),
            ("--without", Some("offices")),
        ],
        run: cut,
    },
    Verb {
        name: "drill",
        help: help::DRILL,
        known: &[
            ("--inputs", Some("a bit for each office")),
            ("--faulty", Some("offices")),
            ("--lies", Some("split, turned, silent or random:SEED")),
            ("--write", None),
            ("--every", None),
        ],
        run: drill,
    },
    Verb {
        name: "picture",
        help: help::PICTURE,
        known: &[],
        run: |args| on_site(args, picture_of),
    },
    Verb {
        name: "--help",
        help: help::ALL,
        known: &[],
        run: |_| Ok(Answer::of(help::ALL)),
    },
    Verb {
        name: "-h",
        help: help::ALL,
        known: &[],
        run: |_| Ok(Answer::of(help::ALL)),
    },
    Verb {
        name: "--version",
        help: help::ALL,
        known: &[],
        run: |_| Ok(Answer::of(version())),
    },
];

fn version() -> String {
    let library = agreement::version();
    format!("lirgoth {}, library {library}\n", env!("CARGO_PKG_VERSION"))
}

/// What a verb answers that takes a site and nothing else.
fn on_site(args: &Args, verb: fn(Site) -> Result<Answer, Unreadable>) -> Result<Answer, String> {
    let folder = args.path("SITE")?;
    Ok(Site::open(folder).and_then(verb).unwrap_or_else(unreadable))
}

fn unreadable(why: Unreadable) -> Answer {
    Answer::default().unreadable(why)
}

/// A file that cannot be written is named as one that cannot be read is.
fn write(path: &Path, bytes: &[u8]) -> Result<(), Unreadable> {
    fs::write(path, bytes)
        .map_err(|error| Unreadable(format!("{} cannot be written: {error}", path.display())))
}

fn card(args: &Args) -> Result<Answer, String> {
    let path = args.path("CHART")?;
    let (hex, site) = (args.has("--hex"), args.value("--site"));
    if hex && site.is_some() {
        return Err("--hex and --site do not go together".to_string());
    }
    let Charted { bytes, card, .. } = match charted(path) {
        Ok(charted) => charted,
        Err(answer) => return Ok(answer),
    };
    if let Some(folder) = site {
        let stored = store(Path::new(folder), &card, &bytes);
        return Ok(stored.map_or_else(unreadable, Answer::of));
    }
    put_out(card, hex, "--hex or --site")
}

/// A chart, and the card made from it.
struct Charted {
    bytes: Vec<u8>,
    names: Names,
    card: Vec<u8>,
}

/// The chart in a file, or the answer that names its mistakes.
fn charted(path: &Path) -> Result<Charted, Answer> {
    let bytes = site::read(path).map_err(unreadable)?;
    let Chart { network, names } = chart::read(&bytes).map_err(|mistakes| {
        let mut answer = Answer::default().refused();
        let named = |mistake| format!("{}, {mistake}", path.display());
        answer.notes = mistakes.iter().map(named).collect();
        answer
    })?;
    let card = chart::card(&network);
    debug_assert_eq!(agreement::read_card(&card), Ok(network));
    Ok(Charted { bytes, names, card })
}

fn plan(args: &Args) -> Result<Answer, String> {
    let path = args.path("CHART or SITE")?;
    let (replace, folder) = (args.has("--replace"), args.value("--site").map(Path::new));
    let planned = match folder {
        None if path.is_file() => {
            return Err(format!(
                "{} is a chart, and --site is missing: the folder that its card and plan go into",
                path.display()
            ))
        }
        Some(_) if path.is_dir() => {
            return Err(format!(
                "--site goes with a chart, and {} is a folder",
                path.display()
            ))
        }
        None => Site::open(path).and_then(|site| plan_site(&site, replace)),
        Some(folder) => plan_chart(path, folder, replace),
    };
    Ok(planned.unwrap_or_else(unreadable))
}

/// A plan for the site's card, written beside it.
fn plan_site(site: &Site, replace: bool) -> Result<Answer, Unreadable> {
    let card = site.card()?;
    let mut note = None;
    let names = |network: &Network| {
        let (names, said) = site.names(network);
        note = said;
        names
    };
    match planner::plan_for(&card, names) {
        Ok(plan) => {
            planner::may_write(site, &plan, replace)?;
            store_plan(site, &card, &plan)
        }
        Err(mut refused) => {
            refused.notes.extend(note);
            Ok(refused)
        }
    }
}

/// Card, chart and plan of a chart into a site's folder. Where there is no plan, none of them.
fn plan_chart(path: &Path, folder: &Path, replace: bool) -> Result<Answer, Unreadable> {
    let Charted { bytes, names, card } = match charted(path) {
        Ok(charted) => charted,
        Err(answer) => return Ok(answer),
    };
    let plan = match planner::plan_for(&card, |_| names) {
        Ok(plan) => plan,
        Err(refused) => return Ok(refused),
    };
    if folder.exists() {
        planner::may_write(&Site::open(folder)?, &plan, replace)?;
    }
    let stored = store(folder, &card, &bytes)?;
    let mut answer = store_plan(&Site::open(folder)?, &card, &plan)?;
    answer.out.splice(0..0, stored.into_bytes());
    Ok(answer)
}

/// The plan into the site's folder, and what the plan check says of it.
fn store_plan(site: &Site, card: &[u8], plan: &[u8]) -> Result<Answer, Unreadable> {
    let mut answer = Answer::default();
    let totals = match agreement::check_plan(card, plan) {
        Ok(totals) => totals,
        // The library accepts what it writes; nothing else is to be stored.
        Err(refusal) => {
            answer.line(&refusal.to_string());
            return Ok(answer.refused());
        }
    };
    let path = site.path(PLAN);
    write(&path, plan)?;
    let bytes = counted(plan.len(), "byte");
    answer.line(&format!("{} written, {bytes}", path.display()));
    answer.line(&accepted(totals));
    Ok(answer)
}

/// The card as bytes, or in hexadecimal if that is asked for. A terminal has no use for
/// bytes: there the caller is to add one of `options`.
fn put_out(card: Vec<u8>, hex: bool, options: &str) -> Result<Answer, String> {
    if hex {
        return Ok(Answer::of(in_hexadecimal(&card)));
    }
    if io::stdout().is_terminal() {
        return Err(format!(
            "a card is bytes, not text: name a file with >, or add {options}"
        ));
    }
    Ok(Answer::of(card))
}

/// Card and chart into a site's folder.
fn store(folder: &Path, card: &[u8], chart: &[u8]) -> Result<String, Unreadable> {
    fs::create_dir_all(folder)
        .map_err(|error| Unreadable(format!("{} cannot be made: {error}", folder.display())))?;
    let path = folder.join(CARD);
    write(&path, card)?;
    write(&folder.join(CHART), chart)?;
    Ok(format!(
        "{} written, {} bytes\n",
        path.display(),
        card.len()
    ))
}

/// A command to a line.
fn in_hexadecimal(card: &[u8]) -> String {
    let mut text = String::new();
    for command in card.chunks(3) {
        let bytes: Vec<String> = command.iter().map(|byte| format!("{byte:02X}")).collect();
        text += &bytes.join(" ");
        text.push('\n');
    }
    text
}

/// The site's card with its network, or the answer that refuses it.
fn network_of(site: &Site) -> Result<Result<(Vec<u8>, Network), Answer>, Unreadable> {
    let card = site.card()?;
    Ok(match agreement::read_card(&card) {
        Ok(network) => Ok((card, network)),
        Err(refusal) => Err(refused_card(refusal, &card)),
    })
}

fn refused_card(refusal: Refusal, card: &[u8]) -> Answer {
    let mut answer = Answer::default().refused();
    answer.notes.push(refused::card(refusal, card));
    answer
}

fn print(args: &Args) -> Result<Answer, String> {
    let folder = args.path("SITE")?;
    let card = match Site::open(folder).and_then(|site| site.card()) {
        Ok(card) => card,
        Err(why) => return Ok(unreadable(why)),
    };
    match clean(&card) {
        Ok(clean) => put_out(clean, args.has("--hex"), "--hex"),
        Err(refusal) => Ok(refused_card(refusal, &card)),
    }
}

/// The clean card of the network on `card`.
fn clean(card: &[u8]) -> Result<Vec<u8>, Refusal> {
    let mut lent = vec![0; CLEAN_CARD_LIMIT];
    let bytes = agreement::print_card(card, &mut lent)?;
    lent.truncate(bytes);
    Ok(lent)
}

fn chart_of(site: Site) -> Result<Answer, Unreadable> {
    let network = match network_of(&site)? {
        Ok((_, network)) => network,
        Err(refused) => return Ok(refused),
    };
    let (names, note) = site.names(&network);
    let mut answer = Answer::of(chart::written(&Chart { network, names }));
    answer.notes.extend(note);
    Ok(answer)
}

fn picture_of(site: Site) -> Result<Answer, Unreadable> {
    let (card, network) = match network_of(&site)? {
        Ok(read) => read,
        Err(refused) => return Ok(refused),
    };
    let split = match agreement::split_test(&card) {
        Ok(split) => split,
        Err(refusal) => return Ok(refused_card(refusal, &card)),
    };
    let mark = match split {
        Some(split) => Some(Mark::Split(split)),
        None if agreement::quick_test(&card).is_ok() => apart(&network).map(Mark::Apart),
        None => None,
    };
    // No plan is worth looking at where none can help.
    let (load, refused) = match split {
        Some(_) => (None, None),
        None => load_of(&site, &card),
    };
    let (names, note) = site.names(&network);
    let mut answer = Answer::of(picture::svg(&network, &names, mark, load));
    answer.notes.extend(note.into_iter().chain(refused));
    Ok(match split {
        Some(_) => answer.refused(),
        None => answer,
    })
}

/// The load on each relay, if the site has an accepted plan, and what is to be said where it has
/// another.
fn load_of(site: &Site, card: &[u8]) -> (Option<Load>, Option<String>) {
    if !site.path(PLAN).exists() {
        return (None, None);
    }
    let without = |why: String| {
        let why = format!("{why}; the offices are drawn without their load");
        (None, Some(why))
    };
    match site.plan() {
        Ok(plan) => match agreement::load(card, &plan) {
            Ok(load) => (Some(load), None),
            Err(_) => without(format!(
                "{} is refused, and `lirgoth explain` says why",
                site.path(PLAN).display()
            )),
        },
        Err(Unreadable(why)) => without(why),
    }
}

fn cut(args: &Args) -> Result<Answer, String> {
    let folder = args.path("SITE")?;
    for option in ["--from", "--to"] {
        if !args.has(option) {
            return Err(format!("{option} is missing"));
        }
    }
    let opened = Site::open(folder).and_then(|site| {
        let card = site.card()?;
        Ok((site, card))
    });
    let (site, card) = match opened {
        Ok(opened) => opened,
        Err(why) => return Ok(unreadable(why)),
    };
    let network = match agreement::read_card(&card) {
        Ok(network) => network,
        Err(refusal) => {
            let mut answer = Answer::default();
            answer.line(&refused::card(refusal, &card));
            return Ok(answer.refused());
        }
    };
    let (names, note) = site.names(&network);
    let named = |option| offices(option, args.text(option)?, &network, &names);
    let (from, to) = (named("--from")?, named("--to")?);
    let Some(to) = to.iter().next().filter(|_| to.len() == 1) else {
        return Err(format!("--to names {} offices, and wants one", to.len()));
    };
    if from.is_empty() {
        return Err("--from names no office".to_string());
    }
    let without = named("--without")?;
    let mut answer = cut::cut(&card, &network, &names, Way { from, to, without });
    answer.notes.extend(note);
    Ok(answer)
}

fn drill(args: &Args) -> Result<Answer, String> {
    let folder = args.path("SITE")?;
    let inputs = args.text("--inputs")?;
    let lies = match args.text("--lies")? {
        None => None,
        Some(text) => match Lies::parse(text) {
            Some(lies) => Some(lies),
            None => return Err(format!("\"{text}\" is no kind of lie")),
        },
    };
    let every = args.has("--every");
    if every && (args.has("--write") || args.has("--faulty")) {
        return Err("--every goes through all failing offices and stores no run".to_string());
    }
    if !every && inputs.is_none() {
        return Err("--inputs is missing".to_string());
    }
    let site = match Site::open(folder) {
        Ok(site) => site,
        Err(why) => return Ok(unreadable(why)),
    };
    let drilled = match drill::open(&site) {
        Ok(Ok(drilled)) => drilled,
        Ok(Err(answer)) => return Ok(answer),
        Err(why) => return Ok(unreadable(why)),
    };
    let inputs = inputs
        .map(|text| bits(text, drilled.network.n))
        .transpose()?;
    let mut answer = match inputs {
        Some(inputs) if !every => {
            let Drilled { network, names, .. } = &drilled;
            let faulty = offices("--faulty", args.text("--faulty")?, network, names)?;
            one_drill(
                &site,
                &drilled,
                faulty,
                inputs,
                lies.unwrap_or(Lies::Split),
                args.has("--write"),
            )
        }
        inputs => every_drill(&drilled, inputs, lies)?,
    };
    answer.notes.splice(0..0, drilled.notes);
    Ok(answer)
}

fn one_drill(
    site: &Site,
    drilled: &Drilled,
    faulty: ServerSet,
    inputs: Vec<u8>,
    lies: Lies,
    store: bool,
) -> Answer {
    let run = drilled.run(faulty, inputs, lies);
    let mut answer = drilled.once(&run, lies);
    // A refused run is none to store.
    if store && answer.status != REFUSED {
        let path = site.path(RUN);
        match write(&path, &run.bytes()) {
            Ok(()) => answer.line(&format!(
                "{} written, {} bytes",
                path.display(),
                run.bytes().len()
            )),
            Err(why) => return answer.unreadable(why),
        }
    }
    answer
}

fn every_drill(
    drilled: &Drilled,
    inputs: Option<Vec<u8>>,
    lies: Option<Lies>,
) -> Result<Answer, String> {
    let seed = match lies {
        None => 1,
        Some(Lies::Random(seed)) => seed,
        Some(other) => return Err(format!("--every tries each kind of lie, not {other} alone")),
    };
    let lists = match inputs {
        Some(inputs) => vec![inputs],
        None => all_inputs(drilled.network.n),
    };
    let mut progress = Progress::new();
    Ok(drilled.every(&lists, seed, |done, all| progress.say(done, all)))
}

/// `11010`: a bit for each of `n` offices.
fn bits(text: &str, n: u8) -> Result<Vec<u8>, String> {
    let bit = |character| match character {
        '0' => Ok(0),
        '1' => Ok(1),
        other => Err(format!(
            "--inputs has \"{other}\", and wants 0 or 1 for each office"
        )),
    };
    let bits: Vec<u8> = text.chars().map(bit).collect::<Result<_, String>>()?;
    if bits.len() != usize::from(n) {
        return Err(format!(
            "--inputs has {} bits, and there are {n} offices",
            bits.len()
        ));
    }
    Ok(bits)
}

/// `2`, `0,Oslo` or `none`, the value of this option.
fn offices(
    option: &str,
    text: Option<&str>,
    network: &Network,
    names: &Names,
) -> Result<ServerSet, String> {
    let Some(text) = text.filter(|text| *text != "none") else {
        return Ok(ServerSet::EMPTY);
    };
    let all = network.servers();
    let found = |called: &str| {
        let by_name = all
            .iter()
            .find(|&office| names.name(office) == Some(called));
        let by_number = called.parse().ok().filter(|&office| all.contains(office));
        let found = by_name.or(by_number);
        found.ok_or_else(|| {
            format!(
                "{option} has \"{called}\", and offices are 0 to {} or their names",
                network.n - 1
            )
        })
    };
    text.split(',').map(|called| found(called.trim())).collect()
}
