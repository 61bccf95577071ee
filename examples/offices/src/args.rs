//! What the program is asked to do: to start the offices of a site or, by itself, to be one of
//! them.

use std::ffi::OsString;
use std::path::PathBuf;
use std::time::Duration;

const USAGE: &str = "usage: offices SITE [--absent] [--wait MILLISECONDS]";

/// How long a value may take over one link, unless another time is given.
const WAIT: Duration = Duration::from_millis(1_000);

/// How the program calls itself, to be one office.
pub const OFFICE: &str = "--office";
pub const FAILING: &str = "--failing";

pub enum Task {
    Site(Asked),
    Office(Sound),
    Failing(Failing),
}

/// What is asked about a site.
pub struct Asked {
    pub folder: PathBuf,
    /// The failing offices never start.
    pub absent: bool,
    pub wait: Duration,
}

/// All that an office is told about itself; the rest it hears from those with a link to it.
pub struct Sound {
    pub server: u8,
    pub input: u8,
    pub wait: Duration,
    pub card: PathBuf,
    pub plan: PathBuf,
}

/// A failing office may know everything, also what no office should.
pub struct Failing {
    pub server: u8,
    pub card: PathBuf,
    pub plan: PathBuf,
    pub run: PathBuf,
}

pub fn parse(args: impl Iterator<Item = OsString>) -> Result<Task, &'static str> {
    let args: Vec<OsString> = args.collect();
    let task = match args.first().and_then(|first| first.to_str()) {
        Some(OFFICE) => sound(&args[1..]).map(Task::Office),
        Some(FAILING) => failing(&args[1..]).map(Task::Failing),
        _ => asked(args).map(Task::Site),
    };
    task.ok_or(USAGE)
}

fn asked(args: Vec<OsString>) -> Option<Asked> {
    let mut folder = None;
    let (mut absent, mut wait) = (false, WAIT);
    let mut args = args.into_iter();
    while let Some(arg) = args.next() {
        match arg.to_str() {
            Some("--absent") => absent = true,
            Some("--wait") => wait = milliseconds(&args.next()?)?,
            Some(option) if option.starts_with('-') => return None,
            _ if folder.is_none() => folder = Some(PathBuf::from(arg)),
            _ => return None,
        }
    }
    let folder = folder?;
    Some(Asked {
        folder,
        absent,
        wait,
    })
}

fn sound(args: &[OsString]) -> Option<Sound> {
    let [server, input, wait, card, plan] = args else {
        return None;
    };
    Some(Sound {
        server: number(server)?,
        input: number(input)?,
        wait: milliseconds(wait)?,
        card: card.into(),
        plan: plan.into(),
    })
}

fn failing(args: &[OsString]) -> Option<Failing> {
    let [server, card, plan, run] = args else {
        return None;
    };
    Some(Failing {
        server: number(server)?,
        card: card.into(),
        plan: plan.into(),
        run: run.into(),
    })
}

fn number(arg: &OsString) -> Option<u8> {
    arg.to_str()?.parse().ok()
}

/// At most an hour, so that no sum of such times is out of range.
fn milliseconds(arg: &OsString) -> Option<Duration> {
    let wait: u32 = arg.to_str()?.parse().ok()?;
    (1..=3_600_000)
        .contains(&wait)
        .then(|| Duration::from_millis(wait.into()))
}

#[cfg(test)]
mod tests {
    use super::*;

    fn asked_for(args: &[&str]) -> Option<(PathBuf, bool, u128)> {
        match parse(args.iter().map(OsString::from)) {
            Ok(Task::Site(asked)) => Some((asked.folder, asked.absent, asked.wait.as_millis())),
            _ => None,
        }
    }

    #[test]
    fn a_site_is_asked_for_with_its_options() {
        let site = || PathBuf::from("site");
        assert_eq!(asked_for(&["site"]), Some((site(), false, 1_000)));
        let options = ["--wait", "20", "site", "--absent"];
        assert_eq!(asked_for(&options), Some((site(), true, 20)));
        for wrong in [
            &[][..],
            &["site", "site"],
            &["--wait"],
            &["site", "--wait"],
            &["site", "--wait", "0"],
            &["site", "--wait", "3600001"],
            &["site", "--silent"],
            &["--office", "0"],
            &["--failing", "site"],
        ] {
            assert_eq!(asked_for(wrong), None, "{wrong:?}");
        }
    }
}
