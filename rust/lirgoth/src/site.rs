//! A site's folder: its card, its plan, its run and, where there is one, its chart.

use crate::chart::{self, Chart};
use crate::names::Names;
use agreement::{Network, ServerSet};
use std::fs;
use std::io;
use std::path::{Path, PathBuf};

pub const CARD: &str = "network.card";
pub const PLAN: &str = "network.plan";
pub const RUN: &str = "run.in";
/// Kept beside the card for the names of the offices; no other program reads it.
pub const CHART: &str = "network.chart";

/// A file that is not there or cannot be read, or a folder that is none, named.
#[derive(Debug, Clone, PartialEq, Eq)]
pub struct Unreadable(pub String);

/// The bytes of a file.
pub fn read(path: &Path) -> Result<Vec<u8>, Unreadable> {
    let why = |what: &str| Unreadable(format!("{} {what}", path.display()));
    if path.is_dir() {
        return Err(why("is a folder, and a file is wanted"));
    }
    fs::read(path).map_err(|error| match error.kind() {
        io::ErrorKind::NotFound => why("is missing"),
        _ => why(&format!("cannot be read: {error}")),
    })
}

/// The folder of a site.
pub struct Site {
    folder: PathBuf,
}

impl Site {
    pub fn open(folder: &Path) -> Result<Site, Unreadable> {
        let shown = folder.display();
        if folder.is_file() {
            return Err(Unreadable(format!(
                "{shown} is a file, and a site is a folder with {CARD} in it; \
                 `lirgoth card CHART --site FOLDER` makes one from a chart"
            )));
        }
        if !folder.is_dir() {
            return Err(Unreadable(format!(
                "{shown} is missing: there is no such folder"
            )));
        }
        Ok(Site {
            folder: folder.to_path_buf(),
        })
    }

    pub fn path(&self, name: &str) -> PathBuf {
        self.folder.join(name)
    }

    pub fn card(&self) -> Result<Vec<u8>, Unreadable> {
        read(&self.path(CARD))
    }

    pub fn plan(&self) -> Result<Vec<u8>, Unreadable> {
        read(&self.path(PLAN))
    }

    pub fn run(&self, network: &Network) -> Result<Run, Unreadable> {
        Ok(Run::of_bytes(&read(&self.path(RUN))?, network))
    }

    /// The names that the site's chart gives the offices of `network`, and what is to be
    /// said where it gives none though there is a chart.
    pub fn names(&self, network: &Network) -> (Names, Option<String>) {
        let path = self.path(CHART);
        if !path.exists() {
            return (Names::default(), None);
        }
        let without = |why: String| {
            let why = format!("{why}; the offices go by their numbers");
            (Names::default(), Some(why))
        };
        let bytes = match read(&path) {
            Ok(bytes) => bytes,
            Err(Unreadable(why)) => return without(why),
        };
        match chart::read(&bytes) {
            Ok(Chart {
                network: drawn,
                names,
            }) if drawn == *network => (names, None),
            Ok(_) => without(format!(
                "{} is of another network than {CARD}",
                path.display()
            )),
            Err(mistakes) => match mistakes.first() {
                Some(mistake) => without(format!("{}, {mistake}", path.display())),
                None => without(format!("{} cannot be read", path.display())),
            },
        }
    }
}

/// What run.in says: who fails, what each office enters, and what arrives where a
/// failing office had a carriage in hand.
#[derive(Debug, Clone, PartialEq, Eq)]
pub struct Run {
    pub faulty: ServerSet,
    pub inputs: Vec<u8>,
    pub table: Vec<u8>,
}

impl Run {
    fn of_bytes(bytes: &[u8], network: &Network) -> Run {
        let (&faulty, rest) = bytes.split_first().unwrap_or((&0, &[]));
        let (inputs, table) = rest.split_at(rest.len().min(usize::from(network.n)));
        Run {
            faulty: ServerSet::from_bits(faulty),
            inputs: inputs.to_vec(),
            table: table.to_vec(),
        }
    }

    pub fn bytes(&self) -> Vec<u8> {
        let faulty = [self.faulty.bits()];
        [&faulty[..], &self.inputs[..], &self.table[..]].concat()
    }
}
