//! A site's three files, checked as `rehearse` checks them.

use agreement::{CallGround, Network, Refusal, ServerSet, Totals};
use std::fs;
use std::io;
use std::path::{Path, PathBuf};

/// A site on which a run can start.
pub struct Site {
    pub card: PathBuf,
    pub plan: PathBuf,
    pub run: PathBuf,
    pub network: Network,
    pub totals: Totals,
    pub inputs: Vec<u8>,
    pub faulty: ServerSet,
}

impl Site {
    /// The site in `folder`, or the first refusal: that of the card, the plan, the inputs or
    /// the faulty set.
    pub fn read(folder: &Path) -> io::Result<Result<Site, Refusal>> {
        if !folder.is_dir() {
            let why = format!("there is no folder {}", folder.display());
            return Err(io::Error::other(why));
        }
        let [card, plan, run] =
            ["network.card", "network.plan", "run.in"].map(|name| folder.join(name));
        let bytes = [read(&card)?, read(&plan)?, read(&run)?];
        Ok(checked(&bytes).map(|(network, totals, run_in)| Site {
            card,
            plan,
            run,
            network,
            totals,
            inputs: run_in.inputs,
            faulty: run_in.faulty,
        }))
    }
}

/// The bytes of a file; one that is not there counts as empty.
pub fn read(path: &Path) -> io::Result<Vec<u8>> {
    match fs::read(path) {
        Err(error) if error.kind() == io::ErrorKind::NotFound => Ok(Vec::new()),
        Err(error) => Err(io::Error::other(format!("{}: {error}", path.display()))),
        read => read,
    }
}

/// Who fails, what each office enters, and what comes by the carriages that a failing office
/// has in hand.
pub struct RunIn {
    pub faulty: ServerSet,
    pub inputs: Vec<u8>,
    pub table: Vec<u8>,
}

impl RunIn {
    pub fn of(bytes: &[u8], network: &Network) -> RunIn {
        let (&faulty, rest) = bytes.split_first().unwrap_or((&0, &[]));
        let (inputs, table) = rest.split_at(rest.len().min(network.n.into()));
        RunIn {
            faulty: ServerSet::from_bits(faulty),
            inputs: inputs.to_vec(),
            table: table.to_vec(),
        }
    }
}

fn checked([card, plan, run]: &[Vec<u8>; 3]) -> Result<(Network, Totals, RunIn), Refusal> {
    let network = agreement::read_card(card)?;
    let totals = agreement::check_plan(card, plan)?;
    let run_in = RunIn::of(run, &network);
    let RunIn { faulty, inputs, .. } = &run_in;
    if inputs.len() != usize::from(network.n) || inputs.iter().any(|&input| input > 1) {
        let ground = CallGround::Inputs;
        return Err(Refusal::Call { ground });
    }
    if !faulty.is_within(network.servers()) || faulty.len() > usize::from(network.f) {
        let ground = CallGround::FaultSet;
        return Err(Refusal::Call { ground });
    }
    Ok((network, totals, run_in))
}

/// The line that `rehearse` prints for a refusal.
pub fn refused(refusal: Refusal) -> String {
    let number = refusal.number();
    match refusal {
        Refusal::Card { place, .. } => format!("refused card {number} {place}"),
        Refusal::Plan { place, .. } => format!("refused plan {number} {place}"),
        Refusal::Call { .. } => format!("refused call {number}"),
    }
}
