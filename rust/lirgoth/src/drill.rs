//! Drills: runs without a run.in, with offices that fail and lie as they are told.

use crate::answer::{Answer, REFUSED};
use crate::explain::shown;
use crate::lies::{self, first_half, Lies};
use crate::names::Names;
use crate::plan::{self, Block};
use crate::planned::{self, Planned};
use crate::refused;
use crate::site::{Run, Site, Unreadable};
use crate::words::{self, counted};
use agreement::{Network, Refusal, ServerSet};

/// A site with an accepted plan.
pub struct Drilled {
    pub network: Network,
    pub names: Names,
    card: Vec<u8>,
    plan: Vec<u8>,
    blocks: Vec<Block>,
    /// What is to be said beside the drill.
    pub notes: Vec<String>,
}

/// The site ready for a drill, or the answer that says why it is not.
pub fn open(site: &Site) -> Result<Result<Drilled, Answer>, Unreadable> {
    let (planned, _) = match planned::open(site, agreement::check_plan)? {
        Ok(opened) => opened,
        Err(refused) => return Ok(Err(refused)),
    };
    let blocks = plan::blocks(&planned.network, &planned.plan);
    let Planned {
        network,
        names,
        card,
        plan,
        notes,
    } = planned;
    Ok(Ok(Drilled {
        network,
        names,
        card,
        plan,
        blocks,
        notes,
    }))
}

impl Drilled {
    /// What one run of the drill takes.
    pub fn run(&self, faulty: ServerSet, inputs: Vec<u8>, lies: Lies) -> Run {
        // The table is of no use to a call that is refused anyway.
        let table = match inputs.len() == usize::from(self.network.n) {
            true => lies::table(&self.blocks, &inputs, faulty, lies),
            false => Vec::new(),
        };
        Run {
            faulty,
            inputs,
            table,
        }
    }

    /// What each office shows after `run`.
    fn decided(&self, run: &Run) -> Result<[u8; 8], Refusal> {
        let mut lent = [0; 8];
        let Run {
            faulty,
            inputs,
            table,
        } = run;
        agreement::run(&self.card, &self.plan, inputs, *faulty, table, &mut lent)?;
        Ok(lent)
    }

    /// One run in words.
    pub fn once(&self, run: &Run, lies: Lies) -> Answer {
        let mut answer = Answer::default();
        match self.decided(run) {
            Ok(lent) => {
                if !run.faulty.is_empty() {
                    answer.line(&self.how(run.faulty, lies));
                }
                answer.text(&shown(&self.network, &self.names, run, &lent));
                answer
            }
            Err(refusal) => {
                answer.line(&refused::run(refusal, &self.network, &self.names, run));
                answer.refused()
            }
        }
    }

    /// How the failing offices lie.
    fn how(&self, faulty: ServerSet, lies: Lies) -> String {
        let who = self.names.offices(faulty);
        let several = faulty.len() > 1;
        let verb = |one: &str, more: &str| if several { more } else { one }.to_string();
        match lies {
            Lies::Split => {
                let sound = self.network.servers() - faulty;
                let closed = first_half(sound);
                format!(
                    "{who} {} closed to {} and open to {}, and {} round what {} for others",
                    verb("says", "say"),
                    self.names.list(closed),
                    self.names.list(sound - closed),
                    verb("turns", "turn"),
                    verb("it relays", "they relay"),
                )
            }
            Lies::Turned => format!(
                "{who} {} round all that {}",
                verb("turns", "turn"),
                verb("it sends", "they send")
            ),
            Lies::Silent => format!(
                "{who} {} nothing, which counts as open",
                verb("sends", "send")
            ),
            Lies::Random(seed) => {
                format!(
                    "{who} {} anything, drawn with seed {seed}",
                    verb("sends", "send")
                )
            }
        }
    }

    /// Every faulty set of at most f offices with each kind of lie, over `inputs`.
    /// `progress` hears how many of how many runs are done.
    pub fn every(
        &self,
        inputs: &[Vec<u8>],
        seed: u64,
        mut progress: impl FnMut(usize, usize),
    ) -> Answer {
        let fault_sets = self.fault_sets();
        let kinds = Lies::every(seed);
        // Nobody lies where nobody fails.
        let kinds_of = |faulty: ServerSet| {
            if faulty.is_empty() {
                &kinds[..1]
            } else {
                &kinds[..]
            }
        };
        let runs: usize = fault_sets
            .iter()
            .map(|&faulty| kinds_of(faulty).len())
            .sum();
        let all = runs * inputs.len();
        let mut answer = Answer::default();
        let mut done = 0;
        for &faulty in &fault_sets {
            for &lies in kinds_of(faulty) {
                for inputs in inputs {
                    let run = self.run(faulty, inputs.clone(), lies);
                    if let Err(words) = self.held(&run) {
                        answer.line(&format!(
                            "with {} failing, lies {lies} and inputs {}: {words}",
                            self.names.list(faulty),
                            bits(inputs)
                        ));
                        answer.status = REFUSED;
                        return answer;
                    }
                    done += 1;
                    progress(done, all);
                }
            }
        }
        answer.line(&format!(
            "all sound offices agreed in all of {}, each time on what one of them had entered",
            counted(done, "run")
        ));
        answer.line(&format!(
            "tried: {} of at most {} failing, {}, lies {}",
            counted(fault_sets.len(), "set"),
            self.network.f,
            counted(inputs.len(), "list") + " of inputs",
            kinds.map(|kind| kind.to_string()).join(", ")
        ));
        answer
    }

    /// The sets of at most f offices.
    fn fault_sets(&self) -> Vec<ServerSet> {
        let all = self.network.servers();
        let f = usize::from(self.network.f);
        let sets = (0..=all.bits()).map(ServerSet::from_bits);
        sets.filter(|set| set.len() <= f).collect()
    }

    /// Whether the sound offices agree on what one of them had entered; else in words
    /// what they do. The library is proved to have them agree.
    fn held(&self, run: &Run) -> Result<(), String> {
        let lent = self
            .decided(run)
            .map_err(|refusal| refused::run(refusal, &self.network, &self.names, run))?;
        let sound = self.network.servers() - run.faulty;
        let shown = |office: u8| lent[usize::from(office)];
        let first = sound.iter().next().ok_or("no office is sound")?;
        let bit = shown(first);
        if let Some(other) = sound.iter().find(|&office| shown(office) != bit) {
            return Err(format!("offices {first} and {other} show different words"));
        }
        if !sound
            .iter()
            .any(|office| run.inputs[usize::from(office)] == bit)
        {
            return Err(format!(
                "all show {}, which no sound office had entered",
                words::bit(bit)
            ));
        }
        Ok(())
    }
}

/// Every list of inputs of `n` offices.
pub fn all_inputs(n: u8) -> Vec<Vec<u8>> {
    let lists = 0..1u16 << n;
    lists
        .map(|list| (0..n).map(|office| (list >> office & 1) as u8).collect())
        .collect()
}

/// Inputs as they are given on the command line.
fn bits(inputs: &[u8]) -> String {
    inputs.iter().map(u8::to_string).collect()
}
