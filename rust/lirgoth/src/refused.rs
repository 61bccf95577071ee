//! A refusal in words: what stands at its place, and what should stand there. Everything
//! before the place is as it should be, so that the bytes can be taken at their word up
//! to there.

mod card;
mod plan;

use crate::names::Names;
use crate::site::Run;
use crate::words::{counted, grouped};
use agreement::{CallGround, Network, Refusal, ServerSet};

/// `refused card 5 at byte 3: ..`, for a card that the library refuses with `refusal`.
pub fn card(refusal: Refusal, card: &[u8]) -> String {
    let why = match refusal {
        Refusal::Card { ground, place } => self::card::why(ground, place, card),
        _ => None,
    };
    sentence(refusal, why)
}

/// The same for a plan of a network that can be read.
pub fn plan(refusal: Refusal, network: &Network, names: &Names, plan: &[u8]) -> String {
    let why = match refusal {
        Refusal::Plan { ground, place } => self::plan::why(ground, place, network, names, plan),
        _ => None,
    };
    sentence(refusal, why)
}

/// The same for a run over an accepted plan.
pub fn run(refusal: Refusal, network: &Network, names: &Names, run: &Run) -> String {
    let why = match refusal {
        Refusal::Call { ground } => why_call(ground, network, names, run),
        _ => None,
    };
    sentence(refusal, why)
}

/// The same for separate routes that leave out these offices.
pub fn routes(refusal: Refusal, network: &Network, names: &Names, faulty: ServerSet) -> String {
    let call = Run {
        faulty,
        inputs: Vec::new(),
        table: Vec::new(),
    };
    run(refusal, network, names, &call)
}

/// The library's own words stand in where the bytes say no more.
fn sentence(refusal: Refusal, why: Option<String>) -> String {
    let Some(why) = why else {
        return refusal.to_string();
    };
    let number = refusal.number();
    match refusal {
        Refusal::Card { place, .. } => format!("refused card {number} at byte {place}: {why}"),
        Refusal::Plan { place, .. } => format!("refused plan {number} at byte {place}: {why}"),
        Refusal::Call { .. } => format!("refused call {number}: {why}"),
    }
}

fn why_call(ground: CallGround, network: &Network, names: &Names, run: &Run) -> Option<String> {
    let n = usize::from(network.n);
    match ground {
        CallGround::Inputs if run.inputs.len() != n => {
            let given = counted(run.inputs.len(), "input");
            Some(format!(
                "{given} given, and each of the {n} offices enters one"
            ))
        }
        CallGround::Inputs => {
            let wrong = run.inputs.iter().position(|&input| input > 1)?;
            let office = names.office(wrong as u8);
            let input = run.inputs[wrong];
            Some(format!(
                "{office} enters {input}, and can enter 0 (open) or 1 (closed)"
            ))
        }
        CallGround::FaultSet => {
            let strangers = run.faulty - network.servers();
            if !strangers.is_empty() {
                let last = network.n - 1;
                return Some(format!(
                    "the faulty set has {}, and offices are 0 to {last}",
                    names.offices(strangers)
                ));
            }
            let f = network.f;
            Some(format!(
                "{} are to fail, and at most {f} may",
                names.offices(run.faulty)
            ))
        }
        // The buffers of this program have room for every network.
        CallGround::Buffer => None,
        // A run asks for no link's return, takes its own turns and writes no plan.
        CallGround::OneWay
        | CallGround::OutOfTurn
        | CallGround::BadSplit
        | CallGround::PlanBuffer => None,
    }
}

/// What is wrong where a whole command should stand: nothing left, a byte that is no
/// command, or operands cut off.
fn cut(bytes: &[u8], place: usize, operands: fn(u8) -> Option<usize>, file: &str) -> String {
    let Some(&command) = bytes.get(place) else {
        return format!("the {file} ends here, and a command is due");
    };
    let Some(due) = operands(command) else {
        return format!("{command:02X} is no command of a {file}");
    };
    let there = bytes.len() - place - 1;
    format!("command {command:02X} has {due} operands, and only {there} are there")
}

/// How many bytes there are, and how many there may be.
fn too_long(bytes: &[u8], limit: usize, file: &str) -> String {
    format!(
        "{} bytes, and a {file} has at most {}",
        grouped(bytes.len()),
        grouped(limit)
    )
}

fn trailing(bytes: &[u8], place: usize) -> String {
    match bytes.len() - place {
        1 => "a byte follows the end command".to_string(),
        more => format!("{} bytes follow the end command", grouped(more)),
    }
}

#[cfg(test)]
mod tests {
    use super::*;
    use generate::{damaged_plan, good_card, plan_like_bytes, Rng};

    /// Whatever is refused, the words say more than its ground: those of the library
    /// never have to stand in.
    #[test]
    fn every_refusal_of_a_card_is_told() {
        let mut rng = Rng::new(4);
        let mut told = [0; 6];
        for _ in 0..20_000 {
            let card = generate::card(&mut rng);
            let Err(refusal) = agreement::read_card(&card) else {
                continue;
            };
            let words = self::card(refusal, &card);
            assert_ne!(words, refusal.to_string(), "{card:02x?}");
            told[usize::from(refusal.number())] += 1;
        }
        assert!(told[1..].iter().all(|&count| count > 20), "{told:?}");
    }

    #[test]
    fn every_refusal_of_a_plan_is_told() {
        let mut rng = Rng::new(5);
        let mut told = [0; 12];
        let names = Names::default();
        for round in 0..3_000 {
            let (n, f) = [(2, 0), (3, 0), (4, 1), (5, 1)][round % 4];
            let card = good_card(&mut rng, n, f).expect("n is over 3f");
            let network = agreement::read_card(&card).expect("a sound card");
            let sound = generate::plan(&mut rng, &card).expect("a good network has a plan");
            let bytes = match round % 5 {
                0 => plan_like_bytes(&mut rng, &sound),
                _ => damaged_plan(&mut rng, &card, &sound),
            };
            let Err(refusal) = agreement::check_plan(&card, &bytes) else {
                continue;
            };
            let words = plan(refusal, &network, &names, &bytes);
            assert_ne!(words, refusal.to_string(), "{card:02x?}, {bytes:02x?}");
            told[usize::from(refusal.number())] += 1;
        }
        let numbers = [2, 3, 7, 8, 9, 10, 11];
        assert!(numbers.iter().all(|&number| told[number] > 20), "{told:?}");
    }

    #[test]
    fn every_refusal_of_a_call_is_told() {
        let rows = [Default::default(); 8];
        let network = Network { n: 3, f: 1, rows };
        let names = Names::default();
        let told = |ground, faulty, inputs: &[u8]| {
            let call = Run {
                faulty: agreement::ServerSet::from_bits(faulty),
                inputs: inputs.to_vec(),
                table: Vec::new(),
            };
            run(Refusal::Call { ground }, &network, &names, &call)
        };
        assert_eq!(
            told(CallGround::Inputs, 0, &[1, 0]),
            "refused call 12: 2 inputs given, and each of the 3 offices enters one"
        );
        assert_eq!(
            told(CallGround::Inputs, 0, &[1, 0, 7]),
            "refused call 12: office 2 enters 7, and can enter 0 (open) or 1 (closed)"
        );
        assert_eq!(
            told(CallGround::FaultSet, 3, &[1, 0, 1]),
            "refused call 13: offices 0 1 are to fail, and at most 1 may"
        );
        assert_eq!(
            told(CallGround::FaultSet, 17, &[1, 0, 1]),
            "refused call 13: the faulty set has office 4, and offices are 0 to 2"
        );
    }
}
