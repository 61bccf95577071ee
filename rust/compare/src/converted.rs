//! The library's answers in the types of the reference, so that the two can be compared.
//! The two crates share no type: the wrapper stands alone, and so does the reference.

use agreement::ServerSet;
use reference::{Network, Quick, Refusal, Split, State, Totals, Unwritten};

/// A mark for each pair of the eight servers that there can be, as the reference has it:
/// a link that cannot be is a difference too.
pub fn network(network: agreement::Network) -> Network {
    let agreement::Network { n, f, rows } = network;
    let links = rows.map(|row| std::array::from_fn(|v| row.bits() >> v & 1 == 1));
    Network { n, f, links }
}

pub fn split(split: agreement::Split) -> Split {
    let agreement::Split { f, l, c, r } = split;
    let [f, l, c, r] = [f, l, c, r].map(ServerSet::bits);
    Split { f, l, c, r }
}

/// What the quick test answers.
pub fn quick(answer: Result<agreement::Quick, agreement::Refusal>) -> Result<Quick, Refusal> {
    let agreement::Quick { holds, n, least } = answer.map_err(refusal)?;
    Ok(Quick { holds, n, least })
}

/// What the plan check or the run answers.
pub fn totals(answer: Result<agreement::Totals, agreement::Refusal>) -> Result<Totals, Refusal> {
    let agreement::Totals { blocks, carriages } = answer.map_err(refusal)?;
    Ok(Totals { blocks, carriages })
}

/// What the plan writer answers.
pub fn written(answer: Result<usize, agreement::Unwritten>) -> Result<usize, Unwritten> {
    answer.map_err(|unwritten| match unwritten {
        agreement::Unwritten::BadSplit(bad) => Unwritten::BadSplit(split(bad)),
        agreement::Unwritten::Refused(refused) => Unwritten::Refused(refusal(refused)),
    })
}

/// The load on each relay, as the eight counts.
pub fn load(answer: Result<agreement::Load, agreement::Refusal>) -> Result<[usize; 8], Refusal> {
    let agreement::Load { routes } = answer.map_err(refusal)?;
    Ok(routes)
}

/// What the start or the commit of a server answers.
pub fn stepped(answer: Result<agreement::State, agreement::Refusal>) -> Result<State, Refusal> {
    answer.map(state).map_err(refusal)
}

/// What the ask of a server answers: its state, and how many values it sends.
pub fn asked(
    answer: Result<agreement::Asked, agreement::Refusal>,
) -> Result<(State, usize), Refusal> {
    let agreement::Asked { state, values } = answer.map_err(refusal)?;
    Ok((self::state(state), values))
}

fn state(state: agreement::State) -> State {
    let agreement::State {
        block,
        kind,
        v,
        t,
        open,
    } = state;
    State {
        block,
        kind,
        v,
        t,
        open,
    }
}

pub fn refusal(refusal: agreement::Refusal) -> Refusal {
    let number = refusal.number();
    match refusal {
        agreement::Refusal::Card { place, .. } => Refusal::Card { number, place },
        agreement::Refusal::Plan { place, .. } => Refusal::Plan { number, place },
        agreement::Refusal::Call { .. } => Refusal::Call { number },
    }
}
