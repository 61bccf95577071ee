//! A site whose plan is accepted, for the verbs that want one.

use crate::answer::Answer;
use crate::explain::why_split;
use crate::names::Names;
use crate::refused;
use crate::site::{Site, Unreadable};
use agreement::{Network, Refusal};

/// The files of a site with an accepted plan, and what there is to say about them.
pub struct Planned {
    pub network: Network,
    pub names: Names,
    pub card: Vec<u8>,
    pub plan: Vec<u8>,
    /// What is to be said beside the answer.
    pub notes: Vec<String>,
}

/// The site and what the library's `call` says of its card and plan, or the answer that says why
/// there is none: the card is refused, no plan can help, or the plan is refused.
pub fn open<T>(
    site: &Site,
    call: fn(&[u8], &[u8]) -> Result<T, Refusal>,
) -> Result<Result<(Planned, T), Answer>, Unreadable> {
    let card = site.card()?;
    let refuse = |words: String| {
        let mut answer = Answer::default();
        answer.line(words.trim_end());
        Ok(Err(answer.refused()))
    };
    let network = match agreement::read_card(&card) {
        Ok(network) => network,
        Err(refusal) => return refuse(refused::card(refusal, &card)),
    };
    let (names, note) = site.names(&network);
    // No plan is worth looking for where none can help.
    match agreement::split_test(&card) {
        Ok(None) => {}
        Ok(Some(split)) => return refuse(why_split(&network, &names, split)),
        Err(refusal) => return refuse(refused::card(refusal, &card)),
    }
    let plan = site.plan()?;
    let said = match call(&card, &plan) {
        Ok(said) => said,
        Err(refusal) => return refuse(refused::plan(refusal, &network, &names, &plan)),
    };
    let planned = Planned {
        network,
        names,
        card,
        plan,
        notes: note.into_iter().collect(),
    };
    Ok(Ok((planned, said)))
}
