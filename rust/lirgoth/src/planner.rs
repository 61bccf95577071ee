//! The plan that the library writes, for a site that has none or is to have another.

use crate::answer::Answer;
use crate::explain::why_split;
use crate::names::Names;
use crate::refused;
use crate::site::{self, Site, Unreadable, PLAN};
use agreement::{Network, Unwritten};

/// A plan for the network on `card`, or the answer that says why none can be written: the card is
/// refused, or the network has a bad split, which is then told by the names of its offices.
pub fn plan_for(card: &[u8], names: impl FnOnce(&Network) -> Names) -> Result<Vec<u8>, Answer> {
    agreement::plan_for(card).map_err(|unwritten| {
        let mut answer = Answer::default();
        match unwritten {
            Unwritten::BadSplit(split) => {
                answer.line(&unwritten.refusal().to_string());
                // A card with a bad split is one that is read.
                if let Ok(network) = agreement::read_card(card) {
                    let names = names(&network);
                    answer.text(&why_split(&network, &names, split));
                }
            }
            Unwritten::Refused(refusal) => answer.line(&refused::card(refusal, card)),
        }
        answer.refused()
    })
}

/// Whether `plan` may be written into the site: one that is there already and is another, such as
/// one that was paid for, is written over only where that is asked for.
pub fn may_write(site: &Site, plan: &[u8], replace: bool) -> Result<(), Unreadable> {
    let path = site.path(PLAN);
    if replace || !path.exists() || site::read(&path)? == plan {
        return Ok(());
    }
    Err(Unreadable(format!(
        "{} is there already, and is another plan: add --replace to write over it",
        path.display()
    )))
}
