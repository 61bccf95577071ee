//! The plan check alone, for those who sell: is the site's plan accepted, and what does that show?
//! An accepted plan shows that its network has no bad split, so that no split test is made here.

use crate::answer::Answer;
use crate::refused;
use crate::site::{Site, Unreadable};
use crate::words::{accepted, at_most, can_agree, wanted};
use agreement::{Network, Totals};

/// What follows from a refused plan: the network may have a bad split, or the plan alone be wrong.
const NOTHING: &str = "by itself a refused plan says nothing about the network, \
                       which `lirgoth explain SITE` tests";

/// Answers with what the plan check says, and with what follows from it.
pub fn check(site: &Site) -> Result<Answer, Unreadable> {
    let card = site.card()?;
    let mut answer = Answer::default();
    let network = match agreement::read_card(&card) {
        Ok(network) => network,
        Err(refusal) => {
            answer.line(&refused::card(refusal, &card));
            return Ok(answer.refused());
        }
    };
    let plan = site.plan()?;
    match agreement::check_plan(&card, &plan) {
        Ok(totals) => Ok(Answer::of(shows(&network, totals))),
        Err(refusal) => {
            // No office is named but in a refusal.
            let (names, note) = site.names(&network);
            answer.notes.extend(note);
            answer.line(&refused::plan(refusal, &network, &names, &plan));
            answer.line(NOTHING);
            Ok(answer.refused())
        }
    }
}

/// An accepted plan, and what it shows of its network.
fn shows(network: &Network, totals: Totals) -> String {
    format!(
        "{}, for {} offices{} of which {}\n\
         no bad split: {}; the accepted plan shows this, and no other check is needed\n",
        accepted(totals),
        network.n,
        enough(network.f),
        at_most(network.f),
        can_agree(network)
    )
}

/// ` (at least 4 wanted)`: no plan is accepted where there are fewer. Where none may fail there
/// are always enough.
fn enough(f: u8) -> String {
    match f {
        0 => String::new(),
        _ => format!(" (at least {} wanted)", wanted(f).0),
    }
}

#[cfg(test)]
mod tests {
    use super::*;
    use agreement::ServerSet;

    #[test]
    fn an_accepted_plan_is_told_with_what_it_shows() {
        let told = |n, f, blocks, carriages| {
            let rows = [ServerSet::EMPTY; 8];
            shows(&Network { n, f, rows }, Totals { blocks, carriages })
        };
        assert_eq!(
            told(2, 0, 1, 1),
            "plan accepted: 1 block and 1 carriage, for 2 offices of which none may fail\n\
             no bad split: the offices can agree, as long as none of them fails; \
             the accepted plan shows this, and no other check is needed\n"
        );
        assert_eq!(
            told(5, 1, 50, 464),
            "plan accepted: 50 blocks and 464 carriages, \
             for 5 offices (at least 4 wanted) of which at most 1 may fail\n\
             no bad split: the offices can agree, whichever one of them fails; \
             the accepted plan shows this, and no other check is needed\n"
        );
        assert_eq!(
            told(8, 2, 1_499, 41_972),
            "plan accepted: 1,499 blocks and 41,972 carriages, \
             for 8 offices (at least 7 wanted) of which at most 2 may fail\n\
             no bad split: the offices can agree, whichever two of them fail; \
             the accepted plan shows this, and no other check is needed\n"
        );
    }
}
