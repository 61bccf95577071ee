//! A failing office: it hears nobody, and says what the message table of run.in says.

use crate::args::Failing;
use crate::frame::Frame;
use crate::opening;
use crate::plan;
use crate::site::{self, RunIn};
use std::error::Error;

/// Puts the table's byte on every carriage that comes by here, whether as its source or as a
/// relay, and all of them at the start: others keep what comes early. Where the table has no
/// byte, nothing is sent, and the links stay up.
pub fn run(own: &Failing) -> Result<(), Box<dyn Error>> {
    let (card, plan) = (site::read(&own.card)?, site::read(&own.plan)?);
    let network = agreement::read_card(&card)?;
    agreement::check_plan(&card, &plan)?;
    let run_in = RunIn::of(&site::read(&own.run)?, &network);
    // Those with a link to it are not taken in, and may call for ever.
    let opened = opening::open(own.server)?;
    let carriages = plan::carriages(&plan);
    for ((carriage, way), &value) in (0..).zip(&carriages).zip(&run_in.table) {
        if let Some(to) = way.after(own.server) {
            opened.out.send(to, Frame { carriage, value });
        }
    }
    opening::stay()
}
