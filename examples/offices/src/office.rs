//! A sound office: it takes its own part in the run, block by block and kind by kind.

use crate::args::Sound;
use crate::desk::Desk;
use crate::links;
use crate::opening::{self, Opened};
use crate::plan::{self, Carriage};
use crate::site;
use crate::talk::{self, DECIDED};
use agreement::{Server, Turn};
use std::error::Error;
use std::io;
use std::sync::Arc;

pub fn run(own: &Sound) -> Result<(), Box<dyn Error>> {
    let (card, plan) = (site::read(&own.card)?, site::read(&own.plan)?);
    // Card and plan are accepted from here on.
    let server = Server::start(&card, &plan, own.server, own.input)?;
    let callers = agreement::read_card(&card)?.incoming([own.server].into_iter().collect());
    let carriages: Arc<[Carriage]> = plan::carriages(&plan).into();
    let Opened {
        listener,
        out,
        incoming,
    } = opening::open(own.server)?;
    let news = links::listen(own.server, listener, callers, Arc::clone(&carriages));
    let mut desk = Desk::new(own.server, &carriages, news, out, own.wait);
    desk.begin(callers, incoming)?;
    let bit = decide(own.server, server, &carriages, &mut desk);
    talk::say(&mut io::stdout(), DECIDED, &[bit.into()])?;
    desk.serve();
    opening::stay()
}

/// Asks, sends, waits and commits, until there is a bit.
fn decide(own: u8, server: Server, carriages: &[Carriage], desk: &mut Desk) -> u8 {
    let mut turn = server.ask();
    loop {
        turn = match turn {
            Turn::Sending(sending) => {
                let kind = plan::of_state(carriages, sending.state());
                let sent = kind
                    .clone()
                    .filter(|&number| carriages[number].is_from(own));
                // One value for each carriage that starts here, in plan order.
                debug_assert_eq!(sent.clone().count(), sending.values().len());
                for (number, &value) in sent.zip(sending.values()) {
                    desk.send(number, value);
                }
                let due = kind.filter(|&number| carriages[number].is_for(own));
                let arrived: Vec<u8> = due.map(|number| desk.arrived(number)).collect();
                sending.commit(&arrived).ask()
            }
            Turn::Decided(bit) => return bit,
        };
    }
}
