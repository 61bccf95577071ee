//! How an office comes up: it takes a port, opens its links, and waits for the word to start.

use crate::links::{Outgoing, ADDRESS};
use crate::talk::{self, LINK, OPEN, PORT, START};
use std::io;
use std::net::TcpListener;
use std::process;
use std::thread;

/// An office whose links to others are up.
pub struct Opened {
    /// Where those with a link to it call.
    pub listener: TcpListener,
    pub out: Outgoing,
    /// How many links to it are up.
    pub incoming: usize,
}

pub fn open(server: u8) -> io::Result<Opened> {
    // Port 0 lets the system choose one that is free.
    let listener = TcpListener::bind((ADDRESS, 0))?;
    talk::say(&mut io::stdout(), PORT, &[listener.local_addr()?.port()])?;
    let out = Outgoing::open(server, &ports()?)?;
    talk::say(&mut io::stdout(), OPEN, &[])?;
    let incoming = started()?;
    leave_with_the_starter();
    Ok(Opened {
        listener,
        out,
        incoming,
    })
}

/// The offices that this one has a link to, and their ports.
fn ports() -> io::Result<Vec<(u8, u16)>> {
    let mut ports = Vec::new();
    loop {
        let (word, numbers) = talk::hear(&mut io::stdin().lock())?;
        match (word.as_str(), &numbers[..]) {
            (LINK, &[to @ 0..=7, port]) => ports.push((to as u8, port)),
            (OPEN, []) => return Ok(ports),
            _ => return Err(talk::unexpected(&word)),
        }
    }
}

fn started() -> io::Result<usize> {
    let (word, numbers) = talk::hear(&mut io::stdin().lock())?;
    match (word.as_str(), &numbers[..]) {
        (START, &[incoming]) => Ok(incoming.into()),
        _ => Err(talk::unexpected(&word)),
    }
}

/// An office stays up, since others may need it as a relay, until its standard input ends. That
/// is so when the run is over, and when the program that started it is gone.
fn leave_with_the_starter() {
    thread::spawn(|| {
        let _ = io::copy(&mut io::stdin(), &mut io::sink());
        process::exit(0)
    });
}

pub fn stay() -> ! {
    loop {
        thread::park();
    }
}
