//! Starts the offices of a site, each as a process of its own, and hears what they decide. It
//! stands for those who set up the servers and choose when a run begins: while the offices
//! agree, it takes no part.

use crate::args::{Asked, FAILING, OFFICE};
use crate::site::Site;
use crate::talk::{self, DECIDED, LINK, OPEN, PORT, START};
use std::env;
use std::io::{self, BufReader};
use std::process::{Child, ChildStdin, ChildStdout, Command, Stdio};

/// What each server of the site decided, in their order; `None` for a faulty one.
pub fn run(site: &Site, asked: &Asked) -> io::Result<Vec<(u8, Option<u16>)>> {
    let servers = site.network.servers();
    let absent = |server: &u8| asked.absent && site.faulty.contains(*server);
    let mut offices = Vec::new();
    for server in servers.iter().filter(|server| !absent(server)) {
        offices.push(Office::start(site, asked, server)?);
    }
    put_up_links(site, &mut offices)?;
    let mut decided: Vec<_> = servers.iter().map(|server| (server, None)).collect();
    for office in &mut offices {
        if !site.faulty.contains(office.server) {
            let bit = office.hear_one(DECIDED)?;
            decided[usize::from(office.server)].1 = Some(bit);
        }
    }
    Ok(decided)
}

/// Has each office open its links to those that are there and, when all links are up, begin.
fn put_up_links(site: &Site, offices: &mut [Office]) -> io::Result<()> {
    let mut ports = Vec::new();
    for office in &mut *offices {
        ports.push((office.server, office.hear_one(PORT)?));
    }
    for office in &mut *offices {
        for &(to, port) in &ports {
            if site.network.linked(office.server, to) {
                office.tell(LINK, &[to.into(), port])?;
            }
        }
        office.tell(OPEN, &[])?;
    }
    for office in &mut *offices {
        office.hear(OPEN)?;
    }
    for office in &mut *offices {
        let up = |(from, _): &&(u8, u16)| site.network.linked(*from, office.server);
        let up = ports.iter().filter(up).count();
        office.tell(START, &[up as u16])?;
    }
    Ok(())
}

/// A process that is an office.
struct Office {
    server: u8,
    process: Child,
    /// `None` once it is to go.
    to: Option<ChildStdin>,
    from: BufReader<ChildStdout>,
}

impl Office {
    fn start(site: &Site, asked: &Asked, server: u8) -> io::Result<Office> {
        let mut command = Command::new(env::current_exe()?);
        if site.faulty.contains(server) {
            command.arg(FAILING).arg(server.to_string());
            command.args([&site.card, &site.plan, &site.run]);
        } else {
            let input = site.inputs[usize::from(server)];
            let wait = asked.wait.as_millis();
            command.arg(OFFICE).arg(server.to_string());
            command.args([input.to_string(), wait.to_string()]);
            command.args([&site.card, &site.plan]);
        }
        command.stdin(Stdio::piped()).stdout(Stdio::piped());
        let mut process = command.spawn()?;
        let pipes = process.stdin.take().zip(process.stdout.take());
        let (to, from) = pipes.ok_or_else(|| io::Error::other("a process has no pipes"))?;
        Ok(Office {
            server,
            process,
            to: Some(to),
            from: BufReader::new(from),
        })
    }

    fn tell(&mut self, word: &str, numbers: &[u16]) -> io::Result<()> {
        match &mut self.to {
            Some(to) => talk::say(to, word, numbers),
            None => Ok(()),
        }
    }

    /// The numbers that the office says with this word.
    fn hear(&mut self, expected: &str) -> io::Result<Vec<u16>> {
        let named = |error| io::Error::other(format!("office {}: {error}", self.server));
        let (word, numbers) = talk::hear(&mut self.from).map_err(named)?;
        match word == expected {
            true => Ok(numbers),
            false => Err(named(talk::unexpected(&word))),
        }
    }

    fn hear_one(&mut self, expected: &str) -> io::Result<u16> {
        match self.hear(expected)?[..] {
            [number] => Ok(number),
            _ => Err(talk::unexpected(expected)),
        }
    }
}

/// Its standard input ends, so it goes, and is waited for.
impl Drop for Office {
    fn drop(&mut self) {
        self.to = None;
        let _ = self.process.wait();
    }
}
