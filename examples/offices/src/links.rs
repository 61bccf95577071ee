//! The links of an office. A link of the card is one TCP connection on the loopback, which the
//! office that sends has opened and on which it alone writes.

use crate::frame::{self, Frame};
use crate::plan::Carriage;
use agreement::ServerSet;
use std::io::{self, BufReader, Read, Write};
use std::net::{Ipv4Addr, Shutdown, TcpListener, TcpStream};
use std::sync::mpsc::{self, Receiver, Sender};
use std::sync::{Arc, Mutex};
use std::thread;

/// The only address that is used: nothing here leaves the machine.
pub const ADDRESS: Ipv4Addr = Ipv4Addr::LOCALHOST;

/// The links from this office to others.
///
/// Each has a thread that writes. An office that does not read then holds up that thread and
/// nothing else, and what waits there is bounded by the plan: each carriage is sent once.
#[derive(Default)]
pub struct Outgoing {
    queues: [Option<Sender<Frame>>; 8],
}

impl Outgoing {
    /// Opens the link to each of these offices, by its port, and says there who calls.
    pub fn open(own: u8, ports: &[(u8, u16)]) -> io::Result<Outgoing> {
        let mut out = Outgoing::default();
        for &(to, port) in ports {
            let mut link = TcpStream::connect((ADDRESS, port))?;
            // A frame is small, and somebody waits for it.
            link.set_nodelay(true)?;
            link.write_all(&[own])?;
            let frames = out.queue(to);
            thread::spawn(move || write(link, frames));
        }
        Ok(out)
    }

    /// The far end of a link to `to`.
    pub fn queue(&mut self, to: u8) -> Receiver<Frame> {
        let (queue, frames) = mpsc::channel();
        self.queues[usize::from(to)] = Some(queue);
        frames
    }

    /// Sends over the link to `to`. One that is down takes nothing: what does not come is
    /// missed at the other end.
    pub fn send(&self, to: u8, frame: Frame) {
        if let Some(queue) = &self.queues[usize::from(to)] {
            let _ = queue.send(frame);
        }
    }
}

fn write(mut link: TcpStream, frames: Receiver<Frame>) {
    for frame in frames {
        if link.write_all(&frame.to_bytes()).is_err() {
            return;
        }
    }
}

/// What an office hears of the links that lead to it.
#[derive(Debug, Clone, Copy, PartialEq, Eq)]
pub enum News {
    Up { from: u8 },
    Came { frame: Frame },
    Down { from: u8 },
}

/// Takes in the links to the office `own` from `callers`, each with a thread that reads.
pub fn listen(
    own: u8,
    listener: TcpListener,
    callers: ServerSet,
    carriages: Arc<[Carriage]>,
) -> Receiver<News> {
    let (news, heard) = mpsc::channel();
    let reader = Arc::new(Reader {
        own,
        callers: Mutex::new(callers),
        carriages,
    });
    thread::spawn(move || {
        for link in listener.incoming().flatten() {
            let (reader, news) = (Arc::clone(&reader), news.clone());
            thread::spawn(move || reader.read(link, &news));
        }
    });
    heard
}

/// What the readers of all links to an office share.
struct Reader {
    own: u8,
    /// Those who have not called yet.
    callers: Mutex<ServerSet>,
    carriages: Arc<[Carriage]>,
}

impl Reader {
    /// Passes on what comes over one link until it ends; `None` if nobody wants it any more.
    fn read(&self, link: TcpStream, news: &Sender<News>) -> Option<()> {
        // Links are one-way.
        link.shutdown(Shutdown::Write).ok()?;
        let mut link = BufReader::new(link);
        let mut caller = [0];
        link.read_exact(&mut caller).ok()?;
        let [from] = caller;
        self.admit(from)?;
        news.send(News::Up { from }).ok()?;
        let mut due = self.due(from);
        let mut bytes = [0; frame::BYTES];
        while link.read_exact(&mut bytes).is_ok() {
            let frame = Frame::from_bytes(bytes);
            // An office is heard on carriages that it hands over to this one, once on each. One
            // that says anything else is failing, and is not read on: it could go on for ever.
            match due.get_mut(frame.carriage as usize) {
                Some(due) if *due => *due = false,
                _ => break,
            }
            news.send(News::Came { frame }).ok()?;
        }
        news.send(News::Down { from }).ok()
    }

    /// Whether `from` has a link to this office and has not called before. That it is really
    /// `from` who calls is taken on trust here.
    fn admit(&self, from: u8) -> Option<()> {
        let mut callers = self.callers.lock().ok()?;
        if !callers.contains(from) {
            return None;
        }
        *callers = *callers - [from].into_iter().collect();
        Some(())
    }

    /// Which of the carriages come over the link from `from`.
    fn due(&self, from: u8) -> Vec<bool> {
        let comes = |carriage: &Carriage| carriage.before(self.own) == Some(from);
        self.carriages.iter().map(comes).collect()
    }
}

#[cfg(test)]
mod tests {
    use super::*;
    use crate::plan::carriages;
    use std::sync::mpsc::RecvTimeoutError;
    use std::time::Duration;

    /// Office 2 hears office 0, by carriage 0 over office 1 and by carriage 1 without; office 1
    /// hears office 2 by carriage 2, and office 0 by carriage 3.
    const PLAN: [u8; 41] = [
        0x10, 0, 1, 1, //
        0x13, 0, 1, 2, 255, 255, 255, 255, 255, //
        0x13, 0, 2, 255, 255, 255, 255, 255, 255, //
        0x13, 2, 1, 255, 255, 255, 255, 255, 255, //
        0x13, 0, 1, 255, 255, 255, 255, 255, 255, //
        0x15,
    ];

    /// Office 1, which has links from 0 and 2.
    fn office_one() -> (u16, Receiver<News>) {
        let listener = TcpListener::bind((ADDRESS, 0)).expect("a port");
        let port = listener.local_addr().expect("a port").port();
        let callers = ServerSet::from_bits(0b101);
        (port, listen(1, listener, callers, carriages(&PLAN).into()))
    }

    fn frame(carriage: u32, value: u8) -> Frame {
        Frame { carriage, value }
    }

    /// What office 1 hears next; in a minute it has come, or never does.
    fn next(heard: &Receiver<News>) -> Result<News, RecvTimeoutError> {
        heard.recv_timeout(Duration::from_secs(60))
    }

    /// Opens a link to office 1, sends these frames over it and ends it.
    fn send(from: u8, port: u16, frames: &[Frame]) {
        let out = Outgoing::open(from, &[(1, port)]).expect("the link is opened");
        frames.iter().for_each(|frame| out.send(1, *frame));
    }

    #[test]
    fn frames_go_over_a_link_in_order_until_it_ends() {
        let (port, heard) = office_one();
        send(0, port, &[frame(3, 7), frame(0, 1)]);
        assert_eq!(next(&heard), Ok(News::Up { from: 0 }));
        for frame in [frame(3, 7), frame(0, 1)] {
            assert_eq!(next(&heard), Ok(News::Came { frame }));
        }
        assert_eq!(next(&heard), Ok(News::Down { from: 0 }));
    }

    #[test]
    fn only_those_with_a_link_are_taken_in_and_each_of_them_once() {
        let (port, heard) = office_one();
        drop(TcpStream::connect((ADDRESS, port)).expect("it is not refused"));
        send(3, port, &[frame(0, 1)]);
        send(255, port, &[frame(0, 1)]);
        send(2, port, &[]);
        assert_eq!(next(&heard), Ok(News::Up { from: 2 }));
        assert_eq!(next(&heard), Ok(News::Down { from: 2 }));
        send(2, port, &[frame(2, 1)]);
        send(0, port, &[]);
        assert_eq!(next(&heard), Ok(News::Up { from: 0 }));
        assert_eq!(next(&heard), Ok(News::Down { from: 0 }));
    }

    /// It says a thing twice; it says what another office should, what does not come by here,
    /// and what there is no carriage for.
    #[test]
    fn an_office_that_says_what_it_should_not_is_not_read_on() {
        for wrong in [0, 2, 1, 4, u32::MAX] {
            let (port, heard) = office_one();
            send(0, port, &[frame(0, 1), frame(wrong, 0), frame(3, 0)]);
            assert_eq!(next(&heard), Ok(News::Up { from: 0 }));
            let frame = frame(0, 1);
            assert_eq!(next(&heard), Ok(News::Came { frame }), "{wrong}");
            assert_eq!(next(&heard), Ok(News::Down { from: 0 }), "{wrong}");
        }
    }
}
