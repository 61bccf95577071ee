//! An office's desk, over which every value goes: those that the office sends, those that it
//! only hands on, and those that are for it. Here it is decided that a value is missing.

use crate::frame::Frame;
use crate::links::{News, Outgoing};
use crate::plan::Carriage;
use agreement::ServerSet;
use std::io::{self, Write};
use std::sync::mpsc::Receiver;
use std::time::{Duration, Instant};

/// What is committed, and handed on, in the place of a value that did not come: open, as the
/// library reads a missing byte. So an office that falls silent is one that says open. What
/// arrived is told apart by its place alone, so that a gap has to be filled.
pub const MISSING: u8 = 0;

pub struct Desk<'a> {
    own: u8,
    carriages: &'a [Carriage],
    /// What came by each carriage, or `MISSING`; `None` while it can still come.
    came: Vec<Option<u8>>,
    /// The carriages that come by here: when they are due, in slots, and their numbers, by the
    /// time at which they are due. All before `settled` have come or are missing.
    coming: Vec<(u32, usize)>,
    settled: usize,
    news: Receiver<News>,
    out: Outgoing,
    start: Instant,
    /// How long a slot is.
    wait: Duration,
}

impl<'a> Desk<'a> {
    pub fn new(
        own: u8,
        carriages: &'a [Carriage],
        news: Receiver<News>,
        out: Outgoing,
        wait: Duration,
    ) -> Desk<'a> {
        let dues = carriages.iter().map(|carriage| carriage.due(own));
        let numbered = dues
            .zip(0..)
            .filter_map(|(due, number)| due.zip(Some(number)));
        let mut coming: Vec<(u32, usize)> = numbered.collect();
        coming.sort();
        Desk {
            own,
            carriages,
            came: vec![None; carriages.len()],
            coming,
            settled: 0,
            news,
            out,
            start: Instant::now(),
            wait,
        }
    }

    /// Waits until `up` links of those from `callers` are up, and starts the clock. A link that
    /// is not up when the run starts counts as down.
    pub fn begin(&mut self, callers: ServerSet, up: usize) -> io::Result<()> {
        let mut left = callers;
        while (callers - left).len() < up {
            let news = self.news.recv().map_err(io::Error::other)?;
            if let News::Up { from } = news {
                left = left - [from].into_iter().collect();
            }
            self.take_in(news);
        }
        for from in left {
            self.note(&format!("there is no link from office {from}"));
            self.lose(from);
        }
        self.start = Instant::now();
        Ok(())
    }

    /// Sends a value over the link that its carriage takes from here, if it does not end here.
    pub fn send(&self, number: usize, value: u8) {
        let Ok(carriage) = u32::try_from(number) else {
            return;
        };
        if let Some(to) = self.carriages[number].after(self.own) {
            self.out.send(to, Frame { carriage, value });
        }
    }

    /// What came by a carriage that is for this office. Waits for it until it is there or known
    /// to be missing; meanwhile whatever else comes is taken in and handed on.
    pub fn arrived(&mut self, number: usize) -> u8 {
        loop {
            match self.came[number] {
                Some(value) => return value,
                None => self.step(),
            }
        }
    }

    /// Hands on for the others until nothing is due here any more.
    pub fn serve(&mut self) {
        while self.next_due().is_some() {
            self.step();
        }
    }

    /// Takes in the next news, or notices that what is due next has not come in time.
    fn step(&mut self) {
        let Some((at, from)) = self.next_due() else {
            return;
        };
        // News that is there counts, however late this office looks at it.
        let left = at.saturating_duration_since(Instant::now());
        match self.news.recv_timeout(left) {
            Ok(news) => self.take_in(news),
            Err(_) => {
                self.note(&format!(
                    "office {from} is late, and is not waited for again"
                ));
                self.lose(from);
            }
        }
    }

    /// The time at which something not yet there is due, the first of all such times, and who
    /// should hand it over.
    fn next_due(&mut self) -> Option<(Instant, u8)> {
        while let Some(&(due, number)) = self.coming.get(self.settled) {
            if self.came[number].is_none() {
                let from = self.carriages[number].before(self.own)?;
                return Some((self.start + self.wait * due, from));
            }
            self.settled += 1;
        }
        None
    }

    fn take_in(&mut self, news: News) {
        match news {
            News::Up { .. } => {}
            News::Came { frame } => self.settle(frame.carriage as usize, frame.value),
            News::Down { from } => self.lose(from),
        }
    }

    /// Nothing more comes from `from`. No sound office is in this place before the run is over,
    /// so what is missed now was in the hands of a failing one.
    fn lose(&mut self, from: u8) {
        for index in self.settled..self.coming.len() {
            let (_, number) = self.coming[index];
            if self.carriages[number].before(self.own) == Some(from) {
                self.settle(number, MISSING);
            }
        }
    }

    /// The first value that comes by a carriage counts, and it is handed on if it is not for
    /// this office. A missing one is handed on too: whoever is next need not wait for it.
    fn settle(&mut self, number: usize, value: u8) {
        if self.came[number].is_none() {
            self.came[number] = Some(value);
            self.send(number, value);
        }
    }

    /// Says so on standard error, in one piece, since all offices may write there at once.
    fn note(&self, text: &str) {
        let line = format!("office {}: {text}\n", self.own);
        let _ = io::stderr().write_all(line.as_bytes());
    }
}

#[cfg(test)]
mod tests {
    use super::*;
    use crate::plan::carriages;
    use std::sync::mpsc::{self, Sender};

    /// By carriages 0 and 1 office 2 hears office 0, once over office 1; office 1 hears office 2
    /// by carriage 2.
    const PLAN: [u8; 32] = [
        0x10, 0, 1, 1, // a block
        0x13, 0, 1, 2, 255, 255, 255, 255, 255, //
        0x13, 0, 2, 255, 255, 255, 255, 255, 255, //
        0x13, 2, 1, 255, 255, 255, 255, 255, 255, //
        0x15,
    ];
    const LONG: Duration = Duration::from_secs(60);
    const SHORT: Duration = Duration::from_millis(5);

    fn came(carriage: u32, value: u8) -> News {
        let frame = Frame { carriage, value };
        News::Came { frame }
    }

    fn sent(frames: &Receiver<Frame>) -> Vec<(u32, u8)> {
        let frames = frames.try_iter();
        frames.map(|frame| (frame.carriage, frame.value)).collect()
    }

    struct Tried<'a> {
        desk: Desk<'a>,
        news: Sender<News>,
        to_two: Receiver<Frame>,
    }

    /// The desk of `own` and, where it is office 1, its link to office 2.
    fn tried(own: u8, all: &[Carriage], wait: Duration) -> Tried<'_> {
        let (news, heard) = mpsc::channel();
        let mut out = Outgoing::default();
        let to_two = out.queue(2);
        let desk = Desk::new(own, all, heard, out, wait);
        Tried { desk, news, to_two }
    }

    fn tell(news: &Sender<News>, all: &[News]) {
        for one in all {
            news.send(*one).expect("the desk is there");
        }
    }

    #[test]
    fn a_relay_hands_on_and_a_receiver_keeps() {
        let all = carriages(&PLAN);
        let Tried {
            mut desk,
            news,
            to_two,
        } = tried(1, &all, LONG);
        tell(&news, &[came(0, 1), came(2, 5)]);
        assert_eq!(desk.arrived(2), 5);
        assert_eq!(sent(&to_two), [(0, 1)]);
        desk.serve();
    }

    #[test]
    fn a_source_sends_over_the_first_link() {
        let all = carriages(&PLAN);
        let Tried {
            mut desk, to_two, ..
        } = tried(0, &all, LONG);
        desk.send(1, 1);
        desk.send(2, 1);
        assert_eq!(sent(&to_two), [(1, 1)]);
        desk.serve();
    }

    #[test]
    fn what_is_due_over_a_link_that_ends_is_missing_at_once() {
        let all = carriages(&PLAN);
        let Tried {
            mut desk,
            news,
            to_two,
        } = tried(1, &all, LONG);
        tell(&news, &[News::Down { from: 0 }, came(0, 1), came(2, 1)]);
        assert_eq!(desk.arrived(2), 1);
        assert_eq!(sent(&to_two), [(0, MISSING)]);
    }

    #[test]
    fn what_is_due_over_a_link_that_was_never_up_is_missing_at_once() {
        let all = carriages(&PLAN);
        let Tried {
            mut desk,
            news,
            to_two,
        } = tried(1, &all, LONG);
        // A value may come before all links are up.
        tell(
            &news,
            &[News::Up { from: 0 }, came(0, 1), News::Up { from: 3 }],
        );
        let callers = ServerSet::from_bits(0b1101);
        desk.begin(callers, 2).expect("two links are up");
        assert_eq!(desk.arrived(2), MISSING);
        assert_eq!(sent(&to_two), [(0, 1)]);
    }

    #[test]
    fn what_does_not_come_in_time_is_missing() {
        let all = carriages(&PLAN);
        let Tried {
            mut desk,
            news,
            to_two,
        } = tried(1, &all, SHORT);
        tell(&news, &[came(2, 1)]);
        assert_eq!(desk.arrived(2), 1);
        desk.serve();
        assert_eq!(sent(&to_two), [(0, MISSING)]);
        assert!(desk.start.elapsed() >= SHORT);
    }

    #[test]
    fn what_came_in_time_counts_however_late_it_is_looked_at() {
        let all = carriages(&PLAN);
        let Tried { mut desk, news, .. } = tried(2, &all, SHORT);
        // Neither of them could be taken for a missing one.
        tell(&news, &[came(1, 1), came(0, 2)]);
        std::thread::sleep(4 * SHORT);
        assert_eq!([desk.arrived(0), desk.arrived(1)], [2, 1]);
    }

    #[test]
    fn what_is_missing_has_the_place_of_its_carriage() {
        // Office 2 hears office 0, office 1 and office 3, each over a link of its own.
        let plan = [
            0x10, 0, 1, 1, // a block
            0x13, 0, 2, 255, 255, 255, 255, 255, 255, //
            0x13, 1, 2, 255, 255, 255, 255, 255, 255, //
            0x13, 3, 2, 255, 255, 255, 255, 255, 255, //
            0x15,
        ];
        let all = carriages(&plan);
        let Tried { mut desk, news, .. } = tried(2, &all, LONG);
        tell(&news, &[came(2, 2), News::Down { from: 1 }, came(0, 1)]);
        let arrived: Vec<u8> = (0..3).map(|number| desk.arrived(number)).collect();
        assert_eq!(arrived, [1, MISSING, 2]);
    }
}
