//! What the program that starts the offices and an office say to each other, over the office's
//! standard input and output: lines of a word and numbers. The offices themselves never talk
//! this way.

use std::io::{self, BufRead, Write};

/// From an office: the port on which it takes links in.
pub const PORT: &str = "port";
/// To an office: one that it has a link to, and the port of that one.
pub const LINK: &str = "link";
/// To an office: that was the last link; from it: all of them are up.
pub const OPEN: &str = "open";
/// To an office: all links of all offices are up; begin, when so many lead to you.
pub const START: &str = "start";
/// From an office: its bit.
pub const DECIDED: &str = "decided";

pub fn say(to: &mut impl Write, word: &str, numbers: &[u16]) -> io::Result<()> {
    let mut line = String::from(word);
    for number in numbers {
        line += &format!(" {number}");
    }
    writeln!(to, "{line}")?;
    to.flush()
}

/// The word and the numbers of the next line.
pub fn hear(from: &mut impl BufRead) -> io::Result<(String, Vec<u16>)> {
    let mut line = String::new();
    if from.read_line(&mut line)? == 0 {
        return Err(io::ErrorKind::UnexpectedEof.into());
    }
    let mut parts = line.split_whitespace();
    let word = parts.next().unwrap_or_default().to_string();
    match parts.map(str::parse).collect() {
        Ok(numbers) => Ok((word, numbers)),
        Err(_) => Err(unexpected(&line)),
    }
}

pub fn unexpected(line: &str) -> io::Error {
    io::Error::other(format!("nobody expects the line {:?}", line.trim_end()))
}

#[cfg(test)]
mod tests {
    use super::*;

    #[test]
    fn what_is_said_is_heard() {
        let mut said = Vec::new();
        say(&mut said, LINK, &[3, 40_125]).expect("a vector takes all");
        say(&mut said, OPEN, &[]).expect("a vector takes all");
        assert_eq!(said, b"link 3 40125\nopen\n");
        let mut said = &said[..];
        let link = hear(&mut said).expect("a line");
        assert_eq!(link, (LINK.to_string(), vec![3, 40_125]));
        let open = hear(&mut said).expect("a line");
        assert_eq!(open, (OPEN.to_string(), vec![]));
        assert!(hear(&mut said).is_err());
        assert!(hear(&mut &b"port x\n"[..]).is_err());
    }
}
