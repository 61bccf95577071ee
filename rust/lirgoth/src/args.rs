//! The command line after the verb: words, and options with or without a value.

use std::ffi::OsString;
use std::path::Path;

/// An option that a verb knows, and what it calls its value if it takes one.
pub type Known = (&'static str, Option<&'static str>);

/// What stands on a command line.
#[derive(Debug, Default)]
pub struct Args {
    words: Vec<OsString>,
    options: Vec<(&'static str, OsString)>,
}

impl Args {
    /// Takes `args` apart; what is wrong with them is said in words.
    pub fn parse(
        args: impl IntoIterator<Item = OsString>,
        known: &[Known],
    ) -> Result<Args, String> {
        let mut parsed = Args::default();
        let mut args = args.into_iter();
        while let Some(arg) = args.next() {
            let Some(text) = arg
                .to_str()
                .filter(|text| text.starts_with("--") && text.len() > 2)
            else {
                // What is no text can only be a path.
                if arg != "--" {
                    parsed.words.push(arg);
                } else {
                    parsed.words.extend(args.by_ref());
                }
                continue;
            };
            let (name, joined) = match text.split_once('=') {
                Some((name, value)) => (name, Some(OsString::from(value))),
                None => (text, None),
            };
            let Some(&(name, takes)) = known.iter().find(|(known, _)| *known == name) else {
                return Err(format!("there is no option {name} here"));
            };
            let value = match (takes, joined) {
                (None, None) => OsString::new(),
                (None, Some(_)) => return Err(format!("{name} takes no value")),
                (Some(_), Some(value)) => value,
                (Some(what), None) => args.next().ok_or_else(|| format!("{name} wants {what}"))?,
            };
            if parsed.has(name) {
                return Err(format!("{name} is given twice"));
            }
            parsed.options.push((name, value));
        }
        Ok(parsed)
    }

    pub fn has(&self, name: &str) -> bool {
        self.options.iter().any(|(given, _)| *given == name)
    }

    pub fn value(&self, name: &str) -> Option<&OsString> {
        let found = self.options.iter().find(|(given, _)| *given == name);
        found.map(|(_, value)| value)
    }

    /// The value of an option that has to be text.
    pub fn text(&self, name: &str) -> Result<Option<&str>, String> {
        match self.value(name) {
            None => Ok(None),
            Some(value) => match value.to_str() {
                Some(text) => Ok(Some(text)),
                None => Err(format!("the value of {name} is no text")),
            },
        }
    }

    /// The one word that a verb takes, a path.
    pub fn path(&self, what: &str) -> Result<&Path, String> {
        match &self.words[..] {
            [word] => Ok(Path::new(word)),
            [] => Err(format!("{what} is missing")),
            [_, more, ..] => Err(format!(
                "\"{}\" is one word too many",
                more.to_string_lossy()
            )),
        }
    }
}

#[cfg(test)]
mod tests {
    use super::*;

    const KNOWN: [Known; 2] = [("--hex", None), ("--site", Some("a folder"))];

    fn parse(line: &str) -> Result<Args, String> {
        Args::parse(line.split_whitespace().map(OsString::from), &KNOWN)
    }

    #[test]
    fn options_and_words_come_in_any_order() {
        for line in [
            "--hex a --site b",
            "a --site=b --hex",
            "--site b --hex -- a",
        ] {
            let args = parse(line).expect(line);
            assert_eq!(args.path("CHART"), Ok(Path::new("a")), "{line}");
            assert!(args.has("--hex"), "{line}");
            assert_eq!(args.text("--site"), Ok(Some("b")), "{line}");
        }
        assert_eq!(parse("-").unwrap().path("CHART"), Ok(Path::new("-")));
    }

    #[test]
    fn what_is_wrong_is_said() {
        let wrong = |line: &str| parse(line).expect_err(line);
        assert_eq!(wrong("--hext a"), "there is no option --hext here");
        assert_eq!(wrong("--hex=1"), "--hex takes no value");
        assert_eq!(wrong("a --site"), "--site wants a folder");
        assert_eq!(wrong("--hex --hex"), "--hex is given twice");
        assert_eq!(
            parse("").unwrap().path("CHART"),
            Err("CHART is missing".into())
        );
        assert_eq!(
            parse("a b").unwrap().path("CHART"),
            Err("\"b\" is one word too many".into())
        );
    }
}
