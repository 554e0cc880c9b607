//! The command line's options: `--name value` pairs, each known by its subcommand.

use std::collections::BTreeMap;
use std::str::FromStr;

pub struct Options(BTreeMap<String, String>);

impl Options {
    /// Options behind one word of another kind, such as a label, where there is one.
    pub fn behind<'a>(words: &'a [String], known: &[&str]) -> Result<(Option<&'a str>, Self), String> {
        match words.split_first() {
            Some((word, rest)) if !word.starts_with("--") => Ok((Some(word), Self::parse(rest, known)?)),
            _ => Ok((None, Self::parse(words, known)?)),
        }
    }

    pub fn parse(words: &[String], known: &[&str]) -> Result<Self, String> {
        let mut options = BTreeMap::new();
        for pair in words.chunks(2) {
            let name = pair[0].strip_prefix("--").unwrap_or("");
            if !known.contains(&name) {
                return Err(format!("no such option here: {}", pair[0]));
            }
            let value = pair.get(1).ok_or(format!("{} wants a value", pair[0]))?;
            if options.insert(name.to_string(), value.clone()).is_some() {
                return Err(format!("{} is given twice", pair[0]));
            }
        }
        Ok(Options(options))
    }

    pub fn text(&self, name: &str) -> Option<&str> {
        self.0.get(name).map(String::as_str)
    }

    pub fn number<T: FromStr>(&self, name: &str, default: T) -> Result<T, String> {
        match self.text(name) {
            Some(text) => text.parse().map_err(|_| format!("--{name} wants a number, not {text}")),
            None => Ok(default),
        }
    }
}

#[cfg(test)]
mod tests {
    use super::*;

    #[test]
    fn bad_options_are_refused() {
        let parse = |words: &[&str]| {
            let words: Vec<String> = words.iter().map(|word| word.to_string()).collect();
            Options::parse(&words, &["seed"]).and_then(|options| options.number("seed", 7u64))
        };
        assert_eq!(parse(&[]), Ok(7));
        assert_eq!(parse(&["--seed", "5"]), Ok(5));
        for bad in
            [&["--seed"][..], &["--seed", "x"], &["--sead", "5"], &["seed", "5"], &["--seed", "1", "--seed", "1"]]
        {
            assert!(parse(bad).is_err());
        }
    }

    #[test]
    fn one_word_may_stand_before_options() {
        let behind = |words: &[&str]| {
            let words: Vec<String> = words.iter().map(|word| word.to_string()).collect();
            let (word, options) = Options::behind(&words, &["case"])?;
            Ok::<_, String>((word.map(str::to_string), options.number("case", 7u64)?))
        };
        assert_eq!(behind(&[]), Ok((None, 7)));
        assert_eq!(behind(&["--case", "5"]), Ok((None, 5)));
        assert_eq!(behind(&["row-past"]), Ok((Some("row-past".into()), 7)));
        assert_eq!(behind(&["row-past", "--case", "5"]), Ok((Some("row-past".into()), 5)));
        for bad in [&["row-past", "row-none"][..], &["--case", "5", "row-past"], &["row-past", "--case"]] {
            assert!(behind(bad).is_err());
        }
    }
}
