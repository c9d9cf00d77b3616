//! Words of a command line: `--name value`.

use std::{fmt::Display, str::FromStr};

/// What the words say, or the line that says what is wrong with them.
pub struct Args {
    words: Vec<(String, String)>,
}

impl Args {
    /// Takes `--name value` for the names given. `None` where the words ask for help.
    pub fn parse(words: impl Iterator<Item = String>, names: &[&str]) -> Result<Option<Args>, String> {
        let mut parsed: Vec<(String, String)> = vec![];
        let mut words = words;
        while let Some(word) = words.next() {
            if word == "--help" || word == "-h" {
                return Ok(None);
            }
            let name = word.strip_prefix("--").filter(|name| names.contains(name));
            let Some(name) = name else { return Err(format!("unknown word '{word}'")) };
            if parsed.iter().any(|(earlier, _)| earlier == name) {
                return Err(format!("--{name} is there twice"));
            }
            let Some(value) = words.next() else { return Err(format!("--{name} needs a value")) };
            parsed.push((name.into(), value));
        }
        Ok(Some(Args { words: parsed }))
    }

    pub fn get(&self, name: &str) -> Option<&str> {
        self.words.iter().find(|(earlier, _)| earlier == name).map(|(_, value)| &value[..])
    }

    pub fn need(&self, name: &str) -> Result<&str, String> {
        self.get(name).ok_or(format!("--{name} is missing"))
    }

    /// One of some words, the first where there is none.
    pub fn choice<'a>(&self, name: &str, words: &[&'a str]) -> Result<&'a str, String> {
        let value = self.get(name).unwrap_or(words[0]);
        let found = words.iter().find(|word| **word == value);
        found.copied().ok_or_else(|| format!("--{name} takes {}, not '{value}'", words.join(" or ")))
    }

    /// A number within bounds, digits alone.
    pub fn number<T: FromStr + PartialOrd + Display>(&self, name: &str, least: T, most: T) -> Result<Option<T>, String> {
        let Some(value) = self.get(name) else { return Ok(None) };
        match digits(value) {
            Some(number) if least <= number && number <= most => Ok(Some(number)),
            _ => Err(format!("--{name} takes a number from {least} to {most}, not '{value}'")),
        }
    }

    /// Numbers of 32 bits with commas between, at least one.
    pub fn numbers(&self, name: &str) -> Result<Option<Vec<u32>>, String> {
        let Some(value) = self.get(name) else { return Ok(None) };
        let numbers: Option<Vec<u32>> = value.split(',').map(digits).collect();
        let wrong = || format!("--{name} takes numbers of 32 bits with commas between, as 100,250,50, not '{value}'");
        numbers.map(Some).ok_or_else(wrong)
    }
}

/// A number, of digits alone.
fn digits<T: FromStr>(word: &str) -> Option<T> {
    let digits = !word.is_empty() && word.bytes().all(|byte| byte.is_ascii_digit());
    digits.then(|| word.parse().ok()).flatten()
}

#[cfg(test)]
mod tests {
    use super::*;

    fn parse(words: &[&str]) -> Result<Option<Args>, String> {
        Args::parse(words.iter().map(|word| word.to_string()), &["n", "l"])
    }

    #[test]
    fn words_are_taken() {
        let args = parse(&["--l", "7", "--n", "3"]).unwrap().unwrap();
        assert_eq!(args.number("n", 2, 8), Ok(Some(3)));
        assert_eq!(args.number("l", 1, 300_000), Ok(Some(7)));
        assert!(parse(&["--n", "3", "--help", "nonsense"]).unwrap().is_none());
        assert_eq!(parse(&[]).unwrap().unwrap().number("n", 2, 8), Ok(None));
    }

    #[test]
    fn choices_are_taken() {
        let args = parse(&["--l", "ten"]).unwrap().unwrap();
        assert_eq!(args.choice("n", &["two", "three"]), Ok("two"));
        assert_eq!(args.choice("l", &["one", "ten"]), Ok("ten"));
        assert_eq!(args.choice("l", &["one", "two"]), Err("--l takes one or two, not 'ten'".into()));
        assert!(args.choice("l", &["tens", ""]).is_err());
    }

    #[test]
    fn lists_are_taken() {
        let list = |value: &str| parse(&["--l", value]).unwrap().unwrap().numbers("l");
        assert_eq!(list("100,250,50"), Ok(Some(vec![100, 250, 50])));
        assert_eq!(list("7"), Ok(Some(vec![7])));
        // what a session takes is the library's to say
        assert_eq!(list("0,4294967295"), Ok(Some(vec![0, u32::MAX])));
        assert_eq!(parse(&[]).unwrap().unwrap().numbers("l"), Ok(None));
        for value in ["", ",", "1,", ",1", "1,,2", "1, 2", "1;2", "-1", "+1", "1,x", "4294967296"] {
            assert!(list(value).is_err(), "'{value}'");
        }
    }

    #[test]
    fn bad_words_are_refused() {
        for words in [&["--m", "3"][..], &["3"], &["--n"], &["--n", "3", "--n", "4"], &["-n", "3"], &["--n=3"]] {
            assert!(parse(words).is_err(), "{words:?}");
        }
        for value in ["", "1", "9", "-3", "+3", "3x", " 3", "99999999999999999999"] {
            let args = parse(&["--n", value]).unwrap().unwrap();
            assert!(args.number("n", 2, 8).is_err(), "'{value}'");
        }
    }
}
