//! Rules that change messages in transit, one on a line:
//!
//! ```text
//! ROUND FROM TO flip AT MASK    XOR the byte at AT with MASK
//! ROUND FROM TO put AT HEX      write over from AT on
//! ROUND FROM TO cut LENGTH      keep the first LENGTH bytes; -K leaves off the last K
//! ROUND FROM TO insert AT HEX
//! ROUND FROM TO delete AT LENGTH
//! ROUND FROM TO append HEX
//! ROUND FROM TO replace HEX     HEX may be - for no bytes
//! ROUND FROM TO drop
//! ```
//!
//! FROM and TO may be `*`. AT counts from the end if negative. Numbers are decimal, or hexadecimal
//! after 0x. `#` begins a comment. Of several rules for a message all apply, in order. A place
//! past the end is the end, one before the start the start.

use std::fmt;

#[derive(Clone, Debug, PartialEq, Eq)]
pub enum Change {
    Flip(i64, u8),
    Put(i64, Vec<u8>),
    Cut(i64),
    Insert(i64, Vec<u8>),
    Delete(i64, usize),
    Append(Vec<u8>),
    Replace(Vec<u8>),
    Drop,
}

#[derive(Clone, Debug, PartialEq, Eq)]
pub struct Rule {
    pub round: u8,
    pub from: Option<usize>,
    pub to: Option<usize>,
    pub change: Change,
}

fn number(word: &str) -> Result<i64, String> {
    match word.strip_prefix("0x") {
        Some(hex) => i64::from_str_radix(hex, 16),
        None => word.parse(),
    }
    .map_err(|_| format!("no number: {word}"))
}

fn bytes(hex: &str) -> Result<Vec<u8>, String> {
    if hex == "-" {
        return Ok(vec![]);
    }
    if !hex.len().is_multiple_of(2) || !hex.is_ascii() {
        return Err(format!("no bytes: {hex}"));
    }
    (0..hex.len() / 2)
        .map(|k| {
            u8::from_str_radix(&hex[2 * k..2 * k + 2], 16).map_err(|_| format!("no bytes: {hex}"))
        })
        .collect()
}

fn place(at: i64, len: usize) -> usize {
    let at = if at < 0 { at + len as i64 } else { at };
    usize::try_from(at).map_or(0, |at| at.min(len))
}

impl Rule {
    pub fn parse(line: &str) -> Result<Option<Self>, String> {
        let line = line.split('#').next().unwrap();
        let words: Vec<&str> = line.split_whitespace().collect();
        if words.is_empty() {
            return Ok(None);
        }
        let party = |word: &str| match word {
            "*" => Ok(None),
            _ => number(word).map(|k| Some(k as usize)),
        };
        let change = match &words[3.min(words.len())..] {
            ["flip", at, mask] => Change::Flip(number(at)?, number(mask)? as u8),
            ["put", at, hex] => Change::Put(number(at)?, bytes(hex)?),
            ["cut", len] => Change::Cut(number(len)?),
            ["insert", at, hex] => Change::Insert(number(at)?, bytes(hex)?),
            ["delete", at, len] => Change::Delete(number(at)?, number(len)? as usize),
            ["append", hex] => Change::Append(bytes(hex)?),
            ["replace", hex] => Change::Replace(bytes(hex)?),
            ["drop"] => Change::Drop,
            _ => return Err(format!("no rule: {line}")),
        };
        let round = number(words[0])? as u8;
        Ok(Some(Rule {
            round,
            from: party(words[1])?,
            to: party(words[2])?,
            change,
        }))
    }

    pub fn parse_all(text: &str) -> Result<Vec<Self>, String> {
        text.lines()
            .filter_map(|line| Self::parse(line).transpose())
            .collect()
    }
}

/// As `parse` reads it.
impl fmt::Display for Rule {
    fn fmt(&self, f: &mut fmt::Formatter<'_>) -> fmt::Result {
        let party = |p: Option<usize>| p.map_or("*".to_string(), |p| p.to_string());
        let hex = |bytes: &[u8]| match bytes {
            [] => "-".to_string(),
            _ => bytes.iter().map(|b| format!("{b:02x}")).collect(),
        };
        write!(f, "{} {} {} ", self.round, party(self.from), party(self.to))?;
        match &self.change {
            Change::Flip(at, mask) => write!(f, "flip {at} {mask}"),
            Change::Put(at, bytes) => write!(f, "put {at} {}", hex(bytes)),
            Change::Cut(len) => write!(f, "cut {len}"),
            Change::Insert(at, bytes) => write!(f, "insert {at} {}", hex(bytes)),
            Change::Delete(at, len) => write!(f, "delete {at} {len}"),
            Change::Append(bytes) => write!(f, "append {}", hex(bytes)),
            Change::Replace(bytes) => write!(f, "replace {}", hex(bytes)),
            Change::Drop => write!(f, "drop"),
        }
    }
}

/// Applies the rules to one message.
pub fn apply(rules: &[Rule], round: u8, from: usize, to: usize, mut m: Vec<u8>) -> Option<Vec<u8>> {
    for rule in rules {
        if rule.round != round
            || rule.from.is_some_and(|p| p != from)
            || rule.to.is_some_and(|p| p != to)
        {
            continue;
        }
        match &rule.change {
            Change::Flip(at, mask) => {
                let at = place(*at, m.len());
                m[at..].iter_mut().take(1).for_each(|byte| *byte ^= mask);
            }
            Change::Put(at, bytes) => {
                let at = place(*at, m.len());
                m[at..]
                    .iter_mut()
                    .zip(bytes)
                    .for_each(|(byte, new)| *byte = *new);
            }
            Change::Cut(len) => m.truncate(place(*len, m.len())),
            Change::Insert(at, bytes) => {
                let at = place(*at, m.len());
                m.splice(at..at, bytes.iter().copied());
            }
            Change::Delete(at, len) => {
                let at = place(*at, m.len());
                m.drain(at..m.len().min(at + len));
            }
            Change::Append(bytes) => m.extend(bytes),
            Change::Replace(bytes) => m = bytes.clone(),
            Change::Drop => return None,
        }
    }
    Some(m)
}
