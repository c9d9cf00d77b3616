//! Refusals: the library's answers other than 0, by number, name, party and call (docs/REFUSALS.md).

use std::{error, fmt};

use crate::{round_title, Call};

/// Number, name, and what it says. The names of 1 to 12 are those of the Rust that the session is carried over from; 13 to 23 have none
/// there, and are named here.
const REASONS: [(&str, &str); 23] = [
    ("InvalidBitValue", "a bit byte above 1"),
    ("CommitmentCouldNotBeOpened", "what was opened is not what was committed to"),
    ("EmptyVector", "a batch is 0, or an echo lacks a needed entry"),
    ("ConversionErr", "a record's own entry is not zero, or a dm has another length than is due"),
    ("EmptyBucket", "nothing to combine"),
    ("InvalidLength", "a list of shares, or a count in a message, is not the one due"),
    ("InconsistentBroadcast", "two boxes got different messages from the same sender"),
    ("ABitWrongMAC", "a MAC of fabitn is wrong"),
    ("AShareWrongMAC", "a MAC of fashare is wrong"),
    ("LaANDXorNotZero", "the leaky ANDs do not sum to zero"),
    ("AANDWrongMAC", "a MAC of dvalue is wrong"),
    ("BeaverWrongMAC", "a MAC of faand is wrong"),
    ("Undecodable", "a message does not decode"),
    ("MissingMessage", "a message is missing"),
    ("BadParty", "n is not from 2 to 8, or i is not below n"),
    ("TooMany", "l is above 300,000, or a bucket above 5"),
    ("BadBuffer", "a lent buffer has another length than is due"),
    ("NotAPermutation", "reserved, and no longer occurs: no permutation is lent"),
    ("NotDue", "another round is due"),
    ("SessionOver", "the session is done or ended"),
    ("BytesAfterValue", "a message has bytes after its value"),
    ("WrongLabel", "a record says another n or another box's number, or its filler is not zero"),
    ("BadBatches", "no batch, or more than 16"),
];

/// Why a call was refused: document 01's number, or 21 to 23 of document 02.
#[derive(Clone, Copy, Debug, PartialEq, Eq, Hash)]
pub struct Reason(pub u8);

impl Reason {
    pub fn number(self) -> u8 {
        self.0
    }

    fn row(self) -> Option<&'static (&'static str, &'static str)> {
        REASONS.get(usize::from(self.0).checked_sub(1)?)
    }

    /// "Unknown" for a number that this kit does not know.
    pub fn name(self) -> &'static str {
        self.row().map_or("Unknown", |row| row.0)
    }

    pub fn meaning(self) -> &'static str {
        self.row().map_or("this kit does not know the number", |row| row.1)
    }
}

impl fmt::Display for Reason {
    fn fmt(&self, f: &mut fmt::Formatter) -> fmt::Result {
        write!(f, "{} {}", self.0, self.name())
    }
}

/// A refused call.
#[derive(Clone, Copy, Debug, PartialEq, Eq)]
pub struct Refusal {
    pub reason: Reason,
    /// The party that the answer names: the sender of what was refused, or the own number.
    pub party: usize,
    pub call: Call,
    /// Whether the session is over: no call of it will be accepted any more, and its work area is zero.
    pub over: bool,
}

impl Refusal {
    /// The low byte of an answer is the number, the rest the party.
    pub(crate) fn new(answer: u64, call: Call, over: bool) -> Self {
        Refusal { reason: Reason(answer as u8), party: (answer >> 8) as usize, call, over }
    }
}

impl fmt::Display for Refusal {
    fn fmt(&self, f: &mut fmt::Formatter) -> fmt::Result {
        write!(f, "refused {} ", self.reason)?;
        match self.call {
            Call::Open => write!(f, "at opening")?,
            Call::Round(round) => write!(f, "in round {round} ({})", round_title(round))?,
            Call::Combine => write!(f, "in combining")?,
        }
        write!(f, ", names box {}: {}", self.party, self.reason.meaning())
    }
}

impl error::Error for Refusal {}
