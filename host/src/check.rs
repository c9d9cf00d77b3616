//! A checker that sees every box's outputs: labels, the MAC rule and the AND, at every position. Only a demo or a test can have one.

use std::{error, fmt};

use crate::{key_at, mac_at, record_head, record_len, Batch, Plan, ENTRY, RECORD_HEAD};

/// One box's part.
#[derive(Clone, Copy)]
pub struct Outputs<'a> {
    pub delta: &'a [u8; 16],
    pub alpha: &'a [u8],
    pub beta: &'a [u8],
    pub results: &'a [u8],
}

impl<'a> Outputs<'a> {
    /// Its part of a batch, in a session of n boxes.
    pub fn of_batch(&self, n: usize, batch: Batch) -> Outputs<'a> {
        let len = record_len(n);
        let part = |list: &'a [u8]| &list[batch.first * len..][..batch.count * len];
        Outputs { delta: self.delta, alpha: part(self.alpha), beta: part(self.beta), results: part(self.results) }
    }
}

/// What was found right.
#[derive(Clone, Copy, Debug, PartialEq, Eq)]
pub struct Checked {
    pub ands: usize,
    pub macs: usize,
}

/// The first thing found wrong. Positions count from 0.
#[derive(Clone, Copy, Debug, PartialEq, Eq)]
pub enum Wrong {
    Boxes { want: usize, got: usize },
    Length { holder: usize, want: usize, got: usize },
    Bit { holder: usize, position: usize },
    Label { holder: usize, position: usize },
    OwnEntry { holder: usize, position: usize },
    Mac { holder: usize, towards: usize, position: usize },
    And { position: usize },
}

impl fmt::Display for Wrong {
    fn fmt(&self, f: &mut fmt::Formatter) -> fmt::Result {
        match self {
            Wrong::Boxes { want, got } => write!(f, "outputs of {got} boxes, not {want}"),
            Wrong::Length { holder, want, got } => write!(f, "box {holder} has a list of {got} bytes, not {want}"),
            Wrong::Bit { holder, position } => write!(f, "position {position}: box {holder}'s bit is neither 0 nor 1"),
            Wrong::Label { holder, position } => {
                write!(f, "position {position}: box {holder}'s record says another n or another box's number, or its filler is not zero")
            }
            Wrong::OwnEntry { holder, position } => write!(f, "position {position}: box {holder}'s own entry is not zero"),
            Wrong::Mac { holder, towards, position } => {
                write!(f, "position {position}: box {holder}'s MAC for box {towards} is not the key, plus delta where the bit is 1")
            }
            Wrong::And { position } => write!(f, "position {position}: the result is not the AND"),
        }
    }
}

impl error::Error for Wrong {}

/// Holds results to their inputs.
pub fn check(plan: Plan, boxes: &[Outputs]) -> Result<Checked, Wrong> {
    let Plan { n, l } = plan;
    let len = record_len(n);
    if boxes.len() != n {
        return Err(Wrong::Boxes { want: n, got: boxes.len() });
    }
    for (holder, outputs) in boxes.iter().enumerate() {
        for list in [outputs.alpha, outputs.beta, outputs.results] {
            if list.len() != l * len {
                return Err(Wrong::Length { holder, want: l * len, got: list.len() });
            }
        }
    }
    for position in 0..l {
        let at = position * len;
        let (mut alpha, mut beta, mut result) = (0, 0, 0);
        for (holder, outputs) in boxes.iter().enumerate() {
            let record = &outputs.results[at..at + len];
            let bit = record[0];
            if bit > 1 {
                return Err(Wrong::Bit { holder, position });
            }
            if record[..RECORD_HEAD] != record_head(n, holder, bit) {
                return Err(Wrong::Label { holder, position });
            }
            alpha ^= outputs.alpha[at];
            beta ^= outputs.beta[at];
            result ^= bit;
            for (towards, other) in boxes.iter().enumerate() {
                let mac = &record[mac_at(towards)..][..16];
                if towards == holder {
                    if record[mac_at(holder)..][..ENTRY] != [0; ENTRY] {
                        return Err(Wrong::OwnEntry { holder, position });
                    }
                    continue;
                }
                let key = &other.results[at + key_at(holder)..][..16];
                if !(0..16).all(|b| mac[b] == key[b] ^ (other.delta[b] * bit)) {
                    return Err(Wrong::Mac { holder, towards, position });
                }
            }
        }
        if result != alpha & beta {
            return Err(Wrong::And { position });
        }
    }
    Ok(Checked { ands: l, macs: l * n * (n - 1) })
}

#[cfg(test)]
mod tests {
    use super::*;

    /// Two boxes and one AND, by hand: alpha 1, beta 1, result 1, box 0 holding all the ones.
    fn sample() -> ([[u8; 16]; 2], Vec<Vec<u8>>, Vec<Vec<u8>>) {
        let deltas = [[3; 16], [5; 16]];
        let record = |i, bit| [&record_head(2, i, bit)[..], &[0; 2 * ENTRY]].concat();
        let mut ones = vec![record(0, 1), record(1, 0)];
        ones[1][key_at(0)..mac_at(1)].fill(9); // box 1's key of box 0
        ones[0][mac_at(1)..key_at(1)].fill(9 ^ 5); // box 0's MAC for box 1: its bit is 1
        ones[0][key_at(1)..mac_at(2)].fill(6); // box 0's key of box 1
        ones[1][mac_at(0)..key_at(0)].fill(6); // box 1's MAC for box 0: its bit is 0
        (deltas, ones.clone(), ones)
    }

    fn run(deltas: &[[u8; 16]; 2], inputs: &[Vec<u8>], results: &[Vec<u8>]) -> Result<Checked, Wrong> {
        let outputs = |i: usize| Outputs { delta: &deltas[i], alpha: &inputs[i], beta: &inputs[i], results: &results[i] };
        check(Plan::new(2, 1), &[outputs(0), outputs(1)])
    }

    #[test]
    fn right_results_pass() {
        let (deltas, inputs, results) = sample();
        assert_eq!(run(&deltas, &inputs, &results), Ok(Checked { ands: 1, macs: 2 }));
    }

    /// Any one flipped bit of any record is seen, and one of its label as such.
    #[test]
    fn every_flipped_bit_is_seen() {
        let (deltas, inputs, results) = sample();
        for holder in 0..2 {
            for bit in 0..results[holder].len() * 8 {
                let mut wrong = results.clone();
                wrong[holder][bit / 8] ^= 1 << (bit % 8);
                let found = run(&deltas, &inputs, &wrong).expect_err(&format!("box {holder}, bit {bit}"));
                let label = (1..RECORD_HEAD).contains(&(bit / 8));
                assert_eq!(found == Wrong::Label { holder, position: 0 }, label, "box {holder}, bit {bit}: {found}");
            }
        }
    }

    /// Results in another box's place: their labels tell before any MAC.
    #[test]
    fn another_boxs_results_are_seen() {
        let (deltas, inputs, mut results) = sample();
        results.swap(0, 1);
        assert_eq!(run(&deltas, &inputs, &results), Err(Wrong::Label { holder: 0, position: 0 }));
    }

    /// MACs that fit and a wrong AND: the inputs change, the results do not.
    #[test]
    fn a_wrong_and_is_seen() {
        let (deltas, mut inputs, results) = sample();
        inputs[1][0] = 1;
        assert_eq!(run(&deltas, &inputs, &results), Err(Wrong::And { position: 0 }));
    }

    #[test]
    fn a_short_list_is_seen() {
        let (deltas, inputs, mut results) = sample();
        results[1].pop();
        assert_eq!(run(&deltas, &inputs, &results), Err(Wrong::Length { holder: 1, want: 96, got: 95 }));
    }
}
