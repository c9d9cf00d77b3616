//! "nothing after the message's end" (02, order 1): bytes after a message's value are 21, in every round of two and three boxes. On the interface for C,
//! so that all that a call is lent can be looked at afterwards.

mod raw;

use raw::{Boxes, Letter, MARK};

impl Boxes {
    /// A copy of box i refuses these with this number, names k, and is over: no round due, a work area of zeros, buffers for messages and batches as they
    /// were, and 20 for the next call, which changes nothing.
    #[track_caller]
    fn refuses(&self, i: usize, letters: &[Letter], number: u8, k: usize) {
        let (answer, mut state) = self.answers(i, letters);
        let round = self.round();
        assert_eq!(answer, (number, k as u64), "n {}, box {i}, round {round}", self.plan.n);
        assert_eq!(state.due(), 0);
        assert!(state.work.iter().all(|byte| *byte == 0), "round {round}: the work area is not zero");
        assert!(state.out.iter().all(|byte| *byte == MARK) && state.told == self.states[i].told, "round {round}: a refused call wrote");
        let before = state.clone();
        assert_eq!(self.call(&mut state, round, &self.letters(i)), (20, i as u64));
        assert!(state == before, "round {round}: 20 changed something");
    }

    /// The same with k's message changed, all others as they are.
    #[track_caller]
    fn refuses_one(&self, i: usize, k: usize, number: u8, change: impl Fn(&mut Vec<u8>)) {
        let mut letters = self.letters(i);
        change(letters[k].as_mut().unwrap());
        self.refuses(i, &letters, number, k);
    }
}

/// Calls f before every round of sessions of two and three boxes, for one and for two results.
fn in_every_round(f: impl Fn(&Boxes, usize)) {
    for (n, l) in [(2, 1), (2, 2), (3, 1), (3, 2)] {
        let mut boxes = Boxes::new(n, l, 60);
        let mut rounds = vec![];
        while boxes.round() != 0 {
            rounds.push(boxes.round());
            f(&boxes, boxes.round());
            boxes.step();
        }
        assert_eq!(rounds, boxes.plan.rounds());
    }
}

/// Each box, and each other whose message it gets.
fn pairs(boxes: &Boxes) -> impl Iterator<Item = (usize, usize)> {
    let n = boxes.plan.n;
    (0..n).flat_map(move |i| (0..n).filter(move |k| *k != i).map(move |k| (i, k)))
}

fn is_echo(round: usize) -> bool {
    [2, 7, 9, 11, 13, 16, 18, 20].contains(&round)
}

fn count(message: &[u8]) -> u64 {
    u64::from_le_bytes(message[..8].try_into().unwrap())
}

fn put_count(message: &mut [u8], at: usize, count: u64) {
    message[at..at + 8].copy_from_slice(&count.to_le_bytes());
}

/// The message's count, one down or up.
fn down(message: &mut Vec<u8>) {
    let count = count(message);
    put_count(message, 0, count - 1);
}

fn up(message: &mut Vec<u8>) {
    let count = count(message);
    put_count(message, 0, count + 1);
}

/// The bytes of the last item: of an echo's last option, else of any item.
fn last(round: usize, message: &[u8], i: usize, k: usize, n: usize) -> usize {
    match is_echo(round) {
        true if [i, k].contains(&(n - 1)) => 1,
        true => 17,
        false => (message.len() - 8) / count(message) as usize,
    }
}

#[test]
fn a_byte_of_filler_is_refused_in_every_round() {
    in_every_round(|boxes, _| {
        for (i, k) in pairs(boxes) {
            for byte in [0, 1, 255] {
                boxes.refuses_one(i, k, 21, |message| message.push(byte));
            }
        }
    });
}

/// However much it is, and whatever it looks like.
#[test]
fn longer_filler_is_refused_in_every_round() {
    in_every_round(|boxes, _| {
        for (i, k) in pairs(boxes) {
            for more in [2, 8, 16, 17, 4096] {
                boxes.refuses_one(i, k, 21, |message| message.resize(message.len() + more, 0));
            }
            boxes.refuses_one(i, k, 21, |message| message.extend_from_within(..));
        }
    });
}

/// From all others at once: the first is named.
#[test]
fn filler_of_all_names_the_first() {
    in_every_round(|boxes, _| {
        for i in 0..boxes.plan.n {
            let mut letters = boxes.letters(i);
            letters.iter_mut().flatten().for_each(|message| message.push(0));
            boxes.refuses(i, &letters, 21, usize::from(i == 0));
        }
    });
}

/// The value is what the message's own counts say. A count one down leaves an item behind it: 21. With the item gone, or with one more of both, the count is
/// another one: 6. What the count has not got doesn't decode: 13.
#[test]
fn counts_in_every_round() {
    in_every_round(|boxes, round| {
        for (i, k) in pairs(boxes) {
            let n = boxes.plan.n;
            let item = |message: &[u8]| last(round, message, i, k, n);
            boxes.refuses_one(i, k, 21, down);
            boxes.refuses_one(i, k, 6, |message| {
                message.truncate(message.len() - item(message));
                down(message);
            });
            boxes.refuses_one(i, k, 6, |message| {
                let more = if is_echo(round) { vec![0] } else { message[8..8 + item(message)].to_vec() };
                message.extend(more);
                up(message);
            });
            boxes.refuses_one(i, k, 13, up);
            boxes.refuses_one(i, k, 13, |message| _ = message.pop());
            boxes.refuses_one(i, k, 13, Vec::clear);
            boxes.refuses_one(i, k, 13, |message| {
                message.pop();
                up(message);
            });
            // no items at all
            boxes.refuses_one(i, k, 21, |message| put_count(message, 0, 0));
            boxes.refuses_one(i, k, 6, |message| {
                message.truncate(8);
                put_count(message, 0, 0);
            });
            // both: another count, and a byte behind it
            boxes.refuses_one(i, k, 21, |message| {
                message.truncate(message.len() - item(message) + 1);
                down(message);
            });
        }
    });
}

/// 13 comes first: a bool of 2 that the count has is 13, filler or not. Past the count it is no bool.
#[test]
fn what_does_not_decode_comes_before_filler() {
    in_every_round(|boxes, round| {
        let places: &[usize] = match round {
            6 | 15 => &[0],
            14 | 22 => &[0, 1],
            21 => &[8],
            _ => return,
        };
        for (i, k) in pairs(boxes) {
            for at in places {
                boxes.refuses_one(i, k, 13, |message| {
                    message[8 + at] = 2;
                    message.push(0);
                });
                boxes.refuses_one(i, k, 21, |message| {
                    let item = message.len() - last(round, message, i, k, boxes.plan.n);
                    message[item + at] = 2;
                    down(message);
                });
            }
        }
    });
}

/// Party by party 14, 13, 21, 6: what is wrong with the lower one's message decides, whatever is wrong with the higher one's.
#[test]
fn the_lower_party_comes_first() {
    const FAULTS: [u8; 4] = [14, 13, 21, 6];
    let spoil = |letter: &mut Letter, fault: u8| match fault {
        14 => *letter = None,
        13 => letter.as_mut().unwrap().truncate(7),
        21 => letter.as_mut().unwrap().push(0),
        _ => *letter = Some(vec![0; 8]),
    };
    in_every_round(|boxes, _| {
        for i in (0..3).filter(|_| boxes.plan.n == 3) {
            let others: Vec<usize> = (0..3).filter(|k| *k != i).collect();
            for (low, high) in FAULTS.iter().flat_map(|low| FAULTS.map(|high| (*low, high))) {
                let mut letters = boxes.letters(i);
                spoil(&mut letters[others[0]], low);
                spoil(&mut letters[others[1]], high);
                boxes.refuses(i, &letters, low, others[0]);
            }
        }
    });
}

/// A message that isn't read is not looked at: a missing one has no filler, and the own one may be anything.
#[test]
fn what_is_not_read_has_no_filler() {
    in_every_round(|boxes, round| {
        for (i, k) in pairs(boxes) {
            let mut letters = boxes.letters(i);
            letters[k] = None;
            boxes.refuses(i, &letters, 14, k);
            letters = boxes.letters(i);
            letters[i] = letters[k].as_ref().map(|message| [message, &[0][..]].concat());
            let (answer, state) = boxes.answers(i, &letters);
            assert_eq!(answer, (0, 0), "round {round}");
            assert!(state == boxes.answers(i, &boxes.letters(i)).1);
        }
    });
}

/// The end is that of the value and not of the honest message: in an echo the sender's and the receiver's entries may be there, and then it is longer.
#[test]
fn an_echo_with_an_unneeded_entry_has_no_filler() {
    in_every_round(|boxes, round| {
        for (i, k) in pairs(boxes).filter(|_| is_echo(round)) {
            let there = |message: &mut Vec<u8>, of: usize| {
                let at = 8 + (0..of).map(|j| if [i, k].contains(&j) { 1 } else { 17 }).sum::<usize>();
                assert_eq!(message[at], 0);
                message[at] = 1;
                message.splice(at + 1..at + 1, [9; 16]);
            };
            for of in [i, k] {
                let mut letters = boxes.letters(i);
                there(letters[k].as_mut().unwrap(), of);
                let (answer, state) = boxes.answers(i, &letters);
                assert_eq!(answer, (0, 0), "round {round}");
                assert!(state == boxes.answers(i, &boxes.letters(i)).1);
                // and with filler it has
                boxes.refuses_one(i, k, 21, |message| {
                    there(message, of);
                    message.push(0);
                });
            }
        }
    });
}

/// In an echo the mark of the last entry is gone: with its hash left it is 21, with the hash gone too the entry is absent, 3.
#[test]
fn an_absent_entry_comes_after_filler() {
    in_every_round(|boxes, round| {
        let last = boxes.plan.n - 1;
        for (i, k) in pairs(boxes).filter(|(i, k)| is_echo(round) && ![*i, *k].contains(&last)) {
            let absent = |message: &mut Vec<u8>| {
                let at = message.len() - 17;
                assert_eq!(message[at], 1);
                message[at] = 0;
            };
            boxes.refuses_one(i, k, 21, absent);
            boxes.refuses_one(i, k, 3, |message| {
                absent(message);
                message.truncate(message.len() - 16);
            });
        }
    });
}

/// Inner counts come after filler too: the last dm a byte short with its byte left is 21, in round 10; the byte gone, it is content, and not what was committed
/// to, 2. The last bucket of dvalue a MAC short with the MAC left is 21; the MAC gone it is 6.
#[test]
fn inner_counts_come_after_filler() {
    in_every_round(|boxes, round| {
        let (n, b) = (boxes.plan.n, boxes.plan.bucket_size());
        for (i, k) in pairs(boxes) {
            if round == 10 {
                let dm = 1 + 16 * (n - 1);
                let short = |message: &mut Vec<u8>| {
                    let at = message.len() - dm - 8;
                    put_count(message, at, dm as u64 - 1);
                };
                boxes.refuses_one(i, k, 21, short);
                if n == 2 {
                    boxes.refuses_one(i, k, 2, |message| {
                        short(message);
                        message.pop();
                    });
                }
            }
            if round == 21 {
                let short = |message: &mut Vec<u8>| {
                    let at = message.len() - 16 * (b - 1) - 8;
                    put_count(message, at, b as u64 - 2);
                };
                boxes.refuses_one(i, k, 21, short);
                boxes.refuses_one(i, k, 6, |message| {
                    short(message);
                    message.truncate(message.len() - 16);
                });
            }
        }
    });
}
