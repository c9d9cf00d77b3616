//! Sessions that something is wrong with: each box ends with the right error in time, and none has results.

mod rig;

use std::{
    process::Command,
    sync::mpsc,
    time::{Duration, Instant},
};

use nuzsdike_host::{
    files,
    transport::{head, HEAD, MESSAGE},
};
use rig::{detour, end, introduce, session, verdict, Act, Deal, Ended, Process, TIMEOUT};

/// Every box failed; gives their errors.
fn errors(ends: &[Ended]) -> Vec<&str> {
    for (place, ended) in ends.iter().enumerate() {
        assert!(ended.failed(), "box at {place} should have failed: {ended:?}");
    }
    ends.iter().map(Ended::error).collect()
}

#[track_caller]
fn has(error: &str, words: &[&str]) {
    assert!(words.iter().all(|word| error.contains(word)), "'{error}' lacks some of {words:?}");
}

/// A session in which box 1's line to box 0 is tampered with. `tamper` sees the frames that box 1 sends to box 0.
fn tampered(deal: &Deal, mut tamper: impl FnMut(usize, &[u8]) -> Act + Send + Clone + 'static) -> Vec<Ended> {
    let boxes = session(deal, |i, k, address| {
        let mut tamper = tamper.clone();
        match (i, k) {
            (1, 0) => detour(address, move |forth, round, frame| if forth { tamper(round, frame) } else { Act::Pass }),
            _ => address,
        }
    });
    let _ = &mut tamper;
    end(boxes)
}

/// Flips one bit of a round's messages, in byte `at` of the message.
fn flip(due: usize, at: usize) -> impl FnMut(usize, &[u8]) -> Act + Send + Clone + 'static {
    move |round, frame| {
        if round != due {
            return Act::Pass;
        }
        let mut frame = frame.to_vec();
        frame[HEAD + at] ^= 1;
        Act::Instead(frame)
    }
}

/// A session in which one bit of box 1's message of a round to box 0 is flipped.
fn flipped(deal: &Deal, due: usize, at: usize) -> Vec<Ended> {
    tampered(deal, flip(due, at))
}

/// A session of three in which the same bit of box 1's messages of a round to both others is flipped, so that the echo tells nothing. Box 2 calls box 1.
fn flipped_for_all(deal: &Deal, due: usize, at: usize) -> Vec<Ended> {
    let boxes = session(deal, |i, k, address| {
        let mut tamper = flip(due, at);
        match (i, k) {
            (1, 0) | (2, 1) => detour(address, move |forth, round, frame| if forth == (i == 1) { tamper(round, frame) } else { Act::Pass }),
            _ => address,
        }
    });
    end(boxes)
}

// ---- a flipped bit on the line: a refusal of the library

/// Box 0 refused so, or heard from another that refused with the same number in the same round before it could; each other box refused too or heard of it.
#[track_caller]
fn refused(errors: &[&str], number: u8, round: usize, party: usize) {
    let same = |error: &str| error.contains(&format!("refused {number} ")) && error.contains(&format!("in round {round} ("));
    let own = errors[0].starts_with("refused ") && errors[0].contains(&format!("names box {party}:"));
    let told = errors[0].contains("it ended the session, because box ");
    assert!(same(errors[0]) && (own || told), "{number} in round {round} naming box {party}: {errors:?}");
    assert!(errors.iter().any(|error| error.starts_with("refused ")), "{errors:?}");
    for error in errors {
        assert!(error.starts_with("refused ") || error.contains("ended the session, because box "), "{error}");
    }
}

/// The last byte of each round's message of three boxes, or another that has effect: what box 0 answers, in which round, and whom it names.
#[test]
fn a_flipped_bit_is_refused_three_boxes() {
    let (n, l) = (3, 3);
    let deal = Deal::new(n, l, 21);
    let last = |round| deal.plan.message_len(round) - 1;
    // Position of a leaky AND at which box 0's x is 1, and its bit at the first.
    let (one, x) = ((0..).find(|t| deal.bit(0, *t) == 1).unwrap(), usize::from(deal.bit(0, 0)));
    let cases = [
        // round, byte of the message, refused with, in round, naming
        (1, last(1), 7, 2, 2),
        (2, last(2), 7, 2, 1),
        (3, last(3), 2, 3, 1),
        (4, last(4), 2, 5, 1),
        (5, last(5), 2, 5, 1),
        (6, last(6), 8, 7, 1), // a MAC, which no echo has
        (6, 8, 7, 7, 2),       // a bit, which the echo has
        (7, last(7), 7, 7, 1),
        (8, last(8), 7, 9, 2),
        (9, last(9), 7, 9, 1),
        (10, last(10), 7, 11, 2),
        (11, last(11), 7, 11, 1),
        (12, last(12), 7, 13, 2),
        (13, last(13), 7, 13, 1),
        (14, 8 + x, 10, 20, 0),            // the bit that box 0 takes
        (15, 8, 7, 16, 2),                 // e
        (15, 8 + 17 * one + 1, 10, 20, 0), // u, where x is 1
        (16, last(16), 7, 16, 1),
        (17, last(17), 7, 18, 2),
        (18, last(18), 7, 18, 1),
        (19, last(19), 7, 20, 2),
        (20, last(20), 7, 20, 1),
        (21, last(21), 11, 21, 1),
        (22, last(22), 12, 22, 1),
    ];
    for (round, at, number, refused_in, party) in cases {
        let ends = flipped(&deal, round, at);
        refused(&errors(&ends), number, refused_in, party);
    }
}

#[test]
fn a_flipped_bit_is_refused_two_boxes() {
    let deal = Deal::new(2, 3, 22);
    let last = |round| deal.plan.message_len(round) - 1;
    let (one, x) = ((0..).find(|t| deal.bit(0, *t) == 1).unwrap(), usize::from(deal.bit(0, 0)));
    let cases = [
        (1, last(1), 2, 3, 1),
        (3, last(3), 2, 3, 1),
        (4, last(4), 2, 5, 1),
        (5, last(5), 2, 5, 1),
        (6, last(6), 8, 6, 1),
        (8, last(8), 2, 10, 1),   // the third commitment to the last string
        (8, 8 + 64, 2, 10, 1),    // to the first
        (10, last(10), 2, 10, 1), // a MAC of a dm
        (10, 16, 2, 10, 1),       // the bit of one
        (12, last(12), 2, 12, 1),
        (14, 8 + x, 10, 19, 0),
        (15, 8 + 17 * one + 1, 10, 19, 0),
        (17, last(17), 2, 19, 1),
        (19, last(19), 2, 19, 1),
        (21, last(21), 11, 21, 1),
        (22, last(22), 12, 22, 1),
    ];
    for (round, at, number, refused_in, party) in cases {
        let ends = flipped(&deal, round, at);
        refused(&errors(&ends), number, refused_in, party);
    }
}

/// "the third share commitment is opened" (02, order 2), for three boxes: with the same flipped bit for all, the echoes of rounds 8 and 10 pass, and both
/// others refuse in round 11.
#[test]
fn a_flipped_commitment_or_dm_is_refused_three_boxes() {
    let deal = Deal::new(3, 3, 21);
    let last = |round| deal.plan.message_len(round) - 1;
    for (round, at) in [(8, 8 + 64), (8, last(8)), (10, 16), (10, 17), (10, last(10))] {
        let ends = flipped_for_all(&deal, round, at);
        let errors = errors(&ends);
        refused(&errors, 2, 11, 1);
        has(
            errors[1],
            &["it ended the session, because box ", "refused 2 CommitmentCouldNotBeOpened in round 11 (echo of fashare ver), naming box 1"],
        );
    }
}

/// The other of d0 and d1 opens a commitment, and is not the XOR of the MACs.
#[test]
fn the_other_key_is_refused() {
    let deal = Deal::new(2, 3, 22);
    let delta = files::load(&deal.inputs(1), files::read_inputs).unwrap().1.delta;
    let ends = tampered(&deal, move |round, frame| {
        let mut frame = frame.to_vec();
        if round == 12 {
            frame[HEAD + 8..].iter_mut().zip(delta).for_each(|(byte, other)| *byte ^= other);
        }
        Act::Instead(frame)
    });
    refused(&errors(&ends), 9, 12, 1);
}

/// The bits of round 14 and the u of round 15 that box 0's x does not choose: a flipped bit there changes nothing, and two boxes have no echo. The line has to
/// be authenticated anyway (docs/SECURITY.md).
#[test]
fn bits_that_decide_nothing_for_two_boxes() {
    let deal = Deal::new(2, 3, 22);
    let (zero, x) = ((0..).find(|t| deal.bit(0, *t) == 0).unwrap(), usize::from(deal.bit(0, 0)));
    for (round, at) in [(14, 8 + 1 - x), (15, 8 + 17 * zero + 1)] {
        let tamper = move |forth: bool, due: usize, frame: &[u8]| {
            let mut frame = frame.to_vec();
            if forth && due == round {
                frame[HEAD + at] ^= 1;
            }
            Act::Instead(frame)
        };
        let boxes = session(&deal, |i, k, address| if (i, k) == (1, 0) { detour(address, tamper) } else { address });
        let results: Vec<_> = boxes.iter().map(|process| process.results.clone()).collect();
        assert!(end(boxes).iter().all(|ended| ended.status.success()));
        assert!(verdict(&deal, &results).is_ok());
    }
}

/// A bit of the count: what follows does not decode by it, or is more than it counts.
#[test]
fn a_flipped_count_is_refused() {
    let deal = Deal::new(2, 2, 23); // 10 leaky ANDs: the count becomes 11
    let ends = flipped(&deal, 14, 0);
    let errors = errors(&ends);
    has(errors[0], &["refused 13 Undecodable in round 14 (haand), names box 1"]);
    has(
        errors[1],
        &["line to box 0 failed", "it ended the session, because box 0 refused 13 Undecodable in round 14 (haand), naming box 1"],
    );
    let ends = flipped(&Deal::new(2, 1, 24), 14, 0); // 5 become 4
    has(ends[0].error(), &["refused 21 BytesAfterValue in round 14 (haand), names box 1: a message has bytes after its value"]);
    has(ends[1].error(), &["it ended the session, because box 0 refused 21 BytesAfterValue in round 14 (haand), naming box 1"]);
}

// ---- a flipped bit in a frame's head

#[test]
fn a_flipped_bit_of_a_head_is_refused() {
    let deal = Deal::new(3, 2, 25);
    for (at, bit, words) in [
        (0, 1, "it sent garbage"),
        (2, 4, "it sent garbage"),
        (2, 2, "it sent garbage"),
        (3, 1, "it sent a message that belongs in round 9 (echo of fashare comm)"),
        (6, 1, "it announced a message of"),
    ] {
        let ends = tampered(&deal, move |round, frame| {
            let mut frame = frame.to_vec();
            if round == 8 {
                frame[at] ^= bit;
            }
            Act::Instead(frame)
        });
        let errors = errors(&ends);
        has(errors[0], &["line to box 1 failed in round 8 (fashare comm): ", words]);
        has(errors[1], &["ended the session"]);
        has(errors[2], &["ended the session"]);
    }
}

// ---- frames that are cut

#[test]
fn a_truncated_frame_with_the_line_cut() {
    let deal = Deal::new(3, 2, 26);
    let ends = tampered(&deal, |round, frame| if round == 10 { Act::Cut(frame[..100].into()) } else { Act::Pass });
    let errors = errors(&ends);
    has(errors[0], &["line to box 1 failed in round 10 (fashare ver): it went away after 92 of 1648 bytes of a message"]);
    has(errors[1], &["line to box ", "failed in round 1"]);
    has(errors[2], &["line to box ", "failed in round 1"]);
}

#[test]
fn a_truncated_frame_and_silence() {
    let deal = Deal::new(3, 2, 27);
    let begin = Instant::now();
    let ends = tampered(&deal, |round, frame| if round == 10 { Act::Stall(frame[..100].into()) } else { Act::Pass });
    assert!(begin.elapsed() >= Duration::from_secs(TIMEOUT));
    let errors = errors(&ends);
    // Whose time is up first is open: box 1 waits for box 0 too, a round later.
    let error = errors[0];
    let named =
        error.starts_with("line to box 1 failed in round 10 (fashare ver): it ") && error.contains(" 92 of 1648 bytes of a message");
    assert!(named || error.contains("ended the session"), "{error}");
}

/// A shorter frame, well formed: the library sees that it does not decode.
#[test]
fn a_shortened_message_is_refused() {
    let deal = Deal::new(3, 2, 28);
    let ends = tampered(&deal, |round, frame| match round {
        10 => Act::Instead([&head(MESSAGE, 10, 92)[..], &frame[HEAD..100]].concat()),
        _ => Act::Pass,
    });
    let errors = errors(&ends);
    has(errors[0], &["refused 13 Undecodable in round 10 (fashare ver), names box 1"]);
    has(errors[1], &["it ended the session, because box 0 refused 13 Undecodable in round 10 (fashare ver), naming box 1"]);
    has(errors[2], &["ended the session"]);
}

#[test]
fn an_empty_message_is_refused() {
    let deal = Deal::new(2, 2, 29);
    let ends = tampered(&deal, |round, _| if round == 3 { Act::Instead(head(MESSAGE, 3, 0).into()) } else { Act::Pass });
    has(errors(&ends)[0], &["refused 13 Undecodable in round 3 (RNG ver), names box 1"]);
}

#[test]
fn a_frame_that_is_too_long() {
    let deal = Deal::new(3, 2, 30);
    let ends = tampered(&deal, |round, frame| match round {
        10 => Act::Instead([&head(MESSAGE, 10, frame.len() - HEAD + 1)[..], &frame[HEAD..], &[0]].concat()),
        _ => Act::Pass,
    });
    let errors = errors(&ends);
    has(errors[0], &["line to box 1 failed in round 10 (fashare ver): it announced a message of 1649 bytes, at most 1648 are due"]);
}

/// A byte of filler behind a list that is an item short, in every round of two and three boxes: the frame is not too long, so it is the library that refuses.
/// Without the byte it is another count. (tests/filler.rs has filler behind whole messages.)
#[test]
fn a_byte_of_filler_is_refused() {
    let short = |deal: &Deal, due: usize, filler: usize| {
        tampered(deal, move |round, frame| {
            if round != due {
                return Act::Pass;
            }
            let message = &frame[HEAD..];
            let count = u64::from_le_bytes(message[..8].try_into().unwrap());
            let echo = [2, 7, 9, 11, 13, 16, 18, 20].contains(&round);
            // What box 1 sends to box 0 of three ends with box 2's hash.
            let item = if echo { 17 } else { (message.len() - 8) / count as usize };
            let list = [&(count - 1).to_le_bytes()[..], &message[8..message.len() - item], &vec![0; filler]].concat();
            Act::Instead([&head(MESSAGE, round, list.len())[..], &list].concat())
        })
    };
    for n in [2, 3] {
        let deal = Deal::new(n, 2, 32);
        for round in deal.plan.rounds() {
            refused(&errors(&short(&deal, round, 1)), 21, round, 1);
        }
        refused(&errors(&short(&deal, 14, 0)), 6, 14, 1);
    }
}

#[test]
fn garbage_on_the_line() {
    let deal = Deal::new(3, 2, 31);
    let ends = tampered(&deal, |round, _| if round == 15 { Act::Instead(b"HTTP/1.1 400 Bad Request\r\n\r\n".into()) } else { Act::Pass });
    has(errors(&ends)[0], &["line to box 1 failed in round 15 (flaand): it sent garbage"]);
}

// ---- boxes that go away or stall

/// Starts a session of n whose box 1 is held up before its message of a round reaches box 0: then `act` is done to it.
fn held(n: usize, due: usize, seed: u64, act: impl FnOnce(&mut Process)) -> Vec<Process> {
    let deal = Deal::new(n, 2, seed);
    let (sender, reached) = mpsc::channel();
    let mut boxes = session(&deal, |i, k, address| {
        let sender = sender.clone();
        match (i, k) {
            (1, 0) => detour(address, move |forth, round, _| {
                if forth && round == due {
                    let _ = sender.send(());
                    return Act::Stall(vec![]);
                }
                Act::Pass
            }),
            _ => address,
        }
    });
    reached.recv_timeout(Duration::from_secs(20)).expect("box 1 gets so far");
    act(&mut boxes[1]);
    // The deal's folder goes; the boxes have read it.
    boxes
}

fn signal(process: &Process, name: &str) {
    let status = Command::new("kill").args([name, &process.child.id().to_string()]).status().unwrap();
    assert!(status.success());
}

#[test]
fn a_killed_peer() {
    for (n, round) in [(2, 6), (3, 2), (3, 14), (4, 22)] {
        let mut boxes = held(n, round, 40, |process| process.child.kill().unwrap());
        let killed = boxes.remove(1).end(Duration::from_secs(5));
        assert!(!killed.status.success() && !killed.results);
        let ends = end(boxes);
        for error in errors(&ends) {
            let gone = error.starts_with("line to box 1 failed ") && error.contains("it went away after ");
            let told = error.contains("it ended the session, because box ") && error.contains("'s line to box 1 failed ");
            assert!(gone || told, "{error}");
        }
    }
}

#[test]
fn a_stalled_peer() {
    let boxes = held(3, 8, 41, |process| signal(process, "-STOP"));
    let begin = Instant::now();
    let mut boxes = boxes.into_iter();
    let (zero, one, two) = (boxes.next().unwrap(), boxes.next().unwrap(), boxes.next().unwrap());
    let others = end(vec![zero, two]);
    assert!(begin.elapsed() >= Duration::from_secs(TIMEOUT - 1));
    let errors_of_others = errors(&others);
    has(errors_of_others[0], &["line to box 1 failed in round 8 (fashare comm): it sent no message in "]);
    // Box 2 has box 1's message of round 8, and waits for both others in round 9.
    let error = errors_of_others[1];
    let silent = error.contains("failed in round 9 (echo of fashare comm): it sent no message in ");
    let told = error.contains("it ended the session, because box 0's line to box 1 failed in round 8 (fashare comm)");
    assert!(silent || told, "{error}");
    // Once it goes on it learns of it.
    signal(&one, "-CONT");
    let ends = end(vec![one]);
    has(errors(&ends)[0], &["line to box ", "failed in round "]);
}

/// The process runs, but its line to one other box carries nothing any more.
#[test]
fn a_stalled_line() {
    let boxes = held(3, 8, 42, |_| ());
    let ends = end(boxes);
    let errors = errors(&ends);
    assert!(errors.iter().any(|error| error.contains("it sent no message in ")), "{errors:?}");
    errors.iter().for_each(|error| has(error, &["line to box ", "failed in round "]));
}

/// A box that never starts.
#[test]
fn a_peer_that_never_comes() {
    let deal = Deal::new(3, 2, 43);
    let mut boxes: Vec<_> = (0..3).map(|i| Process::start(&deal, i)).collect();
    let addresses: Vec<_> = boxes.iter_mut().map(Process::address).collect();
    drop(boxes.pop());
    boxes.iter_mut().for_each(|process| process.introduce(&addresses));
    let ends = end(boxes);
    for error in errors(&ends) {
        assert!(error.contains("line to box 2 failed at hello: it did not call in ") || error.contains("ended the session"), "{error}");
    }
}

// ---- boxes that do not belong together

#[test]
fn two_boxes_with_the_same_number() {
    let deal = Deal::new(3, 2, 44);
    for numbers in [[0, 1, 1], [0, 0, 2], [0, 2, 2], [1, 1, 2]] {
        let boxes: Vec<_> = numbers.iter().map(|i| Process::start(&deal, *i)).collect();
        let ends = end(introduce(boxes, |_, _, address| address));
        let errors = errors(&ends);
        assert!(
            errors.iter().any(|error| error.contains("two boxes have this number") || error.contains("says that it is box ")),
            "{numbers:?}: {errors:?}"
        );
        errors.iter().for_each(|error| has(error, &["at hello"]));
    }
}

/// A fourth process takes the number of a box that is there: nobody goes on with either.
#[test]
fn a_second_box_of_a_number() {
    let deal = Deal::new(3, 2, 45);
    let mut boxes: Vec<_> = [0, 1, 2, 1].iter().map(|i| Process::start(&deal, *i)).collect();
    let addresses: Vec<_> = boxes.iter_mut().map(Process::address).collect();
    // Box 2 comes last, so that both have called box 0 by then.
    for place in [1, 3, 0] {
        boxes[place].introduce(&addresses[..3]);
    }
    std::thread::sleep(Duration::from_millis(500));
    boxes[2].introduce(&addresses[..3]);
    let ends = end(boxes);
    has(errors(&ends)[0], &["line to box 1 failed at hello: two boxes have this number"]);
}

#[test]
fn two_boxes_at_one_address() {
    let deal = Deal::new(2, 2, 46);
    let mut first = Process::start(&deal, 0);
    let address = first.address();
    let output = Command::new(env!("CARGO_BIN_EXE_nuzsdike-box"))
        .args(["--listen", &address.to_string(), "--peers", "-"])
        .arg("--inputs")
        .arg(deal.inputs(0))
        .arg("--results")
        .arg(deal.folder.join("none"))
        .output()
        .unwrap();
    assert_eq!(output.status.code(), Some(1));
    has(&String::from_utf8(output.stdout).unwrap(), &[&format!("box 0 error can't listen on {address}: ")]);
    assert!(!deal.folder.join("none").exists());
}

/// The box at place `odd` of three is from a deal of other numbers.
fn disagreeing(odd: usize, other: &Deal, on: &str) {
    let deal = Deal::new(3, 2, 47);
    let boxes: Vec<_> = (0..3).map(|i| Process::start(if i == odd { other } else { &deal }, i)).collect();
    let mut boxes = boxes;
    let mut addresses: Vec<_> = boxes.iter_mut().map(Process::address).collect();
    let nobody = "127.0.0.1:9".parse().unwrap();
    for (i, process) in boxes.iter_mut().enumerate() {
        addresses.resize(if i == odd { other.plan.n } else { 3 }, nobody);
        process.introduce(&addresses.clone());
        addresses.truncate(3);
    }
    let ends = end(boxes);
    let errors = errors(&ends);
    has(errors[odd], &["line to box ", "failed at hello: "]);
    let named = errors.iter().filter(|error| error.contains(&format!("the boxes disagree on {on}: "))).count();
    assert!(named >= 2, "{errors:?}");
}

#[test]
fn boxes_that_disagree_on_l() {
    for odd in 0..3 {
        disagreeing(odd, &Deal::new(3, 3, 48), "l");
    }
}

#[test]
fn boxes_that_disagree_on_n() {
    for odd in 0..3 {
        disagreeing(odd, &Deal::new(4, 2, 49), "n");
    }
}

#[test]
fn boxes_of_two_deals() {
    disagreeing(1, &Deal::new(3, 2, 50), "the session");
}

// ---- inputs

/// Box i's inputs are changed, its share records from `first_bit` on: opening refuses, and the others hear of it.
fn opening_refuses(i: usize, reason: &str, change: impl FnOnce(&Deal, &mut Vec<u8>, usize)) {
    let deal = Deal::new(3, 2, 51);
    let path = deal.inputs(i);
    let mut bytes = std::fs::read(&path).unwrap();
    let first_bit = 56 + 16 + 16 + 32 + 32 * 3 + deal.plan.masks_len() - 16;
    assert!(bytes[first_bit] < 2);
    change(&deal, &mut bytes, first_bit);
    std::fs::write(&path, bytes).unwrap();
    let ends = end(session(&deal, |_, _, address| address));
    let errors = errors(&ends);
    has(errors[i], &[&format!("refused {reason} at opening, names box {i}")]);
    // In round 1, or at hello from a box that has heard of it.
    for (_, error) in errors.iter().enumerate().filter(|(k, _)| *k != i) {
        has(error, &[&format!("it ended the session, because box {i} refused {reason} at opening, naming box {i}")]);
        assert!(["in round 1 (RNG comm): ", "at hello: "].iter().any(|place| error.contains(place)), "{error}");
    }
}

/// A bit byte of 2.
#[test]
fn inputs_that_opening_refuses() {
    opening_refuses(1, "1 InvalidBitValue", |_, bytes, first_bit| bytes[first_bit] = 2);
}

/// "Shares of box 1 got into box 2" (02, order 5): the session ends before its first round.
#[test]
fn shares_of_box_1_in_box_2() {
    opening_refuses(2, "22 WrongLabel", |deal, bytes, first_bit| {
        let shares = std::fs::read(deal.inputs(1)).unwrap().split_off(first_bit);
        bytes.truncate(first_bit);
        bytes.extend(shares);
    });
}

/// A list of batches that opening refuses, though its sum is l: the others hear of it.
#[test]
fn batches_that_opening_refuses() {
    let deal = Deal::new(3, 2, 53);
    let words: [&[&str]; 3] = [&[], &["--batches", "1,0,1"], &[]];
    let boxes = words.iter().enumerate().map(|(i, words)| Process::start_with(&deal, i, words)).collect();
    let ends = end(introduce(boxes, |_, _, address| address));
    let errors = errors(&ends);
    has(errors[1], &["refused 3 EmptyVector at opening, names box 1: a batch is 0"]);
    for error in [errors[0], errors[2]] {
        has(error, &["it ended the session, because box 1 refused 3 EmptyVector at opening, naming box 1"]);
    }
}

#[test]
fn files_that_are_none() {
    let deal = Deal::new(2, 2, 52);
    let bytes = std::fs::read(deal.inputs(0)).unwrap();
    std::fs::write(deal.inputs(0), &bytes[..bytes.len() - 1]).unwrap();
    let ended = Process::start(&deal, 0).end(Duration::from_secs(5));
    assert!(ended.failed());
    has(ended.error(), &["0.inputs: "]);
}
