//! Writes the recorded vectors that crates/vectors replays; docs/VECTORS.md has the format.

use std::{collections::BTreeMap, env, fs, process::exit};

use oracle::{
    ENTRY, End, Session, blank, combine,
    damage::{commit, message_len, rounds, third_at},
    draw, drawn_bit,
    expect::{Expectation, Expected, expect},
    honest, mac_at, records,
    rules::{Change, Rule, apply},
    run, shares,
};

fn main() {
    let args: Vec<String> = env::args().skip(1).collect();
    let [dir] = &args[..] else {
        eprintln!("usage: vectors DIR");
        exit(2);
    };
    let (honest, damaged, sessions) = sessions();
    let (combinings, combine) = combinings();
    for (name, bytes) in [("sessions", &sessions), ("combine", &combine)] {
        let file = format!("{dir}/{name}");
        if let Err(e) = fs::write(&file, bytes) {
            eprintln!("{file}: {e}");
            exit(1);
        }
        println!(
            "{file}: {} bytes, BLAKE3 {}",
            bytes.len(),
            blake3::hash(bytes).to_hex()
        );
    }
    println!("{honest} honest sessions, {damaged} damaged, {combinings} combinings");
}

/// For l = 1, the lowest bit of a message's count as a mask, and where its value ends with that bit gone.
fn lower(round: u8, n: usize, from: usize, to: usize) -> (u8, usize) {
    let count: u8 = match round {
        1 | 4 | 21 | 22 => 1,
        3 | 5 => 32,
        6 => 120,
        8 | 10 | 12 => 40,
        14 | 15 | 17 | 19 => 5,
        _ => n as u8,
    };
    let lowest = count & count.wrapping_neg();
    let left = usize::from(count - lowest);
    let end = if echo(round) {
        // sender and receiver have no hash
        8 + (0..left)
            .map(|k| if [from, to].contains(&k) { 1 } else { 17 })
            .sum::<usize>()
    } else {
        8 + (message_len(round, n, 1, 5) - 8) / usize::from(count) * left
    };
    (lowest, end)
}

fn echo(round: u8) -> bool {
    !rounds(2).any(|plain| plain == round)
}

/// The damaged sessions: n, rules. All of l = 1. No message has bytes after its value, and no dm that is looked at
/// is another than was committed to.
fn damage() -> Vec<(usize, String)> {
    let mut list: Vec<(usize, String)> = vec![];
    let mut add = |n: usize, rules: &str| list.push((n, rules.to_string()));
    for n in [2, 3, 8] {
        // for n > 2 to all alike, so that the echo passes
        let to = if n == 2 { "1" } else { "*" };
        // 2: what is opened, and the commitments
        for round in [3, 5] {
            add(n, &format!("{round} 0 1 flip 8 1"));
        }
        for round in [1, 8, 12, 17, 19] {
            add(n, &format!("{round} 0 {to} flip 8 1"));
        }
        add(n, "4 0 1 flip 39 128");
        // 6: a bucket of dvalue without MACs
        add(n, "21 0 1 flip 20 4\n21 0 1 cut 28");
        // 8
        add(n, "6 0 1 flip 9 1");
        // 10: e, and u
        add(n, &format!("15 0 {to} flip 8 1"));
        add(n, &format!("15 0 {to} flip 9 1"));
        // 11, 12: MACs, and bits without theirs; for n = 8, whose records are long, the first and the last alone
        let all = [
            (21, vec![8 + 8, 8 + 8 + 4 + 8, 8 + 8 + 4 + 8 + 63]),
            (22, vec![8, 9, 10, 26, 41]),
        ];
        for (round, mut places) in all {
            if n == 8 {
                places.drain(1..places.len() - 1);
            }
            for place in places {
                add(n, &format!("{round} 0 1 flip {place} 1"));
            }
        }
    }
    // 7 and 3, in every echo: another list, another hash, and none
    for round in [1, 6, 8, 10, 12, 15, 17, 19] {
        let at = if round == 10 { 17 } else { 8 };
        add(3, &format!("{round} 0 1 flip {at} 1"));
        add(3, &format!("{} 0 1 flip 11 1", round + 1));
        // the last entry's mark and, behind it, its hash
        let at = format!("{} 0 1", round + 1);
        add(3, &format!("{at} flip 10 1\n{at} cut 11"));
    }
    // 13: bools and options
    for (round, at) in [
        (6, 8),
        (14, 8),
        (14, 9),
        (15, 8),
        (21, 16),
        (22, 8),
        (22, 9),
        (2, 10),
    ] {
        add(3, &format!("{round} 2 1 flip {at} 2"));
    }
    // 14, 13, 6 in every round, from the parties in turn
    for n in [2, 3] {
        for round in rounds(n) {
            let (from, to) = turn(round, n);
            let len = message_len(round, n, 1, 5);
            let (mask, end) = lower(round, n, from, to);
            let at = format!("{round} {from} {to}");
            add(n, &format!("{at} drop"));
            add(n, &format!("{at} cut {}", len - 1));
            add(n, &format!("{at} cut 0"));
            add(n, &format!("{at} flip 7 128"));
            add(n, &format!("{at} flip 0 {mask}\n{at} cut {end}"));
        }
    }
    // order between parties: 6 of party 0 before 14 of party 2, and the other way round
    let six = |from: usize| format!("14 {from} 1 flip 0 1\n14 {from} 1 cut 16");
    add(3, &format!("{}\n14 2 1 drop", six(0)));
    add(3, &format!("14 0 1 drop\n{}", six(2)));
    // form before content
    add(3, "3 0 1 flip 8 1\n3 2 1 flip 7 128");
    list
}

/// Odd dms of party 0, the same for all, which it commits to: n, rules for the dms, rules besides.
fn odd_dms() -> Vec<(usize, String, String)> {
    let mut list = vec![];
    let mut add = |n: usize, dms: String, more: &str| list.push((n, dms, more.to_string()));
    for n in [2, 3, 8] {
        let (at, len) = (last_dm(n), message_len(10, n, 1, 5));
        // 1: the bit of the first dm
        add(n, "10 0 * flip 16 2".into(), "");
        // 4: the last dm, a byte short
        add(n, format!("10 0 * flip {at} 1\n10 0 * cut {}", len - 1), "");
        // 9: a MAC, which goes unnoticed for n = 2
        add(n, "10 0 * flip 17 1".into(), "");
    }
    for n in [2, 3] {
        // 9: the bit of a dm, which its sender notices
        add(n, "10 0 * flip 16 1".into(), "");
        // 4: the last dm, empty
        add(n, empty_dm(n), "");
    }
    // an echo before the content behind it
    add(3, "10 0 * flip 16 2".into(), "11 2 1 flip 11 1");
    list
}

/// 2 for dms, which is ours alone: n, rules for party 0's dms that it commits to, rules besides.
fn unopened() -> Vec<(usize, String, String)> {
    let mut list = vec![];
    let mut add = |n: usize, dms: String, more: String| list.push((n, dms, more));
    let third = |from: usize, string: usize| format!("8 {from} * flip {} 1", third_at(string));
    for n in [2, 3] {
        // the third commitment alone, a MAC alone, the last dm emptied
        add(n, String::new(), third(0, 39));
        add(n, String::new(), "10 0 * flip 17 1".into());
        add(n, String::new(), empty_dm(n));
        // before 4 of the string before: that takes the lowest byte of the last one's count, which is then 0
        let (at, dm) = (last_dm(n), 1 + 16 * (n - 1));
        let dms = format!(
            "10 0 * flip {} 3\n10 0 * put {} 00\n10 0 * cut {}",
            at - dm - 8,
            at + 8,
            at + 9
        );
        add(n, dms, third(0, 39));
    }
    // another bit, before 9 of its sender
    add(2, String::new(), "10 0 * flip 16 1".into());
    // party 2's, before 1 of party 0's in an earlier string
    add(3, "10 0 * flip 16 2".into(), third(2, 39));
    // of two the lower string, and in one string the lower party
    for (n, one, other) in [
        (3, third(0, 1), third(2, 0)),
        (3, third(0, 0), third(2, 0)),
        (8, third(2, 4), third(5, 3)),
    ] {
        add(n, String::new(), format!("{one}\n{other}"));
    }
    // after the echo's own check
    let seven = third(0, 0) + "\n11 2 1 flip 11 1";
    add(3, String::new(), seven);
    list
}

/// Party 0's last dm without its bytes: of its count the lowest byte alone is not zero.
fn empty_dm(n: usize) -> String {
    let (at, dm) = (last_dm(n), 1 + 16 * (n - 1));
    format!("10 0 * flip {at} {dm}\n10 0 * cut {}", at + 8)
}

/// 21, which is ours alone: a lower count, and what it no longer counts left in its place. `expect` tells
/// the Rust that these messages are missing.
fn tails() -> Vec<(usize, String)> {
    let mut list: Vec<(usize, String)> = vec![];
    let mut add = |n: usize, rules: &str| list.push((n, rules.to_string()));
    // in every round
    for n in [2, 3] {
        for round in rounds(n).filter(|round| n == 2 || echo(*round)) {
            let (from, to) = turn(round, n);
            let (mask, _) = lower(round, n, from, to);
            add(n, &format!("{round} {from} {to} flip 0 {mask}"));
        }
    }
    // an echo entry's mark gone and its hash left, before 3
    add(3, "2 0 1 flip 10 1");
    // the last dm a byte short, before 4; a bucket of dvalue a MAC short, before 6
    for (n, to) in [(2, "1"), (3, "*")] {
        add(n, &format!("10 0 {to} flip {} 1", last_dm(n)));
        add(n, "21 0 1 flip 20 7");
    }
    // order between parties, with 14 and 13
    add(3, "14 0 1 flip 0 1\n14 2 1 drop");
    add(3, "14 0 1 drop\n14 2 1 flip 0 1");
    add(3, "14 0 1 flip 0 1\n14 2 1 flip 7 128");
    add(3, "14 0 1 flip 7 128\n14 2 1 flip 0 1");
    // and before content
    add(3, "3 0 1 flip 8 1\n3 2 1 flip 0 32");
    list
}

/// Sender and receiver, in turn.
fn turn(round: u8, n: usize) -> (usize, usize) {
    (usize::from(round) % n, usize::from(round + 1) % n)
}

/// Where the last dm of a message starts, its length first.
fn last_dm(n: usize) -> usize {
    8 + 39 * (8 + 1 + 16 * (n - 1))
}

/// What is put into a message that is as the inputs have it, byte by byte where it differs.
fn flips(s: &Session, rules: Vec<Rule>) -> Vec<Rule> {
    let before = run(s, &mut honest);
    let mut list = vec![];
    for rule in rules {
        let Change::Put(at, bytes) = &rule.change else {
            list.push(rule);
            continue;
        };
        let from = rule.from.unwrap();
        let to = rule.to.unwrap_or((from + 1) % s.n);
        let sent = &before.message(rule.round, from, to).unwrap().sent[*at as usize..];
        let masks = bytes.iter().zip(sent).map(|(new, old)| new ^ old);
        for (place, mask) in masks.enumerate().filter(|(_, mask)| *mask != 0) {
            list.push(Rule {
                change: Change::Flip(at + place as i64, mask),
                ..rule.clone()
            });
        }
    }
    list
}

/// A rule as docs/VECTORS.md has it, 8 bytes.
fn rule(rule: &Rule) -> [u8; 8] {
    let (kind, at, mask) = match rule.change {
        Change::Flip(at, mask) => (0, at, mask),
        Change::Cut(at) => (1, at, 0),
        Change::Drop => (2, 0, 0),
        _ => panic!("no such rule in the vectors: {rule}"),
    };
    let at = u16::try_from(at).unwrap().to_le_bytes();
    let all = |p: Option<usize>| p.map_or(255, |p| p as u8);
    [
        kind,
        rule.round,
        all(rule.from),
        all(rule.to),
        mask,
        0,
        at[0],
        at[1],
    ]
}

fn session(s: &Session, rules: &[Rule], e: &Expectation) -> Vec<u8> {
    let mut out = vec![0; 4];
    out.extend([s.n, s.l, s.b(), rules.len()].map(|x| x as u8));
    out.extend(s.seed.to_le_bytes());
    out.extend(rules.iter().flat_map(rule));
    for round in rounds(s.n) {
        for i in 0..s.n {
            match e.sent.get(&(round, i)) {
                Some(sent) => out.extend(blake3::hash(sent).as_bytes()),
                None => out.extend([0; 32]),
            }
        }
    }
    for (i, end) in e.ends.iter().enumerate() {
        match end {
            Expected::Done(shares) => out.extend(blake3::hash(&records(shares, i)).as_bytes()),
            _ => out.extend([0; 32]),
        }
    }
    for (i, end) in e.ends.iter().enumerate() {
        match end {
            Expected::Done(_) => out.extend([0, 22, 0, 0]),
            Expected::Refused {
                number,
                round,
                parties,
            } => {
                assert!(parties.is_power_of_two(), "party {i}: {end:?}");
                let differs = e.differences.iter().any(|d| d.party == i);
                out.extend([
                    *number,
                    *round,
                    parties.trailing_zeros() as u8,
                    differs.into(),
                ]);
            }
            Expected::Panic(error) => panic!("{error}"),
        }
    }
    let len = out.len() as u32;
    out[..4].copy_from_slice(&len.to_le_bytes());
    out
}

fn sessions() -> (usize, usize, Vec<u8>) {
    let mut list = vec![];
    let none = String::new;
    for n in 2..=8 {
        for l in [1, 2, 3, 7] {
            list.push((n, l, none(), none()));
        }
    }
    let honest = list.len();
    let plain = |(n, rules)| (n, 1, none(), rules);
    let odd = |(n, dms, more)| (n, 1, dms, more);
    list.extend(damage().into_iter().map(plain));
    list.extend(odd_dms().into_iter().map(odd));
    let beside = list.len();
    list.extend(tails().into_iter().map(plain));
    list.extend(unopened().into_iter().map(odd));
    let mut out = b"NZVECT04".to_vec();
    out.extend((list.len() as u32).to_le_bytes());
    out.extend([0; 4]);
    let mut ends: BTreeMap<(u8, u8), usize> = BTreeMap::new();
    for (index, (n, l, dms, more)) in list.iter().enumerate() {
        let s = Session::drawn(*n, *l, index as u64 + 1);
        let mut rules = Rule::parse_all(dms).unwrap();
        rules.extend(commit(&s, 0, None, &rules));
        rules.extend(Rule::parse_all(more).unwrap());
        let rules = flips(&s, rules);
        let e = expect(&s, &mut |round, from, to, m| {
            apply(&rules, round, from, to, m)
        });
        assert_eq!(e.alone(), index >= beside, "{dms} {more}");
        if index < honest {
            let results = e.outcome.results().expect("an honest session is done");
            assert!(s.macs_hold(&results) && s.and_holds(&results));
        }
        for end in &e.ends {
            if let Expected::Refused { number, round, .. } = end {
                *ends.entry((*number, *round)).or_default() += 1;
            }
        }
        out.extend(session(&s, &rules, &e));
    }
    for number in (1..=14).chain([21]) {
        let of: Vec<_> = ends.iter().filter(|((its, _), _)| *its == number).collect();
        let of: Vec<_> = of
            .iter()
            .map(|((_, round), parties)| format!("{round} ({parties})"))
            .collect();
        println!("{number}: in round {}", of.join(", "));
    }
    (honest, list.len() - honest, out)
}

fn combinings() -> (usize, Vec<u8>) {
    let mut out = b"NZCOMB03".to_vec();
    let mut list = vec![];
    for n in 2..=8 {
        for count in 0..=5 {
            list.push((n, count % n, count));
        }
    }
    out.extend((list.len() as u32).to_le_bytes());
    out.extend([0; 4]);
    for (index, (n, i, count)) in list.iter().copied().enumerate() {
        let seed = index as u64 + 1;
        let mut triples = vec![];
        for q in 0..3 * count {
            let mut record = blank(n, i, drawn_bit(draw(seed, 8, i, i, q)));
            for k in (0..n).filter(|k| *k != i) {
                record[mac_at(k)..][..ENTRY].copy_from_slice(&draw(seed, 8, i, k, q));
            }
            triples.extend(record);
        }
        let d: Vec<u8> = (1..count)
            .map(|m| drawn_bit(draw(seed, 9, i, 0, m)))
            .collect();
        let (number, hash) = match combine(n, i, &shares(&triples, n), &d) {
            Ok(xyz) => {
                assert_eq!(xyz.len(), 3);
                (0, blake3::hash(&records(&xyz, i)).into())
            }
            Err(End::Refused { number, .. }) => (number, [0; 32]),
            Err(end) => panic!("{end:?}"),
        };
        out.extend([n as u8, i as u8, count as u8, number, 0, 0, 0, 0]);
        out.extend(seed.to_le_bytes());
        out.extend(hash);
    }
    (list.len(), out)
}
