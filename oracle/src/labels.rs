//! Records that are not the box's own and what each box must say to them (02, order 5), worked out by hand: what is
//! due stands here as it was read off the order, and `expect` has no part in it. tests/records.rs holds `expect` to
//! it, oracle/compare our library.

use crate::{
    by_hand::End,
    damage::exchange_entries,
    record::{BIT_AT, FILLER_AT, HEAD, N_AT, OWN_AT, mac_at, record_len},
    session::Session,
};

/// A session in which boxes are lent other lists of records, and how each box must end.
pub struct Case {
    pub name: String,
    pub n: usize,
    pub l: usize,
    /// Box, list and what it is lent in that list's place.
    lent: Vec<(usize, usize, Vec<u8>)>,
    pub ends: Vec<End>,
}

/// The inputs that the lists are put into.
pub fn honest(n: usize, l: usize) -> Session {
    Session::generate(n, l, 5)
}

impl Case {
    pub fn session(&self) -> Session {
        let mut s = honest(self.n, self.l);
        for (i, which, bytes) in &self.lent {
            let p = &mut s.parties[*i];
            match *which {
                MASKS => p.masks.copy_from_slice(bytes),
                list => p.lists_mut()[list].copy_from_slice(bytes),
            }
        }
        s
    }
}

pub fn cases() -> Vec<Case> {
    let mut list = vec![];
    for n in 2..=8 {
        list.extend(one_byte(n));
        list.extend(of_another_box(n));
        list.extend(of_another_n(n));
        list.extend(shifted(n));
        list.extend(before_the_order(n));
    }
    list.extend(two_bytes());
    list.extend(orders());
    list
}

const LISTS: [&str; 3] = ["bits", "alpha", "beta"];

/// Behind the lists of records.
const MASKS: usize = 3;

/// Each of these boxes refuses at opening with the number, and names itself. It sends nothing, so the others miss
/// the lowest of them in round 1.
fn case(
    s: &Session,
    name: String,
    refuse: &[usize],
    number: u8,
    lent: Vec<(usize, usize, Vec<u8>)>,
) -> Case {
    let ends = (0..s.n).map(|i| match refuse.contains(&i) {
        true => Some((number, 0, i)),
        false => Some((14, 1, refuse[0])),
    });
    Case {
        name: format!("n {}: {name}", s.n),
        n: s.n,
        l: s.l,
        lent,
        ends: ends.collect(),
    }
}

/// Every byte of a label, of the first record or of the last: n, the own number, each byte of filler.
fn one_byte(n: usize) -> Vec<Case> {
    let s = honest(n, 2);
    let mut list = vec![];
    for i in [0, n - 1] {
        let mut changes = vec![];
        for other in [0, 1, n - 1, n + 1, n + 128, 255] {
            changes.push((N_AT, other as u8));
        }
        for other in (0..n).chain([n, i + 128, 255]).filter(|other| *other != i) {
            changes.push((OWN_AT, other as u8));
        }
        for at in FILLER_AT..HEAD {
            changes.push((at, [1, 128, 255][at % 3]));
        }
        for (at, byte) in changes {
            // three lists, and two records of each
            let turn = list.len();
            let (which, last) = (turn % 3, turn / 3 % 2 == 1);
            let mut lent = s.parties[i].lists()[which].to_vec();
            let record = if last { lent.len() - record_len(n) } else { 0 };
            lent[record + at] = byte;
            let name = format!(
                "box {i}, {}, record at {record}: byte {at} is {byte}",
                LISTS[which]
            );
            list.push(case(&s, name, &[i], 22, vec![(i, which, lent)]));
        }
        for which in 0..3 {
            let mut lent = s.parties[i].lists()[which].to_vec();
            lent.swap(N_AT, OWN_AT);
            let name = format!("box {i}, {}: n and own number exchanged", LISTS[which]);
            list.push(case(&s, name, &[i], 22, vec![(i, which, lent)]));
        }
    }
    list
}

/// Every two bytes of a label with the same bit changed, which a sum of them might not tell.
fn two_bytes() -> Vec<Case> {
    let s = honest(2, 2);
    let mut list = vec![];
    for (at, other) in (N_AT..HEAD).flat_map(|at| (at + 1..HEAD).map(move |other| (at, other))) {
        let turn = list.len();
        let (i, which, bit) = (turn % 2, turn % 3, 1 << (turn % 8));
        let mut lent = s.parties[i].lists()[which].to_vec();
        lent[at] ^= bit;
        lent[other] ^= bit;
        let name = format!(
            "box {i}, {}: bytes {at} and {other}, bit {bit}",
            LISTS[which]
        );
        list.push(case(&s, name, &[i], 22, vec![(i, which, lent)]));
    }
    list
}

/// A box's lists from another box, each alone and all three; as they are, where the own entry is off too (4, which
/// comes after), and with entries exchanged so that it is zero, where the label alone tells.
fn of_another_box(n: usize) -> Vec<Case> {
    let s = honest(n, 1);
    let mut list = vec![];
    let pairs = (0..n).flat_map(|i| (0..n).map(move |j| (i, j)));
    // for many boxes those of the next one
    for (i, j) in pairs.filter(|(i, j)| if n < 4 { i != j } else { (i + 1) % n == *j }) {
        for exchanged in [false, true] {
            let theirs = |which: usize| {
                let mut lent = s.parties[j].lists()[which].to_vec();
                if exchanged {
                    exchange_entries(&mut lent, n, i, j);
                }
                (i, which, lent)
            };
            let own = if exchanged { ", own entries zero" } else { "" };
            for which in 0..3 {
                let name = format!("box {i}: {} of box {j}{own}", LISTS[which]);
                list.push(case(&s, name, &[i], 22, vec![theirs(which)]));
            }
            let name = format!("box {i}: all lists of box {j}{own}");
            list.push(case(&s, name, &[i], 22, (0..3).map(theirs).collect()));
        }
    }
    // two boxes have each other's
    for j in [1, n - 1] {
        let all = |i: usize, j: usize| (0..3).map(move |which| (i, which, j));
        let lent = all(j - 1, j).chain(all(j, j - 1));
        let lent = lent.map(|(i, which, j)| (i, which, s.parties[j].lists()[which].to_vec()));
        let name = format!("boxes {} and {j} have each other's lists", j - 1);
        list.push(case(&s, name, &[j - 1, j], 22, lent.collect()));
    }
    list
}

/// Lists of the due length, cut from records that were made for another n.
fn of_another_n(n: usize) -> Vec<Case> {
    let s = honest(n, 1);
    let mut list = vec![];
    for (m, i) in (2..=8)
        .filter(|m| *m != n)
        .flat_map(|m| [(m, 0), (m, n - 1)])
    {
        let other = honest(m, 1);
        for which in 0..3 {
            let records = other.parties[i.min(m - 1)].lists()[which].iter().cycle();
            let lent = records.take(s.parties[i].lists()[which].len());
            let name = format!("box {i}: {} made for n = {m}", LISTS[which]);
            list.push(case(
                &s,
                name,
                &[i],
                22,
                vec![(i, which, lent.copied().collect())],
            ));
        }
    }
    list
}

/// Lists that lie a byte off. With a byte 0 in front, the first record's bit byte is 0 and the bit stands where n is due:
/// 22. With the first byte gone, its bit byte is n: 1.
fn shifted(n: usize) -> Vec<Case> {
    let s = honest(n, 1);
    let mut list = vec![];
    for i in 0..n {
        let mine = s.parties[i].lists();
        let later = |which: usize| {
            (
                i,
                which,
                [&[0], &mine[which][..mine[which].len() - 1]].concat(),
            )
        };
        let earlier = |which: usize| (i, which, [&mine[which][1..], &[0]].concat());
        for which in 0..3 {
            let name = |way: &str| format!("box {i}: {} a byte {way}", LISTS[which]);
            list.push(case(&s, name("later"), &[i], 22, vec![later(which)]));
            list.push(case(&s, name("earlier"), &[i], 1, vec![earlier(which)]));
        }
        let name = format!("box {i}: all lists a byte later");
        list.push(case(&s, name, &[i], 22, (0..3).map(later).collect()));
    }
    list
}

/// Records as they were before the order, the bit and the entries, and zeros up to the due length.
fn before_the_order(n: usize) -> Vec<Case> {
    let s = honest(n, 1);
    let mut list = vec![];
    for (i, which) in (0..n).flat_map(|i| (0..3).map(move |which| (i, which))) {
        let mine = s.parties[i].lists()[which];
        let old = |record: &[u8]| [&record[..N_AT], &record[mac_at(0)..]].concat();
        let mut lent: Vec<u8> = mine.chunks_exact(record_len(n)).flat_map(old).collect();
        lent.resize(mine.len(), 0);
        let name = format!("box {i}: {} of records without a label", LISTS[which]);
        list.push(case(&s, name, &[i], 22, vec![(i, which, lent)]));
    }
    list
}

/// What may be wrong with a record: b its bit, l its label, o its own entry. The number due is by the first letter.
const WRONG: [(&str, u8); 8] = [
    ("", 0),
    ("b", 1),
    ("l", 22),
    ("o", 4),
    ("bl", 1),
    ("bo", 1),
    ("lo", 22),
    ("blo", 1),
];

/// Two records of which the first comes before the second, in one list and in two, and each combination of what is
/// wrong with them: the number is the first record's, if it has one. The masks come after all records.
fn orders() -> Vec<Case> {
    let mut list = vec![];
    for (n, i) in [(2, 0), (2, 1), (3, 0), (3, 1), (3, 2)] {
        let (s, len) = (honest(n, 2), record_len(n));
        let last = s.bits_count() - 1;
        // list and record of both
        let places = [
            ((0, 0), (0, 1)),
            ((0, 3), (0, last)),
            ((0, last), (1, 0)),
            ((1, 0), (1, 1)),
            ((1, 1), (2, 0)),
            ((0, 7), (2, 1)),
        ];
        let mut add =
            |first: (usize, usize), a: usize, second: (usize, usize), b: usize, mask: bool| {
                let mut lists = s.parties[i].lists().map(<[u8]>::to_vec);
                for ((which, t), wrong) in [(first, a), (second, b)] {
                    let turn = list.len() + t;
                    let record = &mut lists[which][t * len..][..len];
                    for what in WRONG[wrong].0.chars() {
                        match what {
                            'b' => record[BIT_AT] = [2, 3, 128, 255][turn % 4],
                            'l' => record[N_AT + turn % (HEAD - N_AT)] ^= 1 << (turn % 8),
                            _ => record[mac_at(i) + turn % 32] = 1,
                        }
                    }
                }
                let mut masks = s.parties[i].masks.clone();
                let other = (i + 1) % n;
                if mask {
                    masks[other * s.l * s.b()] = 2;
                }
                let number = match (WRONG[a].1, WRONG[b].1) {
                    (0, 0) => 1,
                    (0, number) | (number, _) => number,
                };
                let name = format!(
                    "box {i}: record {first:?} '{}', record {second:?} '{}', a mask of 2: {mask}",
                    WRONG[a].0, WRONG[b].0
                );
                let mut lent: Vec<_> = (0..3)
                    .zip(lists)
                    .map(|(which, list)| (i, which, list))
                    .collect();
                lent.push((i, MASKS, masks));
                list.push(case(&s, name, &[i], number, lent));
            };
        for (first, second) in places {
            for (a, b) in (0..8).flat_map(|a| (0..8).map(move |b| (a, b))) {
                if (a, b) != (0, 0) {
                    add(first, a, second, b, false);
                }
            }
        }
        for b in 0..8 {
            add((0, 0), 0, (2, 1), b, true);
        }
    }
    list
}
