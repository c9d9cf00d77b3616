//! Share records: the layout, byte by byte; what a record must be to be lent; and records that are not the box's own
//! (02, order 5), which ours refuses at opening and the Rust takes, by value, up to the MACs.

use std::collections::BTreeMap;

use oracle::{
    FILLER_AT, HEAD, N_AT, OWN_AT, Session, Share, SplitMix, blank, damage,
    expect::{Expected, expect},
    head, honest, key_at, labelled, labels, mac_at, put_label, record_fault, record_len, records,
    run, shares,
};

/// The order's own numbers.
#[test]
fn layout() {
    for n in 2..=8 {
        assert_eq!(record_len(n), 32 + 32 * n);
    }
    // party 1 of 3, with the bit 1; MAC for 0 is of 10, key of 0 of 11, and so on
    let mut record = vec![1, 3, 1];
    record.extend([0; 29]);
    for byte in [10, 11, 0, 0, 30, 31] {
        record.extend([byte; 16]);
    }
    let share = Share::read(&record);
    assert_eq!(share.bit(), 1);
    let both = |k: usize| (share.mac(k), share.key(k));
    assert_eq!(both(0), ([10; 16], [11; 16]));
    assert_eq!(both(1), ([0; 16], [0; 16]));
    assert_eq!(both(2), ([30; 16], [31; 16]));
    assert_eq!(record[mac_at(2)..key_at(2)], [30; 16]);
    assert_eq!(records(&[share], 1), record);
    assert_eq!(record[..32], head(3, 1, 1));
    assert_eq!(record_fault(&record, 3, 1), None);
}

/// A share is the same whatever the label says, and another with any other bit behind it.
#[test]
fn by_value() {
    let mut g = SplitMix(1);
    for n in 2..=8 {
        let mut record = g.bytes(record_len(n));
        record[0] &= 1;
        let share = Share::read(&record);
        for at in 0..record.len() {
            let mut other = record.clone();
            other[at] ^= 1;
            let label = (N_AT..HEAD).contains(&at);
            assert_eq!(Share::read(&other) == share, label, "byte {at}");
        }
        put_label(&mut record, n, n - 1);
        assert_eq!(records(&[share], n - 1), record);
    }
}

/// Every bit of a head: of the bit byte the lowest is the share's, the others are 1; of the label each is 22. Per
/// record 1 comes before 22, and 22 before 4.
#[test]
fn faults() {
    for (n, i) in [(2, 0), (2, 1), (3, 1), (8, 7)] {
        let record = blank(n, i, 1);
        for (at, bit) in (0..record.len()).flat_map(|at| (0..8).map(move |bit| (at, bit))) {
            let mut other = record.clone();
            other[at] ^= 1 << bit;
            let own = (mac_at(i)..mac_at(i + 1)).contains(&at);
            let due = match at {
                0 => (bit > 0).then_some(1),
                1..32 => Some(22),
                _ => own.then_some(4),
            };
            assert_eq!(record_fault(&other, n, i), due, "byte {at}, bit {bit}");
            // before what comes after it
            other[mac_at(i)] |= 128;
            let after = due.or(Some(4));
            assert_eq!(record_fault(&other, n, i), after, "byte {at}, bit {bit}");
            other[FILLER_AT] |= 128;
            let after = due.filter(|number| *number == 1).or(Some(22));
            assert_eq!(record_fault(&other, n, i), after, "byte {at}, bit {bit}");
        }
        // n and own number of others, and the two exchanged
        for (m, k) in (0..=9).flat_map(|m| (0..=9).map(move |k| (m, k))) {
            let mut other = record.clone();
            (other[N_AT], other[OWN_AT]) = (m, k);
            let due = (m, k) == (n as u8, i as u8);
            assert_eq!(record_fault(&other, n, i).is_none(), due);
        }
    }
}

/// Both generators label what they deal.
#[test]
fn dealt_records_are_labelled() {
    for n in 2..=8 {
        for s in [Session::generate(n, 2, 1), Session::drawn(n, 2, 1)] {
            for (i, p) in s.parties.iter().enumerate() {
                assert_eq!(p.fault(n, i), None);
                for list in p.lists() {
                    let mut all = list.chunks_exact(record_len(n));
                    assert!(all.all(|record| labelled(record, n, i)));
                    assert_eq!(records(&shares(list, n), i), list);
                }
            }
        }
    }
}

/// What labels.rs has: opening's number, and what is expected wherever the Rust can be given the shares. There the box
/// that is lent another's shares is refused at opening; the Rust breaks at the MACs, if at all.
#[test]
fn records_of_others_by_hand() {
    let cases = labels::cases();
    let (mut given, mut rust) = (0, BTreeMap::new());
    for case in &cases {
        let s = case.session();
        for (i, end) in case.ends.iter().enumerate() {
            let at_opening = end.filter(|(_, round, _)| *round == 0);
            let due = at_opening.map(|(number, _, _)| number);
            assert_eq!(s.parties[i].fault(s.n, i), due, "{}", case.name);
        }
        if s.check().is_err() {
            continue;
        }
        given += 1;
        let e = expect(&s, &mut honest);
        for (end, due) in e.ends.iter().zip(&case.ends) {
            let (number, round, party) = due.unwrap();
            let parties = 1 << party;
            let due = Expected::Refused {
                number,
                round,
                parties,
            };
            assert_eq!(*end, due, "{}", case.name);
        }
        for d in &e.differences {
            *rust.entry(d.rust.refused()).or_insert(0) += 1;
        }
    }
    println!(
        "{} cases, {given} given to the Rust, which ended so: {rust:?}",
        cases.len()
    );
    assert!(cases.len() > 2000 && given > 1000);
    let macs = |end: &Option<(u8, u8)>| matches!(end, None | Some((8, 6 | 7) | (12, 22)));
    assert!(rust.keys().all(macs) && rust.len() == 4);
}

/// Another box's shares, drawn at random: with its labels 22 at opening, and with the box's own labels, which say nothing
/// of the shares, what the Rust says.
#[test]
fn labels_are_no_macs() {
    let mut g = SplitMix(1);
    let (mut labelled, mut not) = (0, 0);
    for _ in 0..400 {
        let (n, l) = (2 + g.below(3), 1 + g.below(2));
        let mut s = Session::generate(n, l, g.word());
        let what = damage::label(&mut g, &mut s);
        let e = expect(&s, &mut honest);
        let o = run(&s, &mut honest);
        if what.ends_with("labelled") {
            labelled += 1;
            assert!(e.differences.is_empty(), "{what}");
            let macs = |end: &oracle::End| matches!(end.refused(), Some((8 | 12, _)));
            assert!(o.ends.iter().any(macs), "{what}");
        } else {
            not += 1;
            assert!(
                e.differences.len() == 1 && e.differences[0].number == 22,
                "{what}"
            );
        }
    }
    assert!(labelled > 50 && not > 200);
}
