//! "share records that say whose they are" (02, order 5): a record that says another n or another box's number, or whose filler is not
//! zero, is 22, at opening and in combining. On the interface for C, so that all that a call is lent can be looked at afterwards.

mod raw;

use nuzsdike_host::{dealer, mac_at, record_head, record_len, Inputs, Plan, ENTRY, RECORD_HEAD};
use raw::{combine, ffi, Answer, State, MARK};

/// One of the lists of share records that a box brings.
type List = fn(&mut Inputs) -> &mut Vec<u8>;

/// In the order in which opening looks at them.
const LISTS: [List; 3] = [|inputs| &mut inputs.bits, |inputs| &mut inputs.alpha, |inputs| &mut inputs.beta];

/// All three, and each alone.
const CHOICES: [&[List]; 4] = [&LISTS, &[LISTS[0]], &[LISTS[1]], &[LISTS[2]]];

/// What can be wrong with a record, in the sequence in which it is told.
const FAULTS: [u8; 3] = [1, 22, 4];

fn deal(plan: Plan) -> Vec<Inputs> {
    dealer::deal_in_memory(plan, 80)
}

/// Box i's inputs, changed.
fn changed(plan: Plan, i: usize, change: impl FnOnce(&mut Inputs)) -> Inputs {
    let mut inputs = deal(plan).remove(i);
    change(&mut inputs);
    inputs
}

/// What opening answers. Refused, it leaves session, work area and outgoing buffer as they were, and accepted it doesn't.
#[track_caller]
fn open(plan: Plan, i: usize, inputs: &Inputs) -> Answer {
    let before = State::new(plan);
    let mut state = before.clone();
    let answer = state.open(plan.n, i, &[ffi::number(plan.l)], inputs);
    assert_eq!(state == before, answer != (0, 0), "{answer:?}");
    answer
}

/// Opening refuses with this number, and names the own one.
#[track_caller]
fn refused(plan: Plan, i: usize, inputs: &Inputs, number: u8) {
    assert_eq!(open(plan, i, inputs), (number, i as u64), "n {}, box {i}", plan.n);
}

/// Spoils box i's record t of a list: the bit, the last byte of the label, or the last of the own entry.
fn spoil(list: &mut [u8], n: usize, i: usize, t: usize, fault: u8) {
    let record = &mut list[t * record_len(n)..][..record_len(n)];
    match fault {
        1 => record[0] = 2,
        22 => record[RECORD_HEAD - 1] = 1,
        _ => record[mac_at(i) + ENTRY - 1] = 1,
    }
}

/// Some of the faults, at least one, as they are told.
fn choices_of_faults() -> impl Iterator<Item = Vec<u8>> {
    (1..1 << FAULTS.len()).map(|chosen: u8| (0..FAULTS.len()).filter(|f| chosen >> f & 1 == 1).map(|f| FAULTS[f]).collect())
}

/// A fault, and another further on.
fn two_faults() -> impl Iterator<Item = (u8, u8)> {
    FAULTS.into_iter().flat_map(|early| FAULTS.map(|late| (early, late)))
}

// ---- opening

/// Shares of box k got into box i: refused at once, and not by the MACs of a later round.
#[test]
fn shares_of_another_box_are_refused() {
    for n in [2, 3, 8] {
        let plan = Plan::new(n, 2);
        for i in 0..n {
            assert_eq!(open(plan, i, &deal(plan)[i]), (0, 0));
            for (k, lists) in (0..n).filter(|k| *k != i).flat_map(|k| CHOICES.map(|lists| (k, lists))) {
                let mut boxes = deal(plan);
                for list in lists {
                    *list(&mut boxes[i]) = list(&mut boxes[k]).clone();
                }
                refused(plan, i, &boxes[i], 22);
            }
        }
    }
}

/// Records of box i that were made for another n, as many bytes of them as are due.
#[test]
fn shares_for_another_n_are_refused() {
    for (n, other) in [(2, 3), (2, 8), (3, 2), (3, 4), (7, 8), (8, 2), (8, 7)] {
        // Where its records are shorter there have to be more of them.
        let (plan, another) = (Plan::new(n, 2), Plan::new(other, 40));
        for i in 0..n.min(other) {
            for lists in CHOICES {
                let mut lent = deal(another).remove(i);
                let inputs = changed(plan, i, |inputs| {
                    for list in lists {
                        let due = list(inputs).len();
                        *list(inputs) = list(&mut lent)[..due].to_vec();
                    }
                });
                refused(plan, i, &inputs, 22);
            }
        }
    }
}

/// Shifted by a byte from a record on. Up, a byte 0 in front of it and the list's last byte gone: its bit is 0 and its n what was the bit,
/// 22. Down, its first byte gone and a byte 0 at the list's end: its bit byte is n, 1.
#[test]
fn a_shifted_list_is_refused() {
    for n in [2, 3, 8] {
        let (plan, len) = (Plan::new(n, 2), record_len(n));
        for i in 0..n {
            for list in LISTS {
                let count = list(&mut deal(plan)[i]).len() / len;
                for t in [0, 1, count - 1] {
                    let up = changed(plan, i, |inputs| {
                        list(inputs).insert(t * len, 0);
                        list(inputs).pop();
                    });
                    refused(plan, i, &up, 22);
                    let down = changed(plan, i, |inputs| {
                        list(inputs).remove(t * len);
                        list(inputs).push(0);
                    });
                    refused(plan, i, &down, 1);
                }
            }
        }
    }
}

/// Every bit of a label counts: all in a list's first and last record, and in each other record one of every byte.
#[test]
fn every_bit_of_a_label_counts() {
    for (n, i) in [(2, 0), (2, 1), (3, 1), (8, 7)] {
        let (plan, len) = (Plan::new(n, 2), record_len(n));
        let mut inputs = deal(plan).remove(i);
        for list in LISTS {
            let count = list(&mut inputs).len() / len;
            for (t, at) in (0..count).flat_map(|t| (1..RECORD_HEAD).map(move |at| (t, at))) {
                let all = [0, count - 1].contains(&t);
                for bit in (0..8).filter(|bit| all || *bit == (t + at) % 8) {
                    list(&mut inputs)[t * len + at] ^= 1 << bit;
                    refused(plan, i, &inputs, 22);
                    list(&mut inputs)[t * len + at] ^= 1 << bit;
                }
            }
        }
        assert_eq!(open(plan, i, &inputs), (0, 0));
    }
}

/// Per record 1, then 22, then 4, whichever of them it has.
#[test]
fn a_record_is_told_by_its_first_fault() {
    for n in [2, 3, 8] {
        let plan = Plan::new(n, 2);
        for i in 0..n {
            for (list, faults) in LISTS.into_iter().flat_map(|list| choices_of_faults().map(move |faults| (list, faults))) {
                let inputs = changed(plan, i, |inputs| {
                    let last = list(inputs).len() / record_len(n) - 1;
                    faults.iter().for_each(|fault| spoil(list(inputs), n, i, last, *fault));
                });
                refused(plan, i, &inputs, faults[0]);
            }
        }
    }
}

/// Record by record, bits, alpha, beta and then the masks: what is wrong earlier is told, whatever is wrong later.
#[test]
fn the_earlier_record_is_told() {
    for (n, i) in [(2, 0), (3, 1), (3, 2)] {
        let plan = Plan::new(n, 2);
        let mut own = deal(plan).remove(i);
        // The first, the second and the last record of each list.
        let places = LISTS.into_iter().flat_map(|list| {
            let last = list(&mut own).len() / record_len(n) - 1;
            (0..=last).filter(move |t| *t < 2 || *t == last).map(move |t| (list, t))
        });
        let places: Vec<(List, usize)> = places.collect();
        for (late, (late_list, late_t)) in places.iter().enumerate() {
            for (early_list, early_t) in &places[..late] {
                for (early_fault, late_fault) in two_faults() {
                    let inputs = changed(plan, i, |inputs| {
                        spoil(early_list(inputs), n, i, *early_t, early_fault);
                        spoil(late_list(inputs), n, i, *late_t, late_fault);
                    });
                    refused(plan, i, &inputs, early_fault);
                }
            }
            for fault in FAULTS {
                let inputs = changed(plan, i, |inputs| {
                    spoil(late_list(inputs), n, i, *late_t, fault);
                    inputs.masks.fill(2);
                });
                refused(plan, i, &inputs, fault);
            }
        }
        refused(plan, i, &changed(plan, i, |inputs| inputs.masks.fill(2)), 1);
    }
}

/// Numbers and lengths are looked at before any record. Records without heads have another length.
#[test]
fn lengths_come_before_labels() {
    let (n, i) = (3, 1);
    let plan = Plan::new(n, 2);
    let wrong = |change: fn(&mut Inputs)| {
        changed(plan, i, |inputs| {
            spoil(&mut inputs.bits, n, i, 0, 22);
            change(inputs);
        })
    };
    refused(plan, i, &wrong(|_| ()), 22);
    refused(plan, i, &wrong(|inputs| _ = inputs.beta.pop()), 6);
    refused(plan, i, &wrong(|inputs| inputs.masks.push(0)), 17);
    refused(plan, n, &wrong(|_| ()), 15);
    let bare = |list: &[u8]| list.chunks(record_len(n)).flat_map(|record| [&record[..1], &record[mac_at(0)..]].concat()).collect();
    for list in LISTS {
        refused(plan, i, &changed(plan, i, |inputs| *list(inputs) = bare(list(inputs))), 6);
    }
}

// ---- combining

/// Triples of box i, and bytes d for them.
fn bucket(n: usize, i: usize, count: usize) -> (Vec<u8>, Vec<u8>) {
    (deal(Plan::new(n, 1))[i].bits[..3 * count * record_len(n)].to_vec(), (1..count).map(|e| e as u8 % 2).collect())
}

/// Combining refuses with this number, names the own one, and leaves its outgoing buffer as it was.
#[track_caller]
fn not_combined(n: usize, i: usize, triples: &[u8], d: &[u8], number: u8) {
    let untouched = vec![MARK; 3 * record_len(n)];
    assert_eq!(combine(n, i, d.len() + 1, triples, d), ((number, i as u64), untouched), "n {n}, box {i}");
}

/// It takes records of its n and its i alone, and gives three of them.
#[test]
fn combining_takes_own_records_alone() {
    for (n, count) in [2, 3, 8].into_iter().flat_map(|n| (1..=5).map(move |count| (n, count))) {
        for i in 0..n {
            let (triples, d) = bucket(n, i, count);
            let (answer, out) = combine(n, i, count, &triples, &d);
            assert_eq!(answer, (0, 0));
            for record in out.chunks(record_len(n)) {
                assert!(record[0] < 2);
                assert_eq!(record[..RECORD_HEAD], record_head(n, i, record[0]));
            }
            for k in (0..n).filter(|k| *k != i) {
                not_combined(n, k, &triples, &d, 22);
            }
            for another in (2..=8).filter(|another| *another != n && *another > i) {
                not_combined(n, i, &deal(Plan::new(another, 1))[i].bits[..triples.len()], &d, 22);
            }
        }
    }
}

/// In every record every bit of the label; and a list with a byte too many in front of a record.
#[test]
fn combining_looks_at_every_label() {
    for (n, i) in [(2, 1), (3, 0), (8, 5)] {
        let (mut triples, d) = bucket(n, i, 5);
        for t in 0..15 {
            let start = t * record_len(n);
            for (at, bit) in (1..RECORD_HEAD).flat_map(|at| (0..8).map(move |bit| (at, bit))) {
                triples[start + at] ^= 1 << bit;
                not_combined(n, i, &triples, &d, 22);
                triples[start + at] ^= 1 << bit;
            }
            let shifted = [&triples[..start], &[0], &triples[start..triples.len() - 1]].concat();
            not_combined(n, i, &shifted, &d, 22);
        }
    }
}

/// Per record 1, then 22, then 4; record by record, and then d.
#[test]
fn combining_tells_the_first_fault() {
    for (n, i) in [(2, 0), (3, 1), (8, 7)] {
        let (triples, d) = bucket(n, i, 2);
        let spoiled = |faults: &[(usize, u8)]| {
            let mut triples = triples.clone();
            faults.iter().for_each(|(t, fault)| spoil(&mut triples, n, i, *t, *fault));
            triples
        };
        for late in 0..6 {
            for faults in choices_of_faults() {
                let all: Vec<_> = faults.iter().map(|fault| (late, *fault)).collect();
                not_combined(n, i, &spoiled(&all), &d, faults[0]);
                not_combined(n, i, &spoiled(&all), &[2], faults[0]);
            }
            for (early, (early_fault, late_fault)) in (0..late).flat_map(|early| two_faults().map(move |faults| (early, faults))) {
                not_combined(n, i, &spoiled(&[(early, early_fault), (late, late_fault)]), &d, early_fault);
            }
        }
        not_combined(n, i, &triples, &[2], 1);
    }
}
