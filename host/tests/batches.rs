//! "several batches in one session" (02, order 7): lists of counts that opening takes and refuses, what the last call tells of them, and that nothing else
//! depends on them. On the interface for C, so that all that a call is lent can be looked at afterwards.

mod raw;

use nuzsdike_host::{
    check::{self, Checked, Outputs},
    dealer, Inputs, Plan,
};
use raw::{ffi, sum, Answer, Boxes, Letter, State, MARK, NO_PARTY};

/// Where the numbers of a session stand.
const L: usize = 2;
const DUE: usize = 3;
const COUNTS: usize = 4;

/// Two boxes, and records for two ANDs.
const PLAN: Plan = Plan { n: 2, l: 2 };

fn deal(change: impl FnOnce(&mut Inputs)) -> Inputs {
    let mut inputs = dealer::deal_in_memory(PLAN, 90).remove(1);
    change(&mut inputs);
    inputs
}

/// What opening answers in these buffers. Refused, it leaves them as they were, and accepted it doesn't.
#[track_caller]
fn open_in(mut state: State, n: usize, i: usize, counts: &[u32], inputs: &Inputs) -> Answer {
    let before = state.clone();
    let answer = state.open(n, i, counts, inputs);
    assert_eq!(state == before, answer != (0, 0), "{answer:?}");
    answer
}

/// The same for box 1 in buffers for two ANDs.
#[track_caller]
fn open(counts: &[u32], inputs: &Inputs) -> Answer {
    open_in(State::new(PLAN), PLAN.n, 1, counts, inputs)
}

/// Where batches of these counts lie: 16 pairs.
fn pairs(counts: &[u32]) -> Vec<u32> {
    let mut first = 0;
    let mut told = vec![];
    for count in counts {
        told.extend([first, *count]);
        first += count;
    }
    told.resize(ffi::TOLD, 0);
    told
}

/// Lists with one sum each: all of one AND, first or last ones longer, sixteen and fewer.
fn lists() -> Vec<Vec<u32>> {
    let seventeen = [[1; 15].as_slice(), &[2]].concat();
    vec![vec![1, 1], vec![2, 1], vec![1, 2, 3], vec![5, 1], vec![1, 1, 1, 3], vec![1; 16], seventeen]
}

/// The lists that no session has, with the number that refuses each.
fn refused_lists() -> Vec<(Vec<u32>, u8)> {
    let most = u32::MAX;
    let mut lists = vec![
        (vec![], 23),
        (vec![1; 17], 23),
        (vec![1; 1000], 23),
        // 23 comes before 16 and 3
        (vec![0; 17], 23),
        (vec![most; 17], 23),
        (vec![300_001], 16),
        (vec![most], 16),
        (vec![300_000, 1], 16),
        (vec![1, 300_000], 16),
        (vec![18_751; 16], 16),
        ([vec![18_750; 15], vec![18_751]].concat(), 16),
        // sums that 32 bits do not hold: the first would be 1
        (vec![most, 2], 16),
        (vec![most, 1, 2], 16),
        (vec![1 << 31, 1 << 31], 16),
        (vec![1 << 31, 1 << 31, 1, 1], 16),
        (vec![1 << 28; 16], 16),
        (vec![most; 16], 16),
        // 16 comes before 3, wherever the 0 stands
        (vec![300_001, 0], 16),
        (vec![0, 300_001], 16),
        (vec![most, 2, 0], 16),
        (vec![0, 1 << 31, 1 << 31], 16),
        (vec![0], 3),
        (vec![0; 16], 3),
        (vec![0, 2], 3),
        (vec![2, 0], 3),
        (vec![1, 0, 1], 3),
        (vec![300_000, 0], 3),
    ];
    // a 0 at every place of sixteen
    lists.extend((0..16).map(|at| ((0..16).map(|k| u32::from(k != at)).collect(), 3)));
    lists
}

// ---- sums

#[test]
fn a_list_has_a_sum() {
    for (counts, due) in
        [(&[1][..], 1), (&[300_000], 300_000), (&[100, 250, 50], 400), (&[1; 16], 16), (&[18_750; 16], 300_000), (&[299_999, 1], 300_000)]
    {
        assert_eq!(sum(counts), Ok(due), "{counts:?}");
    }
}

/// Where opening would refuse it the sum is that answer, and names nobody.
#[test]
fn a_refused_list_has_no_sum() {
    for (counts, number) in refused_lists() {
        assert_eq!(sum(&counts), Err((number, NO_PARTY)), "{counts:?}");
    }
}

// ---- opening

/// A session is n, i, l, the round, and the counts with zeros behind them.
#[test]
fn one_to_sixteen_batches_are_taken() {
    let alone = (1..=16).map(|count| vec![1; count]);
    for counts in alone.chain(lists()) {
        let l: u32 = counts.iter().sum();
        let plan = Plan::new(3, l as usize);
        let inputs = dealer::deal_in_memory(plan, 91);
        let mut state = State::new(plan);
        assert_eq!(state.open(3, 2, &counts, &inputs[2]), (0, 0), "{counts:?}");
        let mut due = [&[3, 2, l, 1], &counts[..]].concat();
        due.resize(ffi::SESSION, 0);
        assert_eq!(state.session, due);
        assert_eq!(state.due(), 1);
        assert_eq!(state.told, [u32::from(MARK); ffi::TOLD]);
    }
}

/// And name the own number; nothing is written.
#[test]
fn lists_that_opening_refuses() {
    let inputs = deal(|_| ());
    assert_eq!(open(&[2], &inputs), (0, 0));
    assert_eq!(open(&[1, 1], &inputs), (0, 0));
    for (counts, number) in refused_lists() {
        assert_eq!(open(&counts, &inputs), (number, 1), "{counts:?}");
    }
}

/// 15, then 23, 16 and 3, then 6 and 17, then bytes.
#[test]
fn opening_has_an_order() {
    let good = deal(|_| ());
    // what comes behind them: lent bytes, lengths of lists, of other buffers, and all at once
    let bad: [Inputs; 4] = [
        deal(|inputs| inputs.bits[0] = 2),
        deal(|inputs| _ = inputs.alpha.pop()),
        deal(|inputs| inputs.pairs.push(0)),
        deal(|inputs| {
            inputs.bits[0] = 2;
            inputs.alpha.pop();
            inputs.pairs.push(0);
        }),
    ];
    for (inputs, number) in bad.iter().zip([1, 6, 17, 6]) {
        assert_eq!(open(&[1, 1], inputs), (number, 1));
    }
    let fresh = || State::new(PLAN);
    let short = [State { session: vec![7; 19], ..fresh() }, State { work: vec![], ..fresh() }, State { out: vec![0; 41], ..fresh() }];
    for state in &short {
        assert_eq!(open_in(state.clone(), 2, 1, &[1, 1], &good), (17, 1));
    }
    for (counts, number) in refused_lists() {
        for (n, i) in [(0, 1), (1, 1), (9, 1), (2, 2), (usize::MAX, 1)] {
            assert_eq!(open_in(fresh(), n, i, &counts, &good), (15, i as u64), "{counts:?}");
        }
        for inputs in &bad {
            assert_eq!(open(&counts, inputs), (number, 1), "{counts:?}");
        }
        for state in &short {
            assert_eq!(open_in(state.clone(), 2, 1, &counts, &good), (number, 1), "{counts:?}");
        }
    }
}

/// Lengths go by the sum: records for another are 6.
#[test]
fn lengths_are_those_of_the_sum() {
    let inputs = deal(|_| ());
    for counts in [vec![1], vec![3], vec![2, 1], vec![1, 1, 1]] {
        assert_eq!(open(&counts, &inputs), (6, 1), "{counts:?}");
    }
}

/// A session has 20 numbers: another length is 17 at opening, and 20 in a round, where nobody gave a party.
#[test]
fn a_session_has_twenty_numbers() {
    let inputs = deal(|_| ());
    let boxes = Boxes::new(2, 2, 90);
    for len in [0, 1, 3, 4, 5, 19, 21, 36] {
        assert_eq!(open_in(State { session: vec![7; len], ..State::new(PLAN) }, 2, 1, &[1, 1], &inputs), (17, 1));
        let mut state = boxes.states[1].clone();
        state.session.resize(len, 0);
        not_taken(&boxes, state, 1, &boxes.letters(1), (20, NO_PARTY));
    }
}

// ---- what the last call tells

/// A call is refused so, and changes nothing at all.
#[track_caller]
fn not_taken(boxes: &Boxes, mut state: State, round: usize, letters: &[Letter], due: Answer) {
    state.out = vec![MARK; boxes.plan.out_len(round)];
    let before = state.clone();
    assert_eq!(boxes.call(&mut state, round, letters), due, "round {round}");
    assert!(state == before, "round {round}: {due:?} changed something");
}

/// Calls f before every round of a session of these lists.
fn in_every_round(lists: &[Vec<u32>], seed: u64, mut f: impl FnMut(&Boxes, usize)) -> Boxes {
    let mut boxes = Boxes::with_batches(lists, seed);
    while boxes.round() != 0 {
        f(&boxes, boxes.round());
        boxes.step();
    }
    boxes
}

/// The accepted last call writes all 32 numbers, zeros where there is no batch; the accepted ones before it none.
#[test]
fn the_last_call_tells_the_batches() {
    for n in [2, 3] {
        for counts in lists().into_iter().chain([vec![1], vec![9]]) {
            let boxes = in_every_round(&vec![counts.clone(); n], 92, |boxes, round| {
                assert!(boxes.states.iter().all(|state| state.told == [u32::from(MARK); ffi::TOLD]), "before round {round}");
            });
            for state in &boxes.states {
                assert_eq!(state.told, pairs(&counts));
            }
        }
    }
}

/// By hand.
#[test]
fn a_hundred_two_hundred_and_fifty_and_fifty() {
    let boxes = in_every_round(&vec![vec![100, 250, 50]; 2], 93, |_, _| ());
    for state in &boxes.states {
        assert_eq!(state.told[..6], [0, 100, 100, 250, 350, 50]);
        assert_eq!(state.told[6..], [0; 26]);
    }
}

/// A refused call tells nothing, in the last round either: neither one that the session outlives nor one that ends it.
#[test]
fn a_refused_call_tells_nothing() {
    for n in [2, 3] {
        in_every_round(&vec![vec![2, 1]; n], 94, |boxes, round| {
            let letters = boxes.letters(1);
            let mut filler = letters.clone();
            filler[0].as_mut().unwrap().push(0);
            let mut missing = letters.clone();
            missing[0] = None;
            for (letters, number) in [(filler, 21), (missing, 14)] {
                let (answer, state) = boxes.answers(1, &letters);
                assert_eq!(answer, (number, 0));
                assert_eq!(state.told, [u32::from(MARK); ffi::TOLD]);
                assert_eq!(state.due(), 0);
            }
            not_taken(boxes, boxes.states[1].clone(), if round == 1 { 2 } else { 1 }, &letters, (19, 1));
        });
    }
}

/// The buffer has 32 numbers in every round: another length is 17, after 20 and 19 and before any message, and the session goes on.
#[test]
fn the_buffer_has_thirty_two_numbers() {
    for n in [2, 3] {
        let wrong = |state: &State, len: usize| State { told: vec![MARK.into(); len], ..state.clone() };
        let boxes = in_every_round(&vec![vec![1, 2]; n], 95, |boxes, round| {
            let (own, letters) = (&boxes.states[1], boxes.letters(1));
            let mut missing = letters.clone();
            missing[0] = None;
            for len in [0, 1, 31, 33, 64] {
                not_taken(boxes, wrong(own, len), round, &letters, (17, 1));
                not_taken(boxes, wrong(own, len), round, &missing, (17, 1));
                not_taken(boxes, wrong(own, len), if round == 1 { 2 } else { 1 }, &letters, (19, 1));
                let mut short = wrong(own, len);
                short.session.pop();
                not_taken(boxes, short, round, &letters, (20, NO_PARTY));
            }
        });
        for len in [0, 31, 33] {
            not_taken(&boxes, wrong(&boxes.states[1], len), 22, &vec![None; n], (20, 1));
        }
    }
}

// ---- nothing else depends on the batches

/// Messages, answers, work areas and results are those of one batch of the sum, in every call of every box; refused calls' too.
#[test]
fn several_batches_are_as_one() {
    for n in [2, 3] {
        for counts in lists() {
            let l = counts.iter().sum::<u32>();
            let mut one = Boxes::new(n, l as usize, 96);
            let mut several = Boxes::with_batches(&vec![counts.clone(); n], 96);
            loop {
                for (one, several) in one.states.iter().zip(&several.states) {
                    assert!((&one.work, &one.out) == (&several.work, &several.out), "{counts:?}");
                    assert_eq!(one.session[..COUNTS], several.session[..COUNTS]);
                }
                if one.round() == 0 {
                    break;
                }
                for i in 0..n {
                    let mut faults = vec![one.letters(i); 3];
                    for (fault, letter) in faults.iter_mut().map(|letters| &mut letters[(i + 1) % n]).enumerate() {
                        match fault {
                            0 => letter.as_mut().unwrap().push(0),
                            1 => *letter = None,
                            _ => *letter.as_mut().unwrap().last_mut().unwrap() ^= 1,
                        }
                    }
                    for letters in faults {
                        let ((answer, one), (other, several)) = (one.answers(i, &letters), several.answers(i, &letters));
                        assert_eq!(answer, other, "{counts:?}");
                        assert!((one.work, one.out) == (several.work, several.out), "{counts:?}");
                        assert_eq!(one.session[..COUNTS], several.session[..COUNTS]);
                    }
                }
                one.step();
                several.step();
            }
        }
    }
}

/// The checker's word about a session that is done.
fn check(boxes: &Boxes) -> Result<Checked, check::Wrong> {
    let outputs: Vec<Outputs> = (boxes.inputs.iter().zip(&boxes.states))
        .map(|(inputs, state)| Outputs { delta: &inputs.delta, alpha: &inputs.alpha, beta: &inputs.beta, results: &state.out })
        .collect();
    check::check(boxes.plan, &outputs)
}

/// Boxes with other lists and one sum: everybody is done with right results, and is told its own batches.
#[test]
fn boxes_with_other_lists() {
    for (l, lists) in [
        (16, vec![vec![1; 16], vec![16]]),
        (9, vec![vec![2, 3, 4], vec![9], vec![8, 1]]),
        (9, vec![vec![4, 5], vec![5, 4], vec![1; 9], vec![3, 3, 3], vec![9], vec![1, 8], vec![2, 7], vec![7, 1, 1]]),
    ] {
        let n = lists.len();
        let boxes = in_every_round(&lists, 97, |_, _| ());
        assert_eq!(check(&boxes), Ok(Checked { ands: l, macs: l * n * (n - 1) }));
        for (state, counts) in boxes.states.iter().zip(&lists) {
            assert_eq!(state.told, pairs(counts));
        }
    }
}

// ---- sessions that no opening has left

/// Numbers that aren't those of a list: nothing is due, and 20 for every round, whichever is asked for. As they were they are taken.
#[test]
fn forged_batches_are_no_session() {
    let forgeries: [fn(&mut [u32]); 12] = [
        // l is not the sum
        |session| session[L] += 1,
        |session| session[L] -= 1,
        |session| session[COUNTS] += 1,
        |session| session[COUNTS + 1] -= 1,
        |session| session[COUNTS + 2] = 1,
        // a batch behind an unused one
        |session| session[COUNTS..COUNTS + 3].rotate_right(1),
        |session| (session[COUNTS + 1], session[COUNTS + 2]) = (0, session[COUNTS + 1]),
        |session| session.swap(COUNTS + 1, COUNTS + 15),
        |session| (session[L], session[COUNTS + 15]) = (session[L] + 1, 1),
        // the sum without its high bits
        |session| (session[COUNTS], session[COUNTS + 1]) = (u32::MAX, session[L] + 1),
        // none
        |session| session[COUNTS..].fill(0),
        |session| session[L..].fill(0),
    ];
    for n in [2, 3] {
        in_every_round(&vec![vec![1, 2]; n], 98, |boxes, round| {
            let (own, letters) = (&boxes.states[1], boxes.letters(1));
            assert_eq!(own.session[DUE] as usize, round);
            for (at, forge) in forgeries.iter().enumerate() {
                let mut state = own.clone();
                forge(&mut state.session);
                assert_eq!(state.due(), 0, "forgery {at}, round {round}");
                for round in [round, 1, 22, 0] {
                    not_taken(boxes, state.clone(), round, &letters, (20, 1));
                }
            }
            // Another list of the same sum: opening can have left it.
            let mut state = own.clone();
            state.session[COUNTS..COUNTS + 3].copy_from_slice(&[1, 1, 1]);
            assert_eq!((state.due(), boxes.call(&mut state, round, &letters)), (round, (0, 0)));
        });
    }
}
