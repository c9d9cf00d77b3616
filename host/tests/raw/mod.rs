//! Calls on the interface for C, so that a test can look at all that they were lent afterwards.

#![allow(dead_code)] // each test file uses its part

// The kit's declarations of the header.
#[path = "../../src/ffi.rs"]
pub mod ffi;

use nuzsdike_host::{dealer, record_len, Inputs, Plan};

/// What a buffer that a call may write holds before it.
pub const MARK: u8 = 165;

/// An answer: number and party.
pub type Answer = (u8, u64);

/// In an answer's place for a party: none is named.
pub const NO_PARTY: u64 = 1 << 32;

pub fn split(answer: u64) -> Answer {
    (answer as u8, answer >> 8)
}

/// The sum of a list, or the answer that refuses it.
pub fn sum(counts: &[u32]) -> Result<u64, Answer> {
    // Sound: a slice that outlives the call, read only.
    let answer = unsafe { ffi::nuzsdike_sum(counts.as_ptr(), counts.len()) };
    if answer < 1 << 40 {
        Ok(answer)
    } else {
        Err(split(answer))
    }
}

/// What a round call is lent beside the host's own.
#[derive(Clone, Default)]
pub struct Lent {
    pub incoming: Vec<u8>,
    pub starts: Vec<usize>,
    pub lens: Vec<usize>,
    pub missing: Vec<u8>,
    pub r: Vec<u8>,
}

/// A box, and what its host keeps for it.
#[derive(Clone, PartialEq, Eq, Debug)]
pub struct State {
    pub session: Vec<u32>,
    pub work: Vec<u8>,
    pub out: Vec<u8>,
    pub told: Vec<u32>,
}

impl State {
    /// Before opening.
    pub fn new(plan: Plan) -> Self {
        State {
            session: vec![MARK.into(); ffi::SESSION],
            work: vec![MARK; plan.work_len()],
            out: vec![MARK; plan.out_len(0)],
            told: vec![MARK.into(); ffi::TOLD],
        }
    }

    pub fn open(&mut self, n: usize, i: usize, counts: &[u32], x: &Inputs) -> Answer {
        // Sound: pointers and counts are those of slices that outlive the call, and what is written overlaps nothing.
        split(unsafe {
            ffi::nuzsdike_open(
                self.session.as_mut_ptr(),
                self.session.len(),
                ffi::number(n),
                ffi::number(i),
                counts.as_ptr(),
                counts.len(),
                x.delta.as_ptr(),
                x.delta.len(),
                x.seed.as_ptr(),
                x.seed.len(),
                x.pairs.as_ptr(),
                x.pairs.len(),
                x.bits.as_ptr(),
                x.bits.len(),
                x.alpha.as_ptr(),
                x.alpha.len(),
                x.beta.as_ptr(),
                x.beta.len(),
                x.masks.as_ptr(),
                x.masks.len(),
                self.work.as_mut_ptr(),
                self.work.len(),
                self.out.as_mut_ptr(),
                self.out.len(),
            )
        })
    }

    pub fn round(&mut self, round: usize, lent: &Lent) -> Answer {
        // Sound: as above.
        split(unsafe {
            ffi::nuzsdike_round(
                self.session.as_mut_ptr(),
                self.session.len(),
                ffi::number(round),
                lent.incoming.as_ptr(),
                lent.incoming.len(),
                lent.starts.as_ptr(),
                lent.starts.len(),
                lent.lens.as_ptr(),
                lent.lens.len(),
                lent.missing.as_ptr(),
                lent.missing.len(),
                lent.r.as_ptr(),
                lent.r.len(),
                self.work.as_mut_ptr(),
                self.work.len(),
                self.out.as_mut_ptr(),
                self.out.len(),
                self.told.as_mut_ptr(),
                self.told.len(),
            )
        })
    }

    pub fn due(&self) -> usize {
        // Sound: a slice of ours, read only.
        unsafe { ffi::nuzsdike_due(self.session.as_ptr(), self.session.len()) as usize }
    }
}

/// A message for a box, or none.
pub type Letter = Option<Vec<u8>>;

/// All boxes of a session, before the calls for a round.
pub struct Boxes {
    pub plan: Plan,
    pub inputs: Vec<Inputs>,
    pub states: Vec<State>,
}

impl Boxes {
    /// One batch.
    pub fn new(n: usize, l: usize, seed: u64) -> Self {
        Self::with_batches(&vec![vec![ffi::number(l)]; n], seed)
    }

    /// A list of counts for each box.
    pub fn with_batches(lists: &[Vec<u32>], seed: u64) -> Self {
        let plan = Plan::of_batches(lists.len(), &lists[0]);
        let inputs = dealer::deal_in_memory(plan, seed);
        let mut states = vec![State::new(plan); plan.n];
        for (i, state) in states.iter_mut().enumerate() {
            assert_eq!(state.open(plan.n, i, &lists[i], &inputs[i]), (0, 0), "box {i} of {lists:?}");
        }
        Boxes { plan, inputs, states }
    }

    /// The round that is due.
    pub fn round(&self) -> usize {
        self.states[0].due()
    }

    /// What box i is to be given, by sender; nothing of its own.
    pub fn letters(&self, i: usize) -> Vec<Letter> {
        let len = self.plan.message_len(self.round());
        let place = |k: usize| if i < k { i } else { i - 1 };
        (0..self.plan.n).map(|k| (k != i).then(|| self.states[k].out[place(k) * len..][..len].to_vec())).collect()
    }

    /// The call for a round: its number and party. The messages lie apart, with other bytes before and behind each.
    pub fn call(&self, state: &mut State, round: usize, letters: &[Letter]) -> Answer {
        let mut lent = Lent { incoming: vec![7; 3], ..Default::default() };
        for letter in letters {
            let letter = letter.as_deref();
            lent.starts.push(lent.incoming.len());
            lent.lens.push(letter.map_or(0, <[u8]>::len));
            lent.missing.push(letter.map_or(1, |_| 0));
            lent.incoming.extend_from_slice(letter.unwrap_or(&[]));
            lent.incoming.extend([7; 40]);
        }
        // Sound: takes numbers.
        let joint_seed = unsafe { ffi::nuzsdike_joint_seed_at(ffi::number(self.plan.n), ffi::number(self.plan.l)) };
        if self.plan.r_len(round) != 0 {
            lent.r = state.work[joint_seed..][..ffi::R_SEED].to_vec();
        }
        state.out = vec![MARK; self.plan.out_len(round)];
        state.round(round, &lent)
    }

    /// What a copy of box i answers to these, and what is left of it.
    pub fn answers(&self, i: usize, letters: &[Letter]) -> (Answer, State) {
        let mut state = self.states[i].clone();
        (self.call(&mut state, self.round(), letters), state)
    }

    /// The round as it is meant: everybody's call is accepted.
    pub fn step(&mut self) {
        let round = self.round();
        let calls: Vec<_> = (0..self.plan.n).map(|i| self.answers(i, &self.letters(i))).collect();
        for (i, (answer, state)) in calls.into_iter().enumerate() {
            assert_eq!(answer, (0, 0), "box {i}, round {round}");
            self.states[i] = state;
        }
    }
}

/// Combining, and what is in its outgoing buffer then.
pub fn combine(n: usize, i: usize, count: usize, triples: &[u8], d: &[u8]) -> (Answer, Vec<u8>) {
    let mut out = vec![MARK; 3 * record_len(n)];
    // Sound: as above.
    let answer = unsafe {
        ffi::nuzsdike_combine(
            ffi::number(n),
            ffi::number(i),
            ffi::number(count),
            triples.as_ptr(),
            triples.len(),
            d.as_ptr(),
            d.len(),
            out.as_mut_ptr(),
            out.len(),
        )
    };
    (split(answer), out)
}
