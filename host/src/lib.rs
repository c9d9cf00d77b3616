//! The host kit of Nuzsdike: a safe wrapper over include/nuzsdike.h (this file), lines between boxes (transport), honest inputs for demos
//! and tests (dealer), a checker that sees every box's outputs (check), files for both (files), and AES for r (aes).
//!
//! A session, with any transport:
//!
//! ```text
//! let (mut session, mut outgoing) = Session::open(n, i, &counts, &inputs)?;
//! loop {
//!     // send outgoing.to(k) to every other box k; gather the others' messages of the round that is due
//!     let mut mail = Mail::new(session.plan(), i, session.due());
//!     ...
//!     match session.round(&mail, r)? {
//!         Step::Send(next) => outgoing = next,
//!         Step::Done { results, batches } => break,
//!     }
//! }
//! ```

use std::hint;

pub mod aes;
pub mod args;
pub mod check;
pub mod dealer;
mod ffi;
pub mod files;
mod refusal;
pub mod sys;
pub mod transport;

pub use refusal::{Reason, Refusal};

/// The calls of the interface that can refuse.
#[derive(Clone, Copy, Debug, PartialEq, Eq)]
pub enum Call {
    Open,
    Round(usize),
    Combine,
}

/// The name of a round as the library has it, empty for what is no round.
pub fn round_name(round: usize) -> String {
    // Sound: reads no memory of ours.
    let byte = |k| unsafe { ffi::nuzsdike_round_name(ffi::number(round), k) };
    (0..16).map(byte).take_while(|b| *b != 0).map(char::from).collect()
}

/// The name of a round for messages: an echo says what it echoes.
pub fn round_title(round: usize) -> String {
    match round_name(round) {
        name if name == "echo" => format!("echo of {}", round_name(round - 1)),
        name => name,
    }
}

/// The bytes of a share record: its head, then for each party a MAC and a key; 0 where opening would refuse n.
pub fn record_len(n: usize) -> usize {
    // Sound: takes a number.
    unsafe { ffi::nuzsdike_record_len(ffi::number(n)) }
}

/// The bytes of a share record's head: the bit, and the label behind it.
pub const RECORD_HEAD: usize = 32;

/// The head of a share record of box i among n: the bit, then n, the own number and zeros, its label.
pub fn record_head(n: usize, i: usize, bit: u8) -> [u8; RECORD_HEAD] {
    let mut head = [0; RECORD_HEAD];
    head[..3].copy_from_slice(&[bit, n as u8, i as u8]);
    head
}

/// The bytes of an entry of a share record: a MAC, then a key.
pub const ENTRY: usize = 32;

/// Where the MAC for party k starts in a share record, and so its entry.
pub const fn mac_at(k: usize) -> usize {
    RECORD_HEAD + ENTRY * k
}

/// Where the key of party k starts in a share record.
pub const fn key_at(k: usize) -> usize {
    mac_at(k) + 16
}

/// The most batches that a session has.
pub const BATCHES: usize = ffi::BATCHES;

/// The l of a session that is opened with these counts, their sum; or why opening would refuse them.
pub fn sum(counts: &[u32]) -> Result<usize, Reason> {
    // Sound: a slice of ours, read only.
    let answer = unsafe { ffi::nuzsdike_sum(counts.as_ptr(), counts.len()) };
    // A sum fits in 32 bits; a refusal is an answer that names no party, above them.
    u32::try_from(answer).map(|l| l as usize).map_err(|_| Reason(answer as u8))
}

/// A batch of a session: where its results lie among all.
#[derive(Clone, Copy, Debug, PartialEq, Eq)]
pub struct Batch {
    /// The position of the first record, from 0.
    pub first: usize,
    pub count: usize,
}

/// The numbers of a session of n boxes for l ANDs. Every length is the library's own answer; all are 0 where opening would refuse n or l.
#[derive(Clone, Copy, Debug, PartialEq, Eq)]
pub struct Plan {
    pub n: usize,
    pub l: usize,
}

// Sound throughout: these calls take numbers and touch no memory.
impl Plan {
    pub fn new(n: usize, l: usize) -> Self {
        Plan { n, l }
    }

    /// For batches of these counts; l is 0 where opening would refuse them.
    pub fn of_batches(n: usize, counts: &[u32]) -> Self {
        Plan { n, l: sum(counts).unwrap_or(0) }
    }

    pub fn work_len(self) -> usize {
        unsafe { ffi::nuzsdike_work_len(ffi::number(self.n), ffi::number(self.l)) }
    }

    /// The outgoing buffer of the call for a round; round 0 is opening.
    pub fn out_len(self, round: usize) -> usize {
        unsafe { ffi::nuzsdike_out_len(ffi::number(self.n), ffi::number(self.l), ffi::number(round)) }
    }

    pub fn message_len(self, round: usize) -> usize {
        unsafe { ffi::nuzsdike_message_len(ffi::number(self.n), ffi::number(self.l), ffi::number(round)) }
    }

    pub fn bits_len(self) -> usize {
        unsafe { ffi::nuzsdike_bits_len(ffi::number(self.n), ffi::number(self.l)) }
    }

    /// Of alpha, of beta and of the results.
    pub fn shares_len(self) -> usize {
        unsafe { ffi::nuzsdike_shares_len(ffi::number(self.n), ffi::number(self.l)) }
    }

    pub fn masks_len(self) -> usize {
        unsafe { ffi::nuzsdike_masks_len(ffi::number(self.n), ffi::number(self.l)) }
    }

    pub fn pairs_len(self) -> usize {
        unsafe { ffi::nuzsdike_pairs_len(ffi::number(self.n)) }
    }

    /// The bytes of r to lend with the call for a round, where all strings are lent; in their place a seed of `R_SEED` bytes may be.
    pub fn r_len(self, round: usize) -> usize {
        unsafe { ffi::nuzsdike_r_len(ffi::number(self.n), ffi::number(self.l), ffi::number(round)) }
    }

    /// How many leaky ANDs make one AND.
    pub fn bucket_size(self) -> usize {
        unsafe { ffi::nuzsdike_bucket_size(ffi::number(self.l)) as usize }
    }

    /// The round after a round, 0 after the last; the first after 0.
    pub fn next_round(self, round: usize) -> usize {
        unsafe { ffi::nuzsdike_next_round(ffi::number(self.n), ffi::number(round)) as usize }
    }

    fn joint_seed_at(self) -> usize {
        unsafe { ffi::nuzsdike_joint_seed_at(ffi::number(self.n), ffi::number(self.l)) }
    }

    fn pairwise_seeds_at(self) -> usize {
        unsafe { ffi::nuzsdike_pairwise_seeds_at(ffi::number(self.n), ffi::number(self.l)) }
    }

    /// The rounds in order: 14 for two boxes, else 22.
    pub fn rounds(self) -> Vec<usize> {
        let next = |round: &usize| Some(self.next_round(*round)).filter(|next| *next != 0);
        std::iter::successors(next(&0), next).collect()
    }

    /// All of r, whichever call it is lent with.
    pub fn r_total(self) -> usize {
        self.rounds().into_iter().map(|round| self.r_len(round)).sum()
    }

    /// The bytes of the messages that a box sends in a session, and receives.
    pub fn traffic(self) -> usize {
        let messages: usize = self.rounds().into_iter().map(|round| self.message_len(round)).sum();
        messages * self.n.saturating_sub(1)
    }
}

/// What a box brings to a session. All of it is secret, and good for one session.
pub struct Inputs {
    pub delta: [u8; 16],
    /// Own seed of the joint toss.
    pub seed: [u8; 32],
    /// Own seeds of the pairwise tosses, 32 bytes by party.
    pub pairs: Vec<u8>,
    pub bits: Vec<u8>,
    pub alpha: Vec<u8>,
    pub beta: Vec<u8>,
    /// A byte for each party and leaky AND, by party.
    pub masks: Vec<u8>,
}

impl Drop for Inputs {
    fn drop(&mut self) {
        wipe(&mut self.delta);
        wipe(&mut self.seed);
        for list in [&mut self.pairs, &mut self.bits, &mut self.alpha, &mut self.beta, &mut self.masks] {
            wipe(list);
        }
    }
}

/// Zeroes memory that held secrets. `black_box` keeps the compiler from dropping writes that nobody reads.
pub fn wipe(bytes: &mut [u8]) {
    bytes.fill(0);
    hint::black_box(bytes);
}

/// The messages of a round to the other boxes.
pub struct Outgoing {
    round: usize,
    n: usize,
    i: usize,
    bytes: Vec<u8>,
}

impl Outgoing {
    pub fn round(&self) -> usize {
        self.round
    }

    /// The message to box k, empty for the own number.
    pub fn to(&self, k: usize) -> &[u8] {
        assert!(k < self.n, "there is no box {k} of {}", self.n);
        if k == self.i {
            return &[];
        }
        // They lie one after another, own left out.
        let len = self.bytes.len() / (self.n - 1);
        let place = if k < self.i { k } else { k - 1 };
        &self.bytes[place * len..][..len]
    }

    /// By party, the own one empty.
    pub fn messages(&self) -> Vec<&[u8]> {
        (0..self.n).map(|k| self.to(k)).collect()
    }
}

/// The others' messages of a round, as a round call takes them. At first each is missing.
pub struct Mail {
    round: usize,
    i: usize,
    /// The room for one message.
    room: usize,
    buffer: Vec<u8>,
    starts: Vec<usize>,
    lens: Vec<usize>,
    missing: Vec<u8>,
}

impl Mail {
    /// Room for a message of the due length from each other box.
    pub fn new(plan: Plan, i: usize, round: usize) -> Self {
        let len = plan.message_len(round);
        let place = |k: usize| if k < i { k } else { k.saturating_sub(1) };
        Mail {
            round,
            i,
            room: len,
            buffer: vec![0; len * plan.n.saturating_sub(1)],
            // The library ignores the own entry, but it has to lie inside.
            starts: (0..plan.n).map(|k| if k == i { 0 } else { place(k) * len }).collect(),
            lens: vec![0; plan.n],
            missing: vec![1; plan.n],
        }
    }

    pub fn round(&self) -> usize {
        self.round
    }

    /// A message of any length, copied.
    pub fn put(&mut self, from: usize, message: &[u8]) {
        if message.len() > self.room || from == self.i {
            self.starts[from] = self.buffer.len();
            self.buffer.extend_from_slice(message);
        } else {
            self.buffer[self.starts[from]..][..message.len()].copy_from_slice(message);
        }
        self.arrived(from, message.len());
    }

    /// The room for each party's message, the own one empty: for a transport that reads into it, and says `arrived`.
    pub fn slots(&mut self) -> Vec<&mut [u8]> {
        let mut rest = &mut self.buffer[..];
        let mut slots = vec![];
        for k in 0..self.starts.len() {
            let (slot, behind) = rest.split_at_mut(if k == self.i { 0 } else { self.room });
            slots.push(slot);
            rest = behind;
        }
        slots
    }

    /// Says that a message of `len` bytes lies in a party's slot.
    pub fn arrived(&mut self, from: usize, len: usize) {
        (self.lens[from], self.missing[from]) = (len, 0);
    }

    pub fn mark_missing(&mut self, from: usize) {
        self.missing[from] = 1;
    }
}

/// The bytes of a seed that r is drawn from.
pub const R_SEED: usize = ffi::R_SEED;

/// In which form a box lends r: a seed, from which the library draws the strings, or the strings. Boxes of one session may choose differently.
#[derive(Clone, Copy, Debug, Default, PartialEq, Eq)]
pub enum Form {
    #[default]
    Seed,
    Strings,
}

/// What an accepted round call gives.
pub enum Step {
    /// The messages of the next round.
    Send(Outgoing),
    /// The results: l share records, batch after batch. The session is over and its work area zero.
    Done { results: Vec<u8>, batches: Vec<Batch> },
}

/// A session of one box: the library's numbers and the work area. It neither waits nor starts a thread.
pub struct Session {
    plan: Plan,
    i: usize,
    state: [u32; ffi::SESSION],
    work: Vec<u8>,
}

impl Session {
    /// Opens a session for box i of n, for batches of these counts, and gives the messages of round 1. The inputs are copied to the work area and may
    /// be dropped. The boxes' counts have to have one sum and need not be the same.
    pub fn open(n: usize, i: usize, counts: &[u32], inputs: &Inputs) -> Result<(Session, Outgoing), Refusal> {
        let plan = Plan::of_batches(n, counts);
        let mut session = Session { plan, i, state: [0; ffi::SESSION], work: sys::work_area(plan.work_len()) };
        let outgoing = session.open_again(n, i, counts, inputs)?;
        Ok((session, outgoing))
    }

    /// Opens another session in the memory of this one, which is over then. Where that is refused, this one goes on as it was.
    pub fn open_again(&mut self, n: usize, i: usize, counts: &[u32], inputs: &Inputs) -> Result<Outgoing, Refusal> {
        let plan = Plan::of_batches(n, counts);
        let mut bytes = vec![0; plan.out_len(0)];
        // Sound: each pair is a slice's pointer (never null, in Rust) and its length; what is written is borrowed mutably and so overlaps
        // nothing; the library keeps no pointer.
        let answer = unsafe {
            ffi::nuzsdike_open(
                self.state.as_mut_ptr(),
                self.state.len(),
                ffi::number(n),
                ffi::number(i),
                counts.as_ptr(),
                counts.len(),
                inputs.delta.as_ptr(),
                inputs.delta.len(),
                inputs.seed.as_ptr(),
                inputs.seed.len(),
                inputs.pairs.as_ptr(),
                inputs.pairs.len(),
                inputs.bits.as_ptr(),
                inputs.bits.len(),
                inputs.alpha.as_ptr(),
                inputs.alpha.len(),
                inputs.beta.as_ptr(),
                inputs.beta.len(),
                inputs.masks.as_ptr(),
                inputs.masks.len(),
                self.work.as_mut_ptr(),
                self.work.len(),
                bytes.as_mut_ptr(),
                bytes.len(),
            )
        };
        if answer != 0 {
            return Err(Refusal::new(answer, Call::Open, self.due() == 0));
        }
        (self.plan, self.i) = (plan, i);
        Ok(Outgoing { round: self.due(), n, i, bytes })
    }

    /// The call for the round of `mail`. r is empty unless `Plan::r_len` asks for it; then it is a seed or the strings that it draws, the same at
    /// every box, and public. Where the call is refused the session may be over (`Refusal::over`), or as it was before.
    pub fn round(&mut self, mail: &Mail, r: &[u8]) -> Result<Step, Refusal> {
        let round = mail.round;
        let mut bytes = vec![0; self.plan.out_len(round)];
        let mut told = [0; ffi::TOLD];
        // Sound: as in `open`.
        let answer = unsafe {
            ffi::nuzsdike_round(
                self.state.as_mut_ptr(),
                self.state.len(),
                ffi::number(round),
                mail.buffer.as_ptr(),
                mail.buffer.len(),
                mail.starts.as_ptr(),
                mail.starts.len(),
                mail.lens.as_ptr(),
                mail.lens.len(),
                mail.missing.as_ptr(),
                mail.missing.len(),
                r.as_ptr(),
                r.len(),
                self.work.as_mut_ptr(),
                self.work.len(),
                bytes.as_mut_ptr(),
                bytes.len(),
                told.as_mut_ptr(),
                told.len(),
            )
        };
        if answer != 0 {
            return Err(Refusal::new(answer, Call::Round(round), self.due() == 0));
        }
        match self.due() {
            0 => Ok(Step::Done { results: bytes, batches: batches(&told) }),
            due => Ok(Step::Send(Outgoing { round: due, n: self.plan.n, i: self.i, bytes })),
        }
    }

    /// The round that is due, 0 once the session is over.
    pub fn due(&self) -> usize {
        // Sound: a slice of ours, read only.
        unsafe { ffi::nuzsdike_due(self.state.as_ptr(), self.state.len()) as usize }
    }

    pub fn plan(&self) -> Plan {
        self.plan
    }

    pub fn number(&self) -> usize {
        self.i
    }

    /// The joint seed, the same at every box, once round 3 was accepted: the seed of r is to be taken from it. The library draws the permutation
    /// from it by itself.
    pub fn joint_seed(&self) -> &[u8] {
        &self.work[self.plan.joint_seed_at()..][..32]
    }

    /// The seed of r: the first 16 bytes of the joint seed. So all boxes have the same, and none knew it before the toss was over.
    pub fn r_seed(&self) -> [u8; R_SEED] {
        self.joint_seed()[..R_SEED].try_into().expect("16 bytes")
    }

    /// r, to be lent with the call that is due it: the seed, or all strings, drawn from it here.
    pub fn r(&self, form: Form) -> Vec<u8> {
        match form {
            Form::Seed => self.r_seed().into(),
            Form::Strings => aes::draw(&self.r_seed(), self.plan.r_total()),
        }
    }

    /// The seeds tossed with each other box, 32 bytes by party, once round 5 was accepted.
    pub fn pairwise_seeds(&self) -> &[u8] {
        &self.work[self.plan.pairwise_seeds_at()..][..self.plan.pairs_len()]
    }

    /// The work area. It holds secrets as long as the session is alive.
    pub fn work(&self) -> &[u8] {
        &self.work
    }

    /// Whether the work area is all zero, as the library leaves it once a session is over.
    pub fn is_wiped(&self) -> bool {
        self.work.iter().all(|byte| *byte == 0)
    }
}

/// The batches that the last call tells: pairs of first position and count, of which unused ones count nothing.
fn batches(told: &[u32]) -> Vec<Batch> {
    let pairs = told.chunks_exact(2).map(|pair| Batch { first: pair[0] as usize, count: pair[1] as usize });
    pairs.filter(|batch| batch.count != 0).collect()
}

impl Drop for Session {
    fn drop(&mut self) {
        // A session that is over was zeroed by the library.
        if self.due() != 0 {
            wipe(&mut self.work);
        }
    }
}

/// Combines `count` triples of box i's records x, y, z into one, by count - 1 bytes d.
pub fn combine(n: usize, i: usize, count: usize, triples: &[u8], d: &[u8]) -> Result<Vec<u8>, Refusal> {
    let mut out = vec![0; 3 * record_len(n)];
    // Sound: as in `Session::open`.
    let answer = unsafe {
        ffi::nuzsdike_combine(
            ffi::number(n),
            ffi::number(i),
            ffi::number(count),
            triples.as_ptr(),
            triples.len(),
            d.as_ptr(),
            d.len(),
            out.as_mut_ptr(),
            out.len(),
        )
    };
    match answer {
        0 => Ok(out),
        _ => Err(Refusal::new(answer, Call::Combine, false)),
    }
}
