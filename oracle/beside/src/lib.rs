//! Our sessions beside the Rust's: include/nuzsdike.h for Rust, and n of our boxes in lockstep.

mod ffi;

use std::collections::BTreeMap;

use oracle::{
    BIT_AT, ENTRY, HEAD, N_AT, Party, Session, Share, SplitMix, cpu_time,
    damage::{message_len, rounds},
    kept, kept_len, labelled, mac_at, put_label, record_len, shares, shuffle,
};

/// How our session ended for one party.
#[derive(Clone, Debug, PartialEq, Eq)]
pub enum End {
    /// The l result records.
    Done(Vec<u8>),
    /// The round is that of the call, 0 for opening.
    Refused { number: u8, round: u8, party: usize },
}

/// What our boxes did.
pub struct Ran {
    /// The outgoing buffer of each accepted call, by round and sender.
    pub sent: BTreeMap<(u8, usize), Vec<u8>>,
    pub ends: Vec<End>,
    /// What broke the interface's promises.
    pub broken: Vec<String>,
    /// Calls that were refused for the host's own faults.
    pub probes: usize,
    /// Bit i: party i was lent r's seed, and not the strings.
    pub seeded: u8,
    /// Boxes whose work area has the permutation that their joint seed draws.
    pub permutations: usize,
    /// Boxes that were opened with several batches, and of all boxes those that were told theirs at the end.
    pub batched: usize,
    pub told: usize,
    /// CPU time of each party, its calls alone.
    pub nanoseconds: Vec<u64>,
    /// CPU time of each round call, by round and party.
    pub calls: BTreeMap<(u8, usize), u64>,
}

/// How much is looked at beside messages, results and answers.
#[derive(Clone, Copy, PartialEq, Eq)]
pub enum Care {
    /// Nothing: for benchmarks. Lent memory was touched before, as that of a box which lends the same for every session.
    Time,
    /// The same in fresh memory, whose pages the system makes when a call first touches them.
    TimeFresh,
    /// Memory after each refusal and at the end, and the permutation.
    Ends,
    /// Also what the work area holds, parts that lie anywhere, and calls that a host gets wrong.
    All,
}

impl Care {
    fn times(self) -> bool {
        matches!(self, Care::Time | Care::TimeFresh)
    }
}

/// The round whose call is lent r.
const R_DUE: u8 = 5;

/// The round whose messages the permutation goes into: the call before it draws that.
const DVALUE: u8 = 21;

/// Sections of docs/WORK_AREA.md, by number.
const JOINT: usize = 8;
const PAIRWISE: usize = 10;
const PERM: usize = 19;
const SECTIONS: usize = 24;

/// Where records of ours hold other shares than these, by value; their heads are left to `wrong_heads`.
pub fn other_shares(records: &[u8], due: &[Share], n: usize) -> Vec<String> {
    let (len, due_len) = (records.len(), due.len() * record_len(n));
    if len != due_len {
        return vec![format!("{len} bytes of records and not {due_len}")];
    }
    let places = shares(records, n).into_iter().zip(due).enumerate();
    let other = places.filter(|(_, (share, due))| share != *due);
    other
        .map(|(t, (share, due))| {
            let entry = |k: usize| share.mac(k) != due.mac(k) || share.key(k) != due.key(k);
            match (0..n).find(|k| entry(*k)) {
                Some(k) => format!("share {t} is another: entry {k}"),
                None => format!("share {t} is another: its bit"),
            }
        })
        .collect()
}

/// Where the head of a record of ours is not as due, whatever share it holds: a bit byte above 1, or another
/// label than party i's.
pub fn wrong_heads(records: &[u8], n: usize, i: usize) -> Vec<String> {
    let all = records.chunks_exact(record_len(n)).enumerate();
    let wrong = all.filter(|(_, record)| record[BIT_AT] > 1 || !labelled(record, n, i));
    wrong
        .map(|(t, record)| format!("wrong head of record {t}: {:?}", &record[..HEAD]))
        .collect()
}

/// A number of the answer, and the party above it.
fn answer(a: u64) -> (u8, usize) {
    (a as u8, (a >> 8) as usize)
}

pub fn lengths(s: &Session) -> Vec<String> {
    let (n, l) = (s.n, s.l);
    let mut wrong = vec![];
    let mut is = |what: &str, ours: usize, due: usize| {
        if ours != due {
            wrong.push(format!("n {n} l {l}: {what} is {ours} and not {due}"));
        }
    };
    is("bits", ffi::bits_len(n, l), s.parties[0].bits.len());
    is("shares", ffi::shares_len(n, l), l * record_len(n));
    is("masks", ffi::masks_len(n, l), n * l * s.b());
    is("pairs", ffi::pairs_len(n), 32 * n);
    is("record", ffi::record_bytes(n), record_len(n));
    is("bucket", ffi::bucket_size(l), s.b());
    let end = section(s, SECTIONS - 1).end;
    is("work area", ffi::work_len(n, l), end);
    let (joint, pairwise) = (ffi::joint_seed_at(n, l), ffi::pairwise_seeds_at(n, l));
    is("joint seed", joint, section(s, JOINT).start);
    is("pairwise seeds", pairwise, section(s, PAIRWISE).start);
    let all: Vec<u8> = rounds(n).collect();
    let mut before = 0;
    for round in &all {
        let len = message_len(*round, n, l, s.b());
        is("message", ffi::message_len(n, l, (*round).into()), len);
        is("out", ffi::out_len(n, l, before), (n - 1) * len);
        is("next", ffi::next_round(n, before), (*round).into());
        before = (*round).into();
        let r = if *round == R_DUE { s.r.len() } else { 0 };
        is("r", ffi::r_len(n, l, before), r);
    }
    is("results", ffi::out_len(n, l, 22), l * record_len(n));
    is("next", ffi::next_round(n, 22), 0);
    wrong
}

/// A box and what its host keeps for it.
struct Host<'a> {
    s: &'a Session,
    i: usize,
    counts: Vec<u32>,
    session: [u32; ffi::SESSION],
    work: Vec<u8>,
    out: Vec<u8>,
    told: Told,
}

/// What is told of batches, and a number behind it.
type Told = [u32; ffi::TOLD + 1];

/// All that a call may write.
type Memory = ([u32; ffi::SESSION], Vec<u8>, Vec<u8>, Told);

/// What a round call is lent beside the host's own.
#[derive(Clone, Default)]
struct Lent {
    incoming: Vec<u8>,
    starts: Vec<usize>,
    lens: Vec<usize>,
    missing: Vec<u8>,
    r: Vec<u8>,
    /// How many numbers there are for the batches.
    told: usize,
}

impl Host<'_> {
    fn open(&mut self) -> (u8, usize) {
        let p = &self.s.parties[self.i];
        answer(ffi::open(
            &mut self.session,
            self.s.n,
            self.i,
            &self.counts,
            p,
            &mut self.work,
            &mut self.out,
        ))
    }

    fn round(&mut self, round: usize, t: &Lent) -> (u8, usize) {
        let (work, out) = (&mut self.work[..], &mut self.out[..]);
        answer(ffi::round(
            &mut self.session,
            round,
            &t.incoming,
            &t.starts,
            &t.lens,
            &t.missing,
            &t.r,
            work,
            out,
            &mut self.told[..t.told],
        ))
    }

    fn memory(&self) -> Memory {
        (self.session, self.work.clone(), self.out.clone(), self.told)
    }
}

/// Counts of up to 16 batches whose sum is l.
fn batches(g: &mut SplitMix, l: usize) -> Vec<u32> {
    let most = ffi::BATCHES.min(l);
    let mut counts = vec![1; 1 + g.below(most)];
    for _ in counts.len()..l {
        let at = g.below(counts.len());
        counts[at] += 1;
    }
    counts
}

/// What the last call is to tell of batches of these counts, and the number behind that as it was.
fn told(counts: &[u32], behind: u32) -> Told {
    let mut told = [0; ffi::TOLD + 1];
    let mut first = 0;
    for (pair, count) in told.chunks_exact_mut(2).zip(counts) {
        pair.copy_from_slice(&[first, *count]);
        first += count;
    }
    told[ffi::TOLD] = behind;
    told
}

/// The bytes of a section of docs/WORK_AREA.md: start and length.
fn section(s: &Session, number: usize) -> std::ops::Range<usize> {
    let (n, l, lb, record) = (s.n, s.l, s.l * s.b(), kept_len(s.n));
    let lens: [usize; SECTIONS] = [
        16,
        32,
        32 * n,
        n * lb,
        (3 * lb + 160) * record,
        l * record,
        l * record,
        32 * n,
        32,
        32 * n,
        32 * n,
        n * 120 * 16,
        n * 40 * 96,
        n * 40 * (1 + 16 * (n - 1)),
        lb * (32 + 18 * n),
        lb * 17,
        n * lb,
        lb * 16,
        n * lb * 32,
        lb * 4,
        l * (s.b() - 1),
        l * 2 * record,
        2,
        n * 16,
    ];
    let start = lens[..number].iter().sum();
    start..start + lens[number]
}

/// Who is lent r's seed, where it has one: all, or any.
fn seeded(g: &mut SplitMix, s: &Session, care: Care) -> u8 {
    let all = u8::MAX >> (8 - s.n);
    match s.r_seed {
        None => 0,
        Some(_) if care.times() || g.below(2) == 0 => all,
        Some(_) => 1 + g.below(all.into()) as u8,
    }
}

/// A length that r must not have in a call that is due so many bytes of it.
fn bad_r_len(g: &mut SplitMix, due: usize) -> usize {
    let lens = match due {
        0 => [1, 15, 16, 16, 16, 17, 32, 3840],
        _ => [0, 1, 15, 17, 32, due - 16, due - 1, due + 1],
    };
    lens[g.below(lens.len())]
}

/// A call for round k with something wrong that ends no session: its number.
fn spoil(g: &mut SplitMix, s: &Session, i: usize, round: u8, t: &mut Lent) -> (usize, u8) {
    let n = s.n;
    let other = (i + 1 + g.below(n - 1)) % n;
    let due = usize::from(round);
    match g.below(8) {
        0 => {
            let wrong = [0, due + 1, due - 1, 23, usize::MAX, g.below(30)];
            let wrong = wrong[g.below(6)];
            if wrong == due { (0, 19) } else { (wrong, 19) }
        }
        1 => {
            t.starts.push(0);
            (due, 17)
        }
        2 => {
            t.lens.pop();
            (due, 17)
        }
        3 => {
            t.missing.push(0);
            (due, 17)
        }
        4 => {
            let len = bad_r_len(g, if round == R_DUE { s.r_len() } else { 0 });
            t.r = g.bytes(len);
            (due, 17)
        }
        5 => {
            t.missing[other] = 0;
            t.starts[other] = t.incoming.len() - t.lens[other].min(t.incoming.len());
            t.lens[other] = t.incoming.len() - t.starts[other] + 1;
            (due, 17)
        }
        6 => {
            t.told = [0, ffi::TOLD - 1, ffi::TOLD + 1][g.below(3)];
            (due, 17)
        }
        _ => {
            t.missing[other] = 0;
            (t.starts[other], t.lens[other]) = (usize::MAX - g.below(2), 1 + g.below(3));
            (due, 17)
        }
    }
}

/// An opening with something wrong: n, i, counts, what is lent, lengths of work area and outgoing buffer off
/// by so much, and its number.
struct Wrong {
    n: usize,
    i: usize,
    counts: Vec<u32>,
    lent: Party,
    work: isize,
    out: isize,
    number: u8,
}

fn spoil_opening(g: &mut SplitMix, s: &Session, i: usize) -> Wrong {
    let (n, l, record) = (s.n, s.l, record_len(s.n));
    let other = (i + 1 + g.below(n - 1)) % n;
    let mut w = Wrong {
        n,
        i,
        counts: batches(g, l),
        lent: s.parties[i].clone(),
        work: 0,
        out: 0,
        number: 17,
    };
    // the inputs may be damaged already
    for list in w.lent.lists_mut() {
        for record in list.chunks_exact_mut(record) {
            record[BIT_AT] &= 1;
            put_label(record, n, i);
            record[mac_at(i)..][..ENTRY].fill(0);
        }
    }
    let which = g.below(3);
    match g.below(13) {
        0 => {
            w.n = [0, 1, 9, usize::MAX][g.below(4)];
            w.number = 15;
        }
        1 => {
            w.i = [n, 8, u32::MAX as usize][g.below(3)].max(n);
            w.number = 15;
        }
        2 => {
            let l = l as u32;
            let lists = [
                (vec![], 23),
                (vec![1; ffi::BATCHES + 1], 23),
                (vec![300_001], 16),
                // in 32 bits it would be l
                (vec![u32::MAX, l + 1], 16),
                (vec![0, 300_001], 16),
                (vec![l, 0], 3),
                (vec![0, l], 3),
            ];
            (w.counts, w.number) = lists[g.below(lists.len())].clone();
        }
        3 => {
            let list = &mut w.lent.lists_mut()[which];
            match g.below(2) {
                0 => _ = list.pop(),
                _ => list.extend(vec![0; record]),
            }
            // masks come after
            w.lent.masks.pop();
            w.number = 6;
        }
        4 => _ = w.lent.masks.pop(),
        5 => w.lent.pair_seeds.push(0),
        6 => w.work = [-1, 1][g.below(2)],
        7 => w.out = [-1, 1][g.below(2)],
        8 => {
            let list = &mut w.lent.lists_mut()[which];
            let at = record * g.below(list.len() / record);
            list[at + BIT_AT] = 2 + g.below(254) as u8;
            // and label and own entry, which come after
            list[at + N_AT] = 0;
            list[at + mac_at(i)] = 1;
            w.number = 1;
        }
        9 => {
            let lb = l * s.b();
            w.lent.masks[other * lb + g.below(lb)] = 2 + g.below(254) as u8;
            w.number = 1;
        }
        10 => {
            let list = &mut w.lent.lists_mut()[which];
            let at = record * g.below(list.len() / record);
            list[at + N_AT + g.below(HEAD - N_AT)] ^= 1 + g.below(255) as u8;
            // and the own entry and a mask, which come after
            list[at + mac_at(i)] = 1;
            w.lent.masks[other * l * s.b()] = 2;
            w.number = 22;
        }
        // another number than all records say
        11 => {
            w.i = other;
            w.number = 22;
        }
        _ => {
            let at = record * g.below(s.bits_count()) + mac_at(i) + g.below(ENTRY);
            w.lent.bits[at] = 1 + g.below(255) as u8;
            // a later record's bit and label come after
            w.lent.beta[BIT_AT] = 2;
            w.lent.alpha[N_AT] = 0;
            w.number = 4;
        }
    }
    w
}

/// Runs our n boxes on the inputs of a session, in lockstep as `oracle::run` has it; `tamper` is as
/// there. Where r has a seed, all boxes or some are lent that. With all care half of the sessions are opened
/// with a list of batches, another for each box. `seeds` are the tossed seeds of the Rust, where they are to
/// be compared.
pub fn run(
    s: &Session,
    tamper: &mut dyn FnMut(u8, usize, usize, Vec<u8>) -> Option<Vec<u8>>,
    care: Care,
    g: &mut SplitMix,
    seeds: Option<&oracle::Outcome>,
) -> Ran {
    let (n, l) = (s.n, s.l);
    let work_len = ffi::work_len(n, l);
    let mut broken = vec![];
    let mut probes = 0;
    let mut permutations = 0;
    let mut all_told = 0;
    let mut nanoseconds = vec![0; n];
    let mut calls = BTreeMap::new();
    let mut sent: BTreeMap<(u8, usize), Vec<u8>> = BTreeMap::new();
    let mut ends: Vec<Option<End>> = vec![None; n];
    let all: Vec<u8> = rounds(n).collect();
    let seeded = seeded(g, s, care);
    let several = care == Care::All && g.below(2) == 0;

    // What lies in lent memory before a call is of no account.
    let dirt = |g: &mut SplitMix, len: usize| match care {
        Care::Time => vec![1; len],
        Care::TimeFresh => vec![0; len],
        _ => g.bytes(len),
    };
    let mut hosts: Vec<Host> = (0..n)
        .map(|i| Host {
            s,
            i,
            counts: match several {
                true => batches(g, l),
                false => vec![l as u32],
            },
            session: [g.word() as u32; ffi::SESSION],
            work: dirt(g, work_len),
            out: dirt(g, ffi::out_len(n, l, 0)),
            told: [g.word() as u32; ffi::TOLD + 1],
        })
        .collect();
    let batched = hosts.iter().filter(|h| h.counts.len() > 1).count();
    // A session that is over answers 20 and touches nothing.
    let over = |h: &mut Host, g: &mut SplitMix, broken: &mut Vec<String>| {
        if ffi::due(&h.session) != 0 {
            broken.push(format!("party {}: over, and a round is due", h.i));
        }
        let before = h.memory();
        let round = g.below(24);
        let a = h.round(round, &Lent::default());
        if a != (20, h.i) {
            broken.push(format!(
                "party {}: over, and answers {a:?} to round {round}",
                h.i
            ));
        }
        if before != h.memory() {
            broken.push(format!("party {}: 20 changed memory", h.i));
        }
    };

    for h in &mut hosts {
        let i = h.i;
        if care == Care::All && g.below(2) == 0 {
            let w = spoil_opening(g, s, i);
            let by = |len: usize, more: isize| len.checked_add_signed(more).unwrap();
            let (work_len, out_len) = (by(h.work.len(), w.work), by(h.out.len(), w.out));
            let (mut work, mut out) = (g.bytes(work_len), g.bytes(out_len));
            let before = (work.clone(), out.clone());
            // The session's length is one more 17, before the lent bytes.
            const DUE: usize = ffi::SESSION;
            let mut session = vec![7; [DUE, DUE, DUE, DUE - 1, DUE + 1, 0][g.below(6)]];
            let a = ffi::open(
                &mut session,
                w.n,
                w.i,
                &w.counts,
                &w.lent,
                &mut work,
                &mut out,
            );
            let number = match w.number {
                1 | 22 | 4 if session.len() != DUE => 17,
                number => number,
            };
            let due = (number, w.i);
            if answer(a) != due {
                let a = answer(a);
                broken.push(format!("party {i}: opening answers {a:?} and not {due:?}"));
            }
            // The counts' refusals, which name no party there.
            let sum = match w.number {
                23 | 16 | 3 => u64::from(number) | 1 << 40,
                _ => l as u64,
            };
            if ffi::sum(&w.counts) != sum {
                broken.push(format!("the sum of {:?} is not {sum}", w.counts));
            }
            if before != (work, out) || session.iter().any(|x| *x != 7) {
                broken.push(format!("party {i}: opening, {number} changed memory"));
            }
            probes += 1;
        }
        let before = (!care.times()).then(|| h.memory());
        let start = cpu_time();
        let (number, party) = h.open();
        nanoseconds[i] += cpu_time() - start;
        if number != 0 {
            ends[i] = Some(End::Refused {
                number,
                round: 0,
                party,
            });
            if before.is_some_and(|b| b != h.memory()) {
                broken.push(format!("party {i}: a refused opening wrote"));
            }
            continue;
        }
        if care == Care::All {
            let p = &s.parties[i];
            let [bits, alpha, beta] = [&p.bits, &p.alpha, &p.beta].map(|list| kept(list, s.n));
            let inputs: [&[u8]; 7] = [
                &p.delta,
                &p.joint_seed,
                &p.pair_seeds,
                &p.masks,
                &bits,
                &alpha,
                &beta,
            ];
            for (number, list) in inputs.iter().enumerate() {
                if &h.work[section(s, number)] != *list {
                    broken.push(format!("party {i}: section {number} is not what was lent"));
                }
            }
        }
        if ffi::due(&h.session) != 1 {
            broken.push(format!("party {i}: round 1 is not due after opening"));
        }
        sent.insert((1, i), h.out.clone());
    }

    for (at, &round) in all.iter().enumerate() {
        let next = all.get(at + 1).copied();
        let mlen = message_len(round, n, l, s.b());
        for h in hosts.iter_mut() {
            let i = h.i;
            if ends[i].is_some() {
                continue;
            }
            // the parts in any order, with gaps between
            let mut t = Lent {
                starts: vec![0; n],
                lens: vec![0; n],
                missing: vec![0; n],
                told: ffi::TOLD,
                ..Default::default()
            };
            let turn = if care == Care::All { g.below(n) } else { 0 };
            for k in (0..n).map(|k| (k + turn) % n).filter(|k| *k != i) {
                let slot = if i > k { i - 1 } else { i };
                let message = (sent.get(&(round, k)))
                    .map(|all| all[slot * mlen..][..mlen].to_vec())
                    .and_then(|m| tamper(round, k, i, m));
                if care == Care::All {
                    let gap = g.below(9);
                    t.incoming.extend(g.bytes(gap));
                }
                match message {
                    Some(m) => {
                        (t.starts[k], t.lens[k]) = (t.incoming.len(), m.len());
                        t.incoming.extend(m);
                    }
                    None => {
                        (t.starts[k], t.lens[k]) = (g.word() as usize, g.word() as usize);
                        t.missing[k] = 1 + g.below(255) as u8;
                    }
                }
            }
            if care == Care::All {
                (t.starts[i], t.lens[i]) = (g.word() as usize, g.word() as usize);
                t.missing[i] = g.below(256) as u8;
            }
            if round == R_DUE {
                t.r = match s.r_seed {
                    Some(seed) if seeded >> i & 1 == 1 => seed.to_vec(),
                    _ => s.r.clone(),
                };
            }

            let out_len = ffi::out_len(n, l, round.into());
            h.out = dirt(g, out_len);
            if care == Care::All && g.below(4) == 0 {
                let mut wrong = t.clone();
                let (call, number) = spoil(g, s, i, round, &mut wrong);
                let before = h.memory();
                let a = h.round(call, &wrong);
                if a != (number, i) {
                    broken.push(format!("party {i} round {round}: {a:?} and not {number}"));
                }
                if before != h.memory() {
                    broken.push(format!("party {i} round {round}: {number} changed memory"));
                }
                probes += 1;
            }

            let before = (!care.times()).then(|| h.out.clone());
            let told_before = h.told;
            let start = cpu_time();
            let (number, party) = h.round(round.into(), &t);
            let took = cpu_time() - start;
            nanoseconds[i] += took;
            calls.insert((round, i), took);
            if number != 0 {
                ends[i] = Some(End::Refused {
                    number,
                    round,
                    party,
                });
                if before.is_some_and(|out| out != h.out) || h.told != told_before {
                    broken.push(format!("party {i} round {round}: a refused call wrote"));
                }
                if h.work.iter().any(|byte| *byte != 0) {
                    broken.push(format!("party {i} round {round}: work area not zero"));
                }
                over(h, g, &mut broken);
                continue;
            }
            if let Some(outcome) = seeds.filter(|_| care == Care::All) {
                if round == 3
                    && outcome.joint_seeds[i].is_none_or(|its| h.work[section(s, JOINT)] != its)
                {
                    broken.push(format!("party {i}: another joint seed"));
                }
                if round == 5 && outcome.pair_seeds[i].concat() != h.work[section(s, PAIRWISE)] {
                    broken.push(format!("party {i}: other pairwise seeds"));
                }
            }
            if next == Some(DVALUE) && !care.times() {
                let joint_seed = h.work[section(s, JOINT)].try_into().unwrap();
                let due = shuffle::drawn(&joint_seed, l * s.b());
                let kept = h.work[section(s, PERM)].as_chunks().0.iter();
                if kept.copied().map(u32::from_le_bytes).eq(due) {
                    permutations += 1;
                } else {
                    broken.push(format!("party {i}: another permutation"));
                }
            }
            match next {
                Some(next) => {
                    if ffi::due(&h.session) != next.into() {
                        broken.push(format!("party {i}: round {next} is not due after {round}"));
                    }
                    if h.told != told_before {
                        broken.push(format!("party {i}: batches are told in round {round}"));
                    }
                    sent.insert((next, i), h.out.clone());
                }
                None => {
                    ends[i] = Some(End::Done(h.out.clone()));
                    if h.told == told(&h.counts, told_before[ffi::TOLD]) {
                        all_told += 1;
                    } else {
                        broken.push(format!("party {i}: other batches than {:?}", h.counts));
                    }
                    if h.work.iter().any(|byte| *byte != 0) {
                        broken.push(format!("party {i}: done, work area not zero"));
                    }
                    if !care.times() {
                        over(h, g, &mut broken);
                    }
                }
            }
        }
    }
    Ran {
        sent,
        ends: ends.into_iter().map(Option::unwrap).collect(),
        broken,
        probes,
        seeded,
        permutations,
        batched,
        told: all_told,
        nanoseconds,
        calls,
    }
}

/// Combining alone: the three records, or number and party.
pub fn combine(
    n: usize,
    i: usize,
    count: usize,
    triples: &[u8],
    d: &[u8],
    out_len: usize,
) -> Result<Vec<u8>, (u8, usize)> {
    let mut out = vec![0xa5; out_len];
    match answer(ffi::combine(n, i, count, triples, d, &mut out)) {
        (0, 0) => Ok(out),
        refused => {
            assert!(
                out.iter().all(|byte| *byte == 0xa5),
                "a refused combining wrote"
            );
            Err(refused)
        }
    }
}

/// Opening with l = 0: the answer.
pub fn open_nothing(s: &Session, i: usize) -> (u8, usize) {
    let mut h = Host {
        s,
        i,
        counts: vec![0],
        session: [7; ffi::SESSION],
        work: vec![],
        out: vec![],
        told: [7; ffi::TOLD + 1],
    };
    h.open()
}
