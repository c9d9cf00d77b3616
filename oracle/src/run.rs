//! One session of n parties in document 01's order, in lockstep: each turn hands every party the
//! whole round's messages and lets it run until it waits for the next round's, like a round call.

use std::{
    any::Any,
    cell::{Cell, RefCell},
    convert::Infallible,
    future::{Future, poll_fn},
    panic::{self, AssertUnwindSafe},
    pin::Pin,
    sync::{Arc, Once},
    task::{Context, Poll, Waker},
};

use recorded::Values;

use crate::{
    channel::{Channel, ErrorKind},
    mpc::{
        data_types::{self, Delta},
        faand::{self, Error},
    },
    ot_core::{self, Outputs},
    record::{BIT_AT, Share, block, key_at, mac_at, record_len, shares},
    session::Session,
};

/// A message of the session.
#[derive(Clone, Debug, PartialEq, Eq)]
pub struct Message {
    pub round: u8,
    pub from: usize,
    pub to: usize,
    pub sent: Vec<u8>,
    /// What the receiver gets: `None` for dropped, else the bytes.
    pub got: Option<Vec<u8>>,
}

/// How a session ended for one party.
#[derive(Clone, Debug, PartialEq, Eq)]
pub enum End {
    /// The l result shares.
    Done(Vec<Share>),
    /// Document 01's number, the round whose messages were read last, and the Rust's words. 13, 14
    /// and a wrong outer count (6) are its `ChannelErr`; 0 is an error without a number.
    Refused {
        number: u8,
        round: u8,
        error: String,
    },
    Panic {
        round: u8,
        error: String,
    },
}

impl End {
    /// Number and round of a refusal; a panic has the number 255.
    pub fn refused(&self) -> Option<(u8, u8)> {
        match self {
            End::Done(_) => None,
            End::Refused { number, round, .. } => Some((*number, *round)),
            End::Panic { round, .. } => Some((255, *round)),
        }
    }
}

#[derive(Clone, Debug, PartialEq, Eq)]
pub struct Outcome {
    /// In order of round, sender, receiver.
    pub messages: Vec<Message>,
    pub ends: Vec<End>,
    /// The joint seed and the pairwise ones of each party that got so far.
    pub joint_seeds: Vec<Option<[u8; 32]>>,
    pub pair_seeds: Vec<Vec<[u8; 32]>>,
    /// CPU time of each party, without making its inputs and carrying its messages.
    pub nanoseconds: Vec<u64>,
}

impl Outcome {
    pub fn message(&self, round: u8, from: usize, to: usize) -> Option<&Message> {
        let at = self
            .messages
            .binary_search_by_key(&(round, from, to), |m| (m.round, m.from, m.to));
        at.ok().map(|at| &self.messages[at])
    }

    /// The result shares of each party, if all are done.
    pub fn results(&self) -> Option<Vec<&[Share]>> {
        let mut lists = vec![];
        for end in &self.ends {
            let End::Done(shares) = end else { return None };
            lists.push(&shares[..]);
        }
        Some(lists)
    }

    /// What party `to` gets in a round, by sender; `None` for missing and for its own entry.
    pub fn incoming(&self, round: u8, to: usize) -> Vec<Option<&[u8]>> {
        let got = |from| self.message(round, from, to).and_then(|m| m.got.as_deref());
        (0..self.ends.len()).map(got).collect()
    }
}

const ROUNDS: [&str; 22] = [
    "RNG comm",
    "broadcast RNG comm",
    "RNG ver",
    "RNG comm",
    "RNG ver",
    "fabitn",
    "broadcast fabitn",
    "fashare comm",
    "broadcast fashare comm",
    "fashare ver",
    "broadcast fashare ver",
    "fashare di_bi",
    "broadcast fashare di_bi",
    "haand",
    "flaand",
    "broadcast flaand",
    "flaand comm",
    "broadcast flaand comm",
    "flaand hash",
    "broadcast flaand hash",
    "dvalue",
    "faand",
];

/// The Rust's phase of a round from 1 to 22.
pub fn round_name(round: u8) -> &'static str {
    ROUNDS[usize::from(round) - 1]
}

enum Mail {
    /// Not there yet, or taken.
    None,
    Missing,
    Here(Vec<u8>),
}

/// One party's end of the line.
struct Line {
    /// Whether the joint toss is over: both tosses have the same phases.
    pairwise: Cell<bool>,
    joint: Cell<Option<[u8; 32]>>,
    pairs: RefCell<Vec<[u8; 32]>>,
    inbox: RefCell<Vec<Mail>>,
    outbox: RefCell<Vec<(u8, usize, Vec<u8>)>>,
}

impl Channel for Line {
    type SendError = Infallible;
    type RecvError = &'static str;

    async fn send_bytes_to(&self, to: usize, data: Vec<u8>, phase: &str) -> Result<(), Infallible> {
        let from = if self.pairwise.get() { 3 } else { 0 };
        let at = ROUNDS[from..].iter().position(|name| *name == phase);
        let round = from + 1 + at.expect("oracle: a phase without a round");
        self.outbox.borrow_mut().push((round as u8, to, data));
        Ok(())
    }

    async fn recv_bytes_from(&self, from: usize, _: &str) -> Result<Vec<u8>, &'static str> {
        poll_fn(
            |_| match std::mem::replace(&mut self.inbox.borrow_mut()[from], Mail::None) {
                Mail::None => Poll::Pending,
                Mail::Missing => Poll::Ready(Err("missing")),
                Mail::Here(data) => Poll::Ready(Ok(data)),
            },
        )
        .await
    }
}

/// Document 01's order of the functions.
async fn party(
    line: &Line,
    i: usize,
    n: usize,
    l: usize,
    delta: Delta,
    alpha_beta: Vec<(data_types::Share, data_types::Share)>,
) -> Result<Vec<data_types::Share>, Error> {
    let mut joint = faand::shared_rng(line, i, n).await?;
    line.joint.set(Some(joint.get_seed()));
    line.pairwise.set(true);
    let mut pairs = faand::shared_rng_pairwise(line, i, n).await?;
    *line.pairs.borrow_mut() = (0..n)
        .map(|k| {
            pairs[i.min(k)][i.max(k)]
                .as_ref()
                .map_or([0; 32], |rng| rng.get_seed())
        })
        .collect();
    let count = 3 * l * faand::bucket_size(l);
    let bits = faand::fashare((line, delta), i, n, count, &mut pairs, &mut joint).await?;
    faand::beaver_aand((line, delta), &alpha_beta, i, n, l, &mut joint, &bits).await
}

/// The recorded values of party i, in the order in which the Rust draws them.
fn values(s: &Session, i: usize, r: &Option<Arc<Vec<u8>>>) -> Values {
    let p = &s.parties[i];
    let lb = s.l * s.b();
    let mut draws = p.joint_seed.to_vec();
    draws.extend(&p.pair_seeds);
    let records = p.bits.chunks_exact(record_len(s.n));
    draws.extend(records.map(|record| record[BIT_AT]));
    // ot.rs seeds a generator for each OT, which the OT here leaves alone.
    draws.resize(draws.len() + 2 * 16 * (s.n - 1), 0);
    for k in (0..s.n).filter(|k| *k != i) {
        draws.extend(&p.masks[k * lb..(k + 1) * lb]);
    }
    Values {
        draws,
        r: r.clone(),
        ..Default::default()
    }
}

fn outputs(s: &Session, i: usize) -> Outputs {
    let p = &s.parties[i];
    let delta = block(&p.delta);
    let mut o = Outputs::default();
    for k in 0..s.n {
        let records = p.bits.chunks_exact(record_len(s.n));
        let macs = records
            .clone()
            .map(|record| block(&record[mac_at(k)..][..16]));
        let keys = records.map(|record| block(&record[key_at(k)..][..16]));
        o.macs.push(macs.collect());
        o.keys.push(keys.map(|key| (key, key ^ delta)).collect());
    }
    o
}

fn number(error: &Error) -> u8 {
    match error {
        Error::InvalidBitValue => 1,
        Error::CommitmentCouldNotBeOpened => 2,
        Error::EmptyVector => 3,
        Error::ConversionErr => 4,
        Error::EmptyBucket => 5,
        Error::InvalidLength => 6,
        Error::InconsistentBroadcast => 7,
        Error::ABitWrongMAC => 8,
        Error::AShareWrongMAC => 9,
        Error::LaANDXorNotZero => 10,
        Error::AANDWrongMAC => 11,
        Error::BeaverWrongMAC => 12,
        Error::ChannelErr(e) => match e.reason {
            ErrorKind::SerdeError(_) => 13,
            ErrorKind::RecvError(_) => 14,
            ErrorKind::InvalidLength => 6,
            ErrorKind::SendError(_) => 0,
        },
        Error::EmptyMsg | Error::KOSConsistencyCheckFailed | Error::InvalidHashLength => 0,
    }
}

pub(crate) fn refusal(error: Error, round: u8) -> End {
    End::Refused {
        number: number(&error),
        round,
        error: format!("{error:?}"),
    }
}

thread_local! {
    static QUIET: Cell<bool> = const { Cell::new(false) };
    static PLACE: RefCell<String> = const { RefCell::new(String::new()) };
}

/// Runs f; a panic's words and place come back instead of being printed.
pub(crate) fn caught<T>(f: impl FnOnce() -> T) -> Result<T, String> {
    static HOOK: Once = Once::new();
    HOOK.call_once(|| {
        let loud = panic::take_hook();
        panic::set_hook(Box::new(move |info| {
            if QUIET.get() {
                let place = info
                    .location()
                    .map(|at| format!("{}:{}", at.file(), at.line()));
                PLACE.set(place.unwrap_or_default());
            } else {
                loud(info);
            }
        }));
    });
    QUIET.set(true);
    let result = panic::catch_unwind(AssertUnwindSafe(f));
    QUIET.set(false);
    result.map_err(|payload| {
        let words = words(&*payload);
        // A fault of ours is none of the Rust's.
        assert!(!words.contains("oracle: "), "{words}");
        format!("{words} at {}", PLACE.take())
    })
}

fn words(payload: &(dyn Any + Send)) -> &str {
    match payload.downcast_ref::<String>() {
        Some(words) => words,
        None => payload.downcast_ref::<&str>().unwrap_or(&"?"),
    }
}

/// CPU time of this thread, in nanoseconds.
pub fn cpu_time() -> u64 {
    let mut t = libc::timespec {
        tv_sec: 0,
        tv_nsec: 0,
    };
    // SAFETY: t is ours and outlives the call.
    unsafe { libc::clock_gettime(libc::CLOCK_THREAD_CPUTIME_ID, &mut t) };
    t.tv_sec as u64 * 1_000_000_000 + t.tv_nsec as u64
}

/// For `run`: every message as it is.
pub fn honest(_: u8, _: usize, _: usize, message: Vec<u8>) -> Option<Vec<u8>> {
    Some(message)
}

/// Runs a session. `tamper` is given each message's round, sender and receiver, and gives back what
/// the receiver gets, or `None` for nothing. A party that ended sends nothing any more, and the
/// others miss its messages.
///
/// # Panics
/// If the session's inputs have not the shape that `Session::check` wants.
pub fn run(
    s: &Session,
    tamper: &mut dyn FnMut(u8, usize, usize, Vec<u8>) -> Option<Vec<u8>>,
) -> Outcome {
    if let Err(what) = s.check() {
        panic!("inputs: {what}");
    }
    let n = s.n;
    let lines: Vec<Line> = (0..n)
        .map(|_| Line {
            pairwise: Cell::new(false),
            joint: Cell::new(None),
            pairs: RefCell::new(vec![]),
            inbox: RefCell::new((0..n).map(|_| Mail::None).collect()),
            outbox: RefCell::new(vec![]),
        })
        .collect();

    struct Running<'a> {
        future: Pin<Box<dyn Future<Output = Result<Vec<data_types::Share>, Error>> + 'a>>,
        values: Option<Values>,
        outputs: Outputs,
    }
    // Where r comes from the seed that the Rust tosses itself, it draws it by itself too.
    let r = (s.r_seed != Some(s.tossed_seed())).then(|| Arc::new(s.r.clone()));
    let mut running: Vec<Option<Running>> = (0..n)
        .map(|i| {
            let p = &s.parties[i];
            let lent = |list: &[u8]| shares(list, n).into_iter().map(|share| share.0);
            let alpha_beta = lent(&p.alpha).zip(lent(&p.beta)).collect();
            let delta = Delta(block(&p.delta));
            Some(Running {
                future: Box::pin(party(&lines[i], i, n, s.l, delta, alpha_beta)),
                values: Some(values(s, i, &r)),
                outputs: outputs(s, i),
            })
        })
        .collect();

    let mut ends: Vec<Option<End>> = vec![None; n];
    let mut messages = vec![];
    let mut nanoseconds = vec![0; n];
    let mut context = Context::from_waker(Waker::noop());
    let mut round = 0;
    loop {
        for i in 0..n {
            let Some(run) = &mut running[i] else { continue };
            recorded::swap(run.values.take());
            let others = ot_core::swap(std::mem::take(&mut run.outputs));
            let start = cpu_time();
            let polled = caught(|| run.future.as_mut().poll(&mut context));
            nanoseconds[i] += cpu_time() - start;
            run.outputs = ot_core::swap(others);
            run.values = recorded::swap(None);
            ends[i] = match polled {
                Ok(Poll::Pending) => continue,
                Ok(Poll::Ready(Ok(result))) => {
                    assert!(
                        run.values.as_ref().unwrap().used_up(),
                        "recorded values are left"
                    );
                    Some(End::Done(result.into_iter().map(Share).collect()))
                }
                Ok(Poll::Ready(Err(error))) => Some(refusal(error, round)),
                Err(error) => Some(End::Panic { round, error }),
            };
            running[i] = None;
        }

        // Every party that still runs waits for the round that it has just sent.
        let sent = (0..n).find(|i| running[*i].is_some());
        let Some(first) = sent else { break };
        round = lines[first].outbox.borrow()[0].0;
        for (to, run) in running.iter().enumerate() {
            if run.is_some() {
                for (from, mail) in lines[to].inbox.borrow_mut().iter_mut().enumerate() {
                    *mail = if from == to {
                        Mail::None
                    } else {
                        Mail::Missing
                    };
                }
            }
        }
        for (from, line) in lines.iter().enumerate() {
            for (its_round, to, sent) in line.outbox.take() {
                assert_eq!(its_round, round, "parties in different rounds");
                let got = tamper(round, from, to, sent.clone());
                lines[to].inbox.borrow_mut()[from] = match &got {
                    Some(data) => Mail::Here(data.clone()),
                    None => Mail::Missing,
                };
                messages.push(Message {
                    round,
                    from,
                    to,
                    sent,
                    got,
                });
            }
        }
    }
    drop(running);
    Outcome {
        messages,
        ends: ends.into_iter().map(Option::unwrap).collect(),
        joint_seeds: lines.iter().map(|line| line.joint.get()).collect(),
        pair_seeds: lines.iter().map(|line| line.pairs.take()).collect(),
        nanoseconds,
    }
}
