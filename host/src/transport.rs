//! Lines between boxes: TCP, length-framed, one thread, every wait with an end.
//!
//! Box i listens, and calls every box below it. Either end of a new line says hello (HELLO bytes): who it is and what session it wants. Then
//! frames follow: 2 bytes of magic, kind, round, 4 bytes of length (low byte first), and the message. A box that ends a session early says so
//! to the others, and hangs up. After the last round each box says that it is done, and none hands out results before all have: with a fault in
//! round 22 no box believes itself alone (against a malicious box this is no guarantee; nothing is, with abort).
//!
//! There is no encryption and no authentication here. A deployment puts both under the frames (docs/SECURITY.md).

use std::{
    error, fmt,
    io::{self, ErrorKind, IoSlice, Read, Write},
    net::{Shutdown, SocketAddr, TcpListener, TcpStream},
    os::fd::AsRawFd,
    time::{Duration, Instant},
};

use crate::{
    round_title,
    sys::{self, Wait},
    Reason,
};

/// The bytes of a frame before its message.
pub const HEAD: usize = 8;
/// The bytes of a hello: magic and version, then n, i, l (8 bytes each), the deal, and zeros.
pub const HELLO: usize = 64;

const HELLO_MAGIC: &[u8; 8] = b"NUZSDIK\x01";
const MAGIC: [u8; 2] = *b"NZ";
pub const MESSAGE: u8 = 1;
pub const DONE: u8 = 2;
pub const END: u8 = 3;
/// The bytes of what an END frame carries.
const NOTICE: usize = 5;
/// How many callers may be half way through their hello at once.
const CALLERS: usize = 64;
/// How long a call may ring, and how soon the next is tried.
const CALL: Duration = Duration::from_secs(1);
const AGAIN: Duration = Duration::from_millis(20);
/// How long a box that ends early waits for the others to read why.
const LINGER: Duration = Duration::from_millis(500);

/// Who a box is, and which session it wants: what both ends of a line have to agree on.
#[derive(Clone, Copy, Debug, PartialEq, Eq)]
pub struct Who {
    pub n: usize,
    pub i: usize,
    pub l: usize,
    /// Names the session, so that boxes of two sessions do not mix.
    pub id: [u8; 16],
}

impl Who {
    pub fn to_bytes(self) -> [u8; HELLO] {
        let mut hello = [0; HELLO];
        hello[..8].copy_from_slice(HELLO_MAGIC);
        for (at, number) in [(8, self.n), (16, self.i), (24, self.l)] {
            hello[at..at + 8].copy_from_slice(&(number as u64).to_le_bytes());
        }
        hello[32..48].copy_from_slice(&self.id);
        hello
    }

    pub fn from_bytes(hello: &[u8; HELLO]) -> Option<Self> {
        let number = |at: usize| u64::from_le_bytes(hello[at..at + 8].try_into().unwrap()) as usize;
        let fits = hello[..8] == *HELLO_MAGIC && hello[48..] == [0; 16];
        fits.then(|| Who { n: number(8), i: number(16), l: number(24), id: hello[32..48].try_into().unwrap() })
    }
}

/// A frame's head.
pub fn head(kind: u8, round: usize, len: usize) -> [u8; HEAD] {
    let len = u32::try_from(len).expect("no message of a session has 4 GiB").to_le_bytes();
    [MAGIC[0], MAGIC[1], kind, round as u8, len[0], len[1], len[2], len[3]]
}

/// Kind, round and length.
pub fn read_head(head: &[u8; HEAD]) -> Option<(u8, usize, usize)> {
    let len = u32::from_le_bytes(head[4..].try_into().unwrap()) as usize;
    (head[..2] == MAGIC && (MESSAGE..=END).contains(&head[2])).then_some((head[2], usize::from(head[3]), len))
}

/// Where in a session something happened.
#[derive(Clone, Copy, Debug, PartialEq, Eq)]
pub enum Place {
    Hello,
    Opening,
    Round(usize),
    Closing,
}

impl Place {
    /// As a frame has it.
    fn byte(self) -> u8 {
        match self {
            Place::Hello => 0,
            Place::Round(round) => round as u8,
            Place::Opening => 254,
            Place::Closing => 255,
        }
    }

    fn from_byte(byte: u8) -> Self {
        match byte {
            0 => Place::Hello,
            254 => Place::Opening,
            255 => Place::Closing,
            round => Place::Round(round.into()),
        }
    }
}

impl fmt::Display for Place {
    fn fmt(&self, f: &mut fmt::Formatter) -> fmt::Result {
        match self {
            Place::Hello => write!(f, "at hello"),
            Place::Opening => write!(f, "at opening"),
            Place::Round(round) => match round_title(*round) {
                title if title.is_empty() => write!(f, "in round {round}"),
                title => write!(f, "in round {round} ({title})"),
            },
            Place::Closing => write!(f, "at closing"),
        }
    }
}

/// Why a box ends a session, as it tells the others. They hear numbers, and no text that a stranger could write.
#[derive(Clone, Copy, Debug, PartialEq, Eq)]
pub enum Cause {
    /// Its library refused; the party that the answer names.
    Refusal(Reason, usize),
    /// A line of its broke; the box at the other end, if known.
    Line(Option<usize>),
    /// Something of its own: a file, memory.
    Host,
}

/// What the first box that ended a session says; others pass it on as it is.
#[derive(Clone, Copy, Debug, PartialEq, Eq)]
pub struct Notice {
    pub origin: usize,
    pub place: Place,
    pub cause: Cause,
}

impl Notice {
    fn to_bytes(self) -> [u8; NOTICE] {
        let (what, number, party) = match self.cause {
            Cause::Refusal(reason, party) => (1, reason.number(), party as u8),
            Cause::Line(party) => (2, 0, party.map_or(255, |party| party as u8)),
            Cause::Host => (3, 0, 255),
        };
        [self.origin as u8, self.place.byte(), what, number, party]
    }

    fn from_bytes([origin, place, what, number, party]: [u8; NOTICE]) -> Self {
        let cause = match what {
            1 => Cause::Refusal(Reason(number), party.into()),
            2 => Cause::Line((party != 255).then_some(party.into())),
            _ => Cause::Host,
        };
        Notice { origin: origin.into(), place: Place::from_byte(place), cause }
    }
}

impl fmt::Display for Notice {
    fn fmt(&self, f: &mut fmt::Formatter) -> fmt::Result {
        let Notice { origin, place, cause } = self;
        match cause {
            Cause::Refusal(reason, party) => write!(f, "box {origin} refused {reason} {place}, naming box {party}"),
            Cause::Line(Some(party)) => write!(f, "box {origin}'s line to box {party} failed {place}"),
            Cause::Line(None) => write!(f, "box {origin}'s lines failed {place}"),
            Cause::Host => write!(f, "box {origin} had trouble of its own {place}"),
        }
    }
}

/// What went wrong on a line.
#[derive(Clone, Debug, PartialEq, Eq)]
pub enum Trouble {
    /// Not all came in time: so many bytes of so many, 0 of 0 where not even a head came.
    Silent {
        got: usize,
        want: usize,
        waited: Duration,
    },
    /// All came, but what we sent was not taken in time.
    NotTaken {
        waited: Duration,
    },
    /// The other end hung up.
    Closed {
        got: usize,
        want: usize,
    },
    Broken(ErrorKind),
    TooLong {
        len: usize,
        most: usize,
    },
    Garbage([u8; HEAD]),
    NoHello,
    OutOfStep {
        at: Place,
    },
    /// The other end ended the session.
    Ended(Notice),
    Disagrees {
        on: &'static str,
        ours: String,
        theirs: String,
    },
    /// Two boxes have this number.
    SameNumber,
    /// The box at that address is another one.
    OtherNumber {
        says: usize,
    },
    Unreachable {
        address: SocketAddr,
        error: ErrorKind,
    },
    NeverCalled {
        strangers: usize,
        waited: Duration,
    },
    /// Our own listening socket.
    Listener(ErrorKind),
}

/// A line that failed: to which box, where in the session, and how.
#[derive(Clone, Debug, PartialEq, Eq)]
pub struct LineError {
    pub peer: Option<usize>,
    pub place: Place,
    pub trouble: Trouble,
}

impl fmt::Display for LineError {
    fn fmt(&self, f: &mut fmt::Formatter) -> fmt::Result {
        match self.peer {
            Some(peer) => write!(f, "line to box {peer} failed {}: ", self.place)?,
            None => write!(f, "lines failed {}: ", self.place)?,
        }
        let part = |got: &usize, want: &usize| match (got, want) {
            (0, 0) => "no message".into(),
            (got, 0) => format!("{got} of the {HEAD} bytes of a frame's head"),
            (got, want) => format!("{got} of {want} bytes of a message"),
        };
        match &self.trouble {
            Trouble::Silent { got, want, waited } => write!(f, "it sent {} in {:.1} s", part(got, want), waited.as_secs_f64()),
            Trouble::NotTaken { waited } => write!(f, "it did not take our message in {:.1} s", waited.as_secs_f64()),
            Trouble::Closed { got, want } => write!(f, "it went away after {}", part(got, want)),
            Trouble::Broken(kind) => write!(f, "{kind}"),
            Trouble::TooLong { len, most } => write!(f, "it announced a message of {len} bytes, at most {most} are due"),
            Trouble::Garbage(head) => write!(f, "it sent garbage ({head:02x?} is no head of a frame)"),
            Trouble::NoHello => write!(f, "it said no hello of this protocol"),
            Trouble::OutOfStep { at } => write!(f, "it sent a message that belongs {at}"),
            Trouble::Ended(notice) => write!(f, "it ended the session, because {notice}"),
            Trouble::Disagrees { on, ours, theirs } => write!(f, "the boxes disagree on {on}: {ours} here, {theirs} there"),
            Trouble::SameNumber => write!(f, "two boxes have this number"),
            Trouble::OtherNumber { says } => write!(f, "the box at its address says that it is box {says}"),
            Trouble::Unreachable { address, error } => write!(f, "{address} can't be reached ({error})"),
            Trouble::NeverCalled { strangers: 0, waited } => write!(f, "it did not call in {:.1} s", waited.as_secs_f64()),
            Trouble::NeverCalled { strangers, waited } => {
                write!(f, "it did not call in {:.1} s ({strangers} callers were no boxes)", waited.as_secs_f64())
            }
            Trouble::Listener(kind) => write!(f, "can't take calls ({kind})"),
        }
    }
}

impl error::Error for LineError {}

impl LineError {
    /// What box i tells the others of it.
    pub fn notice(&self, i: usize) -> Notice {
        match self.trouble {
            Trouble::Ended(notice) => notice,
            _ => Notice { origin: i, place: self.place, cause: Cause::Line(self.peer) },
        }
    }
}

/// A line to another box.
struct Line {
    stream: TcpStream,
    /// A frame is half sent: nothing else may follow.
    mid_frame: bool,
}

/// Lines to all other boxes.
pub struct Lines {
    who: Who,
    lines: Vec<Option<Line>>,
    timeout: Duration,
}

/// Someone at the other end of a new line whose hello is not all here.
struct Caller {
    stream: TcpStream,
    /// Whom we called; nobody if we were called.
    expected: Option<usize>,
    hello: [u8; HELLO],
    got: usize,
}

/// Reset or hung up: to us both mean that the other end is gone.
fn gone(error: &io::Error) -> bool {
    matches!(error.kind(), ErrorKind::ConnectionReset | ErrorKind::ConnectionAborted | ErrorKind::BrokenPipe)
}

fn would_block(error: &io::Error) -> bool {
    matches!(error.kind(), ErrorKind::WouldBlock | ErrorKind::Interrupted)
}

impl Lines {
    /// Lines to all other boxes, each end knowing who the other is. `addresses` has every box's, by number. Ends within the time-out, which
    /// holds for every later exchange too.
    pub fn connect(who: Who, listener: &TcpListener, addresses: &[SocketAddr], timeout: Duration) -> Result<Lines, LineError> {
        assert!(addresses.len() == who.n && who.i < who.n, "an address for each of {} boxes", who.n);
        let mut lines = Lines { who, lines: (0..who.n).map(|_| None).collect(), timeout };
        let mut callers = vec![];
        match lines.greet(listener, addresses, &mut callers) {
            Ok(()) => Ok(lines),
            Err(error) => {
                // Those that we know of but have no line to yet get to hear of it too.
                lines.lines.extend(callers.into_iter().map(|caller| Some(Line { stream: caller.stream, mid_frame: false })));
                lines.end(error.notice(who.i));
                Err(error)
            }
        }
    }

    fn greet(&mut self, listener: &TcpListener, addresses: &[SocketAddr], callers: &mut Vec<Caller>) -> Result<(), LineError> {
        let begin = Instant::now();
        let deadline = begin + self.timeout;
        let at_hello = |peer, trouble| LineError { peer, place: Place::Hello, trouble };
        let mut strangers = 0;
        // Those still to be called, and why the last call failed. A box that starts a little later is no error.
        let mut absent: Vec<(usize, ErrorKind)> = (0..self.who.i).map(|k| (k, ErrorKind::TimedOut)).collect();
        let mut next_call = begin;
        let own = |error: io::Error| at_hello(None, Trouble::Listener(error.kind()));
        listener.set_nonblocking(true).map_err(own)?;

        let mut watched = vec![true; self.who.n];
        while let Some(missing) = (0..self.who.n).find(|k| *k != self.who.i && self.lines[*k].is_none()) {
            let Some(rest) = deadline.checked_duration_since(Instant::now()) else {
                let waited = begin.elapsed();
                if let Some((k, error)) = absent.first() {
                    return Err(at_hello(Some(*k), Trouble::Unreachable { address: addresses[*k], error: *error }));
                }
                let called = callers.iter().find(|caller| caller.expected == Some(missing));
                return Err(match called {
                    Some(caller) => at_hello(Some(missing), Trouble::Silent { got: caller.got, want: HELLO, waited }),
                    None => at_hello(Some(missing), Trouble::NeverCalled { strangers: strangers + callers.len(), waited }),
                });
            };
            let mut rest = rest;
            if !absent.is_empty() {
                if Instant::now() >= next_call {
                    let most = rest.clamp(Duration::from_millis(1), CALL);
                    let mut failed = Ok(());
                    absent.retain_mut(|(k, error)| match TcpStream::connect_timeout(&addresses[*k], most) {
                        Ok(stream) => {
                            let broken = |error: io::Error| at_hello(Some(*k), Trouble::Broken(error.kind()));
                            match self.say_hello(stream, Some(*k)).map_err(broken) {
                                Ok(caller) => callers.push(caller),
                                Err(error) => failed = Err(error),
                            }
                            false
                        }
                        Err(refused) => {
                            *error = refused.kind();
                            true
                        }
                    });
                    failed?;
                    next_call = Instant::now() + AGAIN;
                }
                rest = rest.min(AGAIN);
            }
            let mut waits = vec![Wait { fd: listener.as_raw_fd(), read: callers.len() < CALLERS, write: false }];
            waits.extend(callers.iter().map(|caller| Wait { fd: caller.stream.as_raw_fd(), read: true, write: false }));
            let fd = |line: &Option<Line>| line.as_ref().map_or(-1, |line| line.stream.as_raw_fd());
            let watch = |(k, line): (usize, &Option<Line>)| Wait { fd: fd(line), read: line.is_some() && watched[k], write: false };
            waits.extend(self.lines.iter().enumerate().map(watch));
            sys::wait(&mut waits, rest).map_err(own)?;

            // Lines that are there: did the other end end it?
            for (k, wait) in waits[1 + callers.len()..].iter().enumerate() {
                if let (true, Some(line)) = (wait.read, &self.lines[k]) {
                    watched[k] = line.look().map_err(|trouble| at_hello(Some(k), trouble))?;
                }
            }
            // Callers: their hello.
            let ready: Vec<bool> = waits[1..=callers.len()].iter().map(|wait| wait.read).collect();
            for at in (0..callers.len()).rev().filter(|at| ready[*at]) {
                let caller = &mut callers[at];
                let known = |trouble| caller.expected.map(|peer| at_hello(Some(peer), trouble));
                match caller.stream.read(&mut caller.hello[caller.got..]) {
                    Ok(0) => {
                        strangers += 1;
                        let gone = known(Trouble::Closed { got: caller.got, want: HELLO });
                        callers.remove(at);
                        gone.map_or(Ok(()), Err)?;
                    }
                    Ok(more) => {
                        caller.got += more;
                        if caller.got < HELLO {
                            continue;
                        }
                        match Who::from_bytes(&caller.hello) {
                            Some(theirs) => {
                                let peer = self.judge(caller.expected, theirs)?;
                                let caller = callers.remove(at);
                                self.lines[peer] = Some(Line { stream: caller.stream, mid_frame: false });
                            }
                            None => {
                                strangers += 1;
                                let wrong = known(Trouble::NoHello);
                                callers.remove(at);
                                wrong.map_or(Ok(()), Err)?;
                            }
                        }
                    }
                    Err(error) if would_block(&error) => {}
                    Err(error) => {
                        strangers += 1;
                        let broken = known(Trouble::Broken(error.kind()));
                        callers.remove(at);
                        broken.map_or(Ok(()), Err)?;
                    }
                }
            }
            // New callers. One that hangs up at once is no trouble of ours.
            if waits[0].read {
                match listener.accept() {
                    Ok((stream, _)) => callers.extend(self.say_hello(stream, None)),
                    Err(error) if would_block(&error) || error.kind() == ErrorKind::ConnectionAborted => {}
                    Err(error) => return Err(own(error)),
                }
            }
        }
        Ok(())
    }

    fn say_hello(&self, mut stream: TcpStream, expected: Option<usize>) -> io::Result<Caller> {
        stream.set_nodelay(true)?;
        stream.set_nonblocking(true)?;
        // A new line has room for a hello.
        stream.write_all(&self.who.to_bytes())?;
        Ok(Caller { stream, expected, hello: [0; HELLO], got: 0 })
    }

    /// The number of the box that said this hello, if it belongs here.
    fn judge(&self, expected: Option<usize>, theirs: Who) -> Result<usize, LineError> {
        let ours = self.who;
        let trouble = |trouble| Err(LineError { peer: Some(expected.unwrap_or(theirs.i)), place: Place::Hello, trouble });
        let hex = |id: [u8; 16]| id.iter().map(|byte| format!("{byte:02x}")).collect();
        if theirs.n != ours.n {
            return trouble(Trouble::Disagrees { on: "n", ours: ours.n.to_string(), theirs: theirs.n.to_string() });
        }
        if theirs.l != ours.l {
            return trouble(Trouble::Disagrees { on: "l", ours: ours.l.to_string(), theirs: theirs.l.to_string() });
        }
        if theirs.id != ours.id {
            return trouble(Trouble::Disagrees { on: "the session", ours: hex(ours.id), theirs: hex(theirs.id) });
        }
        match expected {
            _ if theirs.i == ours.i => trouble(Trouble::SameNumber),
            Some(peer) if theirs.i != peer => trouble(Trouble::OtherNumber { says: theirs.i }),
            // Boxes below us are called by us, and do not call.
            None if theirs.i < ours.i || theirs.i >= ours.n => trouble(Trouble::OtherNumber { says: theirs.i }),
            _ if self.lines[theirs.i].is_some() => trouble(Trouble::SameNumber),
            _ => Ok(theirs.i),
        }
    }

    /// Sends each other box its message of a round and takes theirs into their slots (both by party, the own one ignored). Gives the lengths.
    /// `progress` hears now and then how many bytes came, of how many that are due.
    pub fn exchange(
        &mut self,
        round: usize,
        outgoing: &[&[u8]],
        slots: &mut [&mut [u8]],
        progress: &mut dyn FnMut(usize, usize),
    ) -> Result<Vec<usize>, LineError> {
        self.frames(Place::Round(round), MESSAGE, outgoing, slots, progress)
    }

    /// Says that this box is done, and waits until all others say so.
    pub fn close(mut self) -> Result<(), LineError> {
        let nothing: Vec<&[u8]> = vec![&[]; self.who.n];
        let mut no_room: Vec<&mut [u8]> = (0..self.who.n).map(|_| &mut [][..]).collect();
        let closing = self.frames(Place::Closing, DONE, &nothing, &mut no_room, &mut |_, _| ());
        if let Err(error) = &closing {
            let notice = error.notice(self.who.i);
            self.end(notice);
        }
        closing.map(|_| ())
    }

    fn frames(
        &mut self,
        place: Place,
        kind: u8,
        outgoing: &[&[u8]],
        slots: &mut [&mut [u8]],
        progress: &mut dyn FnMut(usize, usize),
    ) -> Result<Vec<usize>, LineError> {
        let begin = Instant::now();
        let deadline = begin + self.timeout;
        let due = slots.iter().map(|slot| slot.len()).sum();
        let mut ends: Vec<Exchange> = outgoing.iter().map(|message| Exchange::new(place, kind, message.len())).collect();
        loop {
            let mut waits = vec![];
            let mut pending = None;
            for (k, end) in ends.iter().enumerate() {
                let Some(line) = &self.lines[k] else { continue };
                pending = pending.or((!end.received() || !end.sent()).then_some(k));
                waits.push(Wait { fd: line.stream.as_raw_fd(), read: end.reads(), write: !end.sent() && end.deaf.is_none() });
            }
            let Some(first) = pending else {
                return Ok(ends.iter().map(|end| end.len).collect());
            };
            let Some(rest) = deadline.checked_duration_since(Instant::now()) else {
                return Err(LineError { peer: Some(first), place, trouble: ends[first].late(begin.elapsed()) });
            };
            progress(ends.iter().map(|end| end.got).sum(), due);
            let waited = sys::wait(&mut waits, rest.min(Duration::from_millis(250)));
            waited.map_err(|error| LineError { peer: None, place, trouble: Trouble::Broken(error.kind()) })?;
            let mut waits = waits.iter();
            for (k, end) in ends.iter_mut().enumerate() {
                let Some(line) = &mut self.lines[k] else { continue };
                let wait = waits.next().unwrap();
                let failed = |trouble| LineError { peer: Some(k), place, trouble };
                if wait.read {
                    end.receive(line, slots[k]).map_err(failed)?;
                }
                if wait.write {
                    end.send(line, outgoing[k]);
                }
            }
        }
    }

    /// Ends the session: tells the others why, and hangs up. It never waits for long.
    pub fn end(mut self, notice: Notice) {
        let deadline = Instant::now() + LINGER;
        for line in self.lines.iter_mut().flatten() {
            if !line.mid_frame {
                let frame = [&head(END, notice.place.byte().into(), NOTICE)[..], &notice.to_bytes()].concat();
                // A line that does not take it is of no use any more.
                let _ = line.stream.write_all(&frame);
            }
            let _ = line.stream.shutdown(Shutdown::Write);
        }
        // Closing a line with unread bytes resets it, and the notice could be lost: read until the others hang up too.
        let mut scratch = [0; 4096];
        let mut open: Vec<&mut Line> = self.lines.iter_mut().flatten().collect();
        while let (Some(rest), false) = (deadline.checked_duration_since(Instant::now()), open.is_empty()) {
            let mut waits: Vec<Wait> = open.iter().map(|line| Wait { fd: line.stream.as_raw_fd(), read: true, write: false }).collect();
            if sys::wait(&mut waits, rest).is_err() {
                break;
            }
            let mut waits = waits.iter();
            open.retain_mut(|line| match waits.next() {
                Some(wait) if wait.read => match line.stream.read(&mut scratch) {
                    Ok(0) => false,
                    Ok(_) => true,
                    Err(error) => would_block(&error),
                },
                _ => true,
            });
        }
    }
}

impl Line {
    /// Looks at what a box sent beyond what is due: whether to go on looking. A notice or an end is trouble, a message of the next round is not.
    fn look(&self) -> Result<bool, Trouble> {
        let mut bytes = [0; HEAD + NOTICE];
        match self.stream.peek(&mut bytes) {
            Ok(0) => Err(Trouble::Closed { got: 0, want: 0 }),
            Ok(got) if got < HEAD => Ok(true),
            Ok(got) => match read_head(bytes.first_chunk().unwrap()) {
                Some((END, _, NOTICE)) if got == bytes.len() => Err(Trouble::Ended(Notice::from_bytes(*bytes.last_chunk().unwrap()))),
                Some((END, _, NOTICE)) => Ok(true),
                // Judged when it is due.
                _ => Ok(false),
            },
            Err(error) if would_block(&error) => Ok(true),
            Err(error) if gone(&error) => Err(Trouble::Closed { got: 0, want: 0 }),
            Err(error) => Err(Trouble::Broken(error.kind())),
        }
    }
}

/// Where one line stands in an exchange.
struct Exchange {
    place: Place,
    kind: u8,
    head_out: [u8; HEAD],
    /// Bytes sent of head and message, and how many there are.
    out: usize,
    out_len: usize,
    /// The other end takes nothing any more; what it still says may tell why.
    deaf: Option<ErrorKind>,
    head_in: [u8; HEAD],
    head_got: usize,
    /// The message: its length, known once the head is here, and how much of it came.
    len: usize,
    got: usize,
    /// A notice instead of a message.
    notice: Option<[u8; NOTICE]>,
    watched: bool,
}

impl Exchange {
    fn new(place: Place, kind: u8, len: usize) -> Self {
        Exchange {
            place,
            kind,
            head_out: head(kind, place.byte().into(), len),
            out: 0,
            out_len: HEAD + len,
            deaf: None,
            head_in: [0; HEAD],
            head_got: 0,
            len: 0,
            got: 0,
            notice: None,
            // At closing a box may hang up once it heard from all.
            watched: place != Place::Closing,
        }
    }

    fn sent(&self) -> bool {
        self.out == self.out_len
    }

    fn received(&self) -> bool {
        self.head_got == HEAD && self.got == self.len && self.notice.is_none()
    }

    fn reads(&self) -> bool {
        !self.received() || self.watched || self.deaf.is_some()
    }

    fn late(&self, waited: Duration) -> Trouble {
        match (self.received(), self.head_got) {
            (true, _) => Trouble::NotTaken { waited },
            (false, HEAD) => Trouble::Silent { got: self.got, want: self.len, waited },
            (false, got) => Trouble::Silent { got, want: 0, waited },
        }
    }

    fn send(&mut self, line: &mut Line, message: &[u8]) {
        let from = self.out.saturating_sub(HEAD);
        let parts = [IoSlice::new(&self.head_out[self.out.min(HEAD)..]), IoSlice::new(&message[from..])];
        match line.stream.write_vectored(&parts) {
            Ok(more) => self.out += more,
            Err(error) if would_block(&error) => {}
            Err(error) => self.deaf = Some(error.kind()),
        }
        line.mid_frame = self.out > 0 && !self.sent();
    }

    /// Takes all that is there.
    fn receive(&mut self, line: &mut Line, slot: &mut [u8]) -> Result<(), Trouble> {
        if self.received() {
            self.watched = line.look()?;
            return match self.deaf {
                Some(kind) if !self.watched => Err(Trouble::Broken(kind)),
                _ => Ok(()),
            };
        }
        while !self.received() {
            let in_head = self.head_got < HEAD;
            let (room, closed) = match &mut self.notice {
                _ if in_head => (&mut self.head_in[self.head_got..], Trouble::Closed { got: self.head_got, want: 0 }),
                Some(notice) => (&mut notice[self.got..], Trouble::Closed { got: 0, want: 0 }),
                None => (&mut slot[self.got..self.len], Trouble::Closed { got: self.got, want: self.len }),
            };
            let more = match line.stream.read(room) {
                Ok(0) => return Err(closed),
                Ok(more) => more,
                Err(error) if error.kind() == ErrorKind::WouldBlock => return Ok(()),
                Err(error) if error.kind() == ErrorKind::Interrupted => continue,
                Err(error) if gone(&error) => return Err(closed),
                Err(error) => return Err(Trouble::Broken(error.kind())),
            };
            match in_head {
                true => self.head_got += more,
                false => self.got += more,
            }
            if in_head && self.head_got == HEAD {
                self.judge(slot.len())?;
            }
            match self.notice {
                Some(notice) if self.got == NOTICE => return Err(Trouble::Ended(Notice::from_bytes(notice))),
                _ => {}
            }
        }
        Ok(())
    }

    /// A whole head: is it what is due?
    fn judge(&mut self, most: usize) -> Result<(), Trouble> {
        let Some((kind, round, len)) = read_head(&self.head_in) else {
            return Err(Trouble::Garbage(self.head_in));
        };
        self.len = len;
        match kind {
            END if len == NOTICE => self.notice = Some([0; NOTICE]),
            END => return Err(Trouble::Garbage(self.head_in)),
            _ if kind != self.kind || round != usize::from(self.place.byte()) => {
                return Err(Trouble::OutOfStep { at: Place::from_byte(round as u8) });
            }
            _ if len > most => return Err(Trouble::TooLong { len, most }),
            _ => {}
        }
        Ok(())
    }
}
