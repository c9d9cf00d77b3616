//! Sessions of real processes for the tests, and a line in between that can be tampered with.

#![allow(dead_code)] // each test file uses its part

use std::{
    fs,
    io::{BufRead, BufReader, Read, Write},
    net::{Shutdown, SocketAddr, TcpListener, TcpStream},
    path::PathBuf,
    process::{Child, Command, ExitStatus, Stdio},
    sync::{
        atomic::{AtomicUsize, Ordering},
        mpsc::{self, Receiver, RecvTimeoutError, Sender},
    },
    thread,
    time::{Duration, Instant},
};

use nuzsdike_host::{
    check::{self, Checked, Outputs},
    dealer, files,
    transport::{head, read_head, HEAD, HELLO, MESSAGE},
    Plan,
};

/// The boxes' time-out, in seconds.
pub const TIMEOUT: u64 = 4;

/// A deal in a folder of its own.
pub struct Deal {
    pub plan: Plan,
    pub folder: PathBuf,
}

impl Deal {
    pub fn new(n: usize, l: usize, seed: u64) -> Self {
        static COUNT: AtomicUsize = AtomicUsize::new(0);
        let name = format!("deal-{}-{}", std::process::id(), COUNT.fetch_add(1, Ordering::Relaxed));
        let folder = PathBuf::from(env!("CARGO_TARGET_TMPDIR")).join(name);
        fs::create_dir_all(&folder).unwrap();
        let deal = Deal { plan: Plan::new(n, l), folder };
        let mut boxes: Vec<_> = (0..n).map(|i| files::create(&deal.inputs(i)).unwrap()).map(std::io::BufWriter::new).collect();
        dealer::deal(deal.plan, seed, &mut boxes).unwrap();
        deal
    }

    pub fn inputs(&self, i: usize) -> PathBuf {
        self.folder.join(format!("{i}.inputs"))
    }

    /// Box i's bit in a record of the list of bits.
    pub fn bit(&self, i: usize, record: usize) -> u8 {
        let (_, inputs) = files::load(&self.inputs(i), files::read_inputs).unwrap();
        inputs.bits[record * nuzsdike_host::record_len(self.plan.n)]
    }
}

impl Drop for Deal {
    fn drop(&mut self) {
        let _ = fs::remove_dir_all(&self.folder);
    }
}

/// A box process. It is ended with this value, whatever happens.
pub struct Process {
    pub child: Child,
    pub results: PathBuf,
    lines: Receiver<String>,
    heard: Vec<String>,
}

/// How a box ended.
#[derive(Debug)]
pub struct Ended {
    pub status: ExitStatus,
    pub lines: Vec<String>,
    pub results: bool,
}

impl Ended {
    /// What it said was wrong.
    pub fn error(&self) -> &str {
        self.lines.iter().find_map(|line| line.split_once(" error ")).map_or("", |(_, error)| error)
    }

    /// It ended with an error, and without results.
    pub fn failed(&self) -> bool {
        let done = self.lines.iter().any(|line| line.contains(" done "));
        self.status.code() == Some(1) && !self.results && !done && !self.error().is_empty()
    }
}

impl Process {
    /// Starts a box with these inputs; it waits for the list of addresses.
    pub fn start(deal: &Deal, i: usize) -> Self {
        Self::start_with(deal, i, &[])
    }

    /// The same with more words.
    pub fn start_with(deal: &Deal, i: usize, words: &[&str]) -> Self {
        static COUNT: AtomicUsize = AtomicUsize::new(0);
        let results = deal.folder.join(format!("{}.results", COUNT.fetch_add(1, Ordering::Relaxed)));
        let mut child = Command::new(env!("CARGO_BIN_EXE_nuzsdike-box"))
            .args(["--listen", "127.0.0.1:0", "--peers", "-", "--timeout", &TIMEOUT.to_string()])
            .args(words)
            .arg("--inputs")
            .arg(deal.inputs(i))
            .arg("--results")
            .arg(&results)
            .stdin(Stdio::piped())
            .stdout(Stdio::piped())
            .spawn()
            .unwrap();
        let stdout = BufReader::new(child.stdout.take().unwrap());
        let (sender, lines) = mpsc::channel();
        thread::spawn(move || stdout.lines().map_while(Result::ok).try_for_each(|line| sender.send(line)));
        Process { child, results, lines, heard: vec![] }
    }

    /// Reads lines until one starts like this after "box I ", and gives the rest of it.
    pub fn until(&mut self, word: &str) -> String {
        let deadline = Instant::now() + Duration::from_secs(20);
        loop {
            let rest = deadline.saturating_duration_since(Instant::now());
            let line = self.lines.recv_timeout(rest).unwrap_or_else(|_| panic!("no '{word}' after {:?}", self.heard));
            self.heard.push(line.clone());
            if let Some(rest) = line.splitn(3, ' ').nth(2).and_then(|rest| rest.strip_prefix(word)) {
                return rest.trim().into();
            }
        }
    }

    pub fn address(&mut self) -> SocketAddr {
        self.until("listens").parse().unwrap()
    }

    pub fn introduce(&mut self, addresses: &[SocketAddr]) {
        let list: Vec<String> = addresses.iter().map(SocketAddr::to_string).collect();
        let _ = writeln!(self.child.stdin.take().unwrap(), "{}", list.join(","));
    }

    /// Waits for its end, not for long.
    pub fn end(mut self, most: Duration) -> Ended {
        let deadline = Instant::now() + most;
        loop {
            match self.lines.recv_timeout(deadline.saturating_duration_since(Instant::now())) {
                Ok(line) => self.heard.push(line),
                Err(RecvTimeoutError::Disconnected) => break,
                Err(RecvTimeoutError::Timeout) => panic!("a box hangs after {:?}", self.heard),
            }
        }
        let status = self.child.wait().unwrap();
        Ended { status, lines: std::mem::take(&mut self.heard), results: self.results.exists() }
    }
}

impl Drop for Process {
    fn drop(&mut self) {
        let _ = self.child.kill();
        let _ = self.child.wait();
    }
}

/// A session of the deal's boxes, introduced to each other, but that `detour` may give box i another address for box k.
pub fn session(deal: &Deal, detour: impl FnMut(usize, usize, SocketAddr) -> SocketAddr) -> Vec<Process> {
    let boxes: Vec<_> = (0..deal.plan.n).map(|i| Process::start(deal, i)).collect();
    introduce(boxes, detour)
}

pub fn introduce(mut boxes: Vec<Process>, mut detour: impl FnMut(usize, usize, SocketAddr) -> SocketAddr) -> Vec<Process> {
    let addresses: Vec<SocketAddr> = boxes.iter_mut().map(Process::address).collect();
    for (i, process) in boxes.iter_mut().enumerate() {
        let seen: Vec<SocketAddr> = addresses.iter().enumerate().map(|(k, address)| detour(i, k, *address)).collect();
        process.introduce(&seen);
    }
    boxes
}

/// Each box ended, within the time-out and a little.
pub fn end(boxes: Vec<Process>) -> Vec<Ended> {
    let begin = Instant::now();
    let most = Duration::from_secs(TIMEOUT + 3);
    boxes.into_iter().map(|process| process.end(most.saturating_sub(begin.elapsed()))).collect()
}

/// The checker's word about results.
pub fn verdict(deal: &Deal, results: &[PathBuf]) -> Result<Checked, String> {
    let load = |i: usize| {
        let (_, inputs) = files::load(&deal.inputs(i), files::read_inputs).unwrap();
        let (header, records) = files::load(&results[i], files::read_results).map_err(|error| error.to_string())?;
        assert_eq!((header.n, header.i, header.l), (deal.plan.n, i, deal.plan.l));
        Ok((inputs, records))
    };
    let parts: Vec<_> = (0..deal.plan.n).map(load).collect::<Result<_, String>>()?;
    let outputs: Vec<Outputs> =
        parts.iter().map(|(inputs, results)| Outputs { delta: &inputs.delta, alpha: &inputs.alpha, beta: &inputs.beta, results }).collect();
    check::check(deal.plan, &outputs).map_err(|wrong| wrong.to_string())
}

/// What to do with a frame that comes by: its head and its message.
pub enum Act {
    Pass,
    /// Send these bytes instead.
    Instead(Vec<u8>),
    /// Send these bytes, and hang up.
    Cut(Vec<u8>),
    /// Send these bytes and nothing any more, until an end hangs up.
    Stall(Vec<u8>),
}

/// A line in between: whoever calls `address` gets through to `target`. `tamper` sees each message's frame, with whether the caller sent it, and
/// its round.
pub fn detour(target: SocketAddr, tamper: impl FnMut(bool, usize, &[u8]) -> Act + Send + 'static) -> SocketAddr {
    let listener = TcpListener::bind("127.0.0.1:0").unwrap();
    let address = listener.local_addr().unwrap();
    thread::spawn(move || {
        let (caller, _) = listener.accept().unwrap();
        let Ok(callee) = TcpStream::connect(target) else { return };
        let (sender, frames) = mpsc::channel();
        for (forth, from) in [(true, &caller), (false, &callee)] {
            let (from, sender) = (from.try_clone().unwrap(), sender.clone());
            thread::spawn(move || read_frames(from, forth, sender));
        }
        drop(sender);
        forward(caller, callee, frames, tamper);
    });
    address
}

/// Hands on a hello and then whole frames; nothing once the end has come.
fn read_frames(mut from: TcpStream, forth: bool, sender: Sender<(bool, Vec<u8>)>) {
    let mut hello = vec![0; HELLO];
    if from.read_exact(&mut hello).is_ok() && sender.send((forth, hello)).is_ok() {
        let mut head = [0; HEAD];
        while from.read_exact(&mut head).is_ok() {
            let (_, _, len) = read_head(&head).expect("boxes send frames");
            let mut frame = head.to_vec();
            frame.resize(HEAD + len, 0);
            if from.read_exact(&mut frame[HEAD..]).is_err() || sender.send((forth, frame)).is_err() {
                return;
            }
        }
    }
    let _ = sender.send((forth, vec![]));
}

fn forward(caller: TcpStream, callee: TcpStream, frames: Receiver<(bool, Vec<u8>)>, mut tamper: impl FnMut(bool, usize, &[u8]) -> Act) {
    let mut stalled = [false; 2];
    for (forth, bytes) in frames {
        let mut to = if forth { &callee } else { &caller };
        // A stalled line still tells that an end hung up, as TCP would.
        if stalled[usize::from(forth)] && !bytes.is_empty() {
            continue;
        }
        let act = match bytes.len() {
            0 => {
                let _ = to.shutdown(Shutdown::Write);
                continue;
            }
            HELLO if bytes[..2] != head(MESSAGE, 0, 0)[..2] => Act::Pass,
            _ if bytes[2] == MESSAGE => tamper(forth, usize::from(bytes[3]), &bytes),
            _ => Act::Pass,
        };
        let (bytes, act) = match act {
            Act::Pass => (bytes, Act::Pass),
            Act::Instead(ref other) | Act::Cut(ref other) | Act::Stall(ref other) => (other.clone(), act),
        };
        let _ = to.write_all(&bytes);
        match act {
            Act::Cut(_) => {
                let _ = caller.shutdown(Shutdown::Both);
                let _ = callee.shutdown(Shutdown::Both);
                return;
            }
            Act::Stall(_) => stalled[usize::from(forth)] = true,
            _ => {}
        }
    }
}
