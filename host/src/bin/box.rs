//! One box of a session: reads its inputs, talks to the others over TCP, and drives the library. It writes a line per round.

use std::{
    env, fmt,
    io::{self, BufRead},
    net::{SocketAddr, TcpListener, ToSocketAddrs},
    path::PathBuf,
    process::ExitCode,
    time::{Duration, Instant},
};

use nuzsdike_host::{
    args::Args,
    files::{self, Header},
    round_name, sum, sys,
    transport::{Cause, LineError, Lines, Notice, Place, Who},
    Batch, Call, Form, Inputs, Mail, Refusal, Session, Step,
};

const USAGE: &str = "\
usage: nuzsdike-box --inputs FILE --results FILE --listen ADDRESS --peers LIST [--batches COUNTS] [--r FORM] [--timeout SECONDS]

Runs one box of a session. Exit status: 0 done, 1 refused or a line failed, 2 bad words.

  --inputs FILE      own inputs, as the dealer writes them; they tell n, l and the own number
  --results FILE     takes the result records once all boxes are done
  --listen ADDRESS   own address, as 127.0.0.1:7000; port 0 takes a free one and prints it
  --peers LIST       every box's address by number, with commas, the own one too; - reads the list from standard input
  --batches COUNTS   the ANDs of each batch, up to 16 numbers with commas, l together (default: one batch of l); the others'
                     batches are theirs
  --r FORM           how r is lent: seed, 16 bytes of the joint toss from which the library draws (default),
                     or strings, which the box draws from that seed itself; the others' choice is theirs
  --timeout SECONDS  the longest wait for the others, in each round (default 30)
";

/// Why a box ends without results.
enum Failure {
    Usage(String),
    Refused(Refusal),
    Line(LineError),
    Host(String),
}

impl fmt::Display for Failure {
    fn fmt(&self, f: &mut fmt::Formatter) -> fmt::Result {
        match self {
            Failure::Usage(why) | Failure::Host(why) => write!(f, "{why}"),
            Failure::Refused(refusal) => write!(f, "{refusal}"),
            Failure::Line(error) => write!(f, "{error}"),
        }
    }
}

impl From<io::Error> for Failure {
    fn from(error: io::Error) -> Self {
        Failure::Host(error.to_string())
    }
}

struct Options {
    inputs: PathBuf,
    results: PathBuf,
    listen: String,
    peers: String,
    batches: Option<Vec<u32>>,
    form: Form,
    timeout: Duration,
}

fn options(args: &Args) -> Result<Options, String> {
    Ok(Options {
        inputs: args.need("inputs")?.into(),
        results: args.need("results")?.into(),
        listen: args.need("listen")?.into(),
        peers: args.need("peers")?.into(),
        batches: args.numbers("batches")?,
        form: if args.choice("r", &["seed", "strings"])? == "seed" { Form::Seed } else { Form::Strings },
        timeout: Duration::from_secs(args.number("timeout", 1, 86_400)?.unwrap_or(30)),
    })
}

fn main() -> ExitCode {
    let names = ["inputs", "results", "listen", "peers", "batches", "r", "timeout"];
    let options = match Args::parse(env::args().skip(1), &names) {
        Ok(None) => {
            print!("{USAGE}");
            return ExitCode::SUCCESS;
        }
        Ok(Some(args)) => options(&args),
        Err(why) => Err(why),
    };
    let mut number = None;
    let failure = match options.map_err(Failure::Usage).and_then(|options| run(&options, &mut number)) {
        Ok(()) => return ExitCode::SUCCESS,
        Err(failure) => failure,
    };
    if let Failure::Usage(why) = failure {
        eprintln!("nuzsdike-box: {why}");
        eprintln!("{}", USAGE.lines().next().unwrap());
        return ExitCode::from(2);
    }
    match number {
        Some(i) => println!("box {i} error {failure}"),
        None => println!("box error {failure}"),
    }
    ExitCode::FAILURE
}

fn run(options: &Options, number: &mut Option<usize>) -> Result<(), Failure> {
    let begin = Instant::now();
    let (header, inputs) = files::load(&options.inputs, files::read_inputs)?;
    *number = Some(header.i);
    let Header { n, i, l, id, .. } = header;
    println!("box {i} read {:.6}", begin.elapsed().as_secs_f64());
    let counts = options.batches.clone().unwrap_or(vec![l as u32]);
    // A list that is none is for opening to refuse.
    if let Some(other) = sum(&counts).ok().filter(|sum| *sum != l) {
        return Err(Failure::Usage(format!("--batches has {other} ANDs, the inputs are for {l}")));
    }

    let listener = TcpListener::bind(&options.listen)
        .map_err(|error| Failure::Host(format!("can't listen on {}: {error} (does another box have this address?)", options.listen)))?;
    println!("box {i} listens {}", listener.local_addr()?);
    let peers = match &options.peers[..] {
        "-" => {
            let mut line = String::new();
            io::stdin().lock().read_line(&mut line)?;
            line
        }
        list => list.into(),
    };
    let peers = addresses(&peers, n)?;

    let mut lines = Lines::connect(Who { n, i, l, id }, &listener, &peers, options.timeout).map_err(Failure::Line)?;
    drop(listener);
    match session(header, &counts, inputs, options.form, &mut lines) {
        Ok((results, batches, totals)) => {
            lines.close().map_err(Failure::Line)?;
            files::write_results(&options.results, header, &results)?;
            for (number, Batch { first, count }) in batches.iter().enumerate() {
                println!("box {i} batch {number} first {first} count {count}");
            }
            let Totals { sent, received, calls } = totals;
            let (calls, cpu) = (calls.as_secs_f64(), sys::cpu_time().as_secs_f64());
            println!("box {i} done sent {sent} received {received} calls {calls:.6} cpu {cpu:.6} memory {}", sys::peak_memory());
            Ok(())
        }
        Err(failure) => {
            // The others wait for this box: tell them.
            lines.end(match &failure {
                Failure::Refused(refusal) => {
                    Notice { origin: i, place: place(refusal), cause: Cause::Refusal(refusal.reason, refusal.party) }
                }
                Failure::Line(error) => error.notice(i),
                Failure::Usage(_) | Failure::Host(_) => Notice { origin: i, place: Place::Opening, cause: Cause::Host },
            });
            Err(failure)
        }
    }
}

fn place(refusal: &Refusal) -> Place {
    match refusal.call {
        Call::Round(round) => Place::Round(round),
        _ => Place::Opening,
    }
}

fn addresses(list: &str, n: usize) -> Result<Vec<SocketAddr>, Failure> {
    let resolve = |word: &str| {
        let found = word.trim().to_socket_addrs().ok().and_then(|mut found| found.next());
        found.ok_or_else(|| Failure::Usage(format!("'{}' is no address", word.trim())))
    };
    let peers: Vec<SocketAddr> = list.split(',').map(resolve).collect::<Result<_, _>>()?;
    match peers.len() == n {
        true => Ok(peers),
        false => Err(Failure::Usage(format!("--peers has {} addresses, the inputs are for {n} boxes", peers.len()))),
    }
}

struct Totals {
    sent: usize,
    received: usize,
    /// The CPU time of the library's calls.
    calls: Duration,
}

/// The session itself: opening, and then one exchange and one call for each round.
fn session(
    header: Header,
    counts: &[u32],
    inputs: Inputs,
    form: Form,
    lines: &mut Lines,
) -> Result<(Vec<u8>, Vec<Batch>, Totals), Failure> {
    let (i, plan) = (header.i, header.plan());
    let (begin, cpu) = (Instant::now(), sys::cpu_time());
    let (mut session, mut outgoing) = Session::open(plan.n, i, counts, &inputs).map_err(Failure::Refused)?;
    let mut totals = Totals { sent: 0, received: 0, calls: sys::cpu_time() - cpu };
    println!("box {i} opened call {:.6}", begin.elapsed().as_secs_f64());
    drop(inputs); // the work area has them now
    loop {
        let round = session.due();
        let mut mail = Mail::new(plan, i, round);
        let begin = Instant::now();
        let mut told = begin;
        let mut progress = |got, due| {
            if told.elapsed() > Duration::from_millis(500) {
                told = Instant::now();
                println!("box {i} progress round {round} received {got} due {due}");
            }
        };
        let lens = lines.exchange(round, &outgoing.messages(), &mut mail.slots(), &mut progress).map_err(Failure::Line)?;
        let wait = begin.elapsed();
        for (k, len) in lens.iter().enumerate().filter(|(k, _)| *k != i) {
            mail.arrived(k, *len);
        }
        let (sent, received) = (outgoing.messages().iter().map(|m| m.len()).sum::<usize>(), lens.iter().sum::<usize>());
        drop(outgoing);

        let r = if plan.r_len(round) != 0 { session.r(form) } else { vec![] };
        let (begin, cpu) = (Instant::now(), sys::cpu_time());
        let step = session.round(&mail, &r).map_err(Failure::Refused)?;
        let (call, cpu) = (begin.elapsed(), sys::cpu_time() - cpu);
        println!(
            "box {i} round {round} sent {sent} received {received} wait {:.6} call {:.6} name {}",
            wait.as_secs_f64(),
            call.as_secs_f64(),
            round_name(round)
        );
        totals.sent += sent;
        totals.received += received;
        totals.calls += cpu;
        match step {
            Step::Send(next) => outgoing = next,
            Step::Done { results, batches } => return Ok((results, batches, totals)),
        }
    }
}
