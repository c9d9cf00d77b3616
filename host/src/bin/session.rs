//! Runs a session on this machine: deals inputs, starts a process for each box, shows what they do, and checks the results.

use std::{
    collections::HashMap,
    env,
    fs::{self, DirBuilder},
    io::{self, BufRead, BufReader, BufWriter, IsTerminal, Read, Write},
    os::unix::fs::DirBuilderExt,
    path::{Path, PathBuf},
    process::{Child, Command, ExitCode, Stdio},
    sync::mpsc::{self, RecvTimeoutError, Sender},
    thread,
    time::{Duration, Instant},
};

use nuzsdike_host::{
    args::Args,
    check::{self, Checked, Outputs},
    dealer, files, round_title, sum, Batch, Plan, Reason,
};

const USAGE: &str = include_str!("../../usage.txt");

struct Options {
    plan: Plan,
    counts: Vec<u32>,
    seed: u64,
    r: &'static str,
    timeout: u64,
    keep: Option<PathBuf>,
}

fn options(args: &Args) -> Result<Options, String> {
    let n = args.number("n", 2, 8)?.unwrap_or(3);
    let counts = match (args.number("l", 1, 300_000)?, args.numbers("batches")?) {
        (Some(_), Some(_)) => return Err("--l and --batches are both there: --l is one batch".into()),
        (None, Some(counts)) => counts,
        (l, None) => vec![l.unwrap_or(1000)],
    };
    let refused = |reason: Reason| format!("--batches: refused {reason}: {}", reason.meaning());
    let l = sum(&counts).map_err(refused)?;
    let seed = match args.number("seed", 0, u64::MAX)? {
        Some(seed) => seed,
        None => random().map_err(|error| format!("no random seed: {error}"))?,
    };
    let r = args.choice("r", &["seed", "strings", "mixed"])?;
    // A box waits while slower ones compute, and all of them may share two cores.
    let timeout = args.number("timeout", 1, 86_400)?.unwrap_or(30 + (l * n * n / 4000) as u64);
    Ok(Options { plan: Plan::new(n, l), counts, seed, r, timeout, keep: args.get("keep").map(PathBuf::from) })
}

fn random() -> io::Result<u64> {
    let mut bytes = [0; 4];
    fs::File::open("/dev/urandom")?.read_exact(&mut bytes)?;
    Ok(u32::from_le_bytes(bytes).into())
}

fn main() -> ExitCode {
    let options = match Args::parse(env::args().skip(1), &["n", "l", "batches", "seed", "r", "timeout", "keep"]) {
        Ok(None) => {
            print!("{USAGE}");
            return ExitCode::SUCCESS;
        }
        Ok(Some(args)) => options(&args),
        Err(why) => Err(why),
    };
    let options = match options {
        Ok(options) => options,
        Err(why) => {
            eprintln!("host/run: {why}");
            eprintln!("{}", USAGE.lines().next().unwrap());
            return ExitCode::from(2);
        }
    };
    match run(&options) {
        Ok(()) => ExitCode::SUCCESS,
        Err(why) => {
            eprintln!("{why}");
            ExitCode::FAILURE
        }
    }
}

/// A folder that only this user can read, removed at the end unless it is to be kept.
struct Folder {
    path: PathBuf,
    keep: bool,
}

impl Folder {
    fn new(keep: &Option<PathBuf>) -> Result<Folder, String> {
        let own = || env::temp_dir().join(format!("nuzsdike-{}-{:08x}", std::process::id(), random().unwrap_or(0)));
        let path = keep.clone().unwrap_or_else(own);
        let made = DirBuilder::new().recursive(keep.is_some()).mode(0o700).create(&path);
        made.map_err(|error| format!("{}: {error}", path.display()))?;
        Ok(Folder { path, keep: keep.is_some() })
    }

    fn inputs(&self, i: usize) -> PathBuf {
        self.path.join(format!("box-{i}.inputs"))
    }

    fn results(&self, i: usize) -> PathBuf {
        self.path.join(format!("box-{i}.results"))
    }
}

impl Drop for Folder {
    fn drop(&mut self) {
        if !self.keep {
            let _ = fs::remove_dir_all(&self.path);
        }
    }
}

/// The processes. None outlives this program.
struct Boxes(Vec<Child>);

impl Drop for Boxes {
    fn drop(&mut self) {
        for child in &mut self.0 {
            let _ = child.kill();
            let _ = child.wait();
        }
    }
}

fn run(options: &Options) -> Result<(), String> {
    let Plan { n, l } = options.plan;
    let folder = Folder::new(&options.keep)?;
    let batches = match options.counts.len() {
        1 => String::new(),
        several => format!(" in {several} batches"),
    };
    println!("{n} boxes, {} ANDs{batches}, seed {}", grouped(l), options.seed);
    println!(
        "r        {}",
        match options.r {
            "seed" => "drawn by the library, from 16 bytes of the joint toss",
            "strings" => "drawn by the boxes, from 16 bytes of the joint toss",
            _ => "from 16 bytes of the joint toss, drawn by the library in boxes of even number, by the others themselves",
        }
    );
    let begin = Instant::now();
    deal(options, &folder).map_err(|error| format!("dealing: {error}"))?;
    let dealt = begin.elapsed();
    println!("dealer   honest inputs, in the place of oblivious transfer: {}", seconds(dealt));

    let begin = Instant::now();
    let (sender, events) = mpsc::channel();
    let mut boxes = start(options, &folder, sender)?;
    let mut view = View::new(options.plan);
    let mut addresses = vec![None; n];
    let mut open = n;
    while open > 0 {
        match events.recv_timeout(Duration::from_millis(200)) {
            Ok((i, Event::Line(line))) => {
                if let Some(address) = view.line(i, &line) {
                    addresses[i] = Some(address);
                    if let Some(all) = addresses.iter().cloned().collect::<Option<Vec<String>>>() {
                        introduce(&mut boxes, &all.join(","));
                    }
                }
            }
            Ok((i, Event::End)) => {
                open -= 1;
                // A box that ends before it listens leaves the others without its address: they need not wait for it.
                if addresses[i].is_none() {
                    boxes.0.iter_mut().for_each(|child| drop(child.stdin.take()));
                }
            }
            Err(RecvTimeoutError::Timeout) => view.bar(),
            Err(RecvTimeoutError::Disconnected) => break,
        }
    }
    view.clear();
    let mut failed = vec![];
    for (i, child) in boxes.0.iter_mut().enumerate() {
        let status = child.wait().map_err(|error| error.to_string())?;
        let said = view.errors.get(&i).cloned();
        if !status.success() || said.is_some() {
            failed.push(format!("box {i} has no results: {}", said.unwrap_or(format!("it ended with {status}"))));
        }
    }
    if !failed.is_empty() {
        return Err(failed.join("\n"));
    }
    let ran = begin.elapsed();

    let begin = Instant::now();
    let checked = verdict(options, &view.batches, &folder).map_err(|why| format!("results are WRONG: {why}"))?;
    let (ands, macs) = checked.iter().fold((0, 0), |(ands, macs), (_, batch)| (ands + batch.ands, macs + batch.macs));
    println!("results  {} ANDs and {} MACs are right, by a checker that sees all boxes' outputs", grouped(ands), grouped(macs));
    for (number, (Batch { first, .. }, Checked { ands, macs })) in checked.iter().enumerate() {
        println!("batch {number:<2} from position {}: {} ANDs and {} MACs are right", grouped(*first), grouped(*ands), grouped(*macs));
    }
    for i in 0..n {
        println!("{}", view.summary(i));
    }
    println!("time     {} for the session, {} for dealing, {} for checking", seconds(ran), seconds(dealt), seconds(begin.elapsed()));
    if folder.keep {
        println!("files    {}", folder.path.display());
    }
    Ok(())
}

fn deal(options: &Options, folder: &Folder) -> io::Result<()> {
    let open = |path: &Path| files::create(path).map(|file| BufWriter::with_capacity(1 << 20, file));
    let mut boxes: Vec<_> = (0..options.plan.n).map(|i| open(&folder.inputs(i))).collect::<Result<_, _>>()?;
    dealer::deal(options.plan, options.seed, &mut boxes)?;
    boxes.iter_mut().try_for_each(|file| file.flush())
}

enum Event {
    Line(String),
    End,
}

/// How box i lends r: in a mixed session those of odd number draw the strings themselves.
fn form(r: &'static str, i: usize) -> &'static str {
    match r {
        "mixed" => ["seed", "strings"][i % 2],
        all => all,
    }
}

/// The words of a box's command line that say its batches.
fn batches(counts: &[u32]) -> [String; 2] {
    let words: Vec<String> = counts.iter().map(u32::to_string).collect();
    ["--batches".into(), words.join(",")]
}

fn start(options: &Options, folder: &Folder, sender: Sender<(usize, Event)>) -> Result<Boxes, String> {
    let program = env::current_exe().map_err(|error| error.to_string())?.with_file_name("nuzsdike-box");
    let mut boxes = Boxes(vec![]);
    for i in 0..options.plan.n {
        let _ = fs::remove_file(folder.results(i)); // of an earlier run
        let mut child = Command::new(&program)
            .args(["--listen", "127.0.0.1:0", "--peers", "-", "--r", form(options.r, i), "--timeout", &options.timeout.to_string()])
            .args(batches(&options.counts))
            .arg("--inputs")
            .arg(folder.inputs(i))
            .arg("--results")
            .arg(folder.results(i))
            .stdin(Stdio::piped())
            .stdout(Stdio::piped())
            .spawn()
            .map_err(|error| format!("{}: {error}", program.display()))?;
        let lines = BufReader::new(child.stdout.take().expect("piped"));
        boxes.0.push(child);
        let sender = sender.clone();
        thread::spawn(move || {
            for line in lines.lines().map_while(Result::ok) {
                let _ = sender.send((i, Event::Line(line)));
            }
            let _ = sender.send((i, Event::End));
        });
    }
    Ok(boxes)
}

/// Tells every box the others' addresses.
fn introduce(boxes: &mut Boxes, addresses: &str) {
    for child in &mut boxes.0 {
        if let Some(mut stdin) = child.stdin.take() {
            // A box that is gone will be missed soon enough.
            let _ = writeln!(stdin, "{addresses}");
        }
    }
}

/// Where batches of these counts lie.
fn laid_out(counts: &[u32]) -> Vec<Batch> {
    let mut first = 0;
    let batch = |count: &u32| {
        let batch = Batch { first, count: *count as usize };
        first += batch.count;
        batch
    };
    counts.iter().map(batch).collect()
}

/// Checks the results, batch by batch, where every box has to have told that they lie.
fn verdict(options: &Options, told: &HashMap<usize, Vec<Batch>>, folder: &Folder) -> Result<Vec<(Batch, Checked)>, String> {
    let plan = options.plan;
    let batches = laid_out(&options.counts);
    if let Some(i) = (0..plan.n).find(|i| told.get(i) != Some(&batches)) {
        return Err(format!("box {i} tells other batches than it was given: {:?}", told.get(&i)));
    }
    let mut parts = vec![];
    for i in 0..plan.n {
        let (_, inputs) = files::load(&folder.inputs(i), files::read_inputs).map_err(|error| error.to_string())?;
        let (header, results) = files::load(&folder.results(i), files::read_results).map_err(|error| error.to_string())?;
        if (header.plan(), header.i) != (plan, i) {
            return Err(format!("the results of box {i} are another's"));
        }
        parts.push((inputs.delta, inputs.alpha.clone(), inputs.beta.clone(), results));
    }
    let outputs: Vec<Outputs> = parts.iter().map(|(delta, alpha, beta, results)| Outputs { delta, alpha, beta, results }).collect();
    let check = |(number, batch): (usize, Batch)| {
        let part: Vec<Outputs> = outputs.iter().map(|outputs| outputs.of_batch(plan.n, batch)).collect();
        let checked = check::check(Plan::new(plan.n, batch.count), &part);
        checked.map(|checked| (batch, checked)).map_err(|wrong| format!("batch {number}: {wrong}"))
    };
    batches.into_iter().enumerate().map(check).collect()
}

/// What the boxes say, as one line per round and a bar.
struct View {
    plan: Plan,
    rounds: Vec<usize>,
    /// By round, what each box said of it.
    said: HashMap<usize, Vec<Round>>,
    shown: usize,
    last: Instant,
    begin: Instant,
    /// By box, the batches that it told.
    batches: HashMap<usize, Vec<Batch>>,
    done: HashMap<usize, HashMap<String, String>>,
    errors: HashMap<usize, String>,
    /// How far the round is on, from 0 to 1.
    part: f64,
    terminal: bool,
    bar_shown: bool,
}

#[derive(Clone, Copy)]
struct Round {
    sent: usize,
    received: usize,
    call: f64,
}

impl View {
    fn new(plan: Plan) -> Self {
        View {
            plan,
            rounds: plan.rounds(),
            said: HashMap::new(),
            shown: 0,
            last: Instant::now(),
            begin: Instant::now(),
            batches: HashMap::new(),
            done: HashMap::new(),
            errors: HashMap::new(),
            part: 0.0,
            terminal: io::stderr().is_terminal(),
            bar_shown: false,
        }
    }

    /// Takes a box's line; gives its address where it says that.
    fn line(&mut self, i: usize, line: &str) -> Option<String> {
        let rest = line.strip_prefix(&format!("box {i} ")).unwrap_or(line);
        let (word, rest) = rest.split_once(' ').unwrap_or((rest, ""));
        let words: Vec<&str> = rest.split(' ').collect();
        let field = |name: &str| words.windows(2).find(|pair| pair[0] == name).map(|pair| pair[1]);
        let number = |name: &str| field(name).and_then(|value| value.parse().ok()).unwrap_or(0);
        match word {
            "listens" => return Some(rest.into()),
            "round" => {
                let call = field("call").and_then(|value| value.parse().ok()).unwrap_or(0.0);
                let round = Round { sent: number("sent"), received: number("received"), call };
                self.said.entry(words[0].parse().unwrap_or(0)).or_default().push(round);
                self.show();
            }
            "progress" => {
                self.part = number("received") as f64 / number("due").max(1) as f64;
                self.bar();
            }
            "batch" => self.batches.entry(i).or_default().push(Batch { first: number("first"), count: number("count") }),
            "done" => {
                let pairs = words.chunks_exact(2).map(|pair| (pair[0].to_string(), pair[1].to_string()));
                self.done.insert(i, pairs.collect());
            }
            "error" => drop(self.errors.insert(i, rest.into())),
            _ => {}
        }
        None
    }

    /// Shows the rounds that all boxes are through with.
    fn show(&mut self) {
        while let Some(&round) = self.rounds.get(self.shown) {
            let Some(said) = self.said.get(&round).filter(|said| said.len() == self.plan.n).cloned() else { break };
            self.clear();
            if self.shown == 0 {
                println!("round    name                        sent by a box   received by it       time  longest call");
            }
            // Honest boxes send and receive equally much; show the most if not.
            let sent = said.iter().map(|round| round.sent).max().unwrap_or(0);
            let received = said.iter().map(|round| round.received).max().unwrap_or(0);
            let call = said.iter().map(|round| round.call).fold(0.0, f64::max);
            println!(
                "{round:>5}    {:<26}{:>15}  {:>15} {:>10}    {:>10}",
                round_title(round),
                grouped(sent) + " B",
                grouped(received) + " B",
                seconds(self.last.elapsed()),
                seconds(Duration::from_secs_f64(call))
            );
            (self.shown, self.last, self.part) = (self.shown + 1, Instant::now(), 0.0);
            self.bar();
        }
    }

    /// A bar, for sessions that take longer than a moment.
    fn bar(&mut self) {
        if !self.terminal || self.begin.elapsed() < Duration::from_millis(700) {
            return;
        }
        let costs: Vec<f64> = self.rounds.iter().map(|round| cost(self.plan, *round)).collect();
        let current = costs.get(self.shown).unwrap_or(&0.0) * self.part.min(1.0) / 2.0;
        let share = (costs[..self.shown].iter().sum::<f64>() + current) / costs.iter().sum::<f64>();
        let filled = (share * 40.0) as usize;
        let name = self.rounds.get(self.shown).map(|round| round_title(*round)).unwrap_or_default();
        eprint!("\r\x1b[K[{:<40}] {:>3.0} %  {}  {name}", "#".repeat(filled), share * 100.0, seconds(self.begin.elapsed()));
        self.bar_shown = true;
    }

    fn clear(&mut self) {
        if std::mem::take(&mut self.bar_shown) {
            eprint!("\r\x1b[K");
        }
    }

    fn summary(&self, i: usize) -> String {
        let empty = HashMap::new();
        let done = self.done.get(&i).unwrap_or(&empty);
        let number = |name: &str| done.get(name).and_then(|value| value.parse::<f64>().ok()).unwrap_or(0.0);
        let time = |name: &str| seconds(Duration::from_secs_f64(number(name)));
        format!(
            "box {i}    sent {} B, received {} B; CPU {}, of it {} in the library; {} MiB of memory at most",
            grouped(number("sent") as usize),
            grouped(number("received") as usize),
            time("cpu"),
            time("calls"),
            grouped((number("memory") / 1024.0).ceil() as usize)
        )
    }
}

/// Roughly what a round takes, with reading and opening in round 1: tenths of a second at n = 3, l = 100,000. It only makes the bar move evenly.
fn cost(plan: Plan, round: usize) -> f64 {
    match round {
        1 => 17.0,
        5 => 9.0,
        12 if plan.n == 2 => 12.0, // no echo: its call does what 13's does else
        13 => 12.0,
        14 => 7.0,
        15 | 16 => 4.0,
        17 => 5.0,
        19 => 7.0,
        20 => 2.0,
        21 => 9.0,
        22 => 4.0,
        _ => 0.1,
    }
}

fn seconds(time: Duration) -> String {
    match time.as_secs_f64() {
        s if s < 0.1 => format!("{:.1} ms", s * 1000.0),
        s => format!("{s:.2} s"),
    }
}

/// 1234567 as 1,234,567.
fn grouped(number: usize) -> String {
    let digits = number.to_string();
    let group = |(at, digit): (usize, char)| {
        let comma = at > 0 && (digits.len() - at) % 3 == 0;
        comma.then_some(',').into_iter().chain([digit])
    };
    digits.chars().enumerate().flat_map(group).collect()
}
