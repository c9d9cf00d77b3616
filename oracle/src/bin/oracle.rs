//! The command line of the oracle; README.md has the formats.

use std::{collections::BTreeMap, env, fs, process::exit};

use oracle::{
    End, Outcome, Session, SplitMix, damage, honest, records, round_name,
    rules::{Rule, apply},
    run,
};

const USAGE: &str = "usage:
  oracle gen N L SEED FILE             honest inputs into a session file
  oracle run FILE [RULES] [--messages FILE]
                                       a session on the inputs of a file
  oracle record N L SEED FILE [RULES]  a vector file of a session on generated inputs
  oracle bench N L [TIMES]             CPU time of one party's session
  oracle survey COUNT SEED             damaged sessions, and how they end
RULES: --rules FILE, --rule 'ROUND FROM TO CHANGE ..', any number of each";

fn main() {
    let args: Vec<String> = env::args().skip(1).collect();
    if let Err(what) = command(&args) {
        eprintln!("oracle: {what}");
        exit(2);
    }
}

fn command(args: &[String]) -> Result<(), String> {
    // options out, the rest by position
    let (mut words, mut text, mut messages) = (vec![], String::new(), None);
    let mut args = args.iter();
    while let Some(arg) = args.next() {
        let mut value = || args.next().ok_or(USAGE);
        match arg.as_str() {
            "--rule" => text += &format!("{}\n", value()?),
            "--rules" => text += &String::from_utf8_lossy(&read(value()?)?),
            "--messages" => messages = Some(value()?),
            _ => words.push(arg.as_str()),
        }
    }
    let rules = Rule::parse_all(&text)?;
    let tampered = |s: &Session| {
        run(s, &mut |round, from, to, m| {
            apply(&rules, round, from, to, m)
        })
    };
    match words[..] {
        ["gen", n, l, seed, file] => write(file, &generate(n, l, seed)?.to_bytes()),
        ["run", file] => {
            let s = Session::from_bytes(&read(file)?)?;
            let o = tampered(&s);
            print(&s, &o);
            messages.map_or(Ok(()), |file| write(file, &transcript(&o)))
        }
        ["record", n, l, seed, file] => {
            let s = generate(n, l, seed)?;
            write(file, &vector(&s, &tampered(&s), &text))
        }
        ["bench", n, l] => bench(&generate(n, l, "1")?, 10),
        ["bench", n, l, times] => bench(&generate(n, l, "1")?, number(times)?),
        ["survey", count, seed] => survey(number(count)?, number(seed)? as u64),
        _ => Err(USAGE.into()),
    }
}

fn number(word: &str) -> Result<usize, String> {
    word.parse().map_err(|_| format!("no number: {word}"))
}

fn generate(n: &str, l: &str, seed: &str) -> Result<Session, String> {
    let (n, l) = (number(n)?, number(l)?);
    if !(2..=8).contains(&n) || l > 300_000 {
        return Err("n is 2 to 8, l at most 300,000".into());
    }
    Ok(Session::generate(
        n,
        l,
        seed.parse().map_err(|_| "no seed")?,
    ))
}

fn read(file: &str) -> Result<Vec<u8>, String> {
    fs::read(file).map_err(|e| format!("{file}: {e}"))
}

fn write(file: &str, bytes: &[u8]) -> Result<(), String> {
    fs::write(file, bytes).map_err(|e| format!("{file}: {e}"))
}

fn print(s: &Session, o: &Outcome) {
    println!("n {} l {} b {} seed {}", s.n, s.l, s.b(), s.seed);
    for m in &o.messages {
        let fate = match &m.got {
            None => " dropped".to_string(),
            Some(got) if *got != m.sent => format!(" changed, {} bytes", got.len()),
            Some(_) => String::new(),
        };
        let hash = blake3::hash(&m.sent).to_hex();
        let name = round_name(m.round);
        println!(
            "{:2} {name}: {} to {}: {} bytes, {hash}{fate}",
            m.round,
            m.from,
            m.to,
            m.sent.len()
        );
    }
    for (i, end) in o.ends.iter().enumerate() {
        match end {
            End::Done(shares) => println!(
                "party {i}: done, results {}",
                blake3::hash(&records(shares, i)).to_hex()
            ),
            End::Refused {
                number,
                round,
                error,
            } => println!("party {i}: {number} in round {round}, {error}"),
            End::Panic { round, error } => println!("party {i}: panic in round {round}, {error}"),
        }
    }
}

/// 0 as sent, 1 changed, 2 dropped.
fn fate(m: &oracle::Message) -> u8 {
    match &m.got {
        Some(got) => (*got != m.sent).into(),
        None => 2,
    }
}

fn transcript(o: &Outcome) -> Vec<u8> {
    let mut out = vec![];
    for m in &o.messages {
        out.extend([m.round, m.from as u8, m.to as u8, fate(m)]);
        let changed = m.got.as_ref().filter(|got| **got != m.sent);
        for bytes in [Some(&m.sent), changed].into_iter().flatten() {
            out.extend((bytes.len() as u64).to_le_bytes());
            out.extend(bytes);
        }
    }
    for (i, end) in o.ends.iter().enumerate() {
        out.extend(ended(end));
        if let End::Done(shares) = end {
            out.extend(records(shares, i));
        }
    }
    out
}

/// 0 done, 1 refused, 2 panic; number; round; zero.
fn ended(end: &End) -> [u8; 4] {
    match end {
        End::Done(_) => [0; 4],
        End::Refused { number, round, .. } => [1, *number, *round, 0],
        End::Panic { round, .. } => [2, 0, *round, 0],
    }
}

fn vector(s: &Session, o: &Outcome, rules: &str) -> Vec<u8> {
    let mut out = b"NZVECT01".to_vec();
    for word in [s.n, s.l, s.b(), o.messages.len(), rules.len()] {
        out.extend((word as u32).to_le_bytes());
    }
    out.extend([0; 4]);
    out.extend(s.seed.to_le_bytes());
    out.extend(blake3::hash(&s.to_bytes()).as_bytes());
    for m in &o.messages {
        out.extend([m.round, m.from as u8, m.to as u8, fate(m)]);
        out.extend((m.sent.len() as u32).to_le_bytes());
        out.extend(blake3::hash(&m.sent).as_bytes());
    }
    for (i, end) in o.ends.iter().enumerate() {
        out.extend(ended(end));
        match end {
            End::Done(shares) => out.extend(blake3::hash(&records(shares, i)).as_bytes()),
            _ => out.extend([0; 32]),
        }
    }
    out.extend(rules.as_bytes());
    out
}

fn bench(s: &Session, times: usize) -> Result<(), String> {
    let start = std::time::Instant::now();
    let mut all = vec![];
    for _ in 0..times.max(1) {
        let o = run(s, &mut honest);
        let results = o.results().ok_or("somebody refused")?;
        if !s.macs_hold(&results) || !s.and_holds(&results) {
            return Err("wrong results".into());
        }
        all.extend(o.nanoseconds);
    }
    let whole = start.elapsed().as_secs_f64() / times.max(1) as f64;
    all.sort();
    let ms = |ns: u64| ns as f64 / 1e6;
    println!(
        "n {} l {}: one party's session {:.3} ms CPU (median of {}; least {:.3}); whole run {:.3} ms",
        s.n,
        s.l,
        ms(all[all.len() / 2]),
        all.len(),
        ms(all[0]),
        whole * 1e3
    );
    Ok(())
}

/// How damaged sessions end: for each end its number of parties, and the first damage that led to
/// it. Where nobody refused, the results are looked at.
fn survey(count: usize, seed: u64) -> Result<(), String> {
    let mut g = SplitMix(seed);
    let mut ends: BTreeMap<String, (usize, String)> = BTreeMap::new();
    for _ in 0..count {
        let (n, l) = (2 + g.below(7).min(g.below(7)), 1 + g.below(3));
        let mut s = Session::generate(n, l, g.word());
        let seed = s.seed;
        let mut rules = vec![];
        let damaged_input = g.below(6) == 0;
        if damaged_input {
            damage::input(&mut g, &mut s);
        } else {
            rules.extend(damage::fault(&mut g, &s));
            if g.below(3) == 0 {
                rules.extend(damage::fault(&mut g, &s));
            }
        }
        let o = run(&s, &mut |round, from, to, m| {
            apply(&rules, round, from, to, m)
        });
        let results = o.results();
        let all = match &results {
            None => "done, another party not",
            Some(r) if !s.macs_hold(r) => "all done, a MAC is wrong",
            Some(r) if !s.and_holds(r) => "all done, the AND is wrong",
            Some(_) => "all done",
        };
        for end in &o.ends {
            let name = match end {
                End::Done(_) => all.to_string(),
                End::Refused { number, round, .. } => format!("{number:2} in round {round:2}"),
                End::Panic { round, error } => {
                    let place = error.rsplit(" at ").next().unwrap();
                    format!("panic in round {round:2}, {place}")
                }
            };
            let first = || {
                let rules: Vec<_> = rules.iter().map(|rule| rule.to_string()).collect();
                let what = if damaged_input {
                    "input".to_string()
                } else {
                    rules.join("; ")
                };
                format!("n {n} l {l} seed {seed}: {what}")
            };
            ends.entry(name).or_insert_with(|| (0, first())).0 += 1;
        }
    }
    for (name, (parties, first)) in ends {
        println!("{parties:6}  {name}   {}", &first[..first.len().min(160)]);
    }
    Ok(())
}
