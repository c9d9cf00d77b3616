//! The wrapper: lengths, sessions in memory, and each refusal that a host can bring about.

mod drawn;

use drawn::drawn;
use nuzsdike_host::{
    check::{self, Checked, Outputs},
    combine, dealer, key_at, mac_at, record_head, record_len, round_name, round_title, sum, Batch, Call, Form, Inputs, Mail, Outgoing,
    Plan, Reason, Refusal, Session, Step, BATCHES,
};

/// All boxes of a session in memory, in step.
struct Run {
    plan: Plan,
    inputs: Vec<Inputs>,
    /// How each box lends r.
    forms: Vec<Form>,
    sessions: Vec<Session>,
    outgoing: Vec<Outgoing>,
    /// The batches that each box tells, at the end.
    batches: Vec<Vec<Batch>>,
}

/// The list of one batch.
fn one(l: usize) -> [u32; 1] {
    [l as u32]
}

impl Run {
    fn new(n: usize, l: usize, seed: u64) -> Self {
        Self::with_batches(&vec![one(l).to_vec(); n], seed)
    }

    /// A list of counts for each box.
    fn with_batches(lists: &[Vec<u32>], seed: u64) -> Self {
        let n = lists.len();
        let plan = Plan::of_batches(n, &lists[0]);
        let inputs = dealer::deal_in_memory(plan, seed);
        let open = |(i, inputs)| Session::open(n, i, &lists[i], inputs).unwrap_or_else(|refusal| panic!("{refusal}"));
        let (sessions, outgoing) = inputs.iter().enumerate().map(open).unzip();
        Run { plan, inputs, forms: vec![Form::Seed; n], sessions, outgoing, batches: vec![] }
    }

    /// What box i is to be given for the round that is due.
    fn mail(&self, i: usize) -> Mail {
        let mut mail = Mail::new(self.plan, i, self.outgoing[i].round());
        for k in (0..self.plan.n).filter(|k| *k != i) {
            mail.put(k, self.outgoing[k].to(i));
        }
        mail
    }

    fn call(&mut self, i: usize, mail: &Mail) -> Result<Step, Refusal> {
        let r = if self.plan.r_len(mail.round()) != 0 { self.sessions[i].r(self.forms[i]) } else { vec![] };
        self.call_with(i, mail, &r)
    }

    /// The call with this r.
    fn call_with(&mut self, i: usize, mail: &Mail, r: &[u8]) -> Result<Step, Refusal> {
        self.sessions[i].round(mail, r)
    }

    /// Carries out the round that is due; gives the results after the last.
    fn step(&mut self) -> Option<Vec<Vec<u8>>> {
        let mails: Vec<Mail> = (0..self.plan.n).map(|i| self.mail(i)).collect();
        let mut results = vec![];
        for (i, mail) in mails.iter().enumerate() {
            match self.call(i, mail).unwrap_or_else(|refusal| panic!("box {i}: {refusal}")) {
                Step::Send(outgoing) => self.outgoing[i] = outgoing,
                Step::Done { results: records, batches } => {
                    results.push(records);
                    self.batches.push(batches);
                }
            }
        }
        (!results.is_empty()).then_some(results)
    }

    /// Up to the given round, which is then due.
    fn until(mut self, round: usize) -> Self {
        while self.sessions[0].due() != round {
            assert!(self.step().is_none(), "there is no round {round}");
        }
        self
    }

    fn check(&self, results: &[Vec<u8>]) -> Result<Checked, check::Wrong> {
        let outputs: Vec<Outputs> = (self.inputs.iter().zip(results))
            .map(|(inputs, results)| Outputs { delta: &inputs.delta, alpha: &inputs.alpha, beta: &inputs.beta, results })
            .collect();
        check::check(self.plan, &outputs)
    }
}

#[track_caller]
fn refused<T>(result: Result<T, Refusal>, number: u8, party: usize, over: bool) {
    let refusal = result.err().expect("a refusal");
    assert_eq!((refusal.reason.number(), refusal.party, refusal.over), (number, party, over), "{refusal}");
}

// ---- sessions

#[test]
fn sessions_of_two_to_eight_boxes() {
    for n in 2..=8 {
        let mut run = Run::new(n, 12, n as u64);
        let mut rounds = 0;
        let results = loop {
            rounds += 1;
            if let Some(results) = run.step() {
                break results;
            }
        };
        assert_eq!(rounds, if n == 2 { 14 } else { 22 });
        assert_eq!(run.check(&results), Ok(Checked { ands: 12, macs: 12 * n * (n - 1) }));
        assert_eq!(run.batches, vec![vec![Batch { first: 0, count: 12 }]; n]);
        for session in &run.sessions {
            assert!(session.due() == 0 && session.is_wiped());
        }
        // Done is done.
        let again = Mail::new(run.plan, 1, 22);
        refused(run.call(1, &again), 20, 1, true);
    }
}

/// Boxes with other batches and one sum: each is told its own, and their results are right.
#[test]
fn batches_are_told() {
    let lists = [vec![1, 4, 2], vec![7], vec![1; 7]];
    let mut run = Run::with_batches(&lists, 21);
    let results = loop {
        if let Some(results) = run.step() {
            break results;
        }
    };
    assert_eq!(run.check(&results), Ok(Checked { ands: 7, macs: 42 }));
    let told: Vec<Vec<_>> = run.batches.iter().map(|batches| batches.iter().map(|batch| (batch.first, batch.count)).collect()).collect();
    assert_eq!(told, [vec![(0, 1), (1, 4), (5, 2)], vec![(0, 7)], (0..7).map(|first| (first, 1)).collect()]);
}

/// Both bits occur as results: the check is not one of zeros alone.
#[test]
fn results_have_ones() {
    let mut run = Run::new(2, 64, 5);
    let results = loop {
        if let Some(results) = run.step() {
            break results;
        }
    };
    let ones = (0..64).filter(|t| results[0][t * record_len(2)] ^ results[1][t * record_len(2)] == 1).count();
    assert!((5..30).contains(&ones), "{ones} of 64");
}

// ---- numbers

#[test]
fn lengths_are_those_of_the_documents() {
    for n in 2..=8 {
        for (l, b) in [(1, 5), (3_099, 5), (3_100, 4), (279_999, 4), (280_000, 3), (300_000, 3)] {
            let (plan, record, lb) = (Plan::new(n, l), 32 + 32 * n, l * b);
            assert_eq!((record_len(n), plan.bucket_size()), (record, b));
            assert_eq!(plan.bits_len(), (3 * lb + 160) * record);
            assert_eq!(plan.shares_len(), l * record);
            assert_eq!(plan.masks_len(), n * lb);
            assert_eq!(plan.pairs_len(), 32 * n);
            assert_eq!(plan.r_total(), 120 * 16 * (3 * lb + 160).div_ceil(128));
            assert_eq!((plan.r_len(5), plan.r_len(6), plan.r_len(0)), (plan.r_total(), 0, 0));
            assert_eq!(plan.message_len(14), 8 + 2 * lb);
            assert_eq!(plan.message_len(17), 8 + 32 * lb);
            assert_eq!(plan.message_len(21), 8 + l * (16 + 17 * (b - 1)));
            assert_eq!(plan.out_len(0), 40 * (n - 1));
            assert_eq!(plan.out_len(22), l * record);
            assert!(plan.work_len() > plan.bits_len() + 2 * plan.shares_len() + plan.masks_len());
        }
    }
    for (n, l) in [(1, 1), (9, 1), (2, 0), (2, 300_001), (usize::MAX, usize::MAX)] {
        let plan = Plan::new(n, l);
        assert_eq!((plan.work_len(), plan.bits_len(), plan.out_len(0), plan.shares_len()), (0, 0, 0, 0));
        assert_eq!((record_len(n), plan.bucket_size()), (if n == 2 { 96 } else { 0 }, if l == 1 { 5 } else { 0 }));
    }
}

#[test]
fn a_list_has_a_sum_or_a_refusal() {
    assert_eq!(BATCHES, 16);
    for (counts, l) in [(&[7][..], 7), (&[100, 250, 50], 400), (&[18_750; 16], 300_000)] {
        assert_eq!(sum(counts), Ok(l));
        assert_eq!(Plan::of_batches(3, counts), Plan::new(3, l));
    }
    for (counts, number) in [(&[][..], 23), (&[1; 17], 23), (&[300_000, 1], 16), (&[u32::MAX, 2], 16), (&[0], 3), (&[5, 0, 5], 3)] {
        assert_eq!(sum(counts), Err(Reason(number)));
        assert_eq!(Plan::of_batches(3, counts), Plan::new(3, 0));
    }
}

/// The head by hand: bit, n, own number, 29 zero bytes; then the entries.
#[test]
fn a_record_has_a_head_and_entries() {
    for (n, i, bit) in [(2, 1, 0), (8, 7, 1)] {
        let head = record_head(n, i, bit);
        assert_eq!(head[..3], [bit, n as u8, i as u8]);
        assert_eq!(head[3..], [0; 29]);
        assert_eq!((mac_at(0), key_at(0), mac_at(1), mac_at(n)), (32, 48, 64, record_len(n)));
    }
}

#[test]
fn rounds_have_order_and_names() {
    assert_eq!(Plan::new(3, 1).rounds(), (1..=22).collect::<Vec<_>>());
    assert_eq!(Plan::new(2, 1).rounds(), [1, 3, 4, 5, 6, 8, 10, 12, 14, 15, 17, 19, 21, 22]);
    // What is no round of a session, or no number of boxes, has no next one.
    assert_eq!([(2, 2), (2, 22), (2, 23), (3, usize::MAX)].map(|(n, k)| Plan::new(n, 1).next_round(k)), [0; 4]);
    assert_eq!([0, 1, 9, usize::MAX].map(|n| Plan::new(n, 1).next_round(0)), [0; 4]);
    assert_eq!((round_name(1), round_name(12), round_name(22)), ("RNG comm".into(), "fashare di_bi".into(), "faand".into()));
    assert_eq!((round_title(9), round_title(20)), ("echo of fashare comm".into(), "echo of flaand hash".into()));
    assert_eq!((round_name(0), round_name(23), round_name(usize::MAX)), (String::new(), String::new(), String::new()));
}

// ---- refusals

#[test]
fn opening_refuses() {
    let plan = Plan::new(3, 2);
    let deal = || dealer::deal_in_memory(plan, 3).remove(1);
    let open = |plan: Plan, i, inputs: &Inputs| Session::open(plan.n, i, &one(plan.l), inputs).map(drop);
    assert!(open(plan, 1, &deal()).is_ok());
    for n in [0, 1, 9] {
        refused(open(Plan::new(n, 2), 1, &deal()), 15, 1, true);
    }
    refused(open(plan, 3, &deal()), 15, 3, true);
    refused(open(Plan::new(3, 300_001), 1, &deal()), 16, 1, true);
    refused(open(Plan::new(3, 0), 1, &deal()), 3, 1, true);
    // Batches. (tests/batches.rs looks closer.)
    assert!(Session::open(3, 1, &[1, 1], &deal()).is_ok());
    refused(Session::open(3, 1, &[], &deal()), 23, 1, true);
    refused(Session::open(3, 1, &[1; 17], &deal()), 23, 1, true);
    refused(Session::open(3, 1, &[2, 0], &deal()), 3, 1, true);
    // Another box's number: the records say whose they are. (tests/labels.rs looks closer.)
    refused(open(plan, 0, &deal()), 22, 0, true);

    let with = |change: fn(&mut Inputs)| {
        let mut inputs = deal();
        change(&mut inputs);
        open(plan, 1, &inputs)
    };
    refused(with(|inputs| inputs.bits.truncate(record_len(3))), 6, 1, true);
    refused(with(|inputs| inputs.alpha.push(0)), 6, 1, true);
    refused(with(|inputs| inputs.beta.clear()), 6, 1, true);
    refused(with(|inputs| inputs.masks.truncate(5)), 17, 1, true);
    refused(with(|inputs| inputs.pairs.push(0)), 17, 1, true);
    refused(with(|inputs| inputs.bits[0] = 2), 1, 1, true);
    refused(with(|inputs| inputs.beta[record_len(3)] = 255), 1, 1, true);
    refused(with(|inputs| inputs.alpha[record_len(3) + 1] = 2), 22, 1, true);
    refused(with(|inputs| inputs.bits[record_len(3) + mac_at(1)] = 1), 4, 1, true);
    refused(with(|inputs| inputs.masks[0] = 3), 1, 1, true);
    // The own masks are neither used nor checked.
    let lb = plan.l * plan.bucket_size();
    let mut inputs = deal();
    inputs.masks[lb..2 * lb].fill(9);
    assert!(open(plan, 1, &inputs).is_ok());
}

/// What the host gets wrong leaves the session as it was: the right call is accepted afterwards.
#[test]
fn a_hosts_mistakes_leave_the_session() {
    let mut run = Run::new(3, 2, 4).until(5);
    let mail = run.mail(0);
    // Without r.
    refused(run.call_with(0, &mail, &[]), 17, 0, false);
    refused(run.call(0, &Mail::new(Plan::new(3, 2), 0, 6)), 19, 0, false);
    refused(run.call(0, &Mail::new(Plan::new(3, 2), 0, 0)), 19, 0, false);
    assert_eq!(run.sessions[0].due(), 5);
    assert!(run.call(0, &mail).is_ok());

    // The call that draws the permutation is lent nothing: no seed either.
    let mut run = Run::new(3, 2, 4).until(20);
    let mail = run.mail(2);
    let seed = run.sessions[2].r_seed();
    refused(run.call_with(2, &mail, &seed), 17, 2, false);
    refused(run.call(2, &Mail::new(Plan::new(3, 2), 2, 21)), 19, 2, false);
    assert!(run.call(2, &mail).is_ok());
}

/// A refused call left the session as it was.
#[track_caller]
fn not_taken(run: &mut Run, i: usize, mail: &Mail, r: &[u8]) {
    let (due, work) = (run.sessions[i].due(), run.sessions[i].work().to_vec());
    refused(run.call_with(i, mail, r), 17, i, false);
    assert!(run.sessions[i].due() == due && run.sessions[i].work() == work, "a refused call changed something");
}

/// r is all strings or one Block, a seed: every other length is 17, and so is a Block in a call that is due no r. Each time the session goes on.
#[test]
fn r_has_one_of_two_lengths() {
    for n in [2, 3, 8] {
        for form in [Form::Seed, Form::Strings] {
            let mut run = Run::new(n, 2, 16);
            run.forms.fill(form);
            let mut calls = 0;
            let results = loop {
                let round = run.sessions[0].due();
                for i in 0..n {
                    let mail = run.mail(i);
                    let all = run.plan.r_len(round);
                    let lens = if all == 0 {
                        vec![1, 16, run.plan.r_total()]
                    } else {
                        vec![0, 1, 15, 17, 32, all - 16, all - 1, all + 1, all + 16]
                    };
                    for len in lens {
                        not_taken(&mut run, i, &mail, &vec![1; len]);
                        calls += 1;
                    }
                }
                if let Some(results) = run.step() {
                    break results;
                }
            };
            assert_eq!(calls, n * (3 * (run.plan.rounds().len() - 1) + 9));
            assert_eq!(run.check(&results), Ok(Checked { ands: 2, macs: 2 * n * (n - 1) }));
        }
    }
}

/// Whichever form each box lends, all send the same messages and end with the same results; r has 240 to 67,680 Blocks.
#[test]
fn a_seed_and_its_strings_are_the_same() {
    for (n, l) in [(2, 1), (2, 60), (3, 7), (8, 2), (2, 6_000)] {
        let run = |form: &dyn Fn(usize) -> bool| {
            let mut run = Run::new(n, l, 17);
            run.forms = (0..n).map(|i| if form(i) { Form::Strings } else { Form::Seed }).collect();
            let mut sent = vec![];
            loop {
                sent.extend(run.outgoing.iter().flat_map(|outgoing| outgoing.messages().concat()));
                if let Some(results) = run.step() {
                    assert_eq!(run.check(&results), Ok(Checked { ands: l, macs: l * n * (n - 1) }));
                    return (sent, results);
                }
            }
        };
        let seeds = run(&|_| false);
        assert!(run(&|_| true) == seeds);
        for place in 0..n {
            assert!(run(&|i| i == place) == seeds && run(&|i| i != place) == seeds);
        }
    }
}

/// Every bit of a seed counts: another seed makes other messages. Boxes of two seeds do not go on together, nor does one of a seed with one of other strings.
#[test]
fn another_seed_is_another_r() {
    let made = |change: &dyn Fn(&mut Vec<u8>)| {
        let mut run = Run::new(2, 1, 18).until(5);
        let (mail, mut r) = (run.mail(0), run.sessions[0].r(Form::Seed));
        change(&mut r);
        match run.call_with(0, &mail, &r) {
            Ok(Step::Send(outgoing)) => outgoing.to(1).to_vec(),
            _ => panic!("a seed was refused"),
        }
    };
    let usual = made(&|_| {});
    for bit in 0..128 {
        assert_ne!(made(&|r| r[bit / 8] ^= 1 << (bit % 8)), usual, "bit {bit}");
    }
    for (n, form, round) in [(2, Form::Seed, 6), (3, Form::Seed, 7), (2, Form::Strings, 6), (3, Form::Strings, 7)] {
        let mut run = Run::new(n, 1, 18).until(5);
        let (mails, mut r): (Vec<Mail>, _) = ((0..n).map(|i| run.mail(i)).collect(), run.sessions[0].r(form));
        // of strings one bit of the first, which chooses the first record
        r[0] ^= 1;
        for (i, mail) in mails.iter().enumerate() {
            let step = if i == 0 { run.call_with(0, mail, &r) } else { run.call(i, mail) };
            let Ok(Step::Send(outgoing)) = step else { panic!("box {i} is refused") };
            run.outgoing[i] = outgoing;
        }
        if n == 3 {
            assert!(run.step().is_none());
        }
        let mail = run.mail(0);
        let refusal = run.call(0, &mail).err().expect("a refusal");
        assert_eq!((refusal.reason, refusal.call, refusal.over), (Reason(8), Call::Round(round), true), "{refusal}");
    }
}

/// Opening by mistake into a live session's memory is refused, and the session goes on to the end.
#[test]
fn a_refused_opening_leaves_a_live_session() {
    for n in [2, 3] {
        let mut run = Run::new(n, 2, 11);
        let results = loop {
            let round = run.sessions[1].due();
            let (again, work) = (dealer::deal_in_memory(run.plan, 12), run.sessions[1].work().to_vec());
            let mut bad = |plan: Plan, i, change: fn(&mut Inputs), number| {
                let mut inputs = dealer::deal_in_memory(run.plan, 12).remove(1);
                change(&mut inputs);
                refused(run.sessions[1].open_again(plan.n, i, &one(plan.l), &inputs), number, i, false);
                assert!(run.sessions[1].due() == round && run.sessions[1].work() == work);
            };
            bad(run.plan, n, |_| {}, 15);
            bad(Plan::new(n, 300_001), 1, |_| {}, 16);
            bad(Plan::new(n, 0), 1, |_| {}, 3);
            bad(run.plan, 1, |inputs| inputs.alpha.clear(), 6);
            bad(run.plan, 1, |inputs| inputs.pairs.clear(), 17);
            bad(run.plan, 1, |inputs| inputs.bits[0] = 2, 1);
            bad(run.plan, 1, |inputs| inputs.beta[2] = 0, 22);
            bad(run.plan, 1, |inputs| inputs.beta[mac_at(1)] = 1, 4);
            // Another box's inputs.
            refused(run.sessions[1].open_again(n, 1, &one(run.plan.l), &again[0]), 22, 1, false);
            // No batch.
            refused(run.sessions[1].open_again(n, 1, &[], &again[1]), 23, 1, false);
            if let Some(results) = run.step() {
                break results;
            }
        };
        assert_eq!(run.check(&results), Ok(Checked { ands: 2, macs: 2 * n * (n - 1) }));
    }
}

/// An accepted opening takes the place of the session that was there.
#[test]
fn an_accepted_opening_replaces_a_session() {
    let mut run = Run::new(2, 2, 13).until(6);
    for i in 0..2 {
        let again = run.sessions[i].open_again(2, i, &[1, 1], &run.inputs[i]);
        run.outgoing[i] = again.unwrap_or_else(|refusal| panic!("{refusal}"));
    }
    let results = loop {
        if let Some(results) = run.step() {
            break results;
        }
    };
    assert_eq!(run.check(&results), Ok(Checked { ands: 2, macs: 4 }));
}

/// The tossed seeds lie where the library says.
#[test]
fn boxes_share_the_tossed_seeds() {
    let run = Run::new(3, 2, 14).until(6);
    let joint = run.sessions[0].joint_seed();
    assert!(joint.iter().any(|byte| *byte != 0) && run.sessions.iter().all(|session| session.joint_seed() == joint));
    let pairwise = |i: usize, k: usize| &run.sessions[i].pairwise_seeds()[32 * k..][..32];
    for (i, k) in [(0, 1), (0, 2), (1, 2)] {
        assert!(pairwise(i, k).iter().any(|byte| *byte != 0) && pairwise(i, k) == pairwise(k, i));
    }
    assert_ne!(pairwise(0, 1), pairwise(0, 2));
}

/// The permutation that a box keeps: PERM of docs/WORK_AREA.md. Behind it stand DS, TRIPLES, PENDING and HASHES.
fn kept_permutation(session: &Session) -> Vec<u32> {
    let (Plan { n, l }, b) = (session.plan(), session.plan().bucket_size());
    let behind = l * (b - 1) + l * 2 * (1 + 32 * n) + 2 + n * 16;
    let end = session.work().len() - behind;
    session.work()[end - 4 * l * b..end].chunks_exact(4).map(|entry| u32::from_le_bytes(entry.try_into().unwrap())).collect()
}

/// The call that writes `dvalue`, and none before it, draws the permutation: what the joint seed gives, the same at all boxes.
#[test]
fn boxes_draw_the_permutation_from_the_joint_seed() {
    for (n, l) in [(2, 1), (3, 7), (8, 2), (2, 204), (2, 205), (2, 3_100)] {
        let mut run = Run::new(n, l, 19).until(if n == 2 { 19 } else { 20 });
        let seed: [u8; 32] = run.sessions[0].joint_seed().try_into().unwrap();
        let due = drawn(&seed, l * run.plan.bucket_size());
        assert!(run.sessions.iter().all(|session| session.joint_seed() == seed));
        assert!(run.sessions.iter().all(|session| kept_permutation(session).iter().all(|entry| *entry == 0)));
        assert!(run.step().is_none());
        for (i, session) in run.sessions.iter().enumerate() {
            assert_eq!(session.due(), 21);
            assert!(kept_permutation(session) == due, "box {i} of {n}, l {l}");
        }
        let mut sorted = due.clone();
        sorted.sort();
        assert!(sorted != due && sorted.iter().enumerate().all(|(t, entry)| t == *entry as usize));
    }
}

/// What the others get wrong ends the session and zeroes the work area.
#[test]
fn received_faults_end_the_session() {
    type Change = fn(&mut Vec<u8>);
    let faulty = |n, round, from: usize, change: Change| {
        let mut run = Run::new(n, 2, 6).until(round);
        let mut mail = run.mail(0);
        let mut message = run.outgoing[from].to(0).to_vec();
        change(&mut message);
        mail.put(from, &message);
        let result = run.call(0, &mail);
        (result, run)
    };
    let ended = |(result, run): (Result<Step, Refusal>, Run), number, party| {
        refused(result, number, party, true);
        assert!(run.sessions[0].due() == 0 && run.sessions[0].is_wiped());
    };
    ended(faulty(2, 3, 1, |message| message[8] ^= 1), 2, 1);
    ended(faulty(2, 6, 1, |message| message[9] ^= 1), 8, 1);
    ended(faulty(2, 10, 1, |message| message[17] ^= 1), 2, 1);
    ended(faulty(3, 2, 1, |message| *message.last_mut().unwrap() ^= 1), 7, 1);
    ended(faulty(3, 6, 1, |message| message[8] = 2), 13, 1);
    ended(faulty(3, 6, 2, |message| message.truncate(100)), 13, 2);
    ended(faulty(3, 6, 2, |message| message.clear()), 13, 2);
    ended(faulty(2, 21, 1, |message| *message.last_mut().unwrap() ^= 128), 11, 1);
    ended(faulty(2, 22, 1, |message| *message.last_mut().unwrap() ^= 128), 12, 1);
    // A list of another count, whole; and with an element more than it counts.
    ended(
        faulty(3, 14, 1, |message| {
            message[0] -= 1;
            message.truncate(message.len() - 2);
        }),
        6,
        1,
    );
    ended(faulty(3, 14, 1, |message| message[0] -= 1), 21, 1);
    // Missing: parties in ascending order.
    let mut run = Run::new(4, 2, 6).until(8);
    let mut mail = run.mail(1);
    mail.mark_missing(3);
    mail.put(2, &[]);
    ended((run.call(1, &mail), run_of(run)), 13, 2);

    fn run_of(mut run: Run) -> Run {
        run.sessions.swap(0, 1);
        run
    }
    let mut run = Run::new(4, 2, 6).until(8);
    let mut mail = run.mail(1);
    mail.mark_missing(3);
    let result = run.call(1, &mail);
    assert!(run.sessions[1].is_wiped());
    refused(result, 14, 3, true);
    refused(run.call(1, &Mail::new(Plan::new(4, 2), 1, 8)), 20, 1, true);
}

/// A byte of filler, by the kit: every round's call refuses it, whoever sent it. (tests/filler.rs looks closer.)
#[test]
fn filler_is_refused_in_every_round() {
    for n in [2, 3] {
        for round in Plan::new(n, 2).rounds() {
            let mut run = Run::new(n, 2, 15).until(round);
            for i in 0..n {
                let from = (i + 1 + round % (n - 1)) % n;
                let mut mail = run.mail(i);
                mail.put(from, &[run.outgoing[from].to(i), &[0]].concat());
                let refusal = run.call(i, &mail).err().unwrap();
                assert_eq!(refusal, Refusal { reason: Reason(21), party: from, call: Call::Round(round), over: true });
                assert!(run.sessions[i].due() == 0 && run.sessions[i].is_wiped());
                refused(run.call(i, &mail), 20, i, true);
            }
        }
    }
}

/// The own entry may be anything.
#[test]
fn the_own_message_is_ignored() {
    let mut run = Run::new(3, 2, 7).until(6);
    let mut mail = run.mail(1);
    mail.put(1, b"nonsense");
    assert!(run.call(1, &mail).is_ok());
}

/// A message may lie anywhere in the buffer, and be read where a transport put it.
#[test]
fn slots_and_copies_agree() {
    let mut run = Run::new(4, 2, 8).until(10);
    let mut mail = Mail::new(run.plan, 2, 10);
    for (k, slot) in mail.slots().into_iter().enumerate().filter(|(k, _)| *k != 2) {
        slot.copy_from_slice(run.outgoing[k].to(2));
    }
    for k in [0, 1, 3] {
        mail.arrived(k, run.outgoing[k].to(2).len());
    }
    assert!(run.call(2, &mail).is_ok());
}

#[test]
fn refusals_say_what_and_where() {
    let mut run = Run::new(3, 2, 9).until(9);
    let mut mail = run.mail(0);
    mail.mark_missing(2);
    let refusal = run.call(0, &mail).err().unwrap();
    assert_eq!(refusal, Refusal { reason: Reason(14), party: 2, call: Call::Round(9), over: true });
    assert_eq!(refusal.to_string(), "refused 14 MissingMessage in round 9 (echo of fashare comm), names box 2: a message is missing");
    assert_eq!(
        [7, 18, 20, 21, 22, 23, 24, 0].map(|number| Reason(number).name()),
        ["InconsistentBroadcast", "NotAPermutation", "SessionOver", "BytesAfterValue", "WrongLabel", "BadBatches", "Unknown", "Unknown"]
    );
    let refusal = Session::open(3, 0, &[], &run.inputs[0]).err().unwrap();
    assert_eq!(refusal.to_string(), "refused 23 BadBatches at opening, names box 0: no batch, or more than 16");
    let refusal = Session::open(3, 0, &one(run.plan.l), &run.inputs[2]).err().unwrap();
    assert_eq!(
        refusal.to_string(),
        "refused 22 WrongLabel at opening, names box 0: a record says another n or another box's number, or its filler is not zero"
    );
}

// ---- combining

/// Document 01's case by hand: bits x1 1, z1 0, x2 1, z2 1; d 1 gives x 0, z 0, and d 0 gives z 1.
#[test]
fn combining_by_hand() {
    let len = record_len(2);
    let record = |bit| [&record_head(2, 0, bit)[..], &vec![0; len - mac_at(0)]].concat();
    let triples = [1, 0, 0, 1, 0, 1].map(record).concat();
    let bits = |out: Vec<u8>| (out[0], out[len], out[2 * len]);
    assert_eq!(combine(2, 0, 2, &triples, &[1]).map(bits), Ok((0, 0, 0)));
    assert_eq!(combine(2, 0, 2, &triples, &[0]).map(bits), Ok((0, 0, 1)));
    refused(combine(2, 0, 0, &[], &[]), 5, 0, false);
    refused(combine(2, 0, 6, &triples.repeat(3), &[0; 5]), 16, 0, false);
    refused(combine(2, 0, 2, &triples[1..], &[1]), 6, 0, false);
    refused(combine(2, 0, 2, &triples, &[]), 6, 0, false);
    refused(combine(2, 0, 2, &triples, &[2]), 1, 0, false);
    refused(combine(2, 1, 2, &triples, &[1]), 22, 1, false);
    refused(combine(9, 0, 2, &triples, &[1]), 15, 0, false);
}
