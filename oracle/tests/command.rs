//! The command line: files and their formats.

use std::{fs, process::Command};

use oracle::{End, Session, honest, record_len, records, run};

fn oracle(args: &[&str]) -> String {
    let o = Command::new(env!("CARGO_BIN_EXE_oracle"))
        .args(args)
        .output()
        .unwrap();
    assert!(o.status.success(), "{}", String::from_utf8_lossy(&o.stderr));
    String::from_utf8(o.stdout).unwrap()
}

fn file(name: &str) -> String {
    format!("{}/{name}", env!("CARGO_TARGET_TMPDIR"))
}

#[test]
fn gen_and_run() {
    let (inputs, messages) = (file("inputs"), file("messages"));
    oracle(&["gen", "3", "2", "5", &inputs]);
    assert_eq!(
        fs::read(&inputs).unwrap(),
        Session::generate(3, 2, 5).to_bytes()
    );
    let text = oracle(&["run", &inputs, "--messages", &messages]);
    assert!(text.contains("party 2: done"));
    // the transcript, read by its format
    let s = Session::generate(3, 2, 5);
    let o = run(&s, &mut honest);
    let mut rest = &fs::read(&messages).unwrap()[..];
    for m in &o.messages {
        assert_eq!(rest[..4], [m.round, m.from as u8, m.to as u8, 0]);
        let len = u64::from_le_bytes(rest[4..12].try_into().unwrap()) as usize;
        assert_eq!(rest[12..12 + len], m.sent);
        rest = &rest[12 + len..];
    }
    for (i, end) in o.ends.iter().enumerate() {
        let End::Done(shares) = end else { panic!() };
        let records = records(shares, i);
        assert_eq!(rest[..4], [0; 4]);
        assert_eq!(rest[4..4 + records.len()], records[..]);
        rest = &rest[4 + records.len()..];
    }
    assert!(rest.is_empty());

    let text = oracle(&[
        "run",
        &inputs,
        "--rule",
        "6 0 1 flip 9 1",
        "--rule",
        "3 2 1 append 00",
    ]);
    assert!(
        text.contains("party 1: 8 in round 7, ABitWrongMAC"),
        "{text}"
    );
    assert!(text.contains("changed, 41 bytes"));
}

#[test]
fn record() {
    let (one, two, hurt) = (file("one"), file("two"), file("hurt"));
    oracle(&["record", "2", "1", "9", &one]);
    oracle(&["record", "2", "1", "9", &two]);
    let v = fs::read(&one).unwrap();
    assert_eq!(v, fs::read(&two).unwrap());
    let s = Session::generate(2, 1, 9);
    let o = run(&s, &mut honest);
    assert_eq!(v.len(), 72 + 40 * 28 + 36 * 2);
    assert_eq!(v[40..72], blake3::hash(&s.to_bytes()).as_bytes()[..]);
    for (m, entry) in o.messages.iter().zip(v[72..].chunks_exact(40)) {
        assert_eq!(entry[..4], [m.round, m.from as u8, m.to as u8, 0]);
        assert_eq!(entry[4..8], (m.sent.len() as u32).to_le_bytes());
        assert_eq!(entry[8..], blake3::hash(&m.sent).as_bytes()[..]);
    }
    let End::Done(shares) = &o.ends[1] else {
        panic!()
    };
    let records = records(shares, 1);
    assert_eq!(records.len(), record_len(2));
    assert_eq!(v[v.len() - 32..], blake3::hash(&records).as_bytes()[..]);

    oracle(&["record", "2", "1", "9", &hurt, "--rule", "3 0 1 flip 8 1"]);
    let v = fs::read(&hurt).unwrap();
    assert!(v.ends_with(b"3 0 1 flip 8 1\n"));
    let ends = &v[v.len() - 15 - 72..v.len() - 15];
    assert_eq!(ends[..4], [1, 14, 4, 0]);
    assert_eq!(ends[36..40], [1, 2, 3, 0]);
}
