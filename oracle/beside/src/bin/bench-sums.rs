//! The sums of `fabitn` over r: our call that makes it, beside `chunked_update_with_rbits`; see oracle/bench-sums.

use std::env;

use beside::Care;
use oracle::{BIT_AT, Session, SplitMix, Sums, cpu_time, honest, key_at, mac_at, record_len};

/// The call for this round makes `fabitn`, the next.
const MAKES_FABITN: u8 = 5;
/// A message: the count, and for each of 120 strings a bit and a Block.
const MESSAGE: usize = 8 + 120 * 17;

/// What party 0 sums, as the Rust has it: its bits and, for each other party, the MACs and then the keys.
fn lists(s: &Session) -> Vec<Sums> {
    let records = || s.parties[0].bits.chunks_exact(record_len(s.n));
    let bits: Vec<u8> = records().map(|record| record[BIT_AT]).collect();
    (1..s.n)
        .flat_map(|k| [mac_at(k), key_at(k)])
        .map(|at| {
            let blocks: Vec<[u8; 16]> = records()
                .map(|record| record[at..][..16].try_into().unwrap())
                .collect();
            Sums::new(&bits, &blocks, s.r.as_chunks().0)
        })
        .collect()
}

fn main() {
    let words: Vec<usize> = env::args()
        .skip(1)
        .map(|w| w.parse().expect("a number"))
        .collect();
    let usual = vec![(2, 1), (2, 3100), (3, 3100), (2, 30_000)];
    let (cases, times) = match words[..] {
        [] => (usual, 5),
        [times] => (usual, times),
        [n, l] => (vec![(n, l)], 5),
        [n, l, times, ..] => (vec![(n, l)], times),
    };
    for (n, l) in cases {
        let s = Session::generate(n, l, 1);
        let lists = lists(&s);
        let (mut ours, mut rust) = (u64::MAX, u64::MAX);
        for _ in 0..times.max(1) {
            let ran = beside::run(&s, &mut honest, Care::Time, &mut SplitMix(1), None);
            ours = ours.min(ran.calls[&(MAKES_FABITN, 0)]);
            let start = cpu_time();
            let bits = lists[0].bit_sums();
            let blocks: Vec<Vec<[u8; 16]>> = lists.iter().map(Sums::block_sums).collect();
            rust = rust.min(cpu_time() - start);
            let sent = ran.sent[&(MAKES_FABITN + 1, 0)].chunks_exact(MESSAGE);
            for (message, macs) in sent.zip(blocks.iter().step_by(2)) {
                for (j, item) in message[8..].chunks_exact(17).enumerate() {
                    assert!(
                        item[0] == u8::from(bits[j]) && item[1..] == macs[j],
                        "n {n} l {l}: string {j} differs"
                    );
                }
            }
        }
        let us = |ns: u64| ns as f64 / 1e3;
        println!(
            "n {n} l {l}: our call {:.0} us, the Rust's sums {:.0} us, ratio {:.2}",
            us(ours),
            us(rust),
            ours as f64 / rust as f64
        );
    }
}
