//! Blocks that the Rust's `AesRng` draws from seeds, a line each; see oracle/aes-blocks.

use std::{
    env,
    io::{self, BufWriter, Write},
    process::exit,
};

use oracle::{aes_block, seed_of};

/// On both sides of 2^8, 2^16 and 2^32.
const NUMBERS: [u128; 11] = [
    0,
    1,
    255,
    256,
    257,
    65_535,
    65_536,
    65_537,
    4_294_967_295,
    4_294_967_296,
    4_294_967_297,
];

fn main() {
    let words: Vec<String> = env::args().skip(1).collect();
    let seeds = match &words[..] {
        [] => Some(1000),
        [seeds] => seeds.parse().ok().filter(|seeds| *seeds <= 65_536),
        _ => None,
    };
    let Some(seeds) = seeds else {
        eprintln!("usage: aes-blocks [SEEDS], at most 65536");
        exit(2)
    };
    if let Err(error) = print(seeds) {
        eprintln!("aes-blocks: {error}");
        exit(1)
    }
}

fn print(seeds: usize) -> io::Result<()> {
    let hex = |bytes: [u8; 16]| bytes.map(|byte| format!("{byte:02x}")).concat();
    let mut out = BufWriter::new(io::stdout().lock());
    for seed in (0..seeds).map(seed_of) {
        for c in NUMBERS {
            writeln!(out, "{} {c} {}", hex(seed), hex(aes_block(seed, c)))?;
        }
    }
    out.flush()
}
