//! What bench/aes/driver.c does, by the Rust's `aes`: eight Blocks at a time, as `AesRng` fills long lists, or one, as `fabitn` draws.
//!   aes-bench COUNT TIMES WIDTH

use std::{env, process::exit, time::Instant};

use aes::{
    cipher::{generic_array::GenericArray, BlockCipher, NewBlockCipher},
    Aes128,
};

type Block = GenericArray<u8, <Aes128 as BlockCipher>::BlockSize>;
type Eight = GenericArray<Block, <Aes128 as BlockCipher>::ParBlocks>;

#[no_mangle]
#[inline(never)]
pub fn once(out: &mut [Block], eight: bool) {
    let key: [u8; 16] = std::array::from_fn(|i| i as u8);
    let aes = Aes128::new(GenericArray::from_slice(&key));
    let count = |c: usize| *Block::from_slice(&(c as u128).to_le_bytes());
    if eight {
        for (at, chunk) in out.chunks_mut(8).enumerate() {
            let mut blocks = Eight::default();
            blocks.iter_mut().enumerate().for_each(|(k, block)| *block = count(8 * at + k));
            aes.encrypt_blocks(&mut blocks);
            chunk.copy_from_slice(&blocks[..chunk.len()]);
        }
    } else {
        for (c, block) in out.iter_mut().enumerate() {
            *block = count(c);
            aes.encrypt_block(block);
        }
    }
}

fn main() {
    let words: Vec<usize> = env::args().skip(1).filter_map(|word| word.parse().ok()).collect();
    let [count, times, width] = words[..] else {
        eprintln!("usage: aes-bench COUNT TIMES WIDTH, WIDTH 1 or 8");
        exit(2)
    };
    let mut out = vec![Block::default(); count];
    let mut least = f64::MAX;
    for _ in 0..times.max(1) {
        let begin = Instant::now();
        once(&mut out, width == 8);
        least = least.min(begin.elapsed().as_nanos() as f64);
    }
    // FNV-1a
    let digest =
        out.iter().flatten().fold(14695981039346656037, |digest: u64, byte| (digest ^ u64::from(*byte)).wrapping_mul(1099511628211));
    println!("{digest:016x} {:.1}", least / count as f64);
}
