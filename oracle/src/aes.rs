//! Blocks as `AesRng` draws them, and the seed that the Rust gives it.

use rand::{RngExt, SeedableRng};
use rand_chacha::ChaCha20Rng;

use crate::{
    block::Block,
    crypto::{AesRng, aes_rng::inside},
};

/// The first Blocks that `AesRng` draws from a seed, by AES itself.
pub fn aes_blocks(seed: [u8; 16], count: usize) -> Vec<[u8; 16]> {
    let mut rng = AesRng::from_seed(Block::new(seed));
    (0..count).map(|_| rng.random::<Block>().into()).collect()
}

/// Block number c of those.
pub fn aes_block(seed: [u8; 16], c: u128) -> [u8; 16] {
    inside::from(Block::new(seed), c).random::<Block>().into()
}

/// Seed k of `oracle/aes-blocks`, easily made anew: byte i is k (2i + 1) + (k / 256)(i + 7) + (2k + 29) i² mod 256. Below 65,536 no two are alike.
pub fn seed_of(k: usize) -> [u8; 16] {
    std::array::from_fn(|i| (k * (2 * i + 1) + k / 256 * (i + 7) + (2 * k + 29) * i * i) as u8)
}

/// `AesRng`'s seed in `fabitn`: the first Block of the generator that the joint seed makes.
pub fn tossed(joint: [u8; 32]) -> [u8; 16] {
    ChaCha20Rng::from_seed(joint).random::<Block>().into()
}
