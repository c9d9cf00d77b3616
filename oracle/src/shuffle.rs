//! The permutation that a joint seed draws (02, order 6): words of the real `ChaCha20Rng`, shuffled as the
//! order says (shims/rand).

use rand::{
    SeedableRng,
    seq::{Words, shuffle},
};
use rand_chacha::ChaCha20Rng;

use crate::session::SplitMix;

/// The permutation of 0 to count − 1, and how many words were passed over.
fn shuffled(joint_seed: &[u8; 32], count: usize) -> (Vec<u32>, usize) {
    let mut list: Vec<u32> = (0..count as u32).collect();
    let passed = shuffle(&mut list, ChaCha20Rng::from_seed(*joint_seed).words());
    (list, passed)
}

/// The permutation of 0 to count − 1.
pub fn drawn(joint_seed: &[u8; 32], count: usize) -> Vec<u32> {
    shuffled(joint_seed, count).0
}

/// How many words are passed over in drawing it.
pub fn passed_over(joint_seed: &[u8; 32], count: usize) -> usize {
    shuffled(joint_seed, count).1
}

/// Joint seeds that the generator gives, each with the seed that it gives it from: 0, 1 and so on.
fn generated() -> impl Iterator<Item = (u64, [u8; 32])> {
    (0..).map(|k| (k, SplitMix(k).bytes(32).try_into().unwrap()))
}

/// The first of these with which words are passed over.
pub fn first_passing(count: usize) -> (u64, [u8; 32]) {
    let mut passing = generated().filter(|(_, seed)| passed_over(seed, count) > 0);
    passing.next().unwrap()
}

/// The first of these whose first word is among the highest, as many as are drawn from. Of a power of two it is used, since
/// 2^32 is a multiple.
pub fn first_high(count: usize) -> (u64, [u8; 32]) {
    let word = |seed: [u8; 32]| ChaCha20Rng::from_seed(seed).words().next().unwrap();
    let mut high = generated().filter(|(_, seed)| (word(*seed) as usize) + count >= 1 << 32);
    high.next().unwrap()
}
