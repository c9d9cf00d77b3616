//! `AesRng` from any Block on. This file is a module of aes_rng.rs, whose counter is private.

use super::*;

/// The generator of a seed, its next Block number c.
pub(crate) fn from(seed: Block, c: u128) -> AesRng {
    let mut core = AesRngCore::from_seed(seed);
    core.state = c;
    core.into()
}
