//! rand_chacha 0.3's `ChaCha20Rng` behind rand 0.10's traits.
use std::{convert::Infallible, iter};

use chacha::rand_core::{RngCore, SeedableRng as _};
use rand::{SeedableRng, TryCryptoRng, TryRng, seq::Words};

#[derive(Clone, Debug)]
pub struct ChaCha20Rng(chacha::ChaCha20Rng);

impl ChaCha20Rng {
    pub fn get_seed(&self) -> [u8; 32] {
        self.0.get_seed()
    }
}

impl SeedableRng for ChaCha20Rng {
    type Seed = [u8; 32];

    fn from_seed(seed: Self::Seed) -> Self {
        Self(chacha::ChaCha20Rng::from_seed(seed))
    }
}

impl TryRng for ChaCha20Rng {
    type Error = Infallible;

    fn try_next_u32(&mut self) -> Result<u32, Infallible> {
        Ok(self.0.next_u32())
    }

    fn try_next_u64(&mut self) -> Result<u64, Infallible> {
        Ok(self.0.next_u64())
    }

    fn try_fill_bytes(&mut self, dest: &mut [u8]) -> Result<(), Infallible> {
        self.0.fill_bytes(dest);
        Ok(())
    }
}

impl TryCryptoRng for ChaCha20Rng {}

// Its counter has 64 bits and its nonce the other 64: from 0 on, with a nonce of zeros, the blocks are those of RFC 8439
// for as long as a counter of 32 bits lasts.
impl Words for ChaCha20Rng {
    fn words(&self) -> impl Iterator<Item = u32> {
        let mut rng = chacha::ChaCha20Rng::from_seed(self.get_seed());
        iter::repeat_with(move || rng.next_u32())
    }
}
