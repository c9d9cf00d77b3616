//! rand 0.10's names. `random` gives recorded values, `shuffle` is that of document 02, order 6; the rest is traits.
pub mod rand_core;

pub mod distr {
    use crate::Rng;

    pub trait Distribution<T> {
        fn sample<R: Rng + ?Sized>(&self, rng: &mut R) -> T;
    }

    pub struct StandardUniform;

    impl Distribution<bool> for StandardUniform {
        fn sample<R: Rng + ?Sized>(&self, rng: &mut R) -> bool {
            rng.next_u32() >> 31 != 0
        }
    }

    // rand draws a word for each byte; here the 32 bytes are the recorded ones.
    impl Distribution<[u8; 32]> for StandardUniform {
        fn sample<R: Rng + ?Sized>(&self, rng: &mut R) -> [u8; 32] {
            let mut bytes = [0; 32];
            rng.fill_bytes(&mut bytes);
            bytes
        }
    }
}

pub mod prelude {
    pub use crate::distr::Distribution;
}

pub mod seq {
    /// A generator that tells the words of its seed, from the first on, whatever was drawn before.
    pub trait Words {
        fn words(&self) -> impl Iterator<Item = u32>;
    }

    /// How many words are passed over at one index at most.
    const MOST: usize = 64;

    /// The shuffle of document 02, order 6, by these words. Says how many it passed over.
    pub fn shuffle<T>(list: &mut [T], mut words: impl Iterator<Item = u32>) -> usize {
        let mut word = || u64::from(words.next().expect("oracle: words for a shuffle"));
        let mut all = 0;
        for t in (1..list.len()).rev() {
            let count = t as u64 + 1;
            let multiple = (1 << 32) / count * count;
            let (mut w, mut passed) = (word(), 0);
            while w >= multiple && passed < MOST {
                (w, passed) = (word(), passed + 1);
            }
            list.swap(t, (w % count) as usize);
            all += passed;
        }
        all
    }

    /// rand's shuffle is another; the source is given the order's, from the seed of its own toss.
    pub trait SliceRandom {
        fn shuffle<R: Words>(&mut self, rng: &mut R);
    }

    impl<T> SliceRandom for [T] {
        fn shuffle<R: Words>(&mut self, rng: &mut R) {
            shuffle(self, rng.words());
        }
    }
}

pub use rand_core::{Rng, SeedableRng, TryCryptoRng, TryRng};

use distr::{Distribution, StandardUniform};

pub trait RngExt: Rng {
    #[inline]
    fn random<T>(&mut self) -> T
    where
        StandardUniform: Distribution<T>,
    {
        StandardUniform.sample(self)
    }
}

impl<R: Rng + ?Sized> RngExt for R {}

/// Draws from the recorded values of the party that runs.
pub fn random<T>() -> T
where
    StandardUniform: Distribution<T>,
{
    StandardUniform.sample(&mut Recorded)
}

struct Recorded;

impl TryRng for Recorded {
    type Error = std::convert::Infallible;

    /// One recorded byte, a bit, where a bool's draw looks: at the top.
    fn try_next_u32(&mut self) -> Result<u32, Self::Error> {
        let mut bit = [0];
        recorded::draw(&mut bit);
        Ok(u32::from(bit[0]) << 31)
    }

    fn try_next_u64(&mut self) -> Result<u64, Self::Error> {
        unreachable!("oracle: nothing draws 64 bits")
    }

    fn try_fill_bytes(&mut self, dest: &mut [u8]) -> Result<(), Self::Error> {
        recorded::draw(dest);
        Ok(())
    }
}
