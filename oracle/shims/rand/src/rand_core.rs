//! The traits of rand_core 0.10 that the source names.
use std::convert::Infallible;

pub trait TryRng {
    type Error;
    fn try_next_u32(&mut self) -> Result<u32, Self::Error>;
    fn try_next_u64(&mut self) -> Result<u64, Self::Error>;
    fn try_fill_bytes(&mut self, dest: &mut [u8]) -> Result<(), Self::Error>;
}

pub trait TryCryptoRng: TryRng {}

pub trait Rng: TryRng<Error = Infallible> {
    #[inline]
    fn next_u32(&mut self) -> u32 {
        let Ok(word) = self.try_next_u32();
        word
    }

    #[inline]
    fn next_u64(&mut self) -> u64 {
        let Ok(word) = self.try_next_u64();
        word
    }

    #[inline]
    fn fill_bytes(&mut self, dest: &mut [u8]) {
        let Ok(()) = self.try_fill_bytes(dest);
    }
}

impl<R: TryRng<Error = Infallible> + ?Sized> Rng for R {}

pub trait SeedableRng: Sized {
    type Seed: Clone + Default + AsRef<[u8]> + AsMut<[u8]>;
    fn from_seed(seed: Self::Seed) -> Self;
}

pub mod block {
    use std::fmt;

    pub trait Generator {
        type Output;
        fn generate(&mut self, output: &mut Self::Output);
    }

    /// Hands out the words of a generated batch one by one.
    pub struct BlockRng<G: Generator> {
        results: G::Output,
        index: usize,
        pub core: G,
    }

    impl<G: Generator + Clone> Clone for BlockRng<G>
    where
        G::Output: Clone,
    {
        fn clone(&self) -> Self {
            Self {
                results: self.results.clone(),
                index: self.index,
                core: self.core.clone(),
            }
        }
    }

    impl<G: Generator + fmt::Debug> fmt::Debug for BlockRng<G> {
        fn fmt(&self, f: &mut fmt::Formatter<'_>) -> fmt::Result {
            f.debug_struct("BlockRng")
                .field("core", &self.core)
                .finish_non_exhaustive()
        }
    }

    impl<const N: usize, G: Generator<Output = [u32; N]>> BlockRng<G> {
        pub fn new(core: G) -> Self {
            Self {
                results: [0; N],
                index: N,
                core,
            }
        }

        pub fn next_word(&mut self) -> u32 {
            if self.index == N {
                self.core.generate(&mut self.results);
                self.index = 0;
            }
            self.index += 1;
            self.results[self.index - 1]
        }

        pub fn next_u64_from_u32(&mut self) -> u64 {
            let low = u64::from(self.next_word());
            low | u64::from(self.next_word()) << 32
        }

        pub fn fill_bytes(&mut self, dest: &mut [u8]) {
            for chunk in dest.chunks_mut(4) {
                chunk.copy_from_slice(&self.next_word().to_le_bytes()[..chunk.len()]);
            }
        }
    }
}
