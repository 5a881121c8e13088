//! A fast hash, which is not cryptographic.
pub use std::hash::{BuildHasher, Hash, Hasher, RandomState as HostState};

const MULTIPLIER: u64 = 0x9E37_79B9_7F4A_7C15;

/// Mixes each number that it is fed into its state by a multiplication whose halves are joined.
#[derive(Clone, Copy, Default, Debug)]
pub struct FoldHasher {
    state: u64,
}

impl FoldHasher {
    #[inline]
    fn mix(&mut self, number: u64) {
        let product =
            u128::from(self.state ^ number ^ 0x243F_6A88_85A3_08D3) * u128::from(MULTIPLIER);
        self.state = (product as u64) ^ ((product >> 64) as u64);
    }
}

impl Hasher for FoldHasher {
    #[inline]
    fn finish(&self) -> u64 {
        self.state.wrapping_mul(MULTIPLIER) ^ (self.state >> 32)
    }

    #[inline]
    fn write(&mut self, bytes: &[u8]) {
        let (words, rest) = bytes.as_chunks::<8>();
        for word in words {
            self.mix(u64::from_le_bytes(*word));
        }
        for byte in rest {
            self.mix(u64::from(*byte));
        }
    }

    #[inline]
    fn write_u8(&mut self, number: u8) {
        self.mix(u64::from(number));
    }

    #[inline]
    fn write_u16(&mut self, number: u16) {
        self.mix(u64::from(number));
    }

    #[inline]
    fn write_u32(&mut self, number: u32) {
        self.mix(u64::from(number));
    }

    #[inline]
    fn write_u64(&mut self, number: u64) {
        self.mix(number);
    }

    #[inline]
    fn write_usize(&mut self, number: usize) {
        self.mix(number as u64);
    }

    #[inline]
    fn write_isize(&mut self, number: isize) {
        self.mix(number as u64);
    }
}

/// Secret random keys, which Rust's standard library takes from the system.
#[derive(Clone)]
pub struct RandomState {
    host: HostState,
}

impl RandomState {
    /// New keys.
    pub fn new() -> std::io::Result<RandomState> {
        Ok(RandomState {
            host: HostState::new(),
        })
    }
}

impl BuildHasher for RandomState {
    type Hasher = <HostState as BuildHasher>::Hasher;

    fn build_hasher(&self) -> Self::Hasher {
        self.host.build_hasher()
    }
}
