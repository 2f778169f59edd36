//! The crates `fastbloom` and `rustc-hash`: a Bloom filter of 64-bit numbers, with the positions that docs/RULES.md states,
//! in whole words of 64 bits.
#[derive(Clone, Copy)]
pub struct FxBuildHasher;

pub struct BloomFilter<S> {
    words: Vec<u64>,
    hashes: u32,
    hasher: S,
}

pub struct Builder {
    bits: usize,
}

pub struct BuilderWithHasher<S> {
    bits: usize,
    hasher: S,
}

impl BloomFilter<FxBuildHasher> {
    pub fn with_num_bits(bits: usize) -> Builder {
        Builder { bits }
    }
}

impl Builder {
    pub fn hasher<S>(self, hasher: S) -> BuilderWithHasher<S> {
        BuilderWithHasher {
            bits: self.bits,
            hasher,
        }
    }
}

impl<S> BuilderWithHasher<S> {
    pub fn hashes(self, hashes: u32) -> BloomFilter<S> {
        BloomFilter {
            words: vec![0; self.bits.div_ceil(64)],
            hashes,
            hasher: self.hasher,
        }
    }
}

impl<S> BloomFilter<S> {
    /// Sets the bits of a number, and tells whether all were set before.
    pub fn insert(&mut self, number: &u64) -> bool {
        let bits = 64 * self.words.len() as u64;
        let step = 1 + (number >> 32) % (bits - 1);
        let mut all = true;
        for i in 0..u64::from(self.hashes) {
            let at = (number % bits + i * step) % bits;
            let word = &mut self.words[(at / 64) as usize];
            all &= *word >> (at % 64) & 1 == 1;
            *word |= 1 << (at % 64);
        }
        all
    }
}
