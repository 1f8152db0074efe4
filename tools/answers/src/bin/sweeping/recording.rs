//! Recordings told in few numbers, so that a long one takes no room in the cases.

/// For each byte a number is drawn from the one before, x becoming 48271 x mod 2^31 - 1, from the seed on. Where floor(x / 2^15) mod 256 is below the weight,
/// byte i is the pattern's at i modulo its length, else it is floor(x / 2^23).
#[derive(Clone)]
pub struct Recording {
    pub length: usize,
    pub seed: u64,
    pub weight: u64,
    pub pattern: Vec<u8>,
}

impl Recording {
    /// All bytes drawn.
    pub fn drawn(length: usize, seed: u64) -> Recording {
        Recording { length, seed, weight: 0, pattern: vec![] }
    }

    /// The pattern over and over.
    pub fn periodic(length: usize, pattern: Vec<u8>) -> Recording {
        Recording { length, seed: 1, weight: 256, pattern }
    }

    /// Just these bytes.
    pub fn of(bytes: Vec<u8>) -> Recording {
        Recording::periodic(bytes.len(), bytes)
    }

    pub fn bytes(&self) -> Vec<u8> {
        const MODULUS: u64 = (1 << 31) - 1;
        let mut x = self.seed;
        let mut byte = |i: usize| {
            x = x % MODULUS * 48271 % MODULUS;
            if (x >> 15) % 256 < self.weight { self.pattern[i % self.pattern.len()] } else { (x >> 23) as u8 }
        };
        (0..self.length).map(&mut byte).collect()
    }
}
