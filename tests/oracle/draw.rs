//! The inputs: a generator of our own, apart from the one under comparison, and the values at edges.

/// Marsaglia's xorshift64, started from any number but 0.
pub struct Draw(u64);

impl Draw {
    pub fn new(seed: u64) -> Draw {
        Draw(seed.wrapping_mul(2).wrapping_add(1))
    }

    pub fn word(&mut self) -> u64 {
        self.0 ^= self.0 << 13;
        self.0 ^= self.0 >> 7;
        self.0 ^= self.0 << 17;
        self.0
    }

    pub fn below(&mut self, n: u64) -> u64 {
        (self.word() >> 11) % n
    }

    /// A word of any length in bits, so that small ones and sparse ones come up too.
    pub fn any_length(&mut self) -> u64 {
        let w = self.word() >> self.below(64);
        if self.below(8) == 0 {
            w & self.word() & self.word()
        } else {
            w
        }
    }

    pub fn state(&mut self) -> [u64; 4] {
        [self.any_length(), self.any_length(), self.any_length(), self.any_length()]
    }

    /// A binary64 of any bit pattern.
    pub fn float(&mut self) -> f64 {
        f64::from_bits(self.word())
    }

    /// In [0, 1), as a uniform draw is.
    pub fn unit(&mut self) -> f64 {
        (self.word() >> 11) as f64 / 9007199254740992.0
    }
}

/// Words at which carries, signs and shifts change.
pub fn words() -> Vec<u64> {
    let mut v = vec![0, 1, 2, 3, 5, 9, 0x9E37_79B9_7F4A_7C15, 0xBF58_476D_1CE4_E5B9, 0x94D0_49BB_1331_11EB];
    for k in 0..64 {
        let p = 1u64 << k;
        v.extend([p, p - 1, !p, p.wrapping_add(1), p.wrapping_neg()]);
    }
    v.extend([0x5555_5555_5555_5555, 0xAAAA_AAAA_AAAA_AAAA, 0x0123_4567_89AB_CDEF, u64::MAX]);
    v.sort_unstable();
    v.dedup();
    v
}

/// Every exponent with fractions at both ends and in the middle, every subnormal of one bit, both
/// signs; zeros, infinities and NaNs are among them.
pub fn floats() -> Vec<f64> {
    let fractions = [
        0u64,
        1,
        2,
        0x000F_FFFF_FFFF_FFFF,
        0x000F_FFFF_FFFF_FFFE,
        0x0008_0000_0000_0000,
        0x0008_0000_0000_0001,
        0x0007_FFFF_FFFF_FFFF,
        // the square root of one half, and of two, one above and one below
        0x0006_A09E_667F_3BCC,
        0x0006_A09E_667F_3BCD,
        0x0006_A09E_667F_3BCE,
    ];
    let mut v = vec![];
    for sign in [0u64, 1 << 63] {
        for e in 0..2048u64 {
            for f in fractions {
                v.push(f64::from_bits(sign | e << 52 | f));
            }
        }
        for k in 0..52 {
            v.push(f64::from_bits(sign | 1 << k));
            v.push(f64::from_bits(sign | ((1 << k) - 1)));
        }
    }
    v
}
