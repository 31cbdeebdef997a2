//! Numbers that a seed decides (splitmix64).

/// A run of numbers.
#[derive(Clone)]
pub struct Random(pub u64);

/// The bits of floats: zeros, subnormals, normals, infinities, quiet and signalling NaNs, of both signs.
pub const FLOATS: [u32; 28] = [
    0x0000_0000,
    0x8000_0000,
    0x0000_0001,
    0x8000_0001,
    0x0040_0000,
    0x007F_FFFF,
    0x807F_FFFF,
    0x0080_0000,
    0x8080_0000,
    0x3F80_0000,
    0xBF80_0000,
    0x3DCC_CCCD,
    0x4B80_0000,
    0x7F7F_FFFF,
    0xFF7F_FFFF,
    0x7F80_0000,
    0xFF80_0000,
    0x7FC0_0000,
    0xFFC0_0000,
    0x7FC0_0001,
    0x7FFF_FFFF,
    0xFFFF_FFFF,
    0x7F80_0001,
    0xFF80_0001,
    0x7FA0_0000,
    0xFFA0_0000,
    0x7FBF_FFFF,
    0xFFBF_FFFF,
];

impl Random {
    pub fn word(&mut self) -> u64 {
        self.0 = self.0.wrapping_add(0x9E37_79B9_7F4A_7C15);
        let mut z = self.0;
        z = (z ^ (z >> 30)).wrapping_mul(0xBF58_476D_1CE4_E5B9);
        z = (z ^ (z >> 27)).wrapping_mul(0x94D0_49BB_1331_11EB);
        z ^ (z >> 31)
    }

    /// Below n.
    pub fn below(&mut self, n: usize) -> usize {
        (self.word() % n as u64) as usize
    }

    /// True once in n.
    pub fn once_in(&mut self, n: usize) -> bool {
        self.below(n) == 0
    }

    pub fn pick<T: Copy>(&mut self, from: &[T]) -> T {
        from[self.below(from.len())]
    }

    pub fn byte(&mut self) -> u8 {
        self.word() as u8
    }

    pub fn fill(&mut self, bytes: &mut [u8]) {
        for chunk in bytes.chunks_mut(8) {
            chunk.copy_from_slice(&self.word().to_le_bytes()[..chunk.len()]);
        }
    }

    /// A float's bits: of a class, or any.
    pub fn float(&mut self) -> u32 {
        if self.once_in(2) {
            self.pick(&FLOATS)
        } else {
            self.word() as u32
        }
    }
}
