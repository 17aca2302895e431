//! Inputs from a fixed seed.

use mtld3d_types::D3DMATRIX;

/// xorshift64*
pub struct Random(u64);

impl Random {
    pub fn new(seed: u64) -> Self {
        Self(seed)
    }

    fn bits(&mut self) -> u32 {
        self.0 ^= self.0 >> 12;
        self.0 ^= self.0 << 25;
        self.0 ^= self.0 >> 27;
        (self.0.wrapping_mul(0x2545_F491_4F6C_DD1D) >> 32) as u32
    }

    /// From 0 to 1.
    fn unit(&mut self) -> f32 {
        (self.bits() >> 8) as f32 / 16_777_216.0
    }

    /// Any positive normal float: all exponents alike.
    pub fn positive(&mut self) -> f32 {
        f32::from_bits(0x0080_0000 + self.bits() % 0x7F00_0000)
    }

    pub fn below_four(&mut self) -> f32 {
        4.0 * self.unit()
    }

    /// A turn about each axis, so that a long product neither grows nor shrinks, and a translation.
    pub fn camera(&mut self) -> D3DMATRIX {
        let (sa, ca) = (6.0 * self.unit()).sin_cos();
        let (sb, cb) = (6.0 * self.unit()).sin_cos();
        let (x, y, z) = (self.unit() - 0.5, self.unit() - 0.5, self.unit() - 0.5);
        D3DMATRIX {
            m: [
                ca * cb,
                ca * sb,
                -sa,
                0.0,
                -sb,
                cb,
                0.0,
                0.0,
                sa * cb,
                sa * sb,
                ca,
                0.0,
                x,
                y,
                z,
                1.0,
            ],
        }
    }
}
