//! Random numbers of the tests (SplitMix64), and floats that are likely to show a difference.

#[derive(Clone)]
pub struct Random(u64);

impl Random {
    pub fn new(seed: u64) -> Random {
        Random(seed.wrapping_mul(0x9e3779b97f4a7c15) ^ 0x5851f42d4c957f2d)
    }
    pub fn word(&mut self) -> u64 {
        self.0 = self.0.wrapping_add(0x9e3779b97f4a7c15);
        let mut z = self.0;
        z = (z ^ (z >> 30)).wrapping_mul(0xbf58476d1ce4e5b9);
        z = (z ^ (z >> 27)).wrapping_mul(0x94d049bb133111eb);
        z ^ (z >> 31)
    }
    pub fn below(&mut self, n: u64) -> u64 {
        self.word() % n
    }
    pub fn unit(&mut self) -> f64 {
        (self.word() >> 11) as f64 / 9007199254740992.0
    }
    pub fn between(&mut self, a: f64, b: f64) -> f64 {
        a + (b - a) * self.unit()
    }
    pub fn one_in(&mut self, n: u64) -> bool {
        self.below(n) == 0
    }
    pub fn pick<T: Copy>(&mut self, from: &[T]) -> T {
        from[self.below(from.len() as u64) as usize]
    }
    /// About normal: the sum of twelve.
    pub fn gaussian(&mut self) -> f64 {
        (0..12).map(|_| self.unit()).sum::<f64>() - 6.0
    }
    pub fn shuffle<T>(&mut self, v: &mut [T]) {
        for k in (1..v.len()).rev() {
            v.swap(k, self.below(k as u64 + 1) as usize);
        }
    }

    /// A float from the corners: zeros, limits, halves, multiples of a quarter turn, each with its neighbours.
    pub fn corner(&mut self) -> f64 {
        const BASES: [f64; 30] = [
            0.0, 1.0, 0.5, 1.5, 2.5, 0.7853981633974483, 1.5707963267948966, 2.356194490192345, 3.141592653589793,
            4.71238898038469, 6.283185307179586, 8192.0, 1e-12, 1e-15, 2.2250738585072014e-308, 5e-324,
            1.7976931348623157e308, f64::INFINITY, f64::NAN, 4503599627370496.0, 9007199254740992.0,
            9223372036854775808.0, 18446744073709551616.0, 360.0, 1.4142135623730951, 2.0, 3.0, 5700.0, 1e10, 1e20,
        ];
        let base = self.pick(&BASES);
        let near = match self.below(4) {
            0 => f64::from_bits(base.to_bits().saturating_add(self.below(3))),
            1 => f64::from_bits(base.to_bits().saturating_sub(self.below(3))),
            _ => base,
        };
        let scaled = if self.one_in(6) { near * self.below(20) as f64 } else { near };
        if self.one_in(2) { -scaled } else { scaled }
    }
    /// Any float: corners, any bits, numbers of a usual size, whole and half numbers.
    pub fn float(&mut self) -> f64 {
        match self.below(6) {
            0 => self.corner(),
            1 => f64::from_bits(self.word()),
            2 => self.between(-10.0, 10.0),
            3 => self.between(-1e4, 1e4),
            4 => (self.below(4001) as f64 - 2000.0) / 2.0,
            _ => {
                let e = 1023 - 60 + self.below(121);
                f64::from_bits((self.word() & 0x800fffffffffffff) | e << 52)
            }
        }
    }
    /// A usual value, or now and then any float.
    pub fn near(&mut self, a: f64, b: f64, strange: u64) -> f64 {
        if self.one_in(strange) { self.float() } else { self.between(a, b) }
    }
}
