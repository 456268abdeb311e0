//! Document 01, "Arithmetic the platform leaves open", sentence by sentence.

pub trait Meant {
    fn meant_sin(self) -> f64;
    fn meant_cos(self) -> f64;
    fn meant_ln(self) -> f64;
    fn meant_cbrt(self) -> f64;
    fn meant_powi(self, n: i32) -> f64;
    fn meant_max(self, w: f64) -> f64;
    fn meant_min(self, w: f64) -> f64;
    fn meant_round(self) -> f64;
    fn meant_signum(self) -> f64;
    fn meant_rem_euclid(self, d: f64) -> f64;
    fn meant_to_degrees(self) -> f64;
    fn meant_to_radians(self) -> f64;
}

/// The number of threads is no float.
pub trait Threads {
    fn threads(self, least: usize) -> usize;
}

impl Threads for usize {
    fn threads(self, least: usize) -> usize {
        std::cmp::max(self, least)
    }
}

const QUARTER: f64 = 1.5707963267948966;

const fn factorial(n: u64) -> f64 {
    let mut product = 1;
    let mut k = 2;
    while k <= n {
        product *= k;
        k += 1;
    }
    product as f64 // at most 17!, which is below 2^53
}

/// The f64 nearest (-1)^k/(2k+first)!: the factorial is exact, so one division rounds once.
const fn coefficients(first: u64) -> [f64; 9] {
    let mut c = [0.0; 9];
    let mut k = 0;
    while k < 9 {
        let v = 1.0 / factorial(2 * k as u64 + first);
        c[k] = if k % 2 == 0 { v } else { -v };
        k += 1;
    }
    c
}

const S: [f64; 9] = coefficients(1);
const C: [f64; 9] = coefficients(0);

fn polynomial(c: &[f64; 9], w: f64) -> f64 {
    let mut sum = c[8];
    for k in (0..8).rev() {
        sum = c[k] + w * sum;
    }
    sum
}

fn away(v: f64) -> f64 {
    // Halves away from zero; a zero keeps its sign. From 2^52 on every number is whole.
    let size = v.abs();
    if !(size < 4503599627370496.0) {
        return v;
    }
    let whole = (size as u64) as f64;
    let r = if size - whole >= 0.5 { whole + 1.0 } else { whole };
    if v.is_sign_negative() { -r } else { r }
}

/// Sine for turn 0, cosine for turn 1.
fn quarter(v: f64, turn: i64) -> f64 {
    if !v.is_finite() {
        return f64::NAN;
    }
    let z = v % 6.283185307179586;
    let q = away(z / QUARTER);
    let r = z - q * QUARTER;
    let w = r * r;
    let answer = match (q as i64 + turn).rem_euclid(4) {
        0 => r * polynomial(&S, w),
        1 => polynomial(&C, w),
        2 => -(r * polynomial(&S, w)),
        _ => -polynomial(&C, w),
    };
    if answer < -1.0 {
        -1.0
    } else if answer > 1.0 {
        1.0
    } else {
        answer
    }
}

/// v as m×2^e with a whole m; v is above zero and finite.
fn parts(v: f64) -> (u64, i32) {
    let bits = v.to_bits();
    let field = (bits >> 52) as i32;
    let low = bits & ((1 << 52) - 1);
    if field == 0 { (low, -1074) } else { (low | 1 << 52, field - 1075) }
}

/// The product of three numbers below 2^55, as 64-bit digits from the lowest.
fn cube(c: u64) -> [u64; 4] {
    let square = c as u128 * c as u128;
    let low = (square as u64) as u128 * c as u128;
    let high = (square >> 64) * c as u128 + (low >> 64);
    [low as u64, high as u64, (high >> 64) as u64, 0]
}

fn shifted(m: u64, by: u32) -> [u64; 4] {
    let mut out = [0; 4];
    let (word, bit) = ((by / 64) as usize, by % 64);
    out[word] = m << bit;
    if bit > 0 && word < 3 {
        out[word + 1] = m >> (64 - bit);
    }
    out
}

fn above(a: [u64; 4], b: [u64; 4]) -> bool {
    for k in (0..4).rev() {
        if a[k] != b[k] {
            return a[k] > b[k];
        }
    }
    false
}

/// The f64 nearest the cube root: a guess, moved while a half-way point lies on the wrong side. A half-way
/// point is an odd number of 54 bits, whose cube no f64 can be, so there are no ties.
fn nearest_cbrt(v: f64) -> f64 {
    let (m, e) = parts(v);
    let mut y = v.cbrt();
    for _ in 0..100 {
        let (root, f) = parts(y);
        assert!(root >= 1 << 52);
        let by = (e - 3 * (f - 1)) as u32;
        let value = shifted(m, by);
        if above(value, cube(2 * root + 1)) {
            y = f64::from_bits(y.to_bits() + 1);
            continue;
        }
        if root > 1 << 52 {
            if above(cube(2 * root - 1), value) {
                y = f64::from_bits(y.to_bits() - 1);
                continue;
            }
        } else if above(cube(4 * root - 1), shifted(m, by + 3)) {
            y = f64::from_bits(y.to_bits() - 1);
            continue;
        }
        return y;
    }
    panic!("no cube root of {v:?}");
}

impl Meant for f64 {
    fn meant_sin(self) -> f64 {
        quarter(self, 0)
    }
    fn meant_cos(self) -> f64 {
        quarter(self, 1)
    }
    fn meant_ln(self) -> f64 {
        if self.is_nan() || self < 0.0 {
            return f64::NAN;
        }
        if self == 0.0 {
            return f64::NEG_INFINITY;
        }
        if self == f64::INFINITY {
            return self;
        }
        let (whole, exponent) = parts(self);
        let up = whole.leading_zeros() - 11;
        let mut m = f64::from_bits(((whole << up) & ((1 << 52) - 1)) | 1023 << 52);
        let mut e = (exponent + 52 - up as i32) as f64;
        if m > 1.4142135623730951 {
            m *= 0.5;
            e += 1.0;
        }
        let s = (m - 1.0) / (m + 1.0);
        let t = s * s;
        let mut h = 1.0 / 21.0;
        for k in (1..10).rev() {
            h = 1.0 / (2 * k + 1) as f64 + t * h;
        }
        h = 1.0 + t * h;
        e * 0.6931471805599453 + (2.0 * s) * h
    }
    fn meant_cbrt(self) -> f64 {
        if self == 0.0 {
            0.0
        } else if self.is_infinite() {
            f64::INFINITY
        } else if self > 0.0 {
            nearest_cbrt(self)
        } else {
            f64::NAN
        }
    }
    fn meant_powi(self, n: i32) -> f64 {
        assert!(n >= 0);
        if n == 0 {
            return 1.0;
        }
        let mut product = self;
        for _ in 1..n {
            product = product * self;
        }
        product
    }
    fn meant_max(self, w: f64) -> f64 {
        if self.is_nan() || self < w { w } else { self }
    }
    fn meant_min(self, w: f64) -> f64 {
        if self.is_nan() || w < self { w } else { self }
    }
    fn meant_round(self) -> f64 {
        away(self)
    }
    fn meant_signum(self) -> f64 {
        if self.is_nan() {
            f64::NAN
        } else if self.is_sign_negative() {
            -1.0
        } else {
            1.0
        }
    }
    fn meant_rem_euclid(self, d: f64) -> f64 {
        let r = self % d;
        if r < 0.0 { r + d } else { r }
    }
    fn meant_to_degrees(self) -> f64 {
        self * 57.29577951308232
    }
    fn meant_to_radians(self) -> f64 {
        self * 0.017453292519943295
    }
}
