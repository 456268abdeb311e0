//! Single operations of document 01's arithmetic: by its meaning in the patched copy, by the platform in the other.
#[cfg(feature = "records")]
use crate::meaning::Meant;

#[cfg(feature = "records")]
mod single {
    use crate::meaning::Meant;
    #[inline(never)]
    pub fn cbrt(v: f64) -> f64 {
        v.meant_cbrt()
    }
    #[inline(never)]
    pub fn sin(v: f64) -> f64 {
        v.meant_sin()
    }
    #[inline(never)]
    pub fn cos(v: f64) -> f64 {
        v.meant_cos()
    }
}

#[cfg(not(feature = "records"))]
mod single {
    #[inline(never)]
    pub fn cbrt(v: f64) -> f64 {
        v.powf(1.0 / 3.0)
    }
    #[inline(never)]
    pub fn sin(v: f64) -> f64 {
        v.sin()
    }
    #[inline(never)]
    pub fn cos(v: f64) -> f64 {
        v.cos()
    }
}

// Called, not inlined, as the port's are: for the measures of speed.
pub use single::{cbrt, cos, sin};

#[inline(never)]
pub fn sqrt(v: f64) -> f64 {
    v.sqrt()
}

#[cfg(feature = "records")]
pub fn one(name: &str, v: f64) -> Option<f64> {
    Some(match name {
        "sqrt" => v.sqrt(),
        "cbrt" => v.meant_cbrt(),
        "sin" => v.meant_sin(),
        "cos" => v.meant_cos(),
        "ln" => v.meant_ln(),
        "abs" => v.abs(),
        "floor" => v.floor(),
        "round" => v.meant_round(),
        "signum" => v.meant_signum(),
        "to_degrees" => v.meant_to_degrees(),
        "to_radians" => v.meant_to_radians(),
        "powi2" => v.meant_powi(2),
        "powi3" => v.meant_powi(3),
        _ => return None,
    })
}

#[cfg(feature = "records")]
pub fn two(name: &str, v: f64, w: f64) -> Option<f64> {
    Some(match name {
        "max" => v.meant_max(w),
        "min" => v.meant_min(w),
        "rem_euclid" => v.meant_rem_euclid(w),
        _ => return None,
    })
}

#[cfg(feature = "records")]
pub fn power(v: f64, n: u64) -> Option<f64> {
    Some(v.meant_powi(i32::try_from(n).ok()?))
}

#[cfg(not(feature = "records"))]
pub fn power(v: f64, n: u64) -> Option<f64> {
    Some(v.powi(i32::try_from(n).ok()?))
}

#[cfg(not(feature = "records"))]
pub fn one(name: &str, v: f64) -> Option<f64> {
    Some(match name {
        "sqrt" => v.sqrt(),
        "cbrt" => v.powf(1.0 / 3.0),
        "sin" => v.sin(),
        "cos" => v.cos(),
        "ln" => v.ln(),
        "abs" => v.abs(),
        "floor" => v.floor(),
        "round" => v.round(),
        "signum" => v.signum(),
        "to_degrees" => v.to_degrees(),
        "to_radians" => v.to_radians(),
        "powi2" => v.powi(2),
        "powi3" => v.powi(3),
        _ => return None,
    })
}

#[cfg(not(feature = "records"))]
pub fn two(name: &str, v: f64, w: f64) -> Option<f64> {
    Some(match name {
        "max" => v.max(w),
        "min" => v.min(w),
        "rem_euclid" => v.rem_euclid(w),
        _ => return None,
    })
}

// The casts and the product are Rust's own in both copies.
pub fn to_u64(v: f64) -> Option<u64> {
    Some(v as u64)
}

pub fn to_i64(v: f64) -> Option<i64> {
    Some(v as i64)
}

pub fn wrapping_mul(a: u64, b: u64) -> Option<u64> {
    Some(a.wrapping_mul(b))
}
