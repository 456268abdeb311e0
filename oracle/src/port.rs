//! The port, through its static libraries (`exports`, `exports_geodetic`, `exports_element_lines`, and `probes` for the calls that only the comparison makes), in the shape of
//! `judge.rs`: the kinds of lines are made by the same code for both. Every output is lent between guards and filled with a pattern before the call; after it, whatever should have
//! been left alone is looked at. KINDS are compared where none is named: searches and fits, which take long, are not among them, nor is what the port does not export.
#![allow(dead_code)]
use common::{Moment, Set};
pub use patched::judge::{Answer, File, Fit, State};

pub const KINDS: &[&str] = &[
    "sqrt", "cbrt", "sin", "cos", "ln", "abs", "floor", "round", "signum", "to_degrees", "to_radians", "max",
    "min", "rem_euclid", "to_u64", "to_i64", "wrapping_mul", "draw", "gaussian", "monna", "unmonna", "padic",
    "history", "normal", "jd", "teme", "wgs84", "prop", "pred", "poly", "pca", "rss", "grad", "solve", "residuals1",
    "residuals2", "step1", "step2", "steps1", "steps2", "lines", "turns", "checksum", "file", "load", "store", "parse", "put_fixed",
    "rfc3339", "position", "elements",
];

#[link(name = "exports", kind = "static")]
unsafe extern "C" {
    pub fn wisvalom_sqrt(x: f64) -> f64;
    pub fn wisvalom_cbrt(x: f64) -> f64;
    pub fn wisvalom_sin(v: f64) -> f64;
    pub fn wisvalom_cos(v: f64) -> f64;
    pub fn wisvalom_datetime_to_jd(seconds: i64, nanos: u32, out: *mut f64) -> u32;
    pub fn wisvalom_propagate_ecef_at_time(
        a: f64, i: f64, raan0: f64, u0: f64,
        epoch: i64, epoch_nanos: u32, t_orbit: i64, t_orbit_nanos: u32, t_rotate: i64, t_rotate_nanos: u32,
        out: *mut [f64; 6],
    ) -> u32;
    pub fn wisvalom_predict_frequency(
        a: f64, i: f64, raan0: f64, u0: f64,
        epoch: i64, epoch_nanos: u32, t_obs: i64, t_obs_nanos: u32,
        dt: f64, df: f64, center_freq: f64, x: f64, y: f64, z: f64,
        out: *mut f64,
    ) -> u32;
    pub fn wisvalom_predict_frequency_poly(
        a: f64, i: f64, raan0: f64, u0: f64,
        epoch: i64, epoch_nanos: u32, t_obs: i64, t_obs_nanos: u32,
        dt: f64, df0: f64, df1: f64, df2: f64, t_ref: i64, t_ref_nanos: u32,
        center_freq: f64, x: f64, y: f64, z: f64,
        out: *mut f64,
    ) -> u32;
    pub fn wisvalom_monna_map(val: u64, p: u64, out: *mut f64) -> u32;
    pub fn wisvalom_inverse_monna_map(x: f64, p: u64, precision: usize, out: *mut u64) -> u32;
    pub fn wisvalom_p_adic_distance(a: u64, b: u64, p: u64, out: *mut f64) -> u32;
    pub fn wisvalom_compute_fractional_difference_history(x: *const f64, n: usize, out: *mut f64, room: usize) -> u32;
    pub fn wisvalom_map_to_normalized_search_space(coord: *const f64, out: *mut f64);
    pub fn wisvalom_read_pass_file(
        file: *const u8, n: usize, times: *mut i64, n_times: usize, freqs: *mut f64, n_freqs: usize, numbers: *mut [usize; 4], center_freq: *mut f64,
    ) -> u32;
    pub fn wisvalom_abs(v: f64) -> f64;
    pub fn wisvalom_max(v: f64, w: f64) -> f64;
    pub fn wisvalom_min(v: f64, w: f64) -> f64;
    pub fn wisvalom_floor(v: f64) -> f64;
    pub fn wisvalom_round(v: f64) -> f64;
    pub fn wisvalom_signum(v: f64) -> f64;
    pub fn wisvalom_rem_euclid(v: f64, d: f64) -> f64;
    pub fn wisvalom_to_degrees(v: f64) -> f64;
    pub fn wisvalom_to_radians(v: f64) -> f64;
    pub fn wisvalom_ln(v: f64) -> f64;
    pub fn wisvalom_to_u64(v: f64) -> u64;
    pub fn wisvalom_to_i64(v: f64) -> i64;
    pub fn wisvalom_wrapping_mul(a: u64, b: u64) -> u64;
    pub fn wisvalom_next_f64(state: u64, next: *mut u64) -> f64;
    pub fn wisvalom_next_gaussian(state: u64, next: *mut u64) -> f64;
    pub fn wisvalom_teme_to_ecef(jd: f64, x: f64, y: f64, z: f64, vx: f64, vy: f64, vz: f64, out: *mut f64);
    pub fn wisvalom_get_pred_pca_times(
        a: f64, i: f64, raan: f64, u0: f64, epoch: i64, epoch_nanos: u32, x: f64, y: f64, z: f64,
        counts: *const u32, passes: usize, times: *const i64, samples: usize,
        freqs: *const f64, frequencies: usize, centers: *const f64, centres: usize,
        out: *mut i64, room: usize,
    ) -> u32;
    pub fn wisvalom_compute_rss(
        counts: *const u32, passes: usize, times: *const i64, samples: usize,
        freqs: *const f64, frequencies: usize, centers: *const f64, centres: usize,
        x: f64, y: f64, z: f64, a: f64, i: f64, epoch: i64, epoch_nanos: u32, center_freq: f64, raan0: f64, u0: f64,
        out: *mut f64,
    ) -> u32;
    pub fn wisvalom_compute_gradient(
        counts: *const u32, passes: usize, times: *const i64, samples: usize,
        freqs: *const f64, frequencies: usize, centers: *const f64, centres: usize,
        x: f64, y: f64, z: f64, a: f64, i: f64, epoch: i64, epoch_nanos: u32, center_freq: f64, raan0: f64, u0: f64,
        out: *mut f64,
    ) -> u32;
    pub fn wisvalom_solve_linear_system(
        matrix: *const f64, cells: usize, vector: *const f64, rows: usize, n: usize,
        out: *mut f64, room: usize, scratch: *mut f64, places: usize,
    ) -> u32;
    pub fn wisvalom_load(
        b: *const u8, n: usize, counts: *mut u32, passes_room: usize, times: *mut i64, times_room: usize,
        freqs: *mut f64, freqs_room: usize, passes: *mut usize, samples: *mut usize,
    ) -> u32;
    pub fn wisvalom_store(
        counts: *const u32, passes: usize, times: *const i64, samples: usize, freqs: *const f64, frequencies: usize,
        out: *mut u8, room: usize, size: *mut usize,
    ) -> u32;
    pub fn wisvalom_tle_checksum(line: *const u8, n: usize) -> u32;
    pub fn wisvalom_format_tle_catalog(
        name: *const u8, n: usize, a: f64, i: f64, raan0: f64, u0: f64, epoch: i64, epoch_nanos: u32,
        out: *mut u8, room: usize, length: *mut usize,
    ) -> u32;
    pub fn wisvalom_fit_orbit_doppler(
        counts: *const u32, passes: usize, times: *const i64, samples: usize,
        freqs: *const f64, frequencies: usize, centers: *const f64, centres: usize,
        x: f64, y: f64, z: f64, initial_a: f64, initial_i: f64,
        dts: *mut f64, dts_room: usize, dfs: *mut f64, dfs_room: usize, df1s: *mut f64, df1s_room: usize, df2s: *mut f64, df2s_room: usize,
        log: *mut f64, log_room: usize, scratch: *mut f64, scratch_room: usize,
        a: *mut f64, i: *mut f64, raan0: *mut f64, u0: *mut f64, epoch: *mut i64, epoch_nanos: *mut u32, trials: *mut usize, best: *mut f64,
    ) -> u32;
    pub fn wisvalom_fit_and_format(
        counts: *const u32, passes: usize, times: *const i64, samples: usize,
        freqs: *const f64, frequencies: usize, centers: *const f64, centres: usize,
        x: f64, y: f64, z: f64, initial_a: f64, initial_i: f64,
        dts: *mut f64, dts_room: usize, dfs: *mut f64, dfs_room: usize, df1s: *mut f64, df1s_room: usize, df2s: *mut f64, df2s_room: usize,
        log: *mut f64, log_room: usize, scratch: *mut f64, scratch_room: usize, name: *const u8, n: usize, text: *mut u8, text_room: usize,
        a: *mut f64, i: *mut f64, raan0: *mut f64, u0: *mut f64, epoch: *mut i64, epoch_nanos: *mut u32, trials: *mut usize, best: *mut f64,
        lines: *mut u32, length: *mut usize,
    ) -> u32;
    pub fn wisvalom_fit_and_format_stored(
        bytes: *const u8, size: usize, centers: *const f64, centres: usize,
        x: f64, y: f64, z: f64, initial_a: f64, initial_i: f64,
        dts: *mut f64, dts_room: usize, dfs: *mut f64, dfs_room: usize, df1s: *mut f64, df1s_room: usize, df2s: *mut f64, df2s_room: usize,
        log: *mut f64, log_room: usize, scratch: *mut f64, scratch_room: usize, name: *const u8, n: usize, text: *mut u8, text_room: usize,
        a: *mut f64, i: *mut f64, raan0: *mut f64, u0: *mut f64, epoch: *mut i64, epoch_nanos: *mut u32, trials: *mut usize, best: *mut f64,
        lines: *mut u32, length: *mut usize,
    ) -> u32;
    pub fn wisvalom_parse(text: *const u8, n: usize, taken: *mut u32, out: *mut f64) -> u32;
    pub fn wisvalom_put_fixed(v: f64, places: usize, pad: u8, out: *mut u8, room: usize, at: usize, width: usize) -> bool;
    pub fn wisvalom_parse_from_rfc3339(text: *const u8, n: usize, seconds: *mut u64, nanos: *mut u64) -> bool;
}

#[link(name = "exports_geodetic", kind = "static")]
unsafe extern "C" {
    pub fn wisvalom_wgs84_to_ecef(lat_deg: f64, lon_deg: f64, alt_m: f64, out: *mut [f64; 3]) -> u32;
    pub fn wisvalom_read_position(line: *const u8, n: usize, out: *mut [f64; 3]) -> u32;
}

#[link(name = "exports_element_lines", kind = "static")]
unsafe extern "C" {
    pub fn wisvalom_read_element_lines(line1: *const u8, n_line1: usize, line2: *const u8, n_line2: usize, out: *mut [u64; 6]) -> u32;
}

#[link(name = "probes", kind = "static")]
unsafe extern "C" {
    pub fn wisvalom_search_starts(
        counts: *const u32, passes: usize, times: *const i64, samples: usize,
        freqs: *const f64, frequencies: usize, centers: *const f64, centres: usize,
        x: f64, y: f64, z: f64, a: f64, i: f64, table: *mut f64, room: usize, out: *mut f64,
    ) -> u32;
    pub fn wisvalom_residuals(
        second: bool, counts: *const u32, passes: usize, times: *const i64, samples: usize, freqs: *const f64, frequencies: usize,
        center_freq: f64, x: f64, y: f64, z: f64, params: *const f64, out: *mut f64, room: usize, sum: *mut f64,
    ) -> u32;
    pub fn wisvalom_trial(
        second: bool, counts: *const u32, passes: usize, times: *const i64, samples: usize, freqs: *const f64, frequencies: usize,
        center_freq: f64, x: f64, y: f64, z: f64, params: *mut f64, best_params: *mut f64, damping: *mut f64, best: *mut f64,
        ended: *mut u32, scratch: *mut f64, room: usize,
    ) -> u32;
}

/// Memory lent to a call: `n` places between guards, all filled with a pattern.
pub struct Lent<T> {
    room: Vec<T>,
    pattern: T,
    guard: usize,
}

const GUARD: usize = 8;

impl<T: Copy + PartialEq + std::fmt::Debug> Lent<T> {
    pub fn new(n: usize, pattern: T) -> Lent<T> {
        Lent { room: vec![pattern; n + 2 * GUARD], pattern, guard: GUARD }
    }
    /// Without guards, in an allocation of its own: for a run under valgrind.
    pub fn exact(n: usize, pattern: T) -> Lent<T> {
        Lent { room: vec![pattern; n], pattern, guard: 0 }
    }
    pub fn start(&mut self) -> *mut T {
        unsafe { self.room.as_mut_ptr().add(self.guard) }
    }
    pub fn places(&self) -> &[T] {
        &self.room[self.guard..self.room.len() - self.guard]
    }
    /// The first `written` places; the others, and the guards, must be as they were.
    pub fn written(&self, written: usize) -> Vec<T> {
        self.written_at(0, written)
    }
    /// The `written` places from `at` on; the others, and the guards, must be as they were.
    pub fn written_at(&self, at: usize, written: usize) -> Vec<T> {
        let from = self.guard + at;
        for (k, v) in self.room.iter().enumerate() {
            if k < from || k >= from + written {
                assert!(*v == self.pattern, "place {} was written: {v:?}", k as i64 - self.guard as i64);
            }
        }
        self.room[from..from + written].to_vec()
    }
    /// The guards are as they were.
    pub fn guarded(&self) {
        let (low, high) = (&self.room[..self.guard], &self.room[self.room.len() - self.guard..]);
        assert!(low.iter().chain(high).all(|x| *x == self.pattern), "a guard was written");
    }
    /// All places hold v (scratch after a call that worked), and the guards are as they were.
    pub fn all(&self, v: T) {
        assert!(self.places().iter().all(|x| *x == v), "scratch is not cleared");
        self.guarded();
    }
}

/// A number that no answer has.
pub const PATTERN: f64 = -6.28e-271;

/// The same of a whole number.
pub const WORD: u64 = 0x5a5a5a5a5a5a5a5a;

/// Lends n places to a call that writes all of them or refuses and writes none.
fn filled<T: Copy + PartialEq + std::fmt::Debug>(n: usize, pattern: T, call: impl FnOnce(*mut T) -> u32) -> Answer<Vec<T>> {
    let mut out = Lent::new(n, pattern);
    let refusal = call(out.start());
    let got = out.written(if refusal == 0 { n } else { 0 });
    if refusal == 0 { Ok(got) } else { Err(refusal) }
}

pub fn lent(n: usize, call: impl FnOnce(*mut f64) -> u32) -> Answer<Vec<f64>> {
    filled(n, PATTERN, call)
}

pub mod floats {
    use super::*;

    pub fn one(name: &str, v: f64) -> Option<f64> {
        unsafe {
            Some(match name {
                "sqrt" => wisvalom_sqrt(v),
                "cbrt" => wisvalom_cbrt(v),
                "sin" => wisvalom_sin(v),
                "cos" => wisvalom_cos(v),
                "ln" => wisvalom_ln(v),
                "abs" => wisvalom_abs(v),
                "floor" => wisvalom_floor(v),
                "round" => wisvalom_round(v),
                "signum" => wisvalom_signum(v),
                "to_degrees" => wisvalom_to_degrees(v),
                "to_radians" => wisvalom_to_radians(v),
                _ => return None,
            })
        }
    }
    pub fn two(name: &str, v: f64, w: f64) -> Option<f64> {
        unsafe {
            Some(match name {
                "max" => wisvalom_max(v, w),
                "min" => wisvalom_min(v, w),
                "rem_euclid" => wisvalom_rem_euclid(v, w),
                _ => return None,
            })
        }
    }
    /// Not exported: it takes as many turns as it is asked for.
    pub fn power(_: f64, _: u64) -> Option<f64> {
        None
    }
    pub fn to_u64(v: f64) -> Option<u64> {
        Some(unsafe { wisvalom_to_u64(v) })
    }
    pub fn to_i64(v: f64) -> Option<i64> {
        Some(unsafe { wisvalom_to_i64(v) })
    }
    pub fn wrapping_mul(a: u64, b: u64) -> Option<u64> {
        Some(unsafe { wisvalom_wrapping_mul(a, b) })
    }
}

pub fn jd(m: Moment) -> Answer<f64> {
    lent(1, |out| unsafe { wisvalom_datetime_to_jd(m.seconds, m.nanos, out) }).map(|v| v[0])
}

pub fn prop(e: [f64; 4], epoch: Moment, t: Moment, u: Moment) -> Answer<[f64; 6]> {
    lent(6, |out| unsafe {
        wisvalom_propagate_ecef_at_time(
            e[0], e[1], e[2], e[3], epoch.seconds, epoch.nanos, t.seconds, t.nanos, u.seconds, u.nanos, out as *mut [f64; 6],
        )
    })
    .map(|v| v.try_into().unwrap())
}

pub fn pred(e: [f64; 4], epoch: Moment, t: Moment, dt: f64, df: f64, center: f64, rec: [f64; 3]) -> Answer<f64> {
    lent(1, |out| unsafe {
        wisvalom_predict_frequency(
            e[0], e[1], e[2], e[3], epoch.seconds, epoch.nanos, t.seconds, t.nanos, dt, df, center, rec[0], rec[1], rec[2], out,
        )
    })
    .map(|v| v[0])
}

pub fn poly(
    e: [f64; 4],
    epoch: Moment,
    t: Moment,
    dt: f64,
    df: [f64; 3],
    t_ref: Moment,
    center: f64,
    rec: [f64; 3],
) -> Answer<f64> {
    lent(1, |out| unsafe {
        wisvalom_predict_frequency_poly(
            e[0], e[1], e[2], e[3], epoch.seconds, epoch.nanos, t.seconds, t.nanos, dt, df[0], df[1], df[2], t_ref.seconds,
            t_ref.nanos, center, rec[0], rec[1], rec[2], out,
        )
    })
    .map(|v| v[0])
}

pub fn monna(val: u64, p: u64) -> Answer<f64> {
    lent(1, |out| unsafe { wisvalom_monna_map(val, p, out) }).map(|v| v[0])
}

pub fn unmonna(x: f64, p: u64, digits: u64) -> Answer<u64> {
    filled(1, WORD, |out| unsafe { wisvalom_inverse_monna_map(x, p, digits as usize, out) }).map(|v| v[0])
}

pub fn padic(a: u64, b: u64, p: u64) -> Answer<f64> {
    lent(1, |out| unsafe { wisvalom_p_adic_distance(a, b, p, out) }).map(|v| v[0])
}

pub fn history(x: &[f64]) -> Answer<Vec<f64>> {
    let call = |out: *mut f64, room: usize| unsafe { wisvalom_compute_fractional_difference_history(x.as_ptr(), x.len(), out, room) };
    let got = lent(x.len(), |out| call(out, x.len()))?;
    short(x.len(), PATTERN, call);
    Ok(got)
}

pub fn normal(v: [f64; 3]) -> Vec<f64> {
    lent(15, |out| unsafe {
        wisvalom_map_to_normalized_search_space(v.as_ptr(), out);
        0
    })
    .unwrap()
}

fn drawn(call: impl FnOnce(*mut u64) -> f64) -> (u64, f64) {
    let mut next = Lent::new(1, WORD);
    let x = call(next.start());
    (next.written(1)[0], x)
}

pub fn draw(state: u64) -> (u64, f64) {
    drawn(|next| unsafe { wisvalom_next_f64(state, next) })
}

pub fn gaussian(state: u64) -> (u64, f64) {
    drawn(|next| unsafe { wisvalom_next_gaussian(state, next) })
}

pub fn teme(jd: f64, s: [f64; 6]) -> [f64; 6] {
    lent(6, |out| unsafe {
        wisvalom_teme_to_ecef(jd, s[0], s[1], s[2], s[3], s[4], s[5], out);
        0
    })
    .unwrap()
    .try_into()
    .unwrap()
}

pub fn wgs84(lat: f64, lon: f64, alt: f64) -> Answer<[f64; 3]> {
    lent(3, |out| unsafe { wisvalom_wgs84_to_ecef(lat, lon, alt, out as *mut [f64; 3]) }).map(|v| v.try_into().unwrap())
}

pub fn position(line: &[u8]) -> Answer<[f64; 3]> {
    lent(3, |out| unsafe { wisvalom_read_position(line.as_ptr(), line.len(), out as *mut [f64; 3]) }).map(|v| v.try_into().unwrap())
}

pub fn elements(line1: &[u8], line2: &[u8]) -> Answer<[u64; 6]> {
    let call = |out: *mut u64| unsafe {
        wisvalom_read_element_lines(line1.as_ptr(), line1.len(), line2.as_ptr(), line2.len(), out as *mut [u64; 6])
    };
    filled(6, WORD, call).map(|v| v.try_into().unwrap())
}

/// Some places more than a call needs, by the size of what it is given, so that both are tried.
fn spare(n: usize) -> usize {
    n % 3
}

/// A call that took what it was given must answer 21, and write nothing, where it is lent one place less than it needs.
fn short<T: Copy + PartialEq + std::fmt::Debug>(needed: usize, pattern: T, call: impl FnOnce(*mut T, usize) -> u32) {
    if needed > 0 {
        let mut out = Lent::new(needed - 1, pattern);
        let refusal = call(out.start(), needed - 1);
        assert!(refusal == 21, "{} places of {needed}: refusal {refusal}", needed - 1);
        out.written(0);
    }
}

const TIME: i64 = 0x5a5a5a5a5a5a5a5a;

pub fn pca(e: [f64; 4], epoch: Moment, rec: [f64; 3], s: &Set) -> Answer<Vec<i64>> {
    let call = |out: *mut i64, room: usize| unsafe {
        wisvalom_get_pred_pca_times(
            e[0], e[1], e[2], e[3], epoch.seconds, epoch.nanos, rec[0], rec[1], rec[2], s.counts.as_ptr(), s.counts.len(),
            s.times.as_ptr(), s.times.len(), s.freqs.as_ptr(), s.freqs.len(), s.centers.as_ptr(), s.centers.len(), out, room,
        )
    };
    let n = s.counts.len();
    let room = n + spare(s.times.len());
    let mut out = Lent::new(room, TIME);
    let refusal = call(out.start(), room);
    let got = out.written(if refusal == 0 { n } else { 0 });
    if refusal != 0 {
        return Err(refusal);
    }
    short(n, TIME, call);
    Ok(got)
}

pub fn rss(s: &Set, rec: [f64; 3], e: [f64; 4], epoch: Moment, center: f64) -> Answer<f64> {
    lent(1, |out| unsafe {
        wisvalom_compute_rss(
            s.counts.as_ptr(), s.counts.len(), s.times.as_ptr(), s.times.len(), s.freqs.as_ptr(), s.freqs.len(), s.centers.as_ptr(),
            s.centers.len(), rec[0], rec[1], rec[2], e[0], e[1], epoch.seconds, epoch.nanos, center, e[2], e[3], out,
        )
    })
    .map(|v| v[0])
}

pub fn grad(s: &Set, rec: [f64; 3], e: [f64; 4], epoch: Moment, center: f64) -> Answer<[f64; 4]> {
    lent(4, |out| unsafe {
        wisvalom_compute_gradient(
            s.counts.as_ptr(), s.counts.len(), s.times.as_ptr(), s.times.len(), s.freqs.as_ptr(), s.freqs.len(), s.centers.as_ptr(),
            s.centers.len(), rec[0], rec[1], rec[2], e[0], e[1], epoch.seconds, epoch.nanos, center, e[2], e[3], out,
        )
    })
    .map(|v| v.try_into().unwrap())
}

/// The passes that a refinement or the search takes: the non-empty ones, or the first two of them, as a set of its own.
fn working(s: &Set, most: usize) -> Set {
    let kept: Vec<usize> = (0..s.counts.len()).filter(|&p| s.counts[p] > 0).take(most).collect();
    let samples = kept.iter().map(|&p| s.counts[p] as usize).sum();
    Set {
        counts: kept.iter().map(|&p| s.counts[p]).collect(),
        centers: kept.iter().map(|&p| s.centers[p]).collect(),
        times: s.times[..samples].to_vec(),
        freqs: s.freqs[..samples].to_vec(),
    }
}

/// The room of the search's table.
pub const TABLE: usize = 48032;

pub fn search(s: &Set, rec: [f64; 3], a: f64, i: f64) -> Answer<[f64; 3]> {
    let s = working(s, 2);
    let call = |table: *mut f64, room: usize, out: *mut f64| unsafe {
        wisvalom_search_starts(
            s.counts.as_ptr(), s.counts.len(), s.times.as_ptr(), s.times.len(), s.freqs.as_ptr(), s.freqs.len(), s.centers.as_ptr(),
            s.centers.len(), rec[0], rec[1], rec[2], a, i, table, room, out,
        )
    };
    let room = TABLE + spare(s.times.len());
    let mut table = Lent::new(room, PATTERN);
    let got = lent(3, |out| call(table.start(), room, out));
    if got.is_err() {
        table.written(0);
    } else {
        table.all(0.0);
        let mut out = Lent::new(3, PATTERN);
        short(TABLE, PATTERN, |table, room| call(table, room, out.start()));
        out.written(0);
    }
    got.map(|v| v.try_into().unwrap())
}

pub fn solve(n: u64, matrix: &[f64], vector: &[f64]) -> Answer<Vec<f64>> {
    let n = n as usize;
    let call = |out: *mut f64, room: usize, scratch: *mut f64, places: usize| unsafe {
        wisvalom_solve_linear_system(matrix.as_ptr(), matrix.len(), vector.as_ptr(), vector.len(), n, out, room, scratch, places)
    };
    let (spare, cells) = (spare(matrix.len() + n), n * (n + 1));
    let mut scratch = Lent::new(cells + spare, PATTERN);
    let mut out = Lent::new(n + spare, PATTERN);
    let refusal = call(out.start(), n + spare, scratch.start(), cells + spare);
    let got = out.written(if refusal == 0 { n } else { 0 });
    // Scratch is untouched up to 21, and all zeros after.
    if refusal == 0 || refusal == 22 {
        scratch.all(0.0);
        let (mut scratch, mut out) = (Lent::new(cells, PATTERN), Lent::new(n, PATTERN));
        short(n, PATTERN, |o, room| call(o, room, scratch.start(), cells));
        short(cells, PATTERN, |s, places| call(out.start(), n, s, places));
        scratch.written(0);
        out.written(0);
    } else {
        scratch.written(0);
    }
    if refusal == 0 { Ok(got) } else { Err(refusal) }
}

/// The first bytes of an output, whose number stands in a place of its own: 0 after a refusal.
fn counted(needed: usize, call: impl Fn(*mut u8, usize, *mut usize) -> u32) -> Answer<Vec<u8>> {
    let room = needed + spare(needed);
    let (mut out, mut length) = (Lent::new(room, 0xa5u8), Lent::new(1, usize::MAX));
    let refusal = call(out.start(), room, length.start());
    let n = length.written(1)[0];
    let got = out.written(n);
    if refusal != 0 {
        assert!(n == 0, "a refusal with {n} bytes");
        return Err(refusal);
    }
    short(needed, 0xa5u8, |out, room| call(out, room, length.start()));
    assert!(length.written(1)[0] == 0, "refusal 21 with bytes");
    Ok(got)
}

pub fn lines(name: &[u8], e: [f64; 4], epoch: Moment) -> Answer<Vec<u8>> {
    counted(name.len() + 141, |out, room, length| unsafe {
        wisvalom_format_tle_catalog(name.as_ptr(), name.len(), e[0], e[1], e[2], e[3], epoch.seconds, epoch.nanos, out, room, length)
    })
}

pub fn checksum(line: &str) -> u32 {
    unsafe { wisvalom_tle_checksum(line.as_ptr(), line.len()) }
}

/// The loaded set; it is stored again, and the bytes must be the given ones, but for NaN.
pub fn load(b: &[u8]) -> Answer<Set> {
    let mut numbers = Lent::new(2, usize::MAX);
    let at = numbers.start();
    let call = |counts: *mut u32, n: usize, times: *mut i64, t: usize, freqs: *mut f64, f: usize| unsafe {
        wisvalom_load(b.as_ptr(), b.len(), counts, n, times, t, freqs, f, at, at.add(1))
    };
    let room = b.len() / 4 + 1;
    let (mut counts, mut times, mut freqs) = (Lent::new(room, 0x5a5a5a5au32), Lent::new(room, TIME), Lent::new(room, PATTERN));
    let refusal = call(counts.start(), room, times.start(), room, freqs.start(), room);
    let n = numbers.written(2);
    let set = Set { counts: counts.written(n[0]), centers: vec![0.0; n[0]], times: times.written(n[1]), freqs: freqs.written(n[1]) };
    if refusal != 0 {
        assert!(n == [0, 0], "a refusal with {n:?}");
        return Err(refusal);
    }
    let (mut counts, mut times, mut freqs) = (Lent::new(room, 0x5a5a5a5au32), Lent::new(room, TIME), Lent::new(room, PATTERN));
    let (c, t, f) = (counts.start(), times.start(), freqs.start());
    short(n[0], 0x5a5a5a5au32, |c, places| call(c, places, t, room, f, room));
    short(n[1], TIME, |t, places| call(c, room, t, places, f, room));
    short(n[1], PATTERN, |f, places| call(c, room, t, room, f, places));
    counts.written(0);
    times.written(0);
    freqs.written(0);
    let again = store(&set).expect("a loaded set is stored");
    let numbers = Set { freqs: set.freqs.iter().map(|&f| f64::from_bits(common::lines::bits(f))).collect(), ..set.clone() };
    assert!(again == numbers.stored(), "stored bytes differ");
    Ok(set)
}

pub fn store(s: &Set) -> Answer<Vec<u8>> {
    counted(4 + 4 * s.counts.len() + 16 * s.times.len(), |out, room, length| unsafe {
        wisvalom_store(s.counts.as_ptr(), s.counts.len(), s.times.as_ptr(), s.times.len(), s.freqs.as_ptr(), s.freqs.len(), out, room, length)
    })
}

/// As many places are lent as a file may have samples; a file of some is refused with one place less.
pub fn file(bytes: &[u8]) -> Answer<File> {
    let (mut numbers, mut center) = (Lent::new(4, usize::MAX), Lent::new(1, PATTERN));
    let (at, middle) = (numbers.start(), center.start());
    let call = |times: *mut i64, t: usize, freqs: *mut f64, f: usize| unsafe {
        wisvalom_read_pass_file(bytes.as_ptr(), bytes.len(), times, t, freqs, f, at as *mut [usize; 4], middle)
    };
    let room = 4096;
    let (mut times, mut freqs) = (Lent::new(room, TIME), Lent::new(room, PATTERN));
    let refusal = call(times.start(), room, freqs.start(), room);
    let count = if refusal == 0 { unsafe { *at } } else { 0 };
    let (got_times, got_freqs) = (times.written(count), freqs.written(count));
    if refusal == 0 {
        let mut other = Lent::new(room, PATTERN);
        let places = other.start();
        short(count, TIME, |t, n| call(t, n, places, room));
        let mut other_times = Lent::new(room, TIME);
        let places = other_times.start();
        short(count, PATTERN, |f, n| call(places, room, f, n));
        other.written(0);
        other_times.written(0);
    }
    let ok = (refusal == 0) as usize;
    let (numbers, center) = (numbers.written(4 * ok), center.written(ok));
    if refusal != 0 {
        return Err(refusal);
    }
    Ok(File {
        seen: numbers[3] == 1,
        name: bytes[numbers[1]..numbers[2]].to_vec(),
        center: center[0],
        times: got_times,
        freqs: got_freqs,
    })
}

/// A set of parameters in as many places as a call has for it, the others holding a pattern.
fn places(set: &[f64]) -> Lent<f64> {
    let mut all = Lent::new(PARAMS, PATTERN);
    unsafe { std::slice::from_raw_parts_mut(all.start(), set.len()) }.copy_from_slice(set);
    all
}

pub const PARAMS: usize = 68;
pub const ROWS: usize = 4144;
pub const CELLS: usize = ROWS * PARAMS;

/// The residuals and the penalised sum of a set of parameters, by the passes that the refinement takes.
pub fn residuals(second_one: bool, s: &Set, rec: [f64; 3], set: &[f64]) -> Answer<(Vec<f64>, f64)> {
    let s = working(s, if second_one { 16 } else { 2 });
    let mut params = places(set);
    let mut call = |out: *mut f64, room: usize, sum: *mut f64| unsafe {
        wisvalom_residuals(
            second_one, s.counts.as_ptr(), s.counts.len(), s.times.as_ptr(), s.times.len(), s.freqs.as_ptr(), s.freqs.len(), s.centers[0],
            rec[0], rec[1], rec[2], params.start(), out, room, sum,
        )
    };
    let room = ROWS + spare(s.times.len());
    let (mut out, mut sum) = (Lent::new(room, PATTERN), Lent::new(1, PATTERN));
    let refusal = call(out.start(), room, sum.start());
    if refusal != 0 {
        out.written(0);
        sum.written(0);
        params.written(set.len());
        return Err(refusal);
    }
    let mut none = Lent::new(1, PATTERN);
    short(ROWS, PATTERN, |out, room| call(out, room, none.start()));
    none.written(0);
    params.written(set.len());
    Ok((out.written(s.times.len() + s.counts.len() * if second_one { 3 } else { 1 }), sum.written(1)[0]))
}

/// The state after one trial, and whether the refinement goes on. A refusal leaves the given state and the place of the ending as they were, and scratch
/// is untouched up to 21 and all zeros after any later ending.
fn trial(second_one: bool, s: &Set, rec: [f64; 3], from: &State, scratch: &mut Lent<f64>) -> Answer<(State, bool)> {
    let n = from.set.len();
    let (mut params, mut kept, mut numbers, mut ended) = (places(&from.set), places(&from.kept), Lent::new(2, PATTERN), Lent::new(1, u32::MAX));
    let number = numbers.start();
    unsafe {
        *number = from.damping;
        *number.add(1) = from.best;
    }
    let refusal = unsafe {
        wisvalom_trial(
            second_one, s.counts.as_ptr(), s.counts.len(), s.times.as_ptr(), s.times.len(), s.freqs.as_ptr(), s.freqs.len(), s.centers[0],
            rec[0], rec[1], rec[2], params.start(), kept.start(), number, number.add(1), ended.start(),
            scratch.start(), scratch.places().len(),
        )
    };
    if (1..=21).contains(&refusal) {
        scratch.written(0);
    } else {
        scratch.all(0.0);
    }
    let after = State { set: params.written(n), damping: numbers.written(2)[0], best: numbers.written(2)[1], kept: kept.written(n) };
    if refusal != 0 {
        ended.written(0);
        assert!(state_bits(&after) == state_bits(from), "a refusal with a state");
        return Err(refusal);
    }
    match ended.written(1)[0] {
        // The original's first refinement just ends; its second is an error, which the fit's own 10 has come before.
        2 if second_one => Err(10),
        end => Ok((after, end == 0)),
    }
}

fn state_bits(s: &State) -> Vec<u64> {
    s.set.iter().chain(&s.kept).chain([&s.damping, &s.best]).map(|v| v.to_bits()).collect()
}

fn trials(second_one: bool, s: &Set, rec: [f64; 3], from: State, tries: usize) -> Answer<State> {
    let s = working(s, if second_one { 16 } else { 2 });
    let mut less = Lent::new(CELLS - 1, PATTERN);
    assert!(trial(second_one, &s, rec, &from, &mut less).is_err_and(|n| n == 21), "a trial in a place too few");
    // The first trial finds a pattern in it, the others what the one before left.
    let mut scratch = Lent::new(CELLS + spare(s.times.len()), PATTERN);
    let (mut state, mut running) = (from, true);
    for _ in 0..tries {
        if running {
            (state, running) = trial(second_one, &s, rec, &state, &mut scratch)?;
        }
    }
    Ok(state)
}

pub fn first(s: &Set, rec: [f64; 3], from: State, tries: usize) -> Answer<State> {
    trials(false, s, rec, from, tries)
}

pub fn second(s: &Set, rec: [f64; 3], from: State, tries: usize) -> Answer<State> {
    trials(true, s, rec, from, tries)
}

/// The scratch that a fit needs.
pub fn fit_scratch(samples: usize, passes: usize) -> usize {
    (samples + 3 * passes) * (5 + 4 * passes) + 20_000
}

/// The places that a fit, with or without its lines, writes to.
struct Places {
    /// Four slices of biases, the log and the scratch: places and start.
    floats: [(usize, *mut f64); 6],
    text: (usize, *mut u8),
    /// a, i, raan0, u0 and the best sum
    numbers: *mut f64,
    epoch: *mut i64,
    nanos: *mut u32,
    trials: *mut usize,
    lines: *mut u32,
    length: *mut usize,
}

/// What a fit wrote: the lines' refusal and text are there where it writes lines.
struct Written {
    refusal: u32,
    biases: Vec<Vec<f64>>,
    log: Vec<f64>,
    numbers: Vec<f64>,
    epoch: Moment,
    lines: Option<(u32, Vec<u8>)>,
}

impl Written {
    fn bits(&self) -> Vec<u64> {
        self.biases.iter().chain([&self.log, &self.numbers]).flatten().map(|&v| common::lines::bits(v)).collect()
    }
}

/// Lends a call so many floats and bytes, and sees that a refusal has zeros and wrote nothing, that scratch is untouched up to 21 and cleared after,
/// and that nothing else was written. No bytes are lent to a call that writes no lines.
fn lent_fit(room: [usize; 6], text: Option<usize>, passes: usize, call: &impl Fn(&Places) -> u32) -> Written {
    let mut floats = room.map(|n| Lent::new(n, PATTERN));
    let (mut out, mut lines, mut length) = (Lent::new(text.unwrap_or(0), 0xa5u8), Lent::new(1, u32::MAX), Lent::new(1, usize::MAX));
    let (mut numbers, mut epoch, mut nanos, mut trials) = (Lent::new(5, PATTERN), Lent::new(1, TIME), Lent::new(1, u32::MAX), Lent::new(1, usize::MAX));
    let refusal = call(&Places {
        floats: floats.each_mut().map(|l| (l.places().len(), l.start())),
        text: (text.unwrap_or(0), out.start()),
        numbers: numbers.start(),
        epoch: epoch.start(),
        nanos: nanos.start(),
        trials: trials.start(),
        lines: lines.start(),
        length: length.start(),
    });
    let (count, numbers) = (trials.written(1)[0], numbers.written(5));
    let epoch = Moment { seconds: epoch.written(1)[0], nanos: nanos.written(1)[0] };
    let written = |k: usize, n: usize| floats[k].written(if refusal == 0 { n } else { 0 });
    let biases = (0..4).map(|k| written(k, passes)).collect();
    let log = written(4, count);
    if refusal == 0 || refusal > 21 {
        floats[5].all(0.0);
    } else {
        floats[5].written(0);
    }
    if refusal != 0 {
        let zeros = numbers.iter().all(|v| v.to_bits() == 0) && (epoch.seconds, epoch.nanos, count) == (0, 0, 0);
        assert!(zeros, "a refusal with numbers");
    }
    let lines = if text.is_some() {
        let (number, n) = (lines.written(1)[0], length.written(1)[0]);
        assert!(number == 0 || n == 0, "lines refused by {number} with {n} bytes");
        assert!(refusal == 0 || number == refusal, "refusal {refusal}, its lines {number}");
        Some((number, out.written(n)))
    } else {
        lines.written(0);
        length.written(0);
        None
    };
    Written { refusal, biases, log, numbers, epoch, lines }
}

/// The fit of so many non-empty passes and samples, with the lines under this name, if there is one; positions are not counted. One place less of any
/// float output or of the scratch is 21, before any work; one byte less of the text is 21 for the lines alone.
fn fitted(passes: usize, samples: usize, name: Option<&[u8]>, call: impl Fn(&Places) -> u32) -> Answer<(Fit, Answer<Vec<u8>>)> {
    let needed = [passes, passes, passes, passes, 150, fit_scratch(samples.min(4096), passes.min(16))];
    let text = name.map(|n| n.len() + 141);
    let mut early = Vec::new();
    for short in (0..6).filter(|&k| needed[k] > 0) {
        let mut room = needed;
        room[short] -= 1;
        early.push(lent_fit(room, text, passes, &call).refusal);
    }
    let more = spare(samples);
    let w = lent_fit(needed.map(|n| n + more), text.map(|n| n + more), passes, &call);
    let worked = w.refusal == 0 || w.refusal > 21;
    assert!(early.iter().all(|&n| n == if worked { 21 } else { w.refusal }), "refusal {}, with less memory {early:?}", w.refusal);
    if w.refusal != 0 {
        return Err(w.refusal);
    }
    let lines = match &w.lines {
        Some((0, bytes)) => {
            let less = lent_fit(needed, text.map(|n| n - 1), passes, &call);
            assert!(less.refusal == 0 && less.lines == Some((21, vec![])), "lines in a byte too few");
            assert!(less.bits() == w.bits(), "another fit");
            Ok(bytes.clone())
        }
        Some((number, _)) => Err(*number),
        None => Ok(vec![]),
    };
    let fit = Fit {
        orbit: [w.numbers[0], w.numbers[1], w.numbers[2], w.numbers[3]],
        epoch: w.epoch.nanos(),
        biases: (0..passes).map(|p| [w.biases[0][p], w.biases[1][p], w.biases[2][p], w.biases[3][p]]).collect(),
        log: w.log,
        sum: w.numbers[4],
        positions: 0,
        ended: "",
    };
    Ok((fit, lines))
}

pub fn fit(s: &Set, rec: [f64; 3], a: f64, i: f64) -> Answer<Fit> {
    let call = |p: &Places| unsafe {
        let [dts, dfs, df1s, df2s, log, scratch] = p.floats;
        wisvalom_fit_orbit_doppler(
            s.counts.as_ptr(), s.counts.len(), s.times.as_ptr(), s.times.len(), s.freqs.as_ptr(), s.freqs.len(), s.centers.as_ptr(), s.centers.len(),
            rec[0], rec[1], rec[2], a, i, dts.1, dts.0, dfs.1, dfs.0, df1s.1, df1s.0, df2s.1, df2s.0, log.1, log.0, scratch.1, scratch.0,
            p.numbers, p.numbers.add(1), p.numbers.add(2), p.numbers.add(3), p.epoch, p.nanos, p.trials, p.numbers.add(4),
        )
    };
    fitted(s.non_empty(), s.times.len(), None, call).map(|x| x.0)
}

pub fn fit_lines(s: &Set, rec: [f64; 3], a: f64, i: f64, name: &[u8]) -> Answer<(Fit, Answer<Vec<u8>>)> {
    let call = |p: &Places| unsafe {
        let [dts, dfs, df1s, df2s, log, scratch] = p.floats;
        wisvalom_fit_and_format(
            s.counts.as_ptr(), s.counts.len(), s.times.as_ptr(), s.times.len(), s.freqs.as_ptr(), s.freqs.len(), s.centers.as_ptr(), s.centers.len(),
            rec[0], rec[1], rec[2], a, i, dts.1, dts.0, dfs.1, dfs.0, df1s.1, df1s.0, df2s.1, df2s.0, log.1, log.0, scratch.1, scratch.0,
            name.as_ptr(), name.len(), p.text.1, p.text.0,
            p.numbers, p.numbers.add(1), p.numbers.add(2), p.numbers.add(3), p.epoch, p.nanos, p.trials, p.numbers.add(4), p.lines, p.length,
        )
    };
    fitted(s.non_empty(), s.times.len(), Some(name), call)
}

/// The sizes that the memory is lent by are those that the bytes hold; refused bytes get memory for two passes.
pub fn determine(bytes: &[u8], centers: Vec<f64>, rec: [f64; 3], a: f64, i: f64, name: &[u8]) -> Answer<(Fit, Answer<Vec<u8>>)> {
    let (passes, samples) = load(bytes).map_or((2, 6), |s| (s.non_empty(), s.times.len()));
    let call = |p: &Places| unsafe {
        let [dts, dfs, df1s, df2s, log, scratch] = p.floats;
        wisvalom_fit_and_format_stored(
            bytes.as_ptr(), bytes.len(), centers.as_ptr(), centers.len(),
            rec[0], rec[1], rec[2], a, i, dts.1, dts.0, dfs.1, dfs.0, df1s.1, df1s.0, df2s.1, df2s.0, log.1, log.0, scratch.1, scratch.0,
            name.as_ptr(), name.len(), p.text.1, p.text.0,
            p.numbers, p.numbers.add(1), p.numbers.add(2), p.numbers.add(3), p.epoch, p.nanos, p.trials, p.numbers.add(4), p.lines, p.length,
        )
    };
    fitted(passes, samples, Some(name), call)
}

/// A number: 1 in a place of its own. What is none leaves the value alone, and a refusal both.
pub fn parse(text: &[u8]) -> Answer<Option<f64>> {
    let (mut taken, mut out) = (Lent::new(1, u32::MAX), Lent::new(1, PATTERN));
    let refusal = unsafe { wisvalom_parse(text.as_ptr(), text.len(), taken.start(), out.start()) };
    if refusal != 0 {
        taken.written(0);
        out.written(0);
        return Err(refusal);
    }
    let n = taken.written(1)[0];
    assert!(n <= 1, "taken is {n}");
    Ok(out.written(n as usize).first().copied())
}

/// Only the columns are written; with one place less behind them, none.
pub fn put_fixed(v: f64, places: u64, pad: u8, room: u64, at: u64, width: u64) -> Option<Vec<u8>> {
    let call = |out: *mut u8, room: usize| unsafe { wisvalom_put_fixed(v, places as usize, pad, out, room, at as usize, width as usize) };
    let mut out = Lent::new(room as usize, 0xa5u8);
    if !call(out.start(), room as usize) {
        out.written(0);
        return None;
    }
    let got = out.written_at(at as usize, width as usize);
    let needed = (at + width) as usize;
    let mut less = Lent::new(needed - 1, 0xa5u8);
    assert!(!call(less.start(), needed - 1), "printed in {} places of {needed}", needed - 1);
    less.written(0);
    Some(got)
}

/// Seconds of 1970-01-01 from a day before the year 0000.
pub const YEAR_1970: i64 = 719529 * 86400;

pub fn rfc3339(text: &[u8]) -> Option<Moment> {
    let (mut seconds, mut nanos) = (Lent::new(1, u64::MAX), Lent::new(1, u64::MAX));
    let taken = unsafe { wisvalom_parse_from_rfc3339(text.as_ptr(), text.len(), seconds.start(), nanos.start()) };
    let (s, n) = (seconds.written(taken as usize), nanos.written(taken as usize));
    taken.then(|| Moment { seconds: s[0] as i64 - YEAR_1970, nanos: u32::try_from(n[0]).expect("nanoseconds") })
}
