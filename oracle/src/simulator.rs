//! Pass sets by seed: a circular orbit with drifting node, seen from a mast, and damaged copies of them.
//!
//! The geometry is the simulator's own and rough (no light time, no relativity), so a fit has something to do. The
//! shift has the original's sign: it rises as the satellite goes away.
use crate::numbers::Random;
use crate::{END, FIRST, Set};

#[derive(Clone, Debug)]
pub struct Case {
    pub set: Set,
    pub receiver: [f64; 3],
    pub a: f64,
    pub i: f64,
    /// What was done to it.
    pub kind: &'static str,
}

/// The orbit behind a set, counted in seconds from a start.
pub struct Truth {
    pub a: f64,
    pub i: f64,
    raan: f64,
    u: f64,
    turn: f64,
    /// Seconds since 1970.
    pub start: i64,
}

impl Truth {
    /// Earth-fixed position at s seconds from the start.
    pub fn position(&self, s: f64) -> [f64; 3] {
        let n = (3.986e14 / (self.a * self.a * self.a)).sqrt();
        let drift = -1.5 * 1.0826e-3 * (6378137.0 / self.a) * (6378137.0 / self.a) * n * self.i.cos();
        let (u, o) = (self.u + n * s, self.raan + (drift - 7.2921e-5) * s - self.turn);
        let (x, y) = (self.a * u.cos(), self.a * u.sin());
        [
            x * o.cos() - y * self.i.cos() * o.sin(),
            x * o.sin() + y * self.i.cos() * o.cos(),
            y * self.i.sin(),
        ]
    }
    fn range(&self, s: f64, r: &[f64; 3]) -> f64 {
        let p = self.position(s);
        ((p[0] - r[0]).powi(2) + (p[1] - r[1]).powi(2) + (p[2] - r[2]).powi(2)).sqrt()
    }
    /// Sine of the height above the horizon, about.
    fn height(&self, s: f64, r: &[f64; 3]) -> f64 {
        let p = self.position(s);
        let up: f64 = (0..3).map(|k| (p[k] - r[k]) * r[k]).sum();
        up / self.range(s, r) / (r[0] * r[0] + r[1] * r[1] + r[2] * r[2]).sqrt()
    }
}

/// `passes` passes with `samples` samples in all.
pub fn realistic(seed: u64, passes: usize, samples: usize) -> Case {
    known(seed, passes, samples).0
}

/// The same with the orbit that it came from.
pub fn known(seed: u64, passes: usize, samples: usize) -> (Case, Truth) {
    let mut r = Random::new(seed);
    let lat = r.between(-1.1, 1.1);
    let lon = r.between(-3.14, 3.14);
    let size = 6371e3 + r.between(0.0, 2000.0);
    let receiver = [size * lat.cos() * lon.cos(), size * lat.cos() * lon.sin(), size * lat.sin()];
    let mut truth = Truth {
        a: r.between(6778e3, 7878e3),
        i: r.between(lat.abs().max(0.6), 1.8),
        raan: r.between(0.0, 6.28),
        u: r.between(0.0, 6.28),
        turn: r.between(0.0, 6.28),
        start: 0,
    };
    let center = if r.one_in(3) { r.between(1e8, 5e8).round() } else { 150800000.0 };
    let start = if r.one_in(8) {
        FIRST + r.below((END - FIRST - 40 * 86400) as u64) as i64
    } else {
        1735689600 + r.below(86400 * 730) as i64
    };
    truth.start = start;
    let mut starts: Vec<(f64, f64)> = Vec::new();
    for threshold in [0.17, 0.0, -0.5, -1.0] {
        starts.clear();
        let mut s = 0.0;
        let mut rise: Option<f64> = None;
        while s < 20.0 * 86400.0 && starts.len() < passes {
            let up = truth.height(s, &receiver) > threshold;
            match (up, rise) {
                (true, None) => rise = Some(s),
                (true, Some(b)) if s - b > 1200.0 => {
                    starts.push((b, s));
                    rise = None;
                }
                (false, Some(b)) => {
                    if s - b > 120.0 && !r.one_in(4) {
                        starts.push((b, s));
                    }
                    rise = None;
                }
                _ => {}
            }
            s += 20.0;
        }
        if starts.len() == passes {
            break;
        }
    }
    let mut set = Set::default();
    let noise = r.pick(&[0.0, 0.1, 1.0, 5.0, 20.0]);
    let common = r.between(-2000.0, 2000.0);
    for (k, &(b, e)) in starts.iter().enumerate() {
        let n = (samples * (k + 1)) / starts.len() - (samples * k) / starts.len();
        let spacing = ((e - b) / (n as f64 + 1.0)).min(r.between(2.0, 30.0));
        let first = b + ((e - b) - spacing * n as f64) * 0.5;
        let offset = common + r.between(-50.0, 50.0);
        let drift = r.between(-0.05, 0.05);
        for j in 0..n {
            let s = first + spacing * j as f64 + if r.one_in(2) { 0.0 } else { r.between(0.0, 0.01) };
            let rate = (truth.range(s + 0.05, &receiver) - truth.range(s - 0.05, &receiver)) / 0.1;
            let f = center + center * rate / 299792458.0 + offset + drift * (s - first) + noise * r.gaussian();
            set.times.push(start * 1_000_000_000 + (s * 1e9) as i64);
            set.freqs.push(f);
        }
        set.counts.push(n as u32);
        set.centers.push(center);
    }
    let i = (truth.i + r.between(-0.05, 0.05)).clamp(0.0, 3.14);
    (Case { set, receiver, a: 7000e3, i, kind: "realistic" }, truth)
}

/// Where pass p starts in the arrays.
fn offset(set: &Set, p: usize) -> usize {
    set.counts[..p].iter().map(|&n| n as usize).sum()
}

pub const KINDS: usize = 34;

/// A set with one thing done to it; `kind` from 0 to KINDS - 1.
pub fn damaged(seed: u64, kind: usize, passes: usize, samples: usize) -> Case {
    let mut r = Random::new(seed ^ 0x0da3a9ed);
    let mut c = realistic(seed, passes, samples);
    let set = &mut c.set;
    let total = set.times.len();
    if total == 0 {
        return c;
    }
    let at = r.below(total as u64) as usize;
    c.kind = match kind {
        0 => {
            for _ in 0..1 + r.below(3) {
                if set.counts.len() < 16 {
                    let p = r.below(set.counts.len() as u64 + 1) as usize;
                    set.counts.insert(p, 0);
                    set.centers.insert(p, r.near(1e8, 2e8, 3));
                }
            }
            "empty passes"
        }
        1 => {
            let mut order: Vec<usize> = (0..set.counts.len()).collect();
            r.shuffle(&mut order);
            let old = set.clone();
            *set = Set::default();
            for p in order {
                let (a, n) = (offset(&old, p), old.counts[p] as usize);
                set.counts.push(n as u32);
                set.centers.push(old.centers[p]);
                set.times.extend(&old.times[a..a + n]);
                set.freqs.extend(&old.freqs[a..a + n]);
            }
            "passes shuffled"
        }
        2 => {
            let first = set.counts[0] as usize;
            r.shuffle(&mut set.times[..first]);
            "times shuffled within a pass"
        }
        3 => {
            r.shuffle(&mut set.times);
            "times shuffled"
        }
        4 => {
            set.centers[0] = f64::NAN;
            "centre NaN"
        }
        5 => {
            set.centers[0] = r.pick(&[f64::INFINITY, f64::NEG_INFINITY]);
            "centre infinite"
        }
        6 => {
            set.centers[0] = r.pick(&[0.0, -0.0, 1e-300, -150800000.0]);
            "centre zero"
        }
        7 => {
            set.freqs[at] = r.pick(&[f64::INFINITY, f64::NEG_INFINITY]);
            "a frequency infinite"
        }
        8 => {
            let t = set.times[at];
            set.times.iter_mut().for_each(|x| *x = t);
            "times equal"
        }
        9 => {
            let f = set.freqs[at];
            set.freqs.iter_mut().for_each(|x| *x = f);
            "frequencies equal"
        }
        10 => {
            let by = r.pick(&[4.9e5, 5.1e5, -6e5, 1e7]);
            set.freqs.iter_mut().for_each(|x| *x += by);
            "offset far"
        }
        11 => {
            c.receiver[r.below(3) as usize] = r.pick(&[f64::INFINITY, f64::NEG_INFINITY, 1e200, 1e30]);
            "receiver far"
        }
        12 => {
            c.receiver = [0.0, -0.0, 0.0];
            "receiver at the centre of the Earth"
        }
        13 => {
            let (a, n) = (set.times.clone(), set.counts[0] as usize);
            for k in n..total {
                set.times[k] = a[(k - n) % n.max(1)];
            }
            "passes at the same times"
        }
        14 => {
            let far = r.pick(&[9.2e18, -9.2e18, 1e19, 1e17]);
            set.centers.iter_mut().for_each(|x| *x = 1e13);
            set.freqs.iter_mut().for_each(|x| *x += 1e13 - 150800000.0);
            set.freqs[at] = far;
            "one frequency very far"
        }
        15 => {
            set.freqs[at] = f64::NAN;
            "a frequency NaN"
        }
        16 => {
            let n = set.counts[0] as usize;
            set.counts.truncate(1);
            set.centers.truncate(1);
            set.times.truncate(n);
            set.freqs.truncate(n);
            "one pass"
        }
        17 => {
            let p = set.counts.len();
            for k in 0..p {
                set.counts[k] = 1;
            }
            set.counts[p - 1] += 3 + r.below(2) as u32;
            let n: usize = set.counts.iter().map(|&x| x as usize).sum();
            while set.times.len() < n {
                set.times.push(set.times[at] + 1_000_000_000);
                set.freqs.push(set.freqs[at]);
            }
            set.times.truncate(n);
            set.freqs.truncate(n);
            "few samples"
        }
        18 => {
            set.times[at] = r.pick(&[FIRST * 1_000_000_000, END * 1_000_000_000 - 1]);
            "a time at the range's end"
        }
        19 => {
            set.times[at] = r.pick(&[FIRST * 1_000_000_000 - 1, END * 1_000_000_000, i64::MAX, i64::MIN]);
            "a time out of range"
        }
        20 => {
            match r.below(5) {
                0 => set.counts[0] += 1,
                1 => set.counts[0] = u32::MAX,
                2 => {
                    set.centers.pop();
                }
                3 => {
                    set.freqs.pop();
                }
                _ => {
                    while set.counts.len() < 17 {
                        set.counts.push(0);
                        set.centers.push(0.0);
                    }
                }
            }
            "sizes disagree"
        }
        21 => {
            c.i = r.pick(&[0.0, -0.0, std::f64::consts::PI]);
            "inclination at an end"
        }
        22 => {
            for f in set.freqs.iter_mut() {
                *f += r.between(-1e6, 1e6);
            }
            "noise of a megahertz"
        }
        23 => {
            c.a = r.pick(&[5999999.999, 50000000.1, 6000e3, 50000e3, f64::INFINITY]);
            "initial a at an end"
        }
        24 => {
            c.i = r.pick(&[-1e-300, 3.1415926535897936, f64::INFINITY]);
            "initial i out of range"
        }
        25 => {
            match r.below(3) {
                0 => c.a = f64::NAN,
                1 => c.i = f64::NAN,
                _ => c.receiver[r.below(3) as usize] = f64::NAN,
            }
            "an argument NaN"
        }
        26 => {
            set.freqs[at] = r.pick(&[1e300, f64::MAX, -1e300, 1e155, 1e160]);
            "a frequency huge"
        }
        27 => {
            for f in set.freqs.iter_mut() {
                *f = 2.0 * 150800000.0 - *f;
            }
            "shift the other way round"
        }
        28 => {
            let mut swapped: Vec<i64> = set.times.clone();
            swapped.reverse();
            set.times = swapped;
            "times backwards"
        }
        29 => {
            let last = set.counts.len() - 1;
            let a = offset(set, last);
            for t in &mut set.times[a..] {
                *t = t.rem_euclid(86_400_000_000_000) + r.pick(&[FIRST, END - 86400]) * 1_000_000_000;
            }
            "passes a lifetime apart"
        }
        30 => {
            c.receiver = [r.near(-7e6, 7e6, 4), r.near(-7e6, 7e6, 4), r.near(-7e6, 7e6, 4)];
            "receiver anywhere"
        }
        31 => {
            for k in 0..set.freqs.len() {
                if r.one_in(3) {
                    set.freqs[k] = r.float();
                }
            }
            "frequencies anything"
        }
        32 => {
            for k in 0..set.times.len() {
                if r.one_in(3) {
                    set.times[k] = FIRST * 1_000_000_000 + r.below((END - FIRST) as u64 * 1_000_000_000) as i64;
                }
            }
            "times anything"
        }
        _ => {
            for k in 0..set.centers.len() {
                set.centers[k] += r.between(-5000.0, 5000.0);
            }
            "centres unlike"
        }
    };
    c
}

/// A case of either kind, of a size that a fit finishes soon.
pub fn any(seed: u64) -> Case {
    let mut r = Random::new(seed ^ 0x51e7);
    let passes = if r.one_in(8) { 2 + r.below(15) as usize } else { 2 + r.below(4) as usize };
    let least = 4 + passes;
    let samples = match r.below(4) {
        0 => least + r.below(8) as usize,
        1 => least + 8 + r.below(30) as usize,
        _ => least + 20 + r.below(100) as usize,
    };
    if r.one_in(2) { realistic(seed, passes, samples) } else { damaged(seed, (seed / 2) as usize % KINDS, passes, samples) }
}
