//! Inputs of the single functions, by random numbers: usual values, and now and then anything.
use crate::numbers::Random;
use crate::simulator::{self, Case};
use crate::{END, FIRST, Moment};

/// The case k of a kind and seed has random numbers of its own, so that it can be made alone.
pub fn random(kind: &str, seed: u64, k: u64) -> Random {
    let name = kind.bytes().fold(0u64, |h, b| h.wrapping_mul(257).wrapping_add(b as u64));
    Random::new(name ^ seed.wrapping_mul(0xd1342543de82ef95) ^ k.wrapping_mul(0x2545f4914f6cdd1d))
}

pub fn moment(r: &mut Random) -> Moment {
    match r.below(40) {
        0 => Moment {
            seconds: r.pick(&[FIRST - 1, FIRST, END - 1, END, i64::MIN, i64::MAX, -1, 0, 1, -17592186044417, 8_000_000_000_000]),
            nanos: r.pick(&[0, 1, 999_999_999, 1_000_000_000, u32::MAX]),
        },
        1 => Moment { seconds: r.word() as i64 >> r.below(40), nanos: r.word() as u32 >> r.below(8) },
        2..=9 => day_edge(r),
        _ => inside(r),
    }
}

fn nanos(r: &mut Random) -> u32 {
    match r.below(4) {
        0 => 0,
        1 => r.pick(&[1, 999_999_999, 500_000_000, 1000, 999, 1_000_000]),
        _ => r.below(1_000_000_000) as u32,
    }
}

pub fn inside(r: &mut Random) -> Moment {
    Moment { seconds: FIRST + r.below((END - FIRST) as u64) as i64, nanos: nanos(r) }
}

/// Within two seconds of the end of a day, a month or a leap day.
fn day_edge(r: &mut Random) -> Moment {
    let days = FIRST / 86400 + r.below(((END - FIRST) / 86400) as u64) as i64;
    let day = if r.one_in(3) { (days / 1461) * 1461 + 59 + r.below(3) as i64 } else { days };
    let m = Moment { seconds: day * 86400 + r.below(4) as i64 - 2, nanos: nanos(r) };
    if m.accepted() { m } else { inside(r) }
}

/// A moment some hours or days from another.
pub fn later(r: &mut Random, from: Moment) -> Moment {
    match r.below(8) {
        0 => moment(r),
        1 => from,
        _ => {
            let by = r.below(2_000_000_000_000_000) as i64 - 400_000_000_000_000;
            let t = from.seconds as i128 * 1_000_000_000 + from.nanos as i128 + by as i128;
            match i64::try_from(t) {
                Ok(t) => Moment::of_nanos(t),
                Err(_) => from,
            }
        }
    }
}

pub fn elements(r: &mut Random) -> [f64; 4] {
    [r.near(6500e3, 20000e3, 20), r.near(0.0, 3.15, 20), r.near(-7.0, 7.0, 20), r.near(-7.0, 7.0, 20)]
}

pub fn receiver(r: &mut Random) -> [f64; 3] {
    let at = [r.near(-1.0, 1.0, 30), r.near(-1.0, 1.0, 30), r.near(-1.0, 1.0, 30)];
    let size = (at[0] * at[0] + at[1] * at[1] + at[2] * at[2]).sqrt();
    if r.one_in(30) { at } else { [at[0] * 6371e3 / size, at[1] * 6371e3 / size, at[2] * 6371e3 / size] }
}

/// v, or one of the two floats next to it.
fn beside(r: &mut Random, v: f64) -> f64 {
    match r.below(3) {
        0 => v.next_up(),
        1 => v.next_down(),
        _ => v,
    }
}

/// A zero of either sign, or a number that vanishes beside others.
fn small(r: &mut Random) -> f64 {
    let v = r.pick(&[0.0, 0.0, 5e-324, 2.2250738585072014e-308, 1e-300, 1e-20, 1e-12, 1e-9, 1e-6, 1e-3, 1.0]);
    if r.one_in(2) { -v } else { v }
}

/// Not finite, or beyond all ends of refusal 13.
fn far(r: &mut Random) -> f64 {
    let v = r.pick(&[f64::NAN, f64::INFINITY, f64::MAX, 1e300, 1e20, 1e9, 20000.0, 10001.0]);
    if r.one_in(2) { -v } else { v }
}

/// Latitude, longitude and height: refusal 13's ends and multiples of 45 degrees with their neighbours, small ones, some that 13 refuses.
pub fn geodetic(r: &mut Random) -> [f64; 3] {
    let degrees = |r: &mut Random, most: u64| {
        let end = most as f64;
        match r.below(12) {
            0 | 1 => {
                let v = r.pick(&[-end, end]);
                beside(r, v)
            }
            2 | 3 => {
                // One multiple past each end.
                let eighths = most / 45 + 1;
                let v = 45.0 * (r.below(2 * eighths + 1) as f64 - eighths as f64);
                beside(r, v)
            }
            4 => small(r),
            5 if r.one_in(4) => far(r),
            6 if r.one_in(4) => r.float(),
            _ => r.between(-end, end),
        }
    };
    let height = match r.below(12) {
        0 | 1 => {
            let v = r.pick(&[-500.0, 10000.0]);
            beside(r, v)
        }
        2 | 3 => small(r),
        4 => r.between(-500.0, 500.0).round(),
        5 if r.one_in(4) => far(r),
        6 if r.one_in(4) => r.float(),
        _ => r.between(-500.0, 10000.0),
    };
    [degrees(r, 90), degrees(r, 360), height]
}

pub fn shift(r: &mut Random) -> f64 {
    match r.below(12) {
        0 => r.pick(&[8e12, -8e12, 7.9e12, 8.1e12, -8.3e12, 8.3e12, 1e13, 9.3e12, -9.3e12, 1e300, -9e-7, 1e-6, -0.0]),
        1 => r.float(),
        2 => r.between(-8.2e12, 8.2e12),
        3 => r.between(-1e7, 1e7),
        _ => r.between(-700.0, 700.0),
    }
}

pub struct Predicted {
    pub e: [f64; 4],
    pub epoch: Moment,
    pub t_obs: Moment,
    pub dt: f64,
    pub df: [f64; 3],
    pub t_ref: Moment,
    pub center: f64,
    pub rec: [f64; 3],
}

pub fn predicted(r: &mut Random) -> Predicted {
    let epoch = moment(r);
    let t_obs = later(r, epoch);
    let mut p = Predicted {
        e: elements(r),
        epoch,
        t_obs,
        dt: shift(r),
        df: [r.near(-5e3, 5e3, 20), r.near(-1.0, 1.0, 20), r.near(-0.01, 0.01, 20)],
        t_ref: later(r, epoch),
        center: r.near(1e8, 5e8, 20),
        rec: receiver(r),
    };
    if r.one_in(40) {
        p.e[0] = r.pick(&[1e12, 4e12, 1e15, 1e18, 1e25]);
    }
    p
}

/// A set for the calls that are not the fit: small, of either kind.
pub fn set(r: &mut Random) -> Case {
    let passes = 2 + r.below(3) as usize;
    let samples = 4 + passes + r.below(12) as usize;
    let seed = r.word();
    let mut c = if r.one_in(2) {
        simulator::realistic(seed, passes, samples)
    } else {
        simulator::damaged(seed, r.below(simulator::KINDS as u64) as usize, passes, samples)
    };
    if r.one_in(60) {
        c.set = Default::default();
    }
    c
}

/// A system of n rows, usually solvable.
pub fn system(r: &mut Random) -> (u64, Vec<f64>, Vec<f64>) {
    let n = match r.below(12) {
        0 => r.pick(&[0, 1, 1, 1, 2]),
        1 => 8,
        2 => r.below(25),
        3 if r.one_in(6) => r.pick(&[67, 68, 69, 70]),
        _ => 1 + r.below(6),
    };
    let kind = r.below(8);
    let cell = |r: &mut Random| match kind {
        0 => r.float(),
        1 => r.below(3) as f64 - 1.0,
        2 => r.near(-1.0, 1.0, 12),
        3 => r.pick(&[0.0, -0.0, 1e-12, 9e-13, -1e-12, 1.0]),
        _ => r.between(-1.0, 1.0),
    };
    let mut m: Vec<f64> = (0..n * n).map(|_| cell(r)).collect();
    let v: Vec<f64> = (0..n).map(|_| cell(r)).collect();
    if r.one_in(50) {
        if r.one_in(2) {
            m.push(0.0);
        } else {
            m.pop();
        }
    }
    (n, m, v)
}

pub fn name(r: &mut Random) -> Vec<u8> {
    let n = r.pick(&[0, 1, 6, 24, 24, 25, 10]);
    let strange = r.one_in(10);
    (0..n).map(|_| if strange && r.one_in(4) { r.below(256) as u8 } else { 32 + r.below(95) as u8 }).collect()
}

/// Angles in radians. Their degrees are the f64 before the one nearest to 359.99995, that one, and the next: the first prints as 359.9999, the others as 360.0000.
pub const EDGE: [f64; 3] = [6.2831844345149594, 6.28318443451496, 6.283184434514961];

/// An orbit for the element lines; angles near what prints as 0 or 360, and near half units.
pub fn printed(r: &mut Random) -> [f64; 4] {
    let angle = |r: &mut Random| match r.below(10) {
        0 => r.pick(&[0.0, -0.0, -6.283185307179586, -1e-20, 6.2831852, 6.283185307179586, 1e307, 3.14159265]),
        1 => (r.below(3600000) as f64 + 0.5) / 1e4 / 57.29577951308232,
        2 => r.float(),
        3 => r.between(-100.0, 100.0),
        _ => r.between(-6.3, 6.3),
    };
    let a = match r.below(10) {
        0 => r.pick(&[6500e3, 20000e3, 6499999.9999999, 20000000.000001, 7e6, f64::NAN, f64::INFINITY]),
        1 => r.float(),
        _ => r.between(6500e3, 20000e3),
    };
    let i = match r.below(10) {
        0 => r.pick(&[0.0, -0.0, std::f64::consts::PI, 3.1415926535897936, -1e-300, 1.5707963267948966]),
        1 => angle(r),
        _ => r.between(0.0, 3.1415926),
    };
    [a, i, angle(r), angle(r)]
}

/// An orbit for the element lines whose node and mean anomaly lie about a turn or half of one, each as it is or some f64 on or back. They are drawn apart, so that one,
/// both or none prints as 360.0000. Inclinations of 0 and pi are among them; the radius is seldom refused.
pub fn turning(r: &mut Random) -> [f64; 4] {
    let about = [EDGE[0], EDGE[1], EDGE[2], -1e-20, 6.2831852, 0.0, -0.0, 6.283185307179586, -6.283185307179586, std::f64::consts::PI];
    let angle = |r: &mut Random| {
        let (v, on) = (r.pick(&about), r.one_in(2));
        let steps = if r.one_in(2) { 0 } else { 1 + r.below(4) };
        (0..steps).fold(v, |v, _| if on { v.next_up() } else { v.next_down() })
    };
    let i = match r.below(4) {
        0 => 0.0,
        1 => std::f64::consts::PI,
        _ => r.between(0.0, 3.1415926),
    };
    [r.near(6500e3, 20000e3, 20), i, angle(r), angle(r)]
}

/// A float to print and its places: usual ones, ties and their neighbours, ends of the range, anything.
pub fn fixed(r: &mut Random) -> (f64, u64) {
    let places = if r.one_in(20) { r.below(11) } else { r.pick(&[0, 1, 2, 3, 4, 4, 5, 6, 7, 8, 8]) };
    let ten = 10f64.powi(places as i32);
    let v = match r.below(10) {
        // An odd multiple of half a unit that an f64 holds exactly, or the f64 nearest to one that it does not.
        0 => (2 * r.below(500 << places.min(20)) + 1) as f64 / (2u64 << places) as f64,
        1 => (r.below(1000 * ten as u64) as f64 + 0.5) / ten,
        2 => r.below(1000 * ten as u64 + 1) as f64 / ten,
        3 => r.pick(&[0.0, -0.0, 1000.0, 999.5, 999.99995, 999.999999995, 99.95, 9.99995, 0.5, 5e-5, 5e-9, 5e-324, 2.2250738585072014e-308, -5e-324]),
        4 => r.float(),
        5 => r.unit() * 10f64.powi(-(r.below(20) as i32)),
        _ => r.between(0.0, 1000.0),
    };
    let near = match r.below(4) {
        0 => f64::from_bits(v.to_bits().wrapping_add(1)),
        1 => f64::from_bits(v.to_bits().wrapping_sub(1)),
        _ => v,
    };
    (near, places)
}
