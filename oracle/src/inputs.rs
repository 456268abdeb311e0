//! The fields of case k of a kind and seed.
use crate::cases;
use crate::files;
use crate::lines::{Line, words};
use crate::numbers::Random;
use crate::simulator::{self, Case};
use crate::Moment;

pub const KINDS: &[&str] = &[
    "sqrt", "cbrt", "sin", "cos", "ln", "abs", "floor", "round", "signum", "to_degrees", "to_radians", "powi2", "powi3",
    "power", "max", "min", "rem_euclid", "to_u64", "to_i64", "wrapping_mul", "draw", "gaussian", "monna", "unmonna", "padic",
    "history", "normal", "jd", "teme", "wgs84", "prop", "pred", "poly", "pca", "rss", "grad", "solve", "search",
    "residuals1", "residuals2", "step1", "step2", "steps1", "steps2", "fit", "lines", "turns", "checksum", "file",
    "load", "store", "fit_lines", "determine", "parse", "put_fixed", "rfc3339", "position", "elements",
];

/// What an answer of the kind begins with: a refusal, or 1 where something was taken.
pub fn first_field(kind: &str) -> Option<&'static str> {
    let at = KINDS.iter().position(|&k| k == kind);
    match kind {
        "normal" | "teme" | "checksum" => None,
        "put_fixed" | "rfc3339" => Some("taken"),
        _ => (at >= KINDS.iter().position(|&k| k == "monna")).then_some("by refusal"),
    }
}

/// A fit and its lines, asked from stored bytes.
pub fn determination(l: Line, bytes: &[u8], c: &Case, name: &[u8]) -> Line {
    l.bytes(bytes).list(&c.set.centers).floats(&c.receiver).float(c.a).float(c.i).bytes(name)
}

/// Whether the fit lets the set by up to its work.
fn workable(c: &Case) -> bool {
    !c.set.sizes_disagree()
        && !c.set.moments_outside()
        && !c.receiver.iter().any(|x| x.is_nan())
        && (6000e3..=50000e3).contains(&c.a)
        && (0.0..=std::f64::consts::PI).contains(&c.i)
        && !c.set.freqs.iter().any(|f| f.is_nan())
        && c.set.non_empty() >= 2
        && c.set.times.len() >= 4 + c.set.non_empty()
}

/// Parameters near nothing in particular, for the refinements.
fn parameters(r: &mut Random, biases: usize, passes: usize, i: f64) -> Vec<f64> {
    let mut set = vec![r.between(6600e3, 8000e3), i, r.between(0.0, 6.3), r.between(0.0, 6.3)];
    for _ in 0..passes {
        set.push(r.near(-600.0, 600.0, 30));
        set.push(r.near(-2000.0, 2000.0, 30));
        if biases == 4 {
            set.push(r.near(-0.1, 0.1, 30));
            set.push(r.near(-0.001, 0.001, 30));
        }
    }
    set
}

/// A best sum and the set that was kept with it: often another one, at times too far itself or moved too far by its table.
fn standing(r: &mut Random, tried: &[f64]) -> (f64, Vec<f64>) {
    let best = match r.below(8) {
        0 | 1 => 0.0,
        2 => r.pick(&[5e-324, 1e-9, 1.0, 1e5]),
        3 => r.pick(&[1e9, 1e11, 1e20, 1e300, f64::INFINITY]),
        4 => f64::NAN,
        _ => f64::MAX,
    };
    let mut kept = tried.to_vec();
    if r.one_in(2) {
        for v in kept.iter_mut() {
            *v *= 1.0 + r.between(-0.01, 0.01);
        }
    }
    if r.one_in(8) {
        kept[4] = r.pick(&[1e13, -1e13, 8e12, 9.3e12, f64::NAN, f64::INFINITY]);
    }
    (best, kept)
}

fn base(r: &mut Random) -> u64 {
    if r.one_in(20) { r.below(10) } else { 2 + r.below(6) }
}

fn epoch(r: &mut Random, c: &Case) -> Moment {
    if r.one_in(3) || c.set.times.is_empty() { cases::moment(r) } else { Moment::of_nanos(c.set.times[0]) }
}

pub fn fields(kind: &str, seed: u64, k: u64) -> Vec<u64> {
    let r = &mut cases::random(kind, seed, k);
    let l = Line::default();
    let l = match kind {
        "max" | "min" | "rem_euclid" => {
            let (v, w) = (r.float(), if r.one_in(4) { r.pick(&[360.0, 6.283185307179586]) } else { r.float() });
            l.float(v).float(w)
        }
        "power" => {
            let v = if r.one_in(2) { r.pick(&[2.0, 3.0, 4.0, 5.0, 6.0, 7.0, 0.1]) } else { r.float() };
            l.float(v).word(if r.one_in(20) { r.below(2000) } else { r.below(70) })
        }
        "wrapping_mul" => l.word(r.word() >> r.below(64)).word(r.word() >> r.below(64)),
        "draw" | "gaussian" => l.word(if r.one_in(10) { r.below(4).wrapping_sub(1) } else { r.word() }),
        "monna" => l.word(r.word() >> r.below(64)).word(if r.one_in(50) { r.word() } else { base(r) }),
        "unmonna" => {
            let x = if r.one_in(3) { r.float() } else { r.unit() };
            l.float(x).word(base(r)).word(if r.one_in(3) { r.below(18) } else { 16 })
        }
        "padic" => {
            let (p, a) = (base(r), r.word() >> r.below(64));
            let b = if r.one_in(2) {
                r.word() >> r.below(64)
            } else {
                a.wrapping_add(p.checked_pow(r.below(64) as u32).unwrap_or(0).wrapping_mul(1 + r.below(6)))
            };
            l.word(a).word(b).word(p)
        }
        "history" => {
            let n = if r.one_in(20) { r.below(70) } else { r.below(16) };
            let strange = r.one_in(3);
            let x: Vec<f64> = (0..n).map(|_| if strange { r.float() } else { r.between(0.0, 1e9) }).collect();
            l.list(&x)
        }
        "normal" => l.floats(&[r.near(-3e7, 3e7, 4), r.near(-7e6, 7e6, 4), r.near(-7e6, 7e6, 4)]),
        "jd" => l.moment(cases::moment(r)),
        "teme" => (0..6).fold(l.float(r.near(2435839.5, 2472365.5, 6)), |l, k| {
            l.float(if k < 3 { r.near(-1e7, 1e7, 10) } else { r.near(-8e3, 8e3, 10) })
        }),
        "wgs84" => l.floats(&cases::geodetic(r)),
        "prop" => {
            let (e, epoch) = (cases::elements(r), cases::moment(r));
            let (t, u) = (cases::later(r, epoch), cases::later(r, epoch));
            l.floats(&e).moment(epoch).moment(t).moment(u)
        }
        "pred" | "poly" => {
            let c = cases::predicted(r);
            let l = l.floats(&c.e).moment(c.epoch).moment(c.t_obs).float(c.dt);
            let l = if kind == "pred" { l.float(c.df[0]) } else { l.floats(&c.df).moment(c.t_ref) };
            l.float(c.center).floats(&c.rec)
        }
        "pca" => {
            let (c, e) = (cases::set(r), cases::elements(r));
            l.floats(&e).moment(epoch(r, &c)).floats(&c.receiver).set(&c.set)
        }
        "rss" | "grad" => {
            let (c, e) = (cases::set(r), cases::elements(r));
            let epoch = epoch(r, &c);
            let center = if r.one_in(3) || c.set.centers.is_empty() { r.near(1e8, 2e8, 4) } else { c.set.centers[0] };
            l.set(&c.set).floats(&c.receiver).floats(&e).moment(epoch).float(center)
        }
        "solve" => {
            let (n, m, v) = cases::system(r);
            l.word(n).list(&m).list(&v)
        }
        "search" => {
            let mut c = simulator::any(r.word());
            while !workable(&c) || c.set.times.len() > 40 {
                c = simulator::any(r.word());
            }
            // One pass, or none.
            if r.one_in(10) {
                let n = if r.one_in(2) { c.set.counts.iter().position(|&n| n > 0).unwrap() + 1 } else { 0 };
                let samples: u32 = c.set.counts[..n].iter().sum();
                c.set.counts.truncate(n);
                c.set.centers.truncate(n);
                c.set.times.truncate(samples as usize);
                c.set.freqs.truncate(samples as usize);
            }
            l.set(&c.set).floats(&c.receiver).float(r.between(6600e3, 8000e3)).float(c.i)
        }
        "residuals1" | "residuals2" | "step1" | "step2" | "steps1" | "steps2" => {
            let mut c = cases::set(r);
            while !workable(&c) {
                c = cases::set(r);
            }
            if r.one_in(12) {
                c.set.freqs[0] = r.pick(&[1e160, -1e160, 1e150]);
            }
            let set = if kind.ends_with('2') { parameters(r, 4, c.set.non_empty(), c.i) } else { parameters(r, 2, 2, c.i) };
            let l = l.set(&c.set).floats(&c.receiver);
            if kind.starts_with("residuals") {
                l.list(&set)
            } else {
                // A small damping lets a loop of trials that are all left go on to its end.
                let loops = kind.starts_with("steps");
                let l = if loops { l.word(if r.one_in(8) { 150 } else { r.below(30) }) } else { l };
                let small = loops && r.one_in(3);
                let damping = if small { 1e-150 } else { r.pick(&[1e-6, 1e-3, 0.1, 1.0, 10.0, 1e3, 1e7]) };
                let (best, kept) = standing(r, &set);
                l.list(&set).float(damping).float(best).list(&kept)
            }
        }
        "fit" => {
            let c = simulator::any(seed.wrapping_add(k));
            l.set(&c.set).floats(&c.receiver).float(c.a).float(c.i)
        }
        "fit_lines" => {
            let c = simulator::any(seed.wrapping_add(k));
            l.set(&c.set).floats(&c.receiver).float(c.a).float(c.i).bytes(&cases::name(r))
        }
        "determine" => {
            let mut c = simulator::any(seed.wrapping_add(k));
            // Some of these have a time out of range, too.
            if r.one_in(6) {
                if r.one_in(2) {
                    c.set.centers.pop();
                } else {
                    c.set.centers.push(1e8);
                }
                if r.one_in(2) && !c.set.times.is_empty() {
                    c.set.times[0] = i64::MIN;
                }
            }
            let bytes = if r.one_in(8) { files::stored(r.word(), &c.set) } else { c.set.stored() };
            determination(l, &bytes, &c, &cases::name(r))
        }
        "lines" => l.bytes(&cases::name(r)).floats(&cases::printed(r)).moment(cases::moment(r)),
        "turns" => l.bytes(&cases::name(r)).floats(&cases::turning(r)).moment(cases::moment(r)),
        "checksum" => {
            let n = r.below(80);
            let t: Vec<u8> = (0..n).map(|_| if r.one_in(2) { r.pick(b"0123456789-") } else { 32 + r.below(95) as u8 }).collect();
            l.bytes(&t)
        }
        "file" => l.bytes(&files::file(r.word())),
        "parse" => l.bytes(&files::decimal(r)),
        "put_fixed" => {
            let (v, places) = cases::fixed(r);
            let width = match r.below(8) {
                0 => r.below(20),
                1 => r.word(),
                _ => places + 2 + r.below(4),
            };
            let room = width.min(17) + r.below(4);
            let at = match r.below(8) {
                0 => r.below(26),
                1 => u64::MAX - r.below(20),
                _ => r.below(room.saturating_sub(width) + 1),
            };
            l.float(v).word(places).word(r.pick(&[b' ', b'0', b'*', 255]) as u64).word(room).word(at).word(width)
        }
        "rfc3339" => l.bytes(&files::moment(r)),
        "position" => l.bytes(&files::position(r)),
        "elements" => {
            let [line1, line2] = files::elements(r);
            l.bytes(&line1).bytes(&line2)
        }
        "load" => {
            let seed = r.word();
            l.bytes(&files::stored(seed, &cases::set(r).set))
        }
        "store" => l.set(&cases::set(r).set),
        _ => l.float(r.float()),
    };
    words(&l.0).unwrap()
}
