//! traps: calls at which bits turn, with the answers that were found before, run on the patched original (and, where
//! it says so, on the published one); and pairs of element lines with what the comparison has to say of them. Prints a line for each and, last, how many answered otherwise.
use common::around;
use common::lines::{Line, bits};
use common::{Moment, Set};
use patched::judge as j;
use patched::judge::floats::{one, two};
use published::judge as p;

const T: i64 = 1781222400; // 2026-06-12T00:00:00Z
const R: [f64; 3] = [6378137.0, 0.0, 0.0];

fn at(seconds: i64, nanos: u32) -> Moment {
    Moment { seconds, nanos }
}

struct Traps {
    all: u32,
    other: u32,
}

impl Traps {
    fn same(&mut self, call: &str, got: String, said: String) {
        self.all += 1;
        if got == said {
            println!("ok     {call} = {got}");
        } else {
            self.other += 1;
            println!("OTHER  {call} = {got}, not {said}");
        }
    }
    fn float(&mut self, call: &str, got: f64, said: f64) {
        self.same(call, format!("{got:?} {:016x}", bits(got)), format!("{said:?} {:016x}", bits(said)))
    }
    fn refusal<X>(&mut self, call: &str, got: Result<X, u32>, said: u32) {
        self.same(call, format!("refusal {}", got.err().unwrap_or(0)), format!("refusal {said}"))
    }
    fn yes(&mut self, call: &str, got: bool) {
        self.same(call, got.to_string(), "true".to_string())
    }
}

fn pred(e: [f64; 4], t_obs: Moment, dt: f64) -> Result<f64, u32> {
    j::pred(e, at(0, 0), t_obs, dt, 0.0, 150.8e6, R)
}

fn set(passes: &[(f64, &[(i64, f64)])]) -> Set {
    let mut s = Set::default();
    for (center, samples) in passes {
        s.centers.push(*center);
        s.counts.push(samples.len() as u32);
        for (t, f) in *samples {
            s.times.push(*t);
            s.freqs.push(*f);
        }
    }
    s
}

fn main() {
    std::panic::set_hook(Box::new(|_| {}));
    let mut t = Traps { all: 0, other: 0 };
    let sin = |v| one("sin", v).unwrap();
    let cos = |v| one("cos", v).unwrap();
    let pi = std::f64::consts::PI;

    // Arithmetic.
    t.float("sin -0.0", sin(-0.0), 0.0);
    let s = j::prop([7e6, -0.0, 0.0, 0.0], at(0, 0), at(0, 0), at(0, 0)).unwrap();
    t.float("prop 7e6 -0.0 0 0 0 0 0, third number", s[2], 0.0);
    t.float("sin pi", sin(pi), -0.0);
    t.float("cos pi/2", cos(pi / 2.0), -0.0);
    t.yes("published sin pi is 1.2e-16", pi.sin() > 1.2e-16 && pi.sin() < 1.3e-16);
    t.yes("sin -pi/2 is in quarter 3: -cos of 0", sin(-pi / 2.0) == -1.0);
    let mut held = true;
    let mut quarter = true;
    let mut r = common::numbers::Random::new(1);
    for _ in 0..1_000_000 {
        let v = r.float();
        held &= !(sin(v).abs() > 1.0 || cos(v).abs() > 1.0);
        if v.abs() < 1e8 {
            quarter &= (sin(v) - v.sin()).abs() < 1e-7 && (cos(v) - v.cos()).abs() < 1e-7;
        }
    }
    t.yes("sin and cos stay within 1 (1,000,000 floats)", held);
    t.yes("sin and cos are near the platform's below 1e8", quarter);
    t.same(
        "sin 0.7853981633974483 is C (quarter 1), cos of its negative S (quarter 3): bits",
        format!("{:x} {:x}", sin(0.7853981633974483).to_bits(), cos(-0.7853981633974483).to_bits()),
        "3fe6a09e667f3bcd 3fe6a09e667f3bcc".into(),
    );
    t.float("max(-0.0, 0.0)", two("max", -0.0, 0.0).unwrap(), -0.0);
    t.float("max(0.0, -0.0)", two("max", 0.0, -0.0).unwrap(), 0.0);
    t.float("min(0.0, -0.0)", two("min", 0.0, -0.0).unwrap(), 0.0);
    t.float("max(nan, 1)", two("max", f64::NAN, 1.0).unwrap(), 1.0);
    t.float("signum 0.0", one("signum", 0.0).unwrap(), 1.0);
    t.float("signum -0.0", one("signum", -0.0).unwrap(), -1.0);
    t.float("signum nan", one("signum", f64::NAN).unwrap(), f64::NAN);
    t.float("history nan", j::history(&[f64::NAN]).unwrap()[0], 0.0);
    t.same("unmonna nan 2 16", format!("{:?}", j::unmonna(f64::NAN, 2, 16)), "Ok(0)".into());
    t.same("unmonna 1.0 2 16", format!("{:?}", j::unmonna(1.0, 2, 16)), "Ok(65535)".into());
    t.float("rem_euclid -1e-20 360", two("rem_euclid", -1e-20, 360.0).unwrap(), 360.0);
    t.float("rem_euclid -360 360", two("rem_euclid", -360.0, 360.0).unwrap(), -0.0);
    t.float("rem_euclid -0.0 360", two("rem_euclid", -0.0, 360.0).unwrap(), -0.0);
    let (a, b) = (j::padic(0, 150094635296999121, 3).unwrap(), p::padic(0, 150094635296999121, 3).unwrap());
    t.same("padic 0 3^36 3, last digits", format!("{:03x}", a.to_bits() & 0xfff), "813".into());
    t.same("the same by the platform", format!("{:03x}", b.to_bits() & 0xfff), "811".into());
    for (base, first) in [(3u64, 36), (5, 25), (7, 22), (2, 0), (4, 0), (6, 0)] {
        let mut unlike = 0;
        let mut v = 1u64;
        for e in 1..64 {
            let Some(next) = v.checked_mul(base) else { break };
            v = next;
            if unlike == 0 && j::padic(0, v, base).unwrap() != p::padic(0, v, base).unwrap() {
                unlike = e;
            }
        }
        t.same(&format!("first power of {base} whose distance is unlike the platform's"), unlike.to_string(), first.to_string());
    }
    let mut like = 0;
    let mut places = 0;
    for _ in 0..1_000_000 {
        let period = r.between(4000.0, 8000.0);
        let v = 3.986004418e14 * period * period / (4.0 * pi * pi);
        let (a, b) = (one("cbrt", v).unwrap(), v.powf(1.0 / 3.0));
        like += (a == b) as u32;
        places = places.max((a.to_bits() as i64 - b.to_bits() as i64).abs());
    }
    t.same("cube roots equal to powf(1/3), and places apart at most", format!("{like} {places}"), "0 8".into());
    let mut same = true;
    for a in 0..64u64 {
        for b in 0..64u64 {
            if a != b {
                let d = j::padic(a, b, 2).unwrap();
                same &= d.powf(1.5) == d * d.sqrt();
            }
        }
    }
    t.yes("dist.powf(1.5) is dist×√dist for a history of 64", same);
    let still = j::prop([7e6, 1.0, 0.0, 0.0], at(T, 0), at(T, 0), at(T, 0));
    t.yes("dt = -9e-7 moves nothing", pred([7e6, 1.0, 0.0, 0.0], at(T, 0), -9e-7) == pred([7e6, 1.0, 0.0, 0.0], at(T, 0), 0.0));
    t.yes("-999 ns is 0 µs", j::prop([7e6, 1.0, 0.0, 0.0], at(T, 999), at(T, 0), at(T, 0)) == still);
    t.yes(
        "-1,500 ns is -1 µs",
        j::prop([7e6, 1.0, 0.0, 0.0], at(T, 1500), at(T, 0), at(T, 0)) == j::prop([7e6, 1.0, 0.0, 0.0], at(T, 1000), at(T, 0), at(T, 0)),
    );

    // Masts' places. The cosine of a quarter turn is -0.0 here, that of its negative 0.0.
    for (lat, lon, alt, said, in_rust) in [
        (90.0, 0.0, 0.0, [-0.0, -0.0, 6356752.314245179], [3.9186209248144716e-10, 0.0, 6356752.314245179]),
        (-90.0, 0.0, 0.0, [0.0, 0.0, -6356752.314245179], [3.9186209248144716e-10, 0.0, -6356752.314245179]),
        (-90.0, 360.0, -500.0, [0.0, 0.0, -6356252.314245179], [3.918314763114685e-10, -9.597103265400437e-26, -6356252.314245179]),
        (0.0, 0.0, 10000.0, [6388137.0, 0.0, 0.0], [6388137.0, 0.0, 0.0]),
        (-0.0, -0.0, -0.0, [6378137.0, 0.0, 0.0], [6378137.0, -0.0, -0.0]),
    ] {
        t.same(&format!("wgs84 {lat} {lon} {alt}"), format!("{:?}", j::wgs84(lat, lon, alt)), format!("Ok({said:?})"));
        t.same("the same by the platform", format!("{:?}", p::wgs84(lat, lon, alt)), format!("Ok({in_rust:?})"));
    }
    for (k, ends) in [[-90.0f64, 90.0], [-360.0, 360.0], [-500.0, 10000.0]].into_iter().enumerate() {
        let refusal = |v: f64| {
            let mut given = [59.1, 18.0, 20.0];
            given[k] = v;
            j::wgs84(given[0], given[1], given[2]).err().unwrap_or(0)
        };
        let [low, high] = ends;
        let beside = [low.next_down(), low, low.next_up(), high.next_down(), high, high.next_up(), f64::NAN, f64::INFINITY, f64::NEG_INFINITY];
        t.same(&format!("13 at {low} and {high} and beside them, NaN, infinite"), format!("{:?}", beside.map(refusal)), "[13, 0, 0, 0, 0, 13, 13, 13, 13]".into());
    }
    for (line, said) in [
        ("90,0,0", 0),
        ("90.00000000000001,0,0", 13),
        ("90.000000000000001,0,0", 0),
        ("59.1,18.0,20", 0),
        (" \t59.1,18.0,20\u{b}\u{c}\r\n", 0),
        ("\u{1c}59.1,18.0,20", 13),
        ("59.1, 18.0,20", 13),
        ("59.1 ,18.0,20", 13),
        ("91,0,1e31", 3),
        ("x,0,1e31", 13),
        ("0,0,1e31,0", 13),
        ("", 13),
        ("1,2", 13),
        ("1,2,3,", 13),
        ("1,2,3\n1,2,3", 13),
        ("nan,0,0", 13),
        ("inf,0,0", 13),
        ("0,0,1e005", 3),
        ("00000000000000000001,0,0", 3),
        ("0000000000000000001,0,0", 0),
        ("59.1°,18.0,20", 1),
    ] {
        t.refusal(&format!("position {line:?}"), j::position(line.as_bytes()), said);
    }
    for (n, end, said) in [(256, "", 0), (257, "", 2), (256, "\n", 0), (256, "\r\n", 0), (257, "\n", 2), (257, "\r\n", 2), (256, "\r", 2), (255, "\r", 0), (255, "\r\r\n", 0)] {
        t.refusal(&format!("position of {n} bytes and {end:?}"), j::position(format!("{:>n$}{end}", "1,2,3").as_bytes()), said);
    }
    t.refusal("position of 300 bytes and one above 127", j::position(&[[b' '; 300].as_slice(), b"1,2,3\x80"].concat()), 1);

    // Predictions.
    let e = [7e6, 1.0, 0.0, 0.0];
    t.refusal("pred 7e6 1 0 0 0 0 8e12", pred(e, at(0, 0), 8e12), 0);
    t.refusal("pred 7e6 1 0 0 0 1 8e12", pred(e, at(0, 1), 8e12), 23);
    t.refusal("pred 7e6 1 0 0 0 0 -8e12", pred(e, at(0, 0), -8e12), 0);
    t.refusal("pred 7e6 1 0 0 0 -1 -8e12", pred(e, at(-1, 999_999_999), -8e12), 23);
    t.refusal("pred .. nan", pred(e, at(0, 0), f64::NAN), 0);
    t.refusal("pred .. inf", pred(e, at(0, 0), f64::INFINITY), 23);
    let far = |dt| p::pred(e, at(0, 0), at(0, 0), dt, 0.0, 150.8e6, R);
    t.refusal("published, dt 8210298412799", far(8210298412799.0), 0);
    t.refusal("published, dt 8210298412801", far(8210298412801.0), p::PANIC);
    t.refusal("published, dt -8334632851200", far(-8334632851200.0), 0);
    t.refusal("published, dt -8334632851202", far(-8334632851202.0), p::PANIC);
    t.refusal("pred 1e15 1 0.3 0.2 0 0 8e12", pred([1e15, 1.0, 0.3, 0.2], at(0, 0), 8e12), 23);
    let on = j::prop([7e6, 1.0, 0.3, 0.2], at(T, 0), at(T, 0), at(T, 0)).unwrap();
    let near = j::pred([7e6, 1.0, 0.3, 0.2], at(T, 0), at(T, 0), 0.0, 12.0, 150.8e6, [on[0], on[1], on[2]]);
    t.float("within a metre: centre plus df", near.unwrap(), 150.8e6 + 12.0);
    let away = j::pred([7e6, 1.0, 0.0, 0.0], at(T, 0), at(T + 300, 0), 0.0, 0.0, 150.8e6, {
        let s = j::prop([7e6, 1.0, 0.0, 0.0], at(T, 0), at(T, 0), at(T, 0)).unwrap();
        [s[0] * 0.91, s[1] * 0.91, s[2] * 0.91]
    });
    t.yes("a satellite going away has a positive shift", away.unwrap() > 0.0);
    let mut like = 0;
    for k in 0..10_000 {
        let c = common::cases::predicted(&mut common::cases::random("trap", 1, k));
        let (epoch, t_obs) = (at(T, 0), at(T + k as i64 * 7, 0));
        let e = [r.between(6.6e6, 8e6), r.between(0.0, 3.1), c.e[2], c.e[3]];
        let x = j::pred(e, epoch, t_obs, 3.0, 0.0, 150.8e6, R);
        like += (x == p::pred(e, epoch, t_obs, 3.0, 0.0, 150.8e6, R)) as u32;
    }
    println!("note   {like} of 10000 predictions have the published bits");

    // Closest moments and sums.
    let n = T * 1_000_000_000;
    let with = set(&[(150805000.0, &[]), (150800000.0, &[(n, 150805000.0), (n + 10_000_000_000, 150800000.0)])]);
    let without = set(&[(150800000.0, &[(n, 150805000.0), (n + 10_000_000_000, 150800000.0)])]);
    let (x, y) = (j::pca(e, at(T, 0), R, &with).unwrap(), j::pca(e, at(T, 0), R, &without).unwrap());
    t.same("pca moved by an empty first pass (s)", ((y[0] - x[1]) / 1_000_000_000).to_string(), "10".into());
    t.yes("an empty pass's closest moment is the epoch", x[0] == n);
    let none = Set::default();
    t.same("pca of no passes", format!("{:?}", j::pca(e, at(T, 0), R, &none)), "Ok([])".into());
    t.float("rss of no passes", j::rss(&none, R, e, at(T, 0), 150.8e6).unwrap(), 0.0);
    t.same("grad of no passes", format!("{:?}", j::grad(&none, R, e, at(T, 0), 150.8e6)), "Ok([0.0, 0.0, 0.0, 0.0])".into());
    let early = set(&[(150.8e6, &[(common::FIRST * 1_000_000_000, 150.8e6)])]);
    t.refusal("pca at 1957-01-01 goes into 1956", j::pca(e, at(common::FIRST, 0), R, &early), 0);
    let infinite = j::pca(e, at(T, 0), [f64::INFINITY, 0.0, 0.0], &without).unwrap();
    t.yes("receiver infinite: the observed moment stays", infinite[0] == n + 10_000_000_000);
    patched::hooks::take();
    let _ = j::pca(e, at(T, 0), [f64::INFINITY, 0.0, 0.0], &without);
    t.same("and 87 positions are worked out", patched::hooks::take().positions.to_string(), "87".into());
    let day = 86_400_000_000_000;
    let unlike = set(&[(150805000.0, &[]), (150800000.0, &[(n, 150805000.0), (n + day, 150800000.0)])]);
    let x = j::pca(e, at(T, 0), R, &unlike).unwrap();
    t.same("rss with another centre: dt (s)", ((x[1] - (n + day)) / 1_000_000_000).to_string(), "-87022".into());

    // Elimination.
    t.float("solve 1 nan 1", j::solve(1, &[f64::NAN], &[1.0]).unwrap()[0], f64::NAN);
    t.refusal("solve 2 0 1 nan 1 1 1", j::solve(2, &[0.0, 1.0, f64::NAN, 1.0], &[1.0, 1.0]), 22);
    t.float("solve 1 inf 1", j::solve(1, &[f64::INFINITY], &[1.0]).unwrap()[0], 0.0);
    t.float("solve 1 1 -0.0", j::solve(1, &[1.0], &[-0.0]).unwrap()[0], -0.0);
    t.same("solve 2 1 0 0 1 -0.0 -0.0", format!("{:?}", j::solve(2, &[1.0, 0.0, 0.0, 1.0], &[-0.0, -0.0])), "Ok([-0.0, 0.0])".into());
    t.refusal("solve 1 1e-12", j::solve(1, &[1e-12], &[1.0]), 0);
    t.refusal("solve 1 5e-13", j::solve(1, &[5e-13], &[1.0]), 22);
    t.same("solve 0", format!("{:?}", j::solve(0, &[], &[])), "Ok([])".into());
    let mut same = true;
    for k in 0..40_000 {
        let (n, m, v) = common::cases::system(&mut common::cases::random("both", 1, k));
        if j::solve(n, &m, &v) == Err(5) {
            continue;
        }
        let show = |x: Result<Vec<f64>, u32>| x.map(|v| v.into_iter().map(bits).collect::<Vec<_>>());
        if n <= 68 {
            same &= show(j::solve(n, &m, &v)) == show(j::solve_apart(n, &m, &v));
        }
    }
    t.yes("both eliminations agree on 40,000 systems", same);

    // Lines.
    let lines = |e, m| String::from_utf8(j::lines(b"X", e, m).unwrap()).unwrap();
    let plain = |e, m| String::from_utf8(p::lines(b"X", e, m).unwrap()).unwrap();
    t.same(
        "document 01's example",
        lines([7e6, pi / 2.0, 0.0, 0.0], at(T, 0)),
        "X\n1 99999U 26999A   26163.00000000  .00000000  00000-0  00000-0 0  9998\n2 99999  90.0000   0.0000 0000000   0.0000   0.0000 14.82366876000007\n".into(),
    );
    for raan in [-0.0, -6.283185307179586] {
        t.yes("raan0 = -0.0: no minus here", lines([7e6, 1.0, raan, 0.0], at(T, 0)).contains(" 0.0000 0000000"));
        t.yes("raan0 = -0.0: a minus in the Rust", plain([7e6, 1.0, raan, 0.0], at(T, 0)).contains("-0.0000 0000000"));
    }
    // An angle rounding up prints 360.0000 in the Rust, and in the patched original; the port prints 0.0000 there (document 02 [3]).
    let [before, nearest, after] = common::cases::EDGE;
    for (v, degrees) in [(before, 359.99995f64.next_down()), (nearest, 359.99995), (after, 359.99995f64.next_up())] {
        t.float(&format!("degrees of {v}"), two("rem_euclid", one("to_degrees", v).unwrap(), 360.0).unwrap(), degrees);
    }
    for (v, patched, published) in [
        (-1e-20, "360.0000", "360.0000"),
        (6.2831852, "360.0000", "360.0000"),
        (before, "359.9999", "359.9999"),
        (nearest, "360.0000", "360.0000"),
        (after, "360.0000", "360.0000"),
        (-0.0, "  0.0000", " -0.0000"),
        (6.283185307179586, "  0.0000", "  0.0000"),
        (-6.283185307179586, "  0.0000", " -0.0000"),
    ] {
        // An inclination of pi beside them prints as 180.0000.
        let e = [7e6, pi, v, v];
        for (who, text, angle) in [("patched", lines(e, at(T, 0)), patched), ("published", plain(e, at(T, 0)), published)] {
            let line2 = text.lines().nth(2).unwrap();
            t.same(&format!("{who}, inclination pi, raan0 = u0 = {v:?}"), line2[8..51].to_string(), format!("180.0000 {angle} 0000000   0.0000 {angle}"));
        }
    }
    t.refusal("raan0 = 1e307", j::lines(b"X", [7e6, 1.0, 1e307, 0.0], at(T, 0)), 11);
    t.yes("2056's last moment", lines(e, at(common::END - 1, 999_999_999)).contains("56367.00000000"));
    t.yes("2026's last moment", lines(e, at(1798761599, 999_999_999)).contains("26366.00000000"));
    t.yes("day 1 is padded", lines(e, at(1767225600, 0)).contains("26001.00000000"));
    t.yes("day 1 in the Rust", plain(e, at(1767225600, 0)).contains("   261.00000000  ."));
    t.same(
        "day 1's checksum in both",
        plain(e, at(1767225600, 0)).lines().nth(1).unwrap()[68..].to_string(),
        lines(e, at(1767225600, 0)).lines().nth(1).unwrap()[68..].to_string(),
    );
    t.same("ties to even", format!("{:.4} {:.4} {:.8}", 0.03125, 0.09375, 14.001953125), "0.0312 0.0938 14.00195312".into());

    // Lines read back. The checksums are counted by hand.
    let first = "1 99999U 26999A   26163.00000000  .00000000  00000-0  00000-0 0  9998";
    let second = "2 99999  90.0000   0.0000 0000000   0.0000   0.0000 14.82366876000007";
    for (line1, line2, said) in [
        (first, second, "Ok([26, 16300000000, 900000, 0, 0, 1482366876])"),
        (first, "2 99999   5.0000   0.0000 0000000   0.0000   0.0000 14.82366876000003", "Ok([26, 16300000000, 50000, 0, 0, 1482366876])"),
        (first, "2 99999  05.0000   0.0000 0000000   0.0000   0.0000 14.82366876000003", "Ok([26, 16300000000, 50000, 0, 0, 1482366876])"),
        (first, "2 99999 005.0000   0.0000 0000000   0.0000   0.0000 14.82366876000003", "Ok([26, 16300000000, 50000, 0, 0, 1482366876])"),
        (first, "2 99999 0 5.0000   0.0000 0000000   0.0000   0.0000 14.82366876000003", "Err(14)"),
        (first, "2 99999 5  .0000   0.0000 0000000   0.0000   0.0000 14.82366876000003", "Err(14)"),
        (first, "2 99999  90.0000   0.0000 0000000   0.0000 360.0000 14.82366876000006", "Ok([26, 16300000000, 900000, 0, 0, 1482366876])"),
        (first, "2 99999  90.0000 360.0000 0000000   0.0000   0.0000 14.82366876000006", "Ok([26, 16300000000, 900000, 3600000, 0, 1482366876])"),
        (first, "2 99999  90.0000   0.0000 0000000 350.0000  20.0000 14.82366876000007", "Ok([26, 16300000000, 900000, 0, 100000, 1482366876])"),
        ("1 99999U 26999A   26163.00000000 +.00000000 +00000+0 +00000+0 0  9996", second, "Ok([26, 16300000000, 900000, 0, 0, 1482366876])"),
        ("1 99999U 26999A   26163.00000000 -.00000000 -00000-0 -00000-0 0  9991", second, "Ok([26, 16300000000, 900000, 0, 0, 1482366876])"),
        ("1 99999U 26999A   26163.00000000  .00000000  00000-0  00000-0 0 99997", second, "Ok([26, 16300000000, 900000, 0, 0, 1482366876])"),
        ("1 99999U 26999A   26163.00000000  .00000000  00000-0  00000-0 0  9997", second, "Err(15)"),
        ("1 99999U 26999A   26163.00000000  .00000000  00000-0  00000-0 0  9997", &second[..68], "Err(14)"),
        (first, "2 99999  90.0000   0.0000 0000001   0.0000   0.0000 14.82366876000008", "Err(16)"),
        (first, "2 99999  90.0000   0.0000 0000001   0.0000   0.0000 14.82366876000007", "Err(15)"),
        (second, first, "Err(14)"),
    ] {
        t.same(&format!("elements {line1:?} {line2:?}"), format!("{:?}", j::elements(line1.as_bytes(), line2.as_bytes())), said.into());
    }
    let (mut taken, mut below, mut all) = (0, 0, 0);
    for k in 0..20_000 {
        let r = &mut common::cases::random("written", 1, k);
        if let Ok(text) = j::lines(b"", common::cases::printed(r), common::cases::inside(r)) {
            let lines: Vec<&[u8]> = text.split(|&b| b == b'\n').collect();
            taken += j::elements(lines[1], lines[2]).is_ok() as u32;
            below += j::elements(lines[1], &around::turned(lines[2])).is_ok_and(|x| x[3] < 3_600_000 && x[4] < 3_600_000) as u32;
            all += 1;
        }
    }
    t.yes(&format!("the reader takes the written lines of {all} orbits"), all > 10_000 && taken == all);
    t.yes("and with 0.0000 for 360.0000 node and mean anomaly are below a turn", below == all);
    let early = plain(e, at(1767225600, 0));
    let lines: Vec<&str> = early.lines().collect();
    t.refusal("day 1 as the Rust writes it", j::elements(lines[1].as_bytes(), second.as_bytes()), 14);
    t.refusal("the Rust's second line", j::elements(first.as_bytes(), lines[2].as_bytes()), 14);

    // Lines compared with the port's: the original's second line, the port's, and whether they agree. The right checksums are counted by hand.
    let node = "2 99999  90.0000 360.0000 0000000   0.0000   0.0000 14.82366876000006";
    let anomaly = "2 99999  90.0000   0.0000 0000000   0.0000 360.0000 14.82366876000006";
    let both = "2 99999  90.0000 360.0000 0000000   0.0000 360.0000 14.82366876000005";
    let last = "2 99999  90.0000 359.9999 0000000   0.0000   0.0000 14.82366876000000";
    for (original, port, said) in [
        (second, second, true),
        (last, last, true),
        (node, second, true),
        (anomaly, second, true),
        (both, second, true),
        // The port prints 360.0000, in each field.
        (node, node, false),
        (anomaly, anomaly, false),
        (both, both, false),
        (both, node, false),
        (both, anomaly, false),
        (second, node, false),
        (second, anomaly, false),
        // One unit less, from either side.
        (node, last, false),
        (last, second, false),
        (last, node, false),
        (node, "2 99999  90.0000   0.0001 0000000   0.0000   0.0000 14.82366876000008", false),
        // The same angle in other texts.
        (node, "2 99999  90.0000 000.0000 0000000   0.0000   0.0000 14.82366876000007", false),
        (node, "2 99999  90.0000 720.0000 0000000   0.0000   0.0000 14.82366876000006", false),
        (node, "2 99999  90.0000  -0.0000 0000000   0.0000   0.0000 14.82366876000008", false),
        // The original's checksum behind another field, and a wrong one behind the same.
        (node, "2 99999  90.0000   0.0000 0000000   0.0000   0.0000 14.82366876000006", false),
        (both, "2 99999  90.0000   0.0000 0000000   0.0000   0.0000 14.82366876000005", false),
        (second, "2 99999  90.0000   0.0000 0000000   0.0000   0.0000 14.82366876000006", false),
        // Wrong on both sides.
        ("2 99999  90.0000   0.0000 0000000   0.0000   0.0000 14.82366876000006", "2 99999  90.0000   0.0000 0000000   0.0000   0.0000 14.82366876000006", false),
        // Other columns, with right checksums.
        (node, "2 99999  90.0001   0.0000 0000000   0.0000   0.0000 14.82366876000008", false),
        (node, "2 99999  90.0000   0.0000 0000000   0.0000   0.0001 14.82366876000008", false),
        (anomaly, "2 99999  90.0000   0.0001 0000000   0.0000   0.0000 14.82366876000008", false),
        (node, "2 99999  90.0000   0.0000 0000000   0.0000   0.0000 14.82366877000008", false),
        (node, "2 99999  90.0000   0.0000 0000000 360.0000   0.0000 14.82366876000006", false),
        ("2 99999  90.0000   0.0000 0000000 360.0000   0.0000 14.82366876000006", second, false),
        ("2 99999 360.0000   0.0000 0000000   0.0000   0.0000 14.82366876000007", "2 99999   0.0000   0.0000 0000000   0.0000   0.0000 14.82366876000008", false),
        // Shorter, longer.
        (node, &second[..68], false),
        (node, "2 99999  90.0000   0.0000 0000000   0.0000   0.0000 14.823668760000070", false),
    ] {
        let [a, b] = [original, port].map(|line2| format!("X\n{first}\n{line2}\n"));
        t.same(&format!("compared {original:?} {port:?}"), around::same_lines(a.as_bytes(), b.as_bytes(), j::checksum).to_string(), said.to_string());
    }
    let whole = format!("X\n{first}\n{second}\n");
    for (port, said) in [
        (whole.clone(), true),
        (whole.replace('X', "Y"), false),
        (whole.replace('X', ""), false),
        (whole.replace("26163", "26164"), false),
        (whole.replace("9998", "9997"), false),
        (whole.replace("26163", "26164").replace("9998", "9999"), false),
        (whole[..whole.len() - 1].to_string(), false),
        (whole.clone() + "\n", false),
    ] {
        let agree = around::same_lines(format!("X\n{first}\n{node}\n").as_bytes(), port.as_bytes(), j::checksum);
        t.same(&format!("compared with a node of 360.0000 {port:?}"), agree.to_string(), said.to_string());
    }
    // The sums of the port's own lines: wrong in line 1 of both, and right ones by sums that have another for line 1, for line 2, and for neither.
    let sums: [(&str, String, fn(&str) -> u32, bool); 4] = [
        ("wrong in line 1 of both", whole.replace("9998", "9997"), j::checksum, false),
        ("by a sum of 7", whole.clone(), |_| 7, false),
        ("by a sum of 8", whole.clone(), |_| 8, false),
        ("by the sums that they have", whole.clone(), |line| if line.starts_with('1') { 8 } else { 7 }, true),
    ];
    for (what, text, checksum, said) in sums {
        t.same(&format!("compared, checksums {what}"), around::same_lines(text.as_bytes(), text.as_bytes(), checksum).to_string(), said.to_string());
    }
    // The same in whole answers: of lines alone, and behind a fit, whose fields must agree too.
    let packed = |l: Line, line2: &str| l.word(0).bytes(format!("X\n{first}\n{line2}\n").as_bytes());
    let fitted = |sum: f64| {
        let l = Line::default().word(0).floats(&[7e6, pi / 2.0, 0.0, 0.0]).moment(at(T, 0)).float(sum).list(&[3.0, sum]);
        (0..4).fold(l, |l, _| l.list(&[0.0, 1.0]))
    };
    let alone = |line2| packed(Line::default(), line2);
    let refused = |number| Line::default().word(number);
    for (kind, what, original, port, said) in [
        ("lines", "360.0000 and 0.0000", alone(node), alone(second), true),
        ("lines", "360.0000 in both", alone(node), alone(node), false),
        ("lines", "refused here alone", alone(node), refused(11), false),
        ("lines", "refused", refused(11), refused(11), true),
        ("lines", "refused by another number", refused(11), refused(4), false),
        ("turns", "360.0000 and 0.0000", alone(node), alone(second), true),
        ("turns", "360.0000 in both", alone(node), alone(node), false),
        ("fit_lines", "360.0000 and 0.0000", packed(fitted(2.0), node), packed(fitted(2.0), second), true),
        ("determine", "360.0000 twice and 0.0000 twice", packed(fitted(2.0), both), packed(fitted(2.0), second), true),
        ("determine", "the same, without 360.0000", packed(fitted(2.0), second), packed(fitted(2.0), second), true),
        ("determine", "360.0000 in both", packed(fitted(2.0), node), packed(fitted(2.0), node), false),
        ("determine", "another sum", packed(fitted(2.0), node), packed(fitted(1.0), second), false),
        ("determine", "lines refused", fitted(2.0).word(11), fitted(2.0).word(11), true),
        ("determine", "lines refused in the Rust alone", fitted(2.0).word(11), packed(fitted(2.0), second), false),
        ("determine", "lines refused, another sum", fitted(2.0).word(11), fitted(1.0).word(11), false),
        ("determine", "refused", refused(24), refused(24), true),
        ("determine", "refused by another number", refused(24), refused(23), false),
        // Answers that have not the kind's shape agree with none, not with themselves either.
        ("lines", "nothing in both", Line::default(), Line::default(), false),
        ("lines", "no text in both", refused(0), refused(0), false),
        ("lines", "a field more here", alone(second), alone(second).word(0), false),
        ("lines", "a field more in both", alone(second).word(0), alone(second).word(0), false),
        ("lines", "a refusal with a field more in both", refused(11).word(0), refused(11).word(0), false),
        ("lines", "a fit before them in both", packed(fitted(2.0), second), packed(fitted(2.0), second), false),
        ("determine", "no fit before them in both", alone(second), alone(second), false),
        ("determine", "a fit alone in both", fitted(2.0), fitted(2.0), false),
        ("determine", "cut in a list in both", refused(0).floats(&[7e6; 4]).moment(at(T, 0)).float(2.0).word(2), refused(0).floats(&[7e6; 4]).moment(at(T, 0)).float(2.0).word(2), false),
    ] {
        t.same(&format!("compared {kind}: {what}"), around::same(kind, &original.0, &port.0, j::checksum).to_string(), said.to_string());
    }

    // Pass files.
    let samples = |text: &str| match j::file(text.as_bytes()) {
        Ok(f) => format!("{} samples", f.times.len()),
        Err(n) => format!("refusal {n}"),
    };
    let in_rust = |text: &str| {
        published::input::set(text.as_bytes());
        published::orbit_solver::read_pass_file("").unwrap().points.len()
    };
    for (line, said) in [
        ("2026-06-12t00:00:00z,1", "1 samples"),
        ("2026-06-12T00:00:00.1234567891234Z,1", "1 samples"),
        ("2026-06-12T00:00:00+23:59,1", "1 samples"),
        ("2026-06-12T00:00:00-00:00,1", "1 samples"),
        ("2026-06-12T00:00:00UTC,1", "0 samples"),
        ("2026-06-12T12:34:60Z,1", "0 samples"),
        ("2026-06-12 00:00:00Z,1", "0 samples"),
        ("2026-06-12T00:00:00+24:00,1", "0 samples"),
        ("2026-06-12T00:00:00+0130,1", "0 samples"),
        ("2026-06-12T24:00:00Z,1", "0 samples"),
        ("2026-06-12T00:00:00.Z,1", "0 samples"),
        ("+2026-06-12T00:00:00Z,1", "0 samples"),
        ("0000-01-01T00:00:00Z,1", "refusal 4"),
        ("9999-12-31T23:59:59Z,1", "refusal 4"),
        ("2026-06-12T00:00:00Z,1e005", "refusal 3"),
        ("2026-06-12T00:00:00Z,00000000000000000001", "refusal 3"),
        ("2026-06-12T00:00:00Z,0000000000000000001", "1 samples"),
        ("2026-06-12T00:00:00Z,1e31", "refusal 3"),
        ("2026-06-12T00:00:00Z,1e30", "1 samples"),
        ("2026-06-12T00:00:00Z,1e1000", "refusal 3"),
        ("2026-06-12T00:00:00Z,inf", "1 samples"),
        ("2026-06-12T00:00:00Z,-nan", "1 samples"),
        ("2026-06-12T00:00:00Z,+Infinity", "1 samples"),
        ("2026-06-12T00:00:00Z,1.", "1 samples"),
        ("2026-06-12T00:00:00Z,.5", "1 samples"),
        ("2026-06-12T00:00:00Z,.", "0 samples"),
        ("2026-06-12T00:00:00Z,1e", "0 samples"),
        ("2026-06-12T00:00:00Z, 1", "0 samples"),
        ("2026-06-12T00:00:00Z,infin", "0 samples"),
        ("\u{feff}2026-06-12T00:00:00Z,1", "refusal 1"),
    ] {
        t.same(&format!("file {line:?}"), samples(line), said.into());
    }
    t.same("file of 256 bytes and CR LF", samples(&("x".repeat(256) + "\r\n")), "0 samples".into());
    t.same("file of 256 bytes and CR", samples(&("x".repeat(256) + "\r")), "refusal 2".into());
    t.same("published takes UTC, 60 and a blank", format!("{} {} {}", in_rust("2026-06-12T00:00:00UTC,1"), in_rust("2026-06-12T12:34:60Z,1"), in_rust("2026-06-12 00:00:00Z,1")), "1 1 0".into());
    let empty = j::file(b"#satellite_name:").unwrap();
    t.yes("an empty name is seen", empty.seen && empty.name.is_empty());

    // The fit.
    let mut ends: std::collections::BTreeMap<String, u32> = Default::default();
    let mut fit = |t: &mut Traps, c: &common::simulator::Case| {
        patched::hooks::take();
        // The records of a fit that is refused: judge::fit takes them only where it accepts.
        let solved = j::caught(|| patched::orbit_solver::fit_orbit_doppler(&j::passes(&c.set), c.receiver, c.a, c.i).is_ok());
        let records = patched::hooks::take();
        let (all, first) = (c.set.times.len() as u64, c.set.counts.iter().filter(|&&n| n > 0).take(2).sum::<u32>() as u64);
        let passes = c.set.non_empty() as u64;
        let most = 15264 * (174 + 2 * first) + 174 + 2000 * first + 87 * passes + 300 * all * (6 + 4 * passes);
        t.yes(&format!("{}: at most 150 trials, positions within the forecast", c.kind), records.trials.len() <= 150 && records.positions <= most);
        t.yes(&format!("{}: 144 starts", c.kind), records.starts.len() == 144 || solved.is_err());
        let how = if solved.is_err() { "23" } else if records.ended.is_empty() { "150 trials or few rows" } else { records.ended };
        *ends.entry(how.to_string()).or_default() += 1;
        let refusal = j::fit(&c.set, c.receiver, c.a, c.i).err().unwrap_or(0);
        (refusal, records)
    };
    for seed in 1..3 {
        let (refusal, r) = fit(&mut t, &common::simulator::damaged(seed, 4, 2, 8));
        t.same("centre NaN", format!("{refusal} {}", r.trials.len()), "24 1".into());
        let (refusal, _) = fit(&mut t, &common::simulator::damaged(seed, 5, 2, 8));
        t.same("centre infinite", refusal.to_string(), "24".into());
        let (refusal, _) = fit(&mut t, &common::simulator::damaged(seed, 6, 2, 8));
        t.yes(&format!("centre about zero: {refusal}"), refusal == 24 || refusal == 25);
        let (_, r) = fit(&mut t, &common::simulator::damaged(seed, 17, 3, 20));
        t.same("first refinement with too few rows: comparisons", r.first.len().to_string(), "1".into());
        let (refusal, r) = fit(&mut t, &common::simulator::damaged(seed, 11, 2, 8));
        println!("note   receiver far: refusal {refusal}, {} trials, ended by {:?}", r.trials.len(), r.ended);
    }
    let mut far = 0;
    for seed in 0..6 {
        let (refusal, _) = fit(&mut t, &common::simulator::damaged(seed, 14, 2, 8));
        far += (refusal == 23) as u32;
    }
    t.yes(&format!("23 inside the fit exists ({far} of 6 sets with one frequency very far)"), far > 0);
    println!("note   the second refinement ended by {ends:?}");

    // Document 01's table, as far as it is the original's.
    t.float("JD of 2000-01-01T12:00:00Z", j::jd(at(946728000, 0)).unwrap(), 2451545.0);
    t.float("monna 6 2", j::monna(6, 2).unwrap(), 0.375);
    t.same("unmonna 0.375 2 16", format!("{:?}", j::unmonna(0.375, 2, 16)), "Ok(6)".into());
    t.float("monna 2^64-1 2", j::monna(u64::MAX, 2).unwrap(), 1.0);
    t.float("padic 0 8 2", j::padic(0, 8, 2).unwrap(), 0.125);
    t.same("history 1 0", format!("{:?}", j::history(&[1.0, 0.0])), "Ok([1.0, -1.0])".into());
    t.same("draw 1", j::draw(1).0.to_string(), "7806831264735756412".into());

    println!("{} traps, {} answered otherwise", t.all, t.other);
    std::process::exit((t.other > 0) as i32);
}
