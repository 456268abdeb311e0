//! The original's functions over plain numbers, with the refusals that documents 01 and 02 add around them. This file is
//! compiled into both copies of the original. `Err(n)` is refusal n; `PANIC` is a run that makes the original panic.
#[path = "floats.rs"]
pub mod floats;

use crate::orbit;
use crate::orbit_solver as solver;
use chrono::{DateTime, NaiveDateTime, Utc};
use common::{Moment, Set};
use solver::{PassPoint, RawPass, SolvedOrbit};
use std::panic::{AssertUnwindSafe, catch_unwind};

pub const PANIC: u32 = 9999;

pub type Answer<T> = Result<T, u32>;

pub fn time(m: Moment) -> DateTime<Utc> {
    DateTime::from_utc(NaiveDateTime::from_timestamp_opt(m.seconds, m.nanos).unwrap(), Utc)
}

fn moment(t: DateTime<Utc>) -> Moment {
    Moment { seconds: t.timestamp(), nanos: t.timestamp_subsec_nanos() }
}

fn nanos(t: DateTime<Utc>) -> i64 {
    moment(t).nanos()
}

fn accepted(moments: &[Moment]) -> Answer<()> {
    if moments.iter().all(|m| m.accepted()) { Ok(()) } else { Err(4) }
}

/// Runs f; a moment too far is 23.
pub fn caught<T>(f: impl FnOnce() -> T) -> Answer<T> {
    catch_unwind(AssertUnwindSafe(f)).map_err(|why| {
        #[cfg(feature = "records")]
        if why.is::<crate::hooks::Far>() {
            return 23;
        }
        let _ = why;
        PANIC
    })
}

pub fn passes(s: &Set) -> Vec<RawPass> {
    let mut at = 0;
    let mut out = Vec::new();
    for (p, &n) in s.counts.iter().enumerate() {
        let points = (at..at + n as usize)
            .map(|k| PassPoint { time: time(Moment::of_nanos(s.times[k])), freq: s.freqs[k] })
            .collect();
        at += n as usize;
        out.push(RawPass { sat_name: String::new(), center_freq: s.centers[p], points });
    }
    out
}

/// Calls other than the fit: input by rising number, so 4 before 5.
fn set_accepted(s: &Set, epoch: Moment) -> Answer<()> {
    if s.moments_outside() || !epoch.accepted() {
        Err(4)
    } else if s.sizes_disagree() {
        Err(5)
    } else {
        Ok(())
    }
}

// The generator and the digit maps.

pub fn draw(state: u64) -> (u64, f64) {
    solver::draw(state, false)
}

pub fn gaussian(state: u64) -> (u64, f64) {
    solver::draw(state, true)
}

fn base(p: u64) -> Answer<()> {
    if (2..=7).contains(&p) { Ok(()) } else { Err(12) }
}

pub fn monna(val: u64, p: u64) -> Answer<f64> {
    base(p)?;
    Ok(solver::monna_map(val, p))
}

pub fn unmonna(x: f64, p: u64, digits: u64) -> Answer<u64> {
    base(p)?;
    if digits > 16 {
        return Err(12);
    }
    Ok(solver::inverse_monna_map(x, p, digits as usize))
}

pub fn padic(a: u64, b: u64, p: u64) -> Answer<f64> {
    base(p)?;
    Ok(solver::p_adic_distance(a, b, p))
}

pub fn history(x: &[f64]) -> Answer<Vec<f64>> {
    if x.len() > 64 {
        return Err(12);
    }
    Ok(solver::compute_fractional_difference_history(x))
}

pub fn normal(v: [f64; 3]) -> Vec<f64> {
    solver::map_to_normalized_search_space(v)
}

// Frames, motion, prediction.

pub fn jd(m: Moment) -> Answer<f64> {
    accepted(&[m])?;
    Ok(orbit::datetime_to_jd(time(m)))
}

fn six((p, v): ([f64; 3], [f64; 3])) -> [f64; 6] {
    [p[0], p[1], p[2], v[0], v[1], v[2]]
}

pub fn teme(jd: f64, s: [f64; 6]) -> [f64; 6] {
    six(orbit::teme_to_ecef(jd, [s[0], s[1], s[2]], [s[3], s[4], s[5]]))
}

/// Document 02's 13: latitude beyond ±90, longitude beyond ±360, height outside −500 to 10,000 or any of them NaN.
pub fn wgs84(lat: f64, lon: f64, alt: f64) -> Answer<[f64; 3]> {
    if [lat, lon, alt].iter().any(|v| v.is_nan()) || lat.abs() > 90.0 || lon.abs() > 360.0 || alt < -500.0 || alt > 10000.0 {
        return Err(13);
    }
    Ok(orbit::wgs84_to_ecef(lat, lon, alt))
}

pub fn prop(e: [f64; 4], epoch: Moment, t_orbit: Moment, t_rotate: Moment) -> Answer<[f64; 6]> {
    accepted(&[epoch, t_orbit, t_rotate])?;
    Ok(six(solver::propagate_ecef_at_time(e[0], e[1], e[2], e[3], time(epoch), time(t_orbit), time(t_rotate))))
}

pub fn pred(e: [f64; 4], epoch: Moment, t_obs: Moment, dt: f64, df: f64, center: f64, rec: [f64; 3]) -> Answer<f64> {
    accepted(&[epoch, t_obs])?;
    caught(|| solver::predict_frequency(e[0], e[1], e[2], e[3], time(epoch), time(t_obs), dt, df, center, rec))
}

pub fn poly(
    e: [f64; 4],
    epoch: Moment,
    t_obs: Moment,
    dt: f64,
    df: [f64; 3],
    t_ref: Moment,
    center: f64,
    rec: [f64; 3],
) -> Answer<f64> {
    accepted(&[epoch, t_obs, t_ref])?;
    caught(|| {
        solver::predict_frequency_poly(
            e[0], e[1], e[2], e[3], time(epoch), time(t_obs), dt, (df[0], df[1], df[2]), time(t_ref), center, rec,
        )
    })
}

// Closest moments and sums.

pub fn pca(e: [f64; 4], epoch: Moment, rec: [f64; 3], s: &Set) -> Answer<Vec<i64>> {
    set_accepted(s, epoch)?;
    caught(|| {
        solver::get_pred_pca_times(e[0], e[1], e[2], e[3], time(epoch), rec, &passes(s))
            .into_iter()
            .map(nanos)
            .collect()
    })
}

pub fn rss(s: &Set, rec: [f64; 3], e: [f64; 4], epoch: Moment, center: f64) -> Answer<f64> {
    set_accepted(s, epoch)?;
    caught(|| solver::compute_rss(&passes(s), rec, e[0], e[1], time(epoch), center, e[2], e[3]))
}

pub fn grad(s: &Set, rec: [f64; 3], e: [f64; 4], epoch: Moment, center: f64) -> Answer<[f64; 4]> {
    set_accepted(s, epoch)?;
    caught(|| {
        let g = solver::compute_gradient(&passes(s), rec, e[0], e[1], time(epoch), center, e[2], e[3]);
        [g.0, g.1, g.2, g.3]
    })
}

// Elimination.

/// matrix by rows; its length decides nothing but 5.
pub fn solve(n: u64, matrix: &[f64], vector: &[f64]) -> Answer<Vec<f64>> {
    let cells = n.checked_mul(n);
    if cells != Some(matrix.len() as u64) || vector.len() as u64 != n {
        return Err(5);
    }
    if n > 68 {
        return Err(12);
    }
    let mut rows: Vec<Vec<f64>> = matrix.chunks((n as usize).max(1)).map(|r| r.to_vec()).collect();
    solver::solve_linear_system(&mut rows, vector).ok_or(22)
}

/// The other elimination (document 02, [14]).
pub fn solve_apart(n: u64, matrix: &[f64], vector: &[f64]) -> Answer<Vec<f64>> {
    let rows: Vec<Vec<f64>> = matrix.chunks((n as usize).max(1)).map(|r| r.to_vec()).collect();
    orbit::solve_linear_system(rows, vector.to_vec()).ok_or(22)
}

// The fit.

#[derive(Clone, Debug, Default)]
pub struct Fit {
    /// a, i, raan0, u0
    pub orbit: [f64; 4],
    pub epoch: i64,
    /// dt, df0, df1, df2 for each non-empty pass
    pub biases: Vec<[f64; 4]>,
    /// Each trial's penalised sum: empty where nothing is recorded
    pub log: Vec<f64>,
    pub sum: f64,
    pub positions: u64,
    pub ended: &'static str,
}

/// The refusals of the fit before it works, without 21.
pub fn fit_checks(s: &Set, rec: [f64; 3], a: f64, i: f64) -> Answer<()> {
    if s.sizes_disagree() {
        return Err(5);
    }
    if s.moments_outside() {
        return Err(4);
    }
    if rec.iter().any(|x| x.is_nan()) || a.is_nan() || i.is_nan() {
        return Err(6);
    }
    if a < 6000e3 || a > 50000e3 || i < 0.0 || i > std::f64::consts::PI {
        return Err(7);
    }
    if s.freqs.iter().any(|f| f.is_nan()) {
        return Err(8);
    }
    if s.non_empty() < 2 {
        return Err(9);
    }
    if s.times.len() < 4 + s.non_empty() {
        return Err(10);
    }
    Ok(())
}

pub fn fit(s: &Set, rec: [f64; 3], a: f64, i: f64) -> Answer<Fit> {
    fit_checks(s, rec, a, i)?;
    #[cfg(feature = "records")]
    crate::hooks::take();
    let answer = caught(|| solver::fit_orbit_doppler(&passes(s), rec, a, i).map_err(|e| e.to_string()))?;
    match answer {
        Err(why) => {
            for (start, number) in [
                ("Input parameters contain NaN", 6),
                ("Input parameters are out", 7),
                ("Observation frequency", 8),
                ("Need at least 2", 9),
                ("Not enough observations", 10),
                ("Solver failed to converge", 24),
                ("Estimated frequency offset", 25),
            ] {
                if why.starts_with(start) {
                    return Err(number);
                }
            }
            panic!("an error of no number: {why}")
        }
        Ok(o) => {
            let mut f = Fit {
                orbit: [o.a, o.i, o.raan0, o.u0],
                epoch: nanos(o.epoch),
                biases: (0..o.pass_dts.len())
                    .map(|p| [o.pass_dts[p], o.pass_dfs[p], o.pass_df1s[p], o.pass_df2s[p]])
                    .collect(),
                ..Fit::default()
            };
            #[cfg(feature = "records")]
            {
                let r = crate::hooks::take();
                f.log = r.trials.iter().map(|t| t.sum).collect();
                f.sum = f.log.iter().fold(f64::MAX, |best, &x| if x < best { x } else { best });
                f.positions = r.positions;
                f.ended = r.ended;
            }
            Ok(f)
        }
    }
}

/// The search alone: best raan0, u0 and sum of the 144 starts, on the first two non-empty passes, or as many as there are. Without one nothing reads the
/// epoch and the centre.
pub fn search(s: &Set, rec: [f64; 3], a: f64, i: f64) -> Answer<[f64; 3]> {
    let all: Vec<RawPass> = passes(s).into_iter().filter(|p| !p.points.is_empty()).take(2).collect();
    let (epoch, center) = all.first().map_or((time(Moment::of_nanos(0)), 0.0), |p| (p.points[0].time, p.center_freq));
    caught(|| {
        let (raan0, u0, sum) = solver::search_block(&all, rec, vec![a, i, 0.0, 0.0, 0.0, 0.0, 0.0, 0.0], epoch, center);
        [raan0, u0, sum]
    })
}

/// What a refinement has after some trials.
#[derive(Clone, Debug)]
pub struct State {
    pub set: Vec<f64>,
    pub damping: f64,
    pub best: f64,
    pub kept: Vec<f64>,
}

/// Both take the non-empty passes of s; the epoch and the centre are the first one's.
pub fn first(s: &Set, rec: [f64; 3], from: State, tries: usize) -> Answer<State> {
    let all: Vec<RawPass> = passes(s).into_iter().filter(|p| !p.points.is_empty()).collect();
    let (epoch, center) = (all[0].points[0].time, all[0].center_freq);
    caught(|| {
        let (set, damping, best, kept) =
            solver::first_block(&all[..2], rec, epoch, center, from.set, from.damping, from.best, from.kept, tries);
        State { set, damping, best, kept }
    })
}

pub fn second(s: &Set, rec: [f64; 3], from: State, tries: usize) -> Answer<State> {
    let all: Vec<RawPass> = passes(s).into_iter().filter(|p| !p.points.is_empty()).collect();
    let (epoch, center) = (all[0].points[0].time, all[0].center_freq);
    let (set, damping, best, kept) = caught(|| {
        solver::second_block(&all, rec, epoch, center, from.set, from.damping, from.best, from.kept, tries)
            .map_err(|_| 10u32)
    })??;
    Ok(State { set, damping, best, kept })
}

/// The residuals and the penalised sum of one set, as the refinement's first trial has them.
pub fn residuals(second_one: bool, s: &Set, rec: [f64; 3], set: &[f64]) -> Answer<(Vec<f64>, f64)> {
    #[cfg(feature = "records")]
    {
        crate::hooks::take();
        let from = State { set: set.to_vec(), damping: 1.0, best: f64::MAX, kept: set.to_vec() };
        let went = if second_one { second(s, rec, from, 1) } else { first(s, rec, from, 1) };
        let r = crate::hooks::take();
        let trials = if second_one { r.trials } else { r.first };
        // A moment too far in the table that follows does not concern the residuals.
        return match trials.first() {
            Some(t) => Ok((t.residuals.clone(), t.sum)),
            None => Err(went.err().unwrap_or(PANIC)),
        };
    }
    #[allow(unreachable_code)]
    Err(PANIC)
}

// Element lines.

pub fn checksum(line: &str) -> u32 {
    solver::checksum(line)
}

pub fn lines(name: &[u8], e: [f64; 4], epoch: Moment) -> Answer<Vec<u8>> {
    accepted(&[epoch])?;
    let degrees = |v: f64| v * 57.29577951308232;
    if e.iter().any(|v| !v.is_finite())
        || e[1..].iter().any(|&v| !degrees(v).is_finite())
        || !(e[0] >= 6500e3 && e[0] <= 20000e3)
        || !(e[1] >= 0.0 && e[1] <= std::f64::consts::PI)
        || name.len() > 24
        || name.iter().any(|&b| !(32..=126).contains(&b))
    {
        return Err(11);
    }
    let orbit = SolvedOrbit {
        a: e[0],
        i: e[1],
        raan0: e[2],
        u0: e[3],
        epoch: time(epoch),
        pass_dts: vec![],
        pass_dfs: vec![],
        pass_df1s: vec![],
        pass_df2s: vec![],
    };
    Ok(solver::format_tle_catalog(std::str::from_utf8(name).unwrap(), &orbit).into_bytes())
}

/// The columns of a line from the first to the last of a field, counted from 1 as document 02 counts them.
fn field(line: &[u8], first: usize, last: usize) -> &[u8] {
    &line[first - 1..last]
}

fn digits(field: &[u8]) -> bool {
    field.iter().all(|b| b.is_ascii_digit())
}

/// Digits, with blanks in place of leading zeros from the left, save the last place.
fn padded(field: &[u8]) -> bool {
    let blanks = field.iter().take_while(|&&b| b == b' ').count();
    blanks < field.len() && digits(&field[blanks..])
}

/// So many whole places, a point, and digits.
fn fixed(field: &[u8], whole: usize) -> bool {
    padded(&field[..whole]) && field[whole] == b'.' && digits(&field[whole + 1..])
}

fn signed(b: u8) -> bool {
    matches!(b, b' ' | b'+' | b'-')
}

/// A drag term without a point: sign and five digits, sign and digit of its power of ten.
fn drag(field: &[u8]) -> bool {
    signed(field[0]) && digits(&field[1..6]) && signed(field[6]) && digits(&field[7..])
}

/// Line 1: its number, catalogue number and class, the designator, the epoch, three drag terms, a digit, the set number, the checksum.
fn first_line(line: &[u8]) -> bool {
    if line.len() != 69 {
        return false;
    }
    let at = |first, last| field(line, first, last);
    let blank = |column| at(column, column) == b" ";
    let name = padded(at(3, 7)) && at(8, 8)[0].is_ascii_uppercase();
    let designator = digits(at(10, 14)) && at(15, 17).iter().all(|&b| b == b' ' || b.is_ascii_uppercase());
    let epoch = digits(at(19, 20)) && fixed(at(21, 32), 3);
    let first_drag = signed(at(34, 34)[0]) && at(35, 35) == b"." && digits(at(36, 43));
    let end = digits(at(63, 63)) && padded(at(65, 68)) && digits(at(69, 69));
    let between = [2, 9, 18, 33, 44, 53, 62, 64].into_iter().all(blank);
    at(1, 1) == b"1" && name && designator && epoch && first_drag && drag(at(45, 52)) && drag(at(54, 61)) && end && between
}

/// Line 2: its number, catalogue number, inclination, node, eccentricity, perigee, mean anomaly, mean motion with the revolution number behind it, the checksum.
fn second_line(line: &[u8]) -> bool {
    if line.len() != 69 {
        return false;
    }
    let at = |first, last| field(line, first, last);
    let blank = |column| at(column, column) == b" ";
    let angles = [at(9, 16), at(18, 25), at(35, 42), at(44, 51)].into_iter().all(|a| fixed(a, 3));
    let end = fixed(at(53, 63), 2) && padded(at(64, 68)) && digits(at(69, 69));
    let between = [2, 8, 17, 26, 34, 43, 52].into_iter().all(blank);
    at(1, 1) == b"2" && padded(at(3, 7)) && angles && digits(at(27, 33)) && end && between
}

/// Whether the digits of 68 columns, and one for each minus, give the digit after them.
fn sum_holds(line: &[u8]) -> bool {
    let counted = |&b: &u8| if b == b'-' { 1 } else { (b as char).to_digit(10).unwrap_or(0) };
    let sum: u32 = field(line, 1, 68).iter().map(counted).sum();
    sum % 10 == counted(&line[68])
}

/// The field without its point, blanks being zeros: its number, scaled by the places after the point.
fn scaled(field: &[u8]) -> u64 {
    field.iter().filter(|b| b.is_ascii_digit()).fold(0, |v, b| 10 * v + (b - b'0') as u64)
}

/// Two element lines (document 02, [2]); the original has no such reader. Gives year, day, inclination, node, mean anomaly with the perigee in it, and mean
/// motion. Each refusal is tried on both lines before the next. Nothing is said of numbers that no orbit has, such as day 000 or 999 degrees, so they are taken.
pub fn elements(line1: &[u8], line2: &[u8]) -> Answer<[u64; 6]> {
    if !first_line(line1) || !second_line(line2) {
        return Err(14);
    }
    if !sum_holds(line1) || !sum_holds(line2) {
        return Err(15);
    }
    if field(line2, 27, 33) != b"0000000" {
        return Err(16);
    }
    let (year, day) = (scaled(field(line1, 19, 20)), scaled(field(line1, 21, 32)));
    let angle = |first, last| scaled(field(line2, first, last));
    let anomaly = (angle(44, 51) + angle(35, 42)) % 3_600_000;
    Ok([year, day, angle(9, 16), angle(18, 25), anomaly, scaled(field(line2, 53, 63))])
}

/// The fit, and the lines of an orbit that it accepts.
pub fn fit_lines(s: &Set, rec: [f64; 3], a: f64, i: f64, name: &[u8]) -> Answer<(Fit, Answer<Vec<u8>>)> {
    let fit = fit(s, rec, a, i)?;
    let lines = lines(name, fit.orbit, Moment::of_nanos(fit.epoch));
    Ok((fit, lines))
}

/// The same on stored bytes: any 5 comes first, theirs or that of centres that are not one per pass, then their 4.
pub fn determine(bytes: &[u8], centers: Vec<f64>, rec: [f64; 3], a: f64, i: f64, name: &[u8]) -> Answer<(Fit, Answer<Vec<u8>>)> {
    let set = Set { centers, ..sized(bytes)? };
    if set.centers.len() != set.counts.len() {
        return Err(5);
    }
    if set.moments_outside() {
        return Err(4);
    }
    fit_lines(&set, rec, a, i, name)
}

// Numbers and times as text: Rust's own, and chrono's.

/// None where Rust takes the text for no number.
pub fn parse(text: &[u8]) -> Answer<Option<f64>> {
    let Some((text, v)) = std::str::from_utf8(text).ok().and_then(|t| t.parse().ok().map(|v| (t, v))) else {
        return Ok(None);
    };
    if oversized(text) { Err(3) } else { Ok(Some(v)) }
}

/// The columns of v with so many places, on their left `pad`; a minus before a zero goes, and a number without places has its point. None
/// where v is not within 0 to 1000, where there are over 8 places or 16 columns, or where a digit or a column has no room.
pub fn put_fixed(v: f64, places: u64, pad: u8, room: u64, at: u64, width: u64) -> Option<Vec<u8>> {
    if !(v >= 0.0 && v < 1000.0) || places > 8 || width > 16 || at > room || width > room - at {
        return None;
    }
    let digits = format!("{:.*}{}", places as usize, v + 0.0, if places == 0 { "." } else { "" }).into_bytes();
    let blank = (width as usize).checked_sub(digits.len())?;
    Some([vec![pad; blank], digits].concat())
}

/// Second 60, a blank for T and "UTC" for Z are recorded differences: document 01 has no such times.
fn left_out(taken: &str) -> bool {
    &taken[17..19] == "60" || &taken[10..11] == " " || taken.to_ascii_lowercase().ends_with("utc")
}

pub fn rfc3339(text: &[u8]) -> Option<Moment> {
    let text = std::str::from_utf8(text).ok()?;
    let t = DateTime::parse_from_rfc3339(text).ok()?;
    (!left_out(text)).then(|| moment(t.with_timezone(&Utc)))
}

// Pass files.

#[derive(Clone, Debug, PartialEq)]
pub struct File {
    pub seen: bool,
    pub name: Vec<u8>,
    pub center: f64,
    pub times: Vec<i64>,
    pub freqs: Vec<f64>,
}

/// Whether a number that Rust parses is too large to write: 3.
fn oversized(text: &str) -> bool {
    let (digits, exponent) = match text.find(['e', 'E']) {
        Some(k) => (&text[..k], &text[k + 1..]),
        None => (text, ""),
    };
    let exponent = exponent.trim_start_matches(['+', '-']);
    digits.bytes().filter(|b| b.is_ascii_digit()).count() > 19
        || exponent.len() > 2
        || exponent.parse::<u32>().is_ok_and(|e| e > 30)
}

/// An LF or CR LF at the end is no part of a line; a CR alone is.
fn without_end(line: &[u8]) -> &[u8] {
    line.strip_suffix(b"\r\n").or(line.strip_suffix(b"\n")).unwrap_or(line)
}

/// 1 or 2, or a line without its end as text without its outer blanks: of bytes up to 127 Rust trims 9 to 13 and 32.
fn trimmed(line: &[u8]) -> Answer<&str> {
    if line.iter().any(|&b| b > 127) {
        return Err(1);
    }
    if line.len() > 256 {
        return Err(2);
    }
    Ok(std::str::from_utf8(line).unwrap().trim())
}

/// What the line is to document 01: a refusal, or whether the original may read it.
fn judged(line: &[u8]) -> Answer<bool> {
    let text = trimmed(line)?;
    if let Some(header) = text.strip_prefix('#') {
        if let Some((key, value)) = header.split_once(':') {
            let value = value.trim();
            if key.trim().eq_ignore_ascii_case("center_frequency") && value.parse::<f64>().is_ok() && oversized(value) {
                return Err(3);
            }
        }
        return Ok(true);
    }
    let mut fields = text.split(',');
    let (Some(when), Some(number)) = (fields.next(), fields.next()) else {
        return Ok(true);
    };
    if let (Ok(t), Ok(_)) = (DateTime::parse_from_rfc3339(when), number.parse::<f64>()) {
        if left_out(when) {
            return Ok(false);
        }
        if !moment(t.with_timezone(&Utc)).accepted() {
            return Err(4);
        }
        if oversized(number) {
            return Err(3);
        }
    }
    Ok(true)
}

pub fn file(bytes: &[u8]) -> Answer<File> {
    let mut read = Vec::new();
    let mut seen = false;
    for whole in bytes.split_inclusive(|&b| b == b'\n') {
        let line = without_end(whole);
        if judged(line)? {
            read.extend(whole);
        }
        let text = std::str::from_utf8(line).unwrap().trim();
        if let Some((key, _)) = text.strip_prefix('#').and_then(|h| h.split_once(':')) {
            seen |= key.trim().eq_ignore_ascii_case("satellite_name");
        }
    }
    crate::input::set(&read);
    let p = solver::read_pass_file("").map_err(|_| PANIC)?;
    if p.points.len() > 4096 {
        return Err(5);
    }
    Ok(File {
        seen,
        name: if seen { p.sat_name.into_bytes() } else { Vec::new() },
        center: p.center_freq,
        times: p.points.iter().map(|x| nanos(x.time)).collect(),
        freqs: p.points.iter().map(|x| x.freq).collect(),
    })
}

/// A position line (document 02, [1]); the original has none. 1 and 2 come first. A line that is not three fields, all of which Rust parses, is 13 whatever
/// their digits and exponents are; then comes 3, then the range.
pub fn position(line: &[u8]) -> Answer<[f64; 3]> {
    let fields: Vec<&str> = trimmed(without_end(line))?.split(',').collect();
    let numbers: Vec<f64> = fields.iter().filter_map(|f| f.parse().ok()).collect();
    if fields.len() != 3 || numbers.len() != 3 {
        return Err(13);
    }
    if fields.iter().any(|f| oversized(f)) {
        return Err(3);
    }
    wgs84(numbers[0], numbers[1], numbers[2])
}

/// A stored pass set (document 01, "A stored pass set has sizes first"); the original has none. Centres stand beside it.
pub fn load(bytes: &[u8]) -> Answer<Set> {
    let set = sized(bytes)?;
    if set.moments_outside() { Err(4) } else { Ok(set) }
}

/// The same whatever its times are: 5 or none.
fn sized(bytes: &[u8]) -> Answer<Set> {
    let word = |k: usize| bytes.get(4 * k..4 * k + 4).map(|b| u32::from_le_bytes(b.try_into().unwrap()));
    let passes = word(0).ok_or(5u32)? as usize;
    if passes > 16 {
        return Err(5);
    }
    let counts = (1..=passes).map(word).collect::<Option<Vec<u32>>>().ok_or(5u32)?;
    let total: u64 = counts.iter().map(|&n| n as u64).sum();
    let start = 4 + 4 * passes;
    if total > 4096 || bytes.len() as u64 != start as u64 + 16 * total {
        return Err(5);
    }
    let eights: Vec<[u8; 8]> = bytes[start..].chunks(8).map(|b| b.try_into().unwrap()).collect();
    let (times, freqs) = eights.split_at(total as usize);
    Ok(Set {
        centers: vec![0.0; passes],
        counts,
        times: times.iter().map(|b| i64::from_le_bytes(*b)).collect(),
        freqs: freqs.iter().map(|b| f64::from_le_bytes(*b)).collect(),
    })
}

/// The stored bytes of a set, every NaN as one; the centres stand beside them. 4, then 5.
pub fn store(s: &Set) -> Answer<Vec<u8>> {
    let one = |f: &f64| f64::from_bits(common::lines::bits(*f));
    let s = Set { centers: vec![0.0; s.counts.len()], freqs: s.freqs.iter().map(one).collect(), ..s.clone() };
    set_accepted(&s, Moment { seconds: 0, nanos: 0 })?;
    Ok(s.stored())
}
