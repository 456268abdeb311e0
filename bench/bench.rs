//! bench [ROUNDS [NAME]]: the port against the published and the patched original, one thread, the same inputs; with NAME only the
//! functions in whose name it stands.
//! bench whole [ROUNDS [NAME]]: searches, single trials and whole fits of the port and both originals, with their numbers of trials.
//! bench growth [ROUNDS]: how the port's searches and trials grow with samples and passes.
//!
//! A round times every copy on all inputs, in turning order, by the thread's processor time, so that other programs on
//! the machine count little. A copy's time is the median over the rounds; a ratio is taken within a round, and given as
//! median and from the tenth to the ninetieth hundredth.
use common::Moment;
use common::numbers::Random;
use common::simulator::Case;
use std::cell::RefCell;
use std::hint::black_box;

#[allow(unused_imports)]
#[path = "../oracle/src/port.rs"]
mod port;

unsafe extern "C" {
    fn clock_gettime(clock: i32, time: *mut [i64; 2]) -> i32;
}

/// Seconds of processor time of this thread (Linux's clock 3).
fn now() -> f64 {
    let mut t = [0; 2];
    assert!(unsafe { clock_gettime(3, &mut t) } == 0);
    t[0] as f64 + t[1] as f64 / 1e9
}

type Run<'a> = Box<dyn Fn() + 'a>;

fn part(sorted: &[f64], p: f64) -> f64 {
    sorted[((sorted.len() - 1) as f64 * p).round() as usize]
}

fn sorted(v: impl Iterator<Item = f64>) -> Vec<f64> {
    let mut v: Vec<f64> = v.collect();
    v.sort_by(|a, b| a.total_cmp(b));
    v
}

/// `calls` calls a run; copies are port, patched, published.
fn bench(name: &str, rounds: usize, calls: usize, runs: [Run; 3]) {
    if std::env::args().nth(2).is_some_and(|part| !name.contains(&part)) {
        return;
    }
    let mut times = [vec![], vec![], vec![]];
    for round in 0..rounds + 2 {
        for k in 0..3 {
            let which = (k + round) % 3;
            let began = now();
            runs[which]();
            let t = (now() - began) * 1e9 / calls as f64;
            if round >= 2 {
                times[which].push(t);
            }
        }
    }
    let median = |k: usize| part(&sorted(times[k].iter().copied()), 0.5);
    let ratio = |k: usize| {
        let r = sorted((0..rounds).map(|n| times[0][n] / times[k][n]));
        format!("{:.2} ({:.2} to {:.2})", part(&r, 0.5), part(&r, 0.1), part(&r, 0.9))
    };
    let show = |t: f64| if t < 1e5 { format!("{t:.1} ns") } else { format!("{:.1} ms", t / 1e6) };
    println!(
        "| {name} | {} | {} | {} | {} | {} |",
        show(median(0)),
        show(median(1)),
        show(median(2)),
        ratio(1),
        ratio(2)
    );
}

/// The results of all calls, each kept in a place of its own. Were they passed through one place, a call could be made to wait for
/// the result of the one before.
fn kept<'a, I: Iterator>(calls: impl Fn() -> I + 'a) -> Run<'a>
where
    I::Item: 'a,
{
    let results = RefCell::new(vec![]);
    Box::new(move || {
        let mut results = results.borrow_mut();
        results.clear();
        results.extend(calls());
        black_box(&mut *results);
    })
}

fn floats(inputs: &[f64], f: fn(f64) -> f64) -> Run<'_> {
    kept(move || {
        let f = black_box(f);
        inputs.iter().map(move |&v| f(v))
    })
}

/// Three copies, port, patched and published, in turning order; medians with the least and the greatest. A run gives its number of trials, 0
/// where it has none to count; that of the port and the patched original must be one.
fn whole(name: &str, rounds: usize, runs: [Box<dyn Fn() -> usize + '_>; 3]) {
    if std::env::args().nth(3).is_some_and(|part| !name.contains(&part)) {
        return;
    }
    let (mut times, mut trials) = ([vec![], vec![], vec![]], [0; 3]);
    for round in 0..rounds {
        for k in 0..3 {
            let which = (k + round) % 3;
            let began = now();
            trials[which] = runs[which]();
            times[which].push(now() - began);
        }
    }
    assert!(trials[0] == trials[1], "{name}: {} trials, patched {}", trials[0], trials[1]);
    let show = |v: Vec<f64>, unit: f64, places: usize| {
        let part = |p: f64| part(&v, p) * unit;
        format!("{:.places$} ({:.places$} to {:.places$})", part(0.5), part(0.0), part(1.0))
    };
    let time = |k: usize| show(sorted(times[k].iter().copied()), 1e3, 1);
    let ratio = |k: usize| show(sorted((0..rounds).map(|n| times[0][n] / times[k][n])), 1.0, 2);
    let counts = if trials[0] == 0 { String::new() } else { format!("{}, {}", trials[0], trials[2]) };
    println!("| {name} | {counts} | {} | {} | {} | {} | {} |", time(0), time(1), time(2), ratio(1), ratio(2));
}

/// The port's search on a set without empty passes.
fn port_search(c: &Case) {
    let (s, rec) = (&c.set, c.receiver);
    let (mut table, mut out) = (vec![0.0; port::TABLE], [0.0; 3]);
    let refusal = unsafe {
        port::wisvalom_search_starts(
            s.counts.as_ptr(), s.counts.len(), s.times.as_ptr(), s.times.len(), s.freqs.as_ptr(), s.freqs.len(), s.centers.as_ptr(),
            s.centers.len(), rec[0], rec[1], rec[2], 7e6, c.i, table.as_mut_ptr(), table.len(), out.as_mut_ptr(),
        )
    };
    assert!(refusal == 0);
    black_box(out);
}

/// A set of parameters that a trial of the second refinement is timed on.
fn tried(c: &Case) -> Vec<f64> {
    let n = 4 + 4 * c.set.counts.len();
    [7e6, c.i, 1.0, 2.0].into_iter().chain((4..n).map(|k| [3.0, 100.0, 0.01, 1e-4][k % 4])).collect()
}

/// One trial of the port's second refinement, with the table and the step that follow it.
fn port_trial(c: &Case, set: &[f64]) {
    let (s, rec) = (&c.set, c.receiver);
    let (mut params, mut scratch) = ([0.0; port::PARAMS], vec![0.0; port::CELLS]);
    params[..set.len()].copy_from_slice(set);
    let (mut kept, mut damping, mut best, mut ended) = (params, 1e-3, f64::MAX, 0);
    let refusal = unsafe {
        port::wisvalom_trial(
            true, s.counts.as_ptr(), s.counts.len(), s.times.as_ptr(), s.times.len(), s.freqs.as_ptr(), s.freqs.len(), s.centers[0], rec[0],
            rec[1], rec[2], params.as_mut_ptr(), kept.as_mut_ptr(), &mut damping, &mut best, &mut ended, scratch.as_mut_ptr(), scratch.len(),
        )
    };
    assert!(refusal == 0 && (ended == 0 || ended == 5));
    black_box(params);
}

/// A whole fit of the port; its number of trials.
fn port_fit(c: &Case) -> usize {
    let (s, rec) = (&c.set, c.receiver);
    let room = port::fit_scratch(s.times.len(), s.counts.len());
    let (mut biases, mut log, mut scratch) = ([[0.0; 16]; 4], [0.0; 150], vec![0.0; room]);
    let (mut number, mut epoch, mut nanos, mut trials) = ([0.0; 5], 0, 0, 0);
    let at = number.as_mut_ptr();
    let b = biases.as_mut_ptr() as *mut f64;
    let refusal = unsafe {
        port::wisvalom_fit_orbit_doppler(
            s.counts.as_ptr(), s.counts.len(), s.times.as_ptr(), s.times.len(), s.freqs.as_ptr(), s.freqs.len(), s.centers.as_ptr(),
            s.centers.len(), rec[0], rec[1], rec[2], c.a, c.i, b, 16, b.add(16), 16, b.add(32), 16, b.add(48), 16, log.as_mut_ptr(), 150,
            scratch.as_mut_ptr(), scratch.len(), at, at.add(1), at.add(2), at.add(3), &mut epoch, &mut nanos, &mut trials, at.add(4),
        )
    };
    assert!(refusal == 0);
    black_box(number);
    trials
}

/// The same three of an original, on passes with chrono's moments, made before the clock starts.
macro_rules! original {
    ($copy:ident) => {
        pub mod $copy {
            use super::*;
            use ::$copy::{input, judge, orbit_solver as solver};

            pub use judge::passes;

            pub fn search(c: &Case, all: &[solver::RawPass]) {
                let start = vec![7e6, c.i, 0.0, 0.0, 0.0, 0.0, 0.0, 0.0];
                black_box(solver::search_block(black_box(all), c.receiver, start, all[0].points[0].time, all[0].center_freq));
            }

            pub fn trial(c: &Case, all: &[solver::RawPass], set: &[f64]) {
                let (epoch, centre, set) = (all[0].points[0].time, all[0].center_freq, set.to_vec());
                let went = solver::second_block(black_box(all), c.receiver, epoch, centre, set.clone(), 1e-3, f64::MAX, set, 1);
                assert!(went.is_ok());
                black_box(went.unwrap().0);
            }

            pub fn fit(c: &Case, all: &[solver::RawPass]) -> usize {
                input::trials();
                assert!(black_box(solver::fit_orbit_doppler(black_box(all), c.receiver, c.a, c.i)).is_ok());
                input::trials()
            }
        }
    };
}

mod originals {
    use super::{Case, black_box};
    original!(patched);
    original!(published);
}

/// What the patched original recorded goes between its runs, so that it does not pile up.
fn forgotten<T>(v: T) -> T {
    drop(patched::hooks::take());
    v
}

fn wholes(rounds: usize) {
    use originals::{patched, published};
    println!("| what | trials: port and patched, published | port (ms) | patched (ms) | published (ms) | port / patched | port / published |");
    println!("|---|---|---|---|---|---|---|");
    for (passes, samples) in [(2, 200), (2, 1000)] {
        let c = &common::simulator::realistic(1, passes, samples);
        let (a, b) = (&patched::passes(&c.set), &published::passes(&c.set));
        whole(&format!("search, {passes} passes, {samples} samples"), rounds, [
            Box::new(|| (port_search(c), 0).1),
            Box::new(|| forgotten((patched::search(c, a), 0)).1),
            Box::new(|| (published::search(c, b), 0).1),
        ]);
    }
    for (passes, samples) in [(2, 200), (8, 800), (16, 1600), (16, 4096)] {
        let c = &common::simulator::realistic(1, passes, samples);
        let (a, b) = (&patched::passes(&c.set), &published::passes(&c.set));
        let set = &tried(c);
        whole(&format!("trial with its step, {passes} passes, {samples} samples"), rounds * 3, [
            Box::new(|| (port_trial(c, set), 0).1),
            Box::new(|| forgotten((patched::trial(c, a, set), 0)).1),
            Box::new(|| (published::trial(c, b, set), 0).1),
        ]);
    }
    for (passes, samples) in [(2, 200), (2, 1000), (8, 800), (16, 1600), (16, 4096)] {
        let c = &common::simulator::realistic(1, passes, samples);
        let (a, b) = (&patched::passes(&c.set), &published::passes(&c.set));
        whole(&format!("fit, {passes} passes, {samples} samples"), rounds, [
            Box::new(|| port_fit(c)),
            Box::new(|| forgotten(patched::fit(c, a))),
            Box::new(|| published::fit(c, b)),
        ]);
    }
}

/// How the port's time grows: a search, on two passes; a trial with its step, by samples and passes.
fn growth(rounds: usize) {
    let median = |run: &dyn Fn()| {
        let times = sorted((0..rounds).map(|_| {
            let began = now();
            run();
            now() - began
        }));
        format!("{:.1}", part(&times, 0.5) * 1e3)
    };
    let passes = [2, 4, 8, 16];
    println!("| samples | search, 2 passes (ms) | {} |", passes.map(|p| format!("trial, {p} passes (ms)")).join(" | "));
    println!("|---|---|{}", "---|".repeat(passes.len()));
    for samples in [256, 512, 1024, 2048, 4096] {
        let c = common::simulator::realistic(1, 2, samples);
        let search = median(&|| port_search(&c));
        let trials = passes.map(|p| {
            let c = common::simulator::realistic(1, p, samples);
            let set = tried(&c);
            median(&|| port_trial(&c, &set))
        });
        println!("| {samples} | {search} | {} |", trials.join(" | "));
    }
}

struct Sample {
    e: [f64; 4],
    epoch: Moment,
    t: Moment,
    dt: f64,
    df: f64,
    rec: [f64; 3],
}

fn main() {
    for (word, run) in [("whole", wholes as fn(usize)), ("growth", growth)] {
        if std::env::args().nth(1).is_some_and(|w| w == word) {
            return run(std::env::args().nth(2).map_or(3, |w| w.parse().expect("ROUNDS is a number")));
        }
    }
    let rounds: usize = std::env::args().nth(1).map_or(31, |w| w.parse().expect("ROUNDS is a number"));
    let mut r = Random::new(1);
    let n = 20_000;
    println!("| function | port | patched | published | port / patched | port / published |");
    println!("|---|---|---|---|---|---|");

    let roots: Vec<f64> = (0..n).map(|_| r.between(1e-3, 1e15)).collect();
    bench("`sqrt`", rounds, n, [
        floats(&roots, |v| unsafe { port::wisvalom_sqrt(v) }),
        floats(&roots, |v| patched::judge::floats::sqrt(v)),
        floats(&roots, |v| published::judge::floats::sqrt(v)),
    ]);
    let cubes: Vec<f64> = (0..n).map(|_| r.between(1e19, 1e21)).collect();
    bench("`cbrt`", rounds, n, [
        floats(&cubes, |v| unsafe { port::wisvalom_cbrt(v) }),
        floats(&cubes, |v| patched::judge::floats::cbrt(v)),
        floats(&cubes, |v| published::judge::floats::cbrt(v)),
    ]);
    let angles: Vec<f64> = (0..n).map(|_| r.between(0.0, 600.0)).collect();
    bench("`sin`", rounds, n, [
        floats(&angles, |v| unsafe { port::wisvalom_sin(v) }),
        floats(&angles, |v| patched::judge::floats::sin(v)),
        floats(&angles, |v| published::judge::floats::sin(v)),
    ]);
    bench("`cos`", rounds, n, [
        floats(&angles, |v| unsafe { port::wisvalom_cos(v) }),
        floats(&angles, |v| patched::judge::floats::cos(v)),
        floats(&angles, |v| published::judge::floats::cos(v)),
    ]);

    let within: Vec<f64> = (0..n).map(|_| r.between(-6.28, 6.28)).collect();
    bench("`sin` within a turn", rounds, n, [
        floats(&within, |v| unsafe { port::wisvalom_sin(v) }),
        floats(&within, |v| patched::judge::floats::sin(v)),
        floats(&within, |v| published::judge::floats::sin(v)),
    ]);
    bench("`cos` within a turn", rounds, n, [
        floats(&within, |v| unsafe { port::wisvalom_cos(v) }),
        floats(&within, |v| patched::judge::floats::cos(v)),
        floats(&within, |v| published::judge::floats::cos(v)),
    ]);

    let samples: Vec<Sample> = (0..n)
        .map(|k| {
            let epoch = Moment { seconds: 1781222400, nanos: 0 };
            let t = Moment { seconds: 1781222400 + (k * 5) as i64, nanos: r.below(1_000_000_000) as u32 };
            Sample {
                e: [r.between(6.7e6, 7.9e6), r.between(0.5, 2.0), r.between(0.0, 6.28), r.between(0.0, 6.28)],
                epoch,
                t,
                dt: r.between(-10.0, 10.0),
                df: r.between(-1000.0, 1000.0),
                rec: [3.5e6, 1.0e6, 5.2e6],
            }
        })
        .collect();
    macro_rules! over {
        ($f:expr) => {
            kept(|| samples.iter().map($f))
        };
    }
    // The originals take chrono's moments: made before the clock starts.
    let patched_times: Vec<_> = samples.iter().map(|s| (patched::judge::time(s.epoch), patched::judge::time(s.t))).collect();
    let published_times: Vec<_> =
        samples.iter().map(|s| (published::judge::time(s.epoch), published::judge::time(s.t))).collect();
    macro_rules! timed {
        ($times:ident, $f:expr) => {
            kept(|| samples.iter().zip(&$times).map(|(s, t)| $f(s, t)))
        };
    }
    bench("`datetime_to_jd`", rounds, n, [
        over!(|s: &Sample| {
            let mut out = 0.0;
            unsafe { port::wisvalom_datetime_to_jd(s.t.seconds, s.t.nanos, &mut out) };
            out
        }),
        timed!(patched_times, |_: &Sample, t: &(_, _)| patched::orbit::datetime_to_jd(t.1)),
        timed!(published_times, |_: &Sample, t: &(_, _)| published::orbit::datetime_to_jd(t.1)),
    ]);
    // Numbers of their own, so that what follows is timed on the inputs of earlier tables.
    let mut of_masts = Random::new(2);
    let masts: Vec<[f64; 3]> =
        (0..n).map(|_| [of_masts.between(-90.0, 90.0), of_masts.between(-180.0, 180.0), of_masts.between(0.0, 3000.0)]).collect();
    bench("`wgs84_to_ecef`", rounds, n, [
        kept(|| {
            masts.iter().map(|m| {
                let mut out = [0.0; 3];
                unsafe { port::wisvalom_wgs84_to_ecef(m[0], m[1], m[2], &mut out) };
                out
            })
        }),
        kept(|| masts.iter().map(|m| patched::orbit::wgs84_to_ecef(m[0], m[1], m[2]))),
        kept(|| masts.iter().map(|m| published::orbit::wgs84_to_ecef(m[0], m[1], m[2]))),
    ]);
    bench("`propagate_ecef_at_time`", rounds, n, [
        over!(|s: &Sample| {
            let (e, mut out) = (&s.e, [0.0; 6]);
            unsafe {
                port::wisvalom_propagate_ecef_at_time(
                    e[0], e[1], e[2], e[3], s.epoch.seconds, s.epoch.nanos, s.t.seconds, s.t.nanos, s.t.seconds, s.t.nanos, &mut out,
                )
            };
            out
        }),
        timed!(patched_times, |s: &Sample, t: &(_, _)| {
            patched::orbit_solver::propagate_ecef_at_time(s.e[0], s.e[1], s.e[2], s.e[3], t.0, t.1, t.1)
        }),
        timed!(published_times, |s: &Sample, t: &(_, _)| {
            published::orbit_solver::propagate_ecef_at_time(s.e[0], s.e[1], s.e[2], s.e[3], t.0, t.1, t.1)
        }),
    ]);
    bench("`predict_frequency`", rounds, n, [
        over!(|s: &Sample| {
            let (e, mut out) = (&s.e, 0.0);
            unsafe {
                port::wisvalom_predict_frequency(
                    e[0], e[1], e[2], e[3], s.epoch.seconds, s.epoch.nanos, s.t.seconds, s.t.nanos, s.dt, s.df, 150.8e6, s.rec[0],
                    s.rec[1], s.rec[2], &mut out,
                )
            };
            out
        }),
        timed!(patched_times, |s: &Sample, t: &(_, _)| {
            patched::orbit_solver::predict_frequency(s.e[0], s.e[1], s.e[2], s.e[3], t.0, t.1, s.dt, s.df, 150.8e6, s.rec)
        }),
        timed!(published_times, |s: &Sample, t: &(_, _)| {
            published::orbit_solver::predict_frequency(s.e[0], s.e[1], s.e[2], s.e[3], t.0, t.1, s.dt, s.df, 150.8e6, s.rec)
        }),
    ]);
    bench("`predict_frequency_poly`", rounds, n, [
        over!(|s: &Sample| {
            let (e, mut out) = (&s.e, 0.0);
            unsafe {
                port::wisvalom_predict_frequency_poly(
                    e[0], e[1], e[2], e[3], s.epoch.seconds, s.epoch.nanos, s.t.seconds, s.t.nanos, s.dt, s.df, 0.1, 1e-3,
                    s.epoch.seconds, s.epoch.nanos, 150.8e6, s.rec[0], s.rec[1], s.rec[2], &mut out,
                )
            };
            out
        }),
        timed!(patched_times, |s: &Sample, t: &(_, _)| {
            patched::orbit_solver::predict_frequency_poly(
                s.e[0], s.e[1], s.e[2], s.e[3], t.0, t.1, s.dt, (s.df, 0.1, 1e-3), t.0, 150.8e6, s.rec,
            )
        }),
        timed!(published_times, |s: &Sample, t: &(_, _)| {
            published::orbit_solver::predict_frequency_poly(
                s.e[0], s.e[1], s.e[2], s.e[3], t.0, t.1, s.dt, (s.df, 0.1, 1e-3), t.0, 150.8e6, s.rec,
            )
        }),
    ]);

    // Files of 4,096 samples: frequencies with three places, with as many digits as an f64 needs, with an exponent and in MHz,
    // and numbers with twelve places, which take the port's long way.
    let kinds: [(&str, fn(f64) -> String); 5] = [
        ("three places", |f| format!("{f:.3}")),
        ("17 digits", |f| format!("{f:.8}")),
        ("exponent", |f| format!("{f:.11e}")),
        ("MHz", |f| format!("{:.9}", f / 1e6)),
        ("twelve places", |f| format!("{:.12}", f / 1e9)),
    ];
    for (kind, write) in kinds {
        let mut bytes = b"#Satellite_Name: HERD-1\n#Center_Frequency: 150800000\nutc_timestamp,f\n".to_vec();
        for k in 0..4096 {
            let f = r.between(150.79e6, 150.81e6);
            let line = format!("2026-06-12T{:02}:{:02}:{:02}.{:03}Z,{}\n", k / 3600, k / 60 % 60, k % 60, r.below(1000), write(f));
            bytes.extend(line.bytes());
        }
        patched::input::set(&bytes);
        published::input::set(&bytes);
        let bytes = &bytes;
        bench(&format!("`read_pass_file`, {kind}"), rounds, 1, [
            Box::new(move || {
                let (mut times, mut freqs) = (vec![0; 4096], vec![0.0; 4096]);
                let (mut numbers, mut center) = ([0; 4], 0.0);
                let refusal = unsafe {
                    port::wisvalom_read_pass_file(
                        bytes.as_ptr(), bytes.len(), times.as_mut_ptr(), 4096, freqs.as_mut_ptr(), 4096, &mut numbers, &mut center,
                    )
                };
                assert!(refusal == 0 && numbers[0] == 4096);
                black_box((times, freqs));
            }),
            Box::new(|| assert!(black_box(patched::orbit_solver::read_pass_file("").unwrap()).points.len() == 4096)),
            Box::new(|| assert!(black_box(published::orbit_solver::read_pass_file("").unwrap()).points.len() == 4096)),
        ]);
    }
}
