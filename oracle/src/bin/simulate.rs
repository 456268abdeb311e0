//! simulate passes SEED PASSES SAMPLES NAME DIR: writes a simulated set to DIR as pass files, and the words that fit_passes needs.
//! simulate lines SEED PASSES SAMPLES NAME: the element lines that fit_passes has to print for that set, or its refusal: the patched original's, with 0.0000 for a node
//! or mean anomaly of 360.0000 (document 02 [3]).
//! simulate found PASSES SAMPLES FIRST COUNT: fits the sets of COUNT seeds by the patched original and says how many gave the true orbit.
//! simulate noise PASSES SAMPLES FIRST COUNT: the same, with each fit's residual beside the noise of its samples, and a table of both.
use common::around;
use common::simulator::{Case, Truth, known};
use common::{Moment, Set};
use patched::judge;

/// Where the fitted orbit is found: nowhere further than this from the true one, at no sample's moment, in metres.
const NEAR: f64 = 100e3;

fn number(w: &str) -> u64 {
    w.parse().unwrap_or_else(|_| panic!("{w} is no number"))
}

/// The largest distance between the fitted and the true satellite, over all samples.
fn distance(fit: &judge::Fit, truth: &Truth, times: &[i64]) -> f64 {
    times.iter().fold(0.0, |most, &t| {
        let m = Moment::of_nanos(t);
        let got = judge::prop(fit.orbit, Moment::of_nanos(fit.epoch), m, m).expect("moments of samples are taken");
        let is = truth.position((t - truth.start * 1_000_000_000) as f64 * 1e-9);
        let far = (0..3).map(|k| (got[k] - is[k]) * (got[k] - is[k])).sum::<f64>().sqrt();
        if far > most { far } else { most }
    })
}

fn found(passes: usize, samples: usize, first: u64, count: u64) {
    let (mut accepted, mut near, mut angles) = (0, 0, 0);
    for seed in first..first + count {
        let (c, truth) = known(seed, passes, samples);
        match judge::fit(&c.set, c.receiver, c.a, c.i) {
            Err(k) => println!("{seed} refused {k}"),
            Ok(f) => {
                accepted += 1;
                let far = distance(&f, &truth, &c.set.times);
                let turns = |a: f64| (3.986004418e14 / (a * a * a)).sqrt() * 86400.0 / std::f64::consts::TAU;
                let (i, n) = ((f.orbit[1] - truth.i).to_degrees().abs(), (turns(f.orbit[0]) - turns(truth.a)).abs());
                near += (far < NEAR) as u32;
                angles += (i < 1.0 && n < 0.1) as u32;
                println!("{seed} {:.1} km, inclination off by {i:.3} degrees, mean motion by {n:.4} a day", far / 1000.0);
            }
        }
    }
    println!("{passes} passes, {samples} samples: {count} sets, {accepted} accepted, {near} within 100 km of the true satellite at every sample, {angles} within 1 degree of inclination and 0.1 revolutions a day");
}

/// The noise of the samples, in Hz, from the sentence of docs/DECISIONS.md alone: over every five neighbouring samples of a pass with
/// unlike moments, the fourth divided difference of the frequencies over the root of the sum of its squared weights; of all these
/// the root mean square. NaN where there are none.
fn noise(set: &Set) -> f64 {
    let (mut sum, mut windows, mut at) = (0.0, 0.0, 0);
    for &n in &set.counts {
        let pass = at..at + n as usize;
        at = pass.end;
        for (t, f) in set.times[pass.clone()].windows(5).zip(set.freqs[pass].windows(5)) {
            let weight = |k: usize| (0..5).filter(|&j| j != k).map(|j| (t[k] - t[j]) as f64 * 1e-9).product::<f64>().recip();
            let w: Vec<f64> = (0..5).map(weight).collect();
            if w.iter().all(|w| w.is_finite()) {
                let difference: f64 = (0..5).map(|k| w[k] * f[k]).sum();
                sum += difference * difference / w.iter().map(|w| w * w).sum::<f64>();
                windows += 1.0;
            }
        }
    }
    (sum / windows).sqrt()
}

/// The root of the mean square of the samples' residuals, in Hz.
fn residual(f: &judge::Fit, c: &Case) -> f64 {
    let (mut sum, mut at, mut q) = (0.0, 0, 0);
    let center = c.set.centers[c.set.counts.iter().position(|&n| n > 0).unwrap()];
    for &n in &c.set.counts {
        let since = at;
        for k in at..at + n as usize {
            let b = f.biases[q];
            let m = |k: usize| Moment::of_nanos(c.set.times[k]);
            let shift = judge::poly(f.orbit, Moment::of_nanos(f.epoch), m(k), b[0], [b[1], b[2], b[3]], m(since), center, c.receiver).unwrap();
            sum += (c.set.freqs[k] - (center + shift)).powi(2);
        }
        at += n as usize;
        q += (n > 0) as usize;
    }
    (sum / at as f64).sqrt()
}

fn doubt(passes: usize, samples: usize, first: u64, count: u64) {
    // By right and wrong, then by at the noise and doubtful.
    let mut table = [[0; 2]; 2];
    for seed in first..first + count {
        let (c, truth) = known(seed, passes, samples);
        match judge::fit(&c.set, c.receiver, c.a, c.i) {
            Err(k) => println!("{seed} refused {k}"),
            Ok(f) => {
                let far = distance(&f, &truth, &c.set.times);
                let (rms, estimate) = (residual(&f, &c), noise(&c.set));
                let at_the_noise = rms <= 1.25 * estimate.max(0.5);
                table[!(far < NEAR) as usize][!at_the_noise as usize] += 1;
                println!("{seed} {:.1} km, residual {rms:.3} Hz, noise {estimate:.3} Hz{}", far / 1000.0, if at_the_noise { "" } else { ", doubtful" });
            }
        }
    }
    println!(
        "{passes} passes, {samples} samples, seeds {first} to {}: right and at the noise {}, right and doubtful {}, wrong and at the noise {}, wrong and doubtful {}",
        first + count - 1, table[0][0], table[0][1], table[1][0], table[1][1]
    );
}

fn date(t: i64) -> String {
    judge::time(Moment::of_nanos(t)).to_rfc3339_opts(chrono::SecondsFormat::Nanos, true)
}

fn main() {
    std::panic::set_hook(Box::new(|_| {}));
    let given: Vec<String> = std::env::args().skip(1).collect();
    match given.iter().map(|s| s.as_str()).collect::<Vec<_>>()[..] {
        ["found", passes, samples, first, count] => {
            found(number(passes) as usize, number(samples) as usize, number(first), number(count))
        }
        ["noise", passes, samples, first, count] => {
            doubt(number(passes) as usize, number(samples) as usize, number(first), number(count))
        }
        ["passes", seed, passes, samples, name, dir] => {
            let c = known(number(seed), number(passes) as usize, number(samples) as usize).0;
            let mut k = 0;
            for (p, &n) in c.set.counts.iter().enumerate() {
                let mut text = format!("#satellite_name: {name}\n#center_frequency: {:?}\nutc_timestamp,frequency\n", c.set.centers[p]);
                for _ in 0..n {
                    text += &format!("{},{:?}\n", date(c.set.times[k]), c.set.freqs[k]);
                    k += 1;
                }
                std::fs::write(format!("{dir}/pass-{}.csv", p + 1), text).unwrap();
            }
            println!("{:?} {:?} {:?} {:?}", c.receiver[0], c.receiver[1], c.receiver[2], c.i * 57.29577951308232);
        }
        ["lines", seed, passes, samples, name] => {
            let c = known(number(seed), number(passes) as usize, number(samples) as usize).0;
            // The inclination as the command gets it: degrees, and back.
            let i = (c.i * 57.29577951308232) * 0.017453292519943295;
            let answer = judge::fit(&c.set, c.receiver, c.a, i)
                .and_then(|f| judge::lines(name.as_bytes(), f.orbit, Moment::of_nanos(f.epoch)));
            match answer {
                Ok(text) => print!("{}", String::from_utf8(around::turned_text(&text).expect("a name and two lines")).unwrap()),
                Err(k) => println!("refused {k}"),
            }
        }
        _ => {
            eprintln!("simulate passes SEED PASSES SAMPLES NAME DIR, simulate lines SEED PASSES SAMPLES NAME, or simulate found or noise PASSES SAMPLES FIRST COUNT");
            std::process::exit(2);
        }
    }
}
