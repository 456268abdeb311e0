//! endings FIRST COUNT PASSES SAMPLES: how the patched original's fits end, by seed and damage, so that stored answers can be chosen.
//! A line: seed, damage ('none' for a realistic set), refusal, trials of both refinements, how many of the second's sums are not finite, and what
//! ended the work.
//! endings case SEED DAMAGE PASSES SAMPLES: the line that asks for this fit, for `answers ask`.
use common::inputs::determination;
use common::lines::Line;
use common::simulator;
use patched::judge;

fn told(seed: u64, kind: &str, c: &simulator::Case) {
    patched::hooks::take();
    let checked = judge::fit_checks(&c.set, c.receiver, c.a, c.i);
    if let Err(n) = checked {
        println!("{seed} {kind} {n} 0 0 0 early ({})", c.kind);
        return;
    }
    let solved = judge::caught(|| patched::orbit_solver::fit_orbit_doppler(&judge::passes(&c.set), c.receiver, c.a, c.i).is_ok());
    let r = patched::hooks::take();
    let refusal = judge::fit(&c.set, c.receiver, c.a, c.i).err().unwrap_or(0);
    let how = match (solved.is_err(), r.trials.len(), r.ended) {
        (true, 0, _) => "far in the first refinement",
        (true, 150, _) => "far after the last trial",
        (true, _, _) => "far in the second refinement",
        (_, _, "step") if r.step.0.iter().any(|d| d.is_nan()) => "step with NaN",
        (_, 150, "") => "150 trials",
        (_, _, how) => how,
    };
    let odd = r.trials.iter().filter(|t| !t.sum.is_finite()).count();
    println!("{seed} {kind} {refusal} {} {} {odd} {how} ({})", r.first.len(), r.trials.len(), c.kind);
}

/// 'none' or a damage's number.
fn case(seed: u64, kind: &str, passes: usize, samples: usize) -> simulator::Case {
    match kind.parse() {
        Ok(kind) => simulator::damaged(seed, kind, passes, samples),
        Err(_) => simulator::realistic(seed, passes, samples),
    }
}

fn number(word: &str) -> u64 {
    word.parse().expect("a number")
}

fn main() {
    std::panic::set_hook(Box::new(|_| {}));
    let given: Vec<String> = std::env::args().skip(1).collect();
    match given.iter().map(|s| s.as_str()).collect::<Vec<_>>()[..] {
        ["case", seed, kind, passes, samples] => {
            let c = case(number(seed), kind, number(passes) as usize, number(samples) as usize);
            println!("{}", determination(Line::of("determine"), &c.set.stored(), &c, b"HERD-1").0);
        }
        [first, count, passes, samples] => {
            for seed in number(first)..number(first) + number(count) {
                for kind in std::iter::once("none".to_string()).chain((0..simulator::KINDS).map(|k| k.to_string())) {
                    told(seed, &kind, &case(seed, &kind, number(passes) as usize, number(samples) as usize));
                }
            }
        }
        _ => {
            eprintln!("endings FIRST COUNT PASSES SAMPLES, or endings case SEED DAMAGE PASSES SAMPLES");
            std::process::exit(2);
        }
    }
}
