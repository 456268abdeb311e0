//! compare SEED COUNT [published] [KIND..]: COUNT cases of each kind that the port has (or of those named), the port
//! against the patched original, or the published one (which differs: it shows that the comparison can see). Prints, for each kind, cases, refusals by number and differences, and the first few differing
//! lines. Ends with 1 if there was any difference. Element lines are compared by `around.rs`, the port's checksums by the original's own function; in how many cases
//! a field is 360.0000 of the original and 0.0000 of the port is printed too.
use common::around;
use common::inputs::{fields, first_field};
use std::collections::BTreeMap;

#[path = "../port.rs"]
mod port;

macro_rules! judge {
    ($name:ident, $judge:path) => {
        mod $name {
            use $judge as judge;
            include!("../kinds.rs");
        }
    };
}
judge!(patched_side, patched::judge);
judge!(published_side, published::judge);
judge!(port_side, crate::port);

/// The fields behind the '='.
fn answer(line: &str) -> &str {
    line.split_once("= ").unwrap().1
}

fn main() {
    let mut words: Vec<String> = std::env::args().skip(1).collect();
    let published = words.iter().any(|w| w == "published");
    words.retain(|w| w != "published");
    if words.len() < 2 {
        eprintln!("compare SEED COUNT [published] [KIND..]");
        std::process::exit(2);
    }
    // A moment too far is thrown through the original; everything else that panics is a fault.
    let usual = std::panic::take_hook();
    std::panic::set_hook(Box::new(move |why| {
        if why.payload().is::<&str>() || why.payload().is::<String>() {
            usual(why)
        }
    }));
    let seed: u64 = words[0].parse().expect("SEED is a number");
    let count: u64 = words[1].parse().expect("COUNT is a number");
    let kinds: Vec<&str> = if words.len() > 2 { words[2..].iter().map(|s| s.as_str()).collect() } else { port::KINDS.to_vec() };
    let (mut all, mut unlike) = (0, 0);
    for kind in kinds {
        let began = std::time::Instant::now();
        let mut refusals: BTreeMap<u64, u64> = BTreeMap::new();
        let (mut differences, mut turned) = (0, 0);
        let with_lines = around::KINDS.contains(&kind);
        let original = if published { published_side::answered } else { patched_side::answered };
        for k in 0..count {
            let given = fields(kind, seed, k);
            let (Some(said), Some(got)) = (original(kind, &given), port_side::answered(kind, &given)) else {
                eprintln!("no kind {kind}");
                std::process::exit(2);
            };
            let (mut said, mut got) = (said.0, got.0);
            // The last field of an accepted fit is its number of positions, which the port does not count.
            if kind == "fit" {
                for line in [&mut said, &mut got] {
                    if answer(line).starts_with("0000000000000000 ") {
                        line.truncate(line.len() - 17);
                    }
                }
            }
            let agree = if with_lines { around::same(kind, answer(&said), answer(&got), patched::judge::checksum) } else { said == got };
            // Answers that agree and are not the same have a field that was turned.
            turned += (agree && said != got) as u64;
            if !agree {
                differences += 1;
                if differences <= 3 {
                    println!("DIFFERENCE {kind} {seed} {k}\n  original {}\n  port     {}", said, got);
                }
            }
            if first_field(kind).is_some() {
                *refusals.entry(u64::from_str_radix(&answer(&said)[..16], 16).unwrap()).or_default() += 1;
            }
        }
        let refused: Vec<String> = refusals.iter().map(|(n, c)| format!("{n}: {c}")).collect();
        println!(
            "{kind}: {count} cases, {differences} differences, {:.1} s{}{}",
            began.elapsed().as_secs_f64(),
            first_field(kind).map_or(String::new(), |what| format!("; {what} {}", refused.join(", "))),
            if with_lines { format!("; 360.0000 in {turned}") } else { String::new() }
        );
        all += count;
        unlike += differences;
    }
    println!("{all} cases, {unlike} differences");
    std::process::exit((unlike > 0) as i32);
}
