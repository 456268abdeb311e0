//! answers KIND SEED COUNT [published]: lines of answers.
//! answers kinds: the kinds.
//! answers ask [published]: answers the lines of standard input, each a kind and its fields; what stands after '=' is
//! compared. A field may also be a float as Rust writes it, or i and a whole number. Ends with 1 if an answer differs.
use common::inputs::{KINDS, fields};
use common::lines::{Line, words};

macro_rules! judge {
    ($name:ident, $judge:path) => {
        mod $name {
            use $judge as judge;
            include!("../kinds.rs");
        }
    };
}
judge!(patched_side, patched::judge);
judge!(published_side, published::judge);

fn main() {
    std::panic::set_hook(Box::new(|_| {}));
    let mut given: Vec<String> = std::env::args().skip(1).collect();
    let published = given.iter().any(|w| w == "published");
    given.retain(|w| w != "published");
    let answered: fn(&str, &[u64]) -> Option<Line> =
        if published { published_side::answered } else { patched_side::answered };
    match given.iter().map(|s| s.as_str()).collect::<Vec<_>>()[..] {
        ["kinds"] => println!("{}", KINDS.join("\n")),
        ["ask"] => {
            let mut unlike = false;
            for line in std::io::stdin().lines().map(|l| l.unwrap()) {
                let (asked, said) = line.split_once('=').unwrap_or((&line, ""));
                let (kind, rest) = asked.trim().split_once(' ').unwrap_or((asked.trim(), ""));
                let Some(got) = words(rest).and_then(|w| answered(kind, &w)) else {
                    println!("? {line}");
                    unlike = true;
                    continue;
                };
                let answer = got.0.split_once("= ").map_or("", |(_, a)| a);
                let same = said.trim().is_empty() || said.trim() == answer;
                unlike |= !same;
                let floats: Vec<String> =
                    answer.split(' ').filter_map(|w| u64::from_str_radix(w, 16).ok()).map(|w| format!("{:?}", f64::from_bits(w))).collect();
                println!("{}{}\n  as floats: {}", if same { "" } else { "OTHER " }, got.0, floats.join(" "));
            }
            std::process::exit(unlike as i32);
        }
        [kind, seed, count] if KINDS.contains(&kind) => {
            let seed: u64 = seed.parse().expect("SEED is a number");
            for k in 0..count.parse().expect("COUNT is a number") {
                println!("{}", answered(kind, &fields(kind, seed, k)).expect("a case that the side can answer").0);
            }
        }
        _ => {
            eprintln!("answers KIND SEED COUNT [published], answers kinds, or answers ask [published]");
            std::process::exit(2);
        }
    }
}
