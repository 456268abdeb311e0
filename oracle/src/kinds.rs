// Answers to the fields of a line; included once for each side, with its `judge`.
use common::lines::{Fields, Line};

fn put_state(l: Line, s: &judge::State) -> Line {
    l.list(&s.set).float(s.damping).float(s.best).list(&s.kept)
}

fn put_determination(l: Line, (x, lines): &(judge::Fit, judge::Answer<Vec<u8>>)) -> Line {
    let bias = |k: usize| x.biases.iter().map(|b| b[k]).collect::<Vec<f64>>();
    let l = l.floats(&x.orbit).moment(common::Moment::of_nanos(x.epoch)).float(x.sum).list(&x.log);
    let l = l.list(&bias(0)).list(&bias(1)).list(&bias(2)).list(&bias(3));
    l.refused_or(lines, |l, t| l.bytes(t))
}

/// 1 and what follows, or 0 alone.
fn put_taken<T>(l: Line, x: &Option<T>, put: impl FnOnce(Line, &T) -> Line) -> Line {
    match x {
        Some(x) => put(l.word(1), x),
        None => l.word(0),
    }
}

/// The line with its answer; None where the side has no such kind or the fields do not fit it.
pub fn answered(kind: &str, fields: &[u64]) -> Option<Line> {
    let mut given = Fields::of(fields);
    let f = &mut given;
    let l = fields.iter().fold(Line::of(kind), |l, &w| l.word(w)).answer();
    let l = match kind {
        "max" | "min" | "rem_euclid" => l.float(judge::floats::two(kind, f.float()?, f.float()?)?),
        "power" => l.float(judge::floats::power(f.float()?, f.word()?)?),
        "to_u64" => l.word(judge::floats::to_u64(f.float()?)?),
        "to_i64" => l.int(judge::floats::to_i64(f.float()?)?),
        "wrapping_mul" => l.word(judge::floats::wrapping_mul(f.word()?, f.word()?)?),
        "draw" | "gaussian" => {
            let s = f.word()?;
            let (n, x) = if kind == "draw" { judge::draw(s) } else { judge::gaussian(s) };
            l.word(n).float(x)
        }
        "monna" => l.refused_or(&judge::monna(f.word()?, f.word()?), |l, &x| l.float(x)),
        "unmonna" => l.refused_or(&judge::unmonna(f.float()?, f.word()?, f.word()?), |l, &v| l.word(v)),
        "padic" => l.refused_or(&judge::padic(f.word()?, f.word()?, f.word()?), |l, &x| l.float(x)),
        "history" => l.refused_or(&judge::history(&f.list()?), |l, d| l.list(d)),
        "normal" => l.list(&judge::normal(f.floats()?)),
        "jd" => l.refused_or(&judge::jd(f.moment()?), |l, &x| l.float(x)),
        "teme" => l.floats(&judge::teme(f.float()?, f.floats()?)),
        "wgs84" => l.refused_or(&judge::wgs84(f.float()?, f.float()?, f.float()?), |l, x| l.floats(x)),
        "prop" => {
            let x = judge::prop(f.floats()?, f.moment()?, f.moment()?, f.moment()?);
            l.refused_or(&x, |l, s| l.floats(s))
        }
        "pred" => {
            let x = judge::pred(f.floats()?, f.moment()?, f.moment()?, f.float()?, f.float()?, f.float()?, f.floats()?);
            l.refused_or(&x, |l, &x| l.float(x))
        }
        "poly" => {
            let (e, epoch, t_obs, dt) = (f.floats()?, f.moment()?, f.moment()?, f.float()?);
            let x = judge::poly(e, epoch, t_obs, dt, f.floats()?, f.moment()?, f.float()?, f.floats()?);
            l.refused_or(&x, |l, &x| l.float(x))
        }
        "pca" => {
            let x = judge::pca(f.floats()?, f.moment()?, f.floats()?, &f.set()?);
            l.refused_or(&x, |l, t| l.ints(t))
        }
        "rss" => {
            let x = judge::rss(&f.set()?, f.floats()?, f.floats()?, f.moment()?, f.float()?);
            l.refused_or(&x, |l, &x| l.float(x))
        }
        "grad" => {
            let x = judge::grad(&f.set()?, f.floats()?, f.floats()?, f.moment()?, f.float()?);
            l.refused_or(&x, |l, g| l.floats(g))
        }
        "solve" => l.refused_or(&judge::solve(f.word()?, &f.list()?, &f.list()?), |l, x| l.list(x)),
        "search" => {
            let x = judge::search(&f.set()?, f.floats()?, f.float()?, f.float()?);
            l.refused_or(&x, |l, x| l.floats(x))
        }
        "residuals1" | "residuals2" => {
            let x = judge::residuals(kind == "residuals2", &f.set()?, f.floats()?, &f.list()?);
            l.refused_or(&x, |l, (v, sum)| l.list(v).float(*sum))
        }
        "step1" | "step2" | "steps1" | "steps2" => {
            let (s, rec) = (f.set()?, f.floats()?);
            let tries = if kind.starts_with("steps") { f.word()? as usize } else { 1 };
            let from = judge::State { set: f.list()?, damping: f.float()?, best: f.float()?, kept: f.list()? };
            let x = if kind.ends_with('1') { judge::first(&s, rec, from, tries) } else { judge::second(&s, rec, from, tries) };
            l.refused_or(&x, put_state)
        }
        "fit" => {
            let x = judge::fit(&f.set()?, f.floats()?, f.float()?, f.float()?);
            l.refused_or(&x, |l, f| {
                let biases: Vec<f64> = f.biases.concat();
                l.floats(&f.orbit).int(f.epoch).list(&biases).float(f.sum).list(&f.log).word(f.positions)
            })
        }
        "fit_lines" => {
            let x = judge::fit_lines(&f.set()?, f.floats()?, f.float()?, f.float()?, &f.bytes()?);
            l.refused_or(&x, put_determination)
        }
        "determine" => {
            let x = judge::determine(&f.bytes()?, f.list()?, f.floats()?, f.float()?, f.float()?, &f.bytes()?);
            l.refused_or(&x, put_determination)
        }
        "lines" | "turns" => {
            let x = judge::lines(&f.bytes()?, f.floats()?, f.moment()?);
            l.refused_or(&x, |l, t| l.bytes(t))
        }
        "checksum" => l.word(judge::checksum(std::str::from_utf8(&f.bytes()?).ok()?) as u64),
        "parse" => l.refused_or(&judge::parse(&f.bytes()?), |l, x| put_taken(l, x, |l, &x| l.float(x))),
        "put_fixed" => {
            let x = judge::put_fixed(f.float()?, f.word()?, u8::try_from(f.word()?).ok()?, f.word()?, f.word()?, f.word()?);
            put_taken(l, &x, |l, t| l.bytes(t))
        }
        "rfc3339" => put_taken(l, &judge::rfc3339(&f.bytes()?), |l, &m| l.moment(m)),
        "file" => l.refused_or(&judge::file(&f.bytes()?), |l, f| {
            l.word(f.seen as u64).bytes(&f.name).float(f.center).ints(&f.times).list(&f.freqs)
        }),
        "position" => l.refused_or(&judge::position(&f.bytes()?), |l, x| l.floats(x)),
        "elements" => {
            let x = judge::elements(&f.bytes()?, &f.bytes()?);
            l.refused_or(&x, |l, x| x.iter().fold(l, |l, &v| l.word(v)))
        }
        "load" => l.refused_or(&judge::load(&f.bytes()?), |l, s| {
            let counts: Vec<i64> = s.counts.iter().map(|&n| n as i64).collect();
            l.ints(&counts).ints(&s.times).list(&s.freqs)
        }),
        "store" => l.refused_or(&judge::store(&f.set()?), |l, b| l.bytes(b)),
        _ => l.float(judge::floats::one(kind, f.float()?)?),
    };
    given.done().then_some(l)
}
