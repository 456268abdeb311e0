//! damage SEED COUNT [exact] [ENTRY..]: COUNT damaged byte inputs to each of the port's entry points that take bytes (file, load,
//! lines, checksum, stored, parse, rfc3339, position, elements), or to those named. The bytes and every output are lent between guards; after each call the guards, the bytes
//! and the places that the call had to leave alone are looked at, and its refusal is one that it may give. With `exact` each of them
//! is lent from an allocation of just its size, for a run under valgrind, which then sees a read past an end too. Prints, for each
//! entry point, the inputs by refusal; stops at the first fault.
//! damage SEED COUNT [exact] digits: COUNT pairs of written element lines, which must read back to their digits, and each of their digits changed to each
//! other one, which must be refused.
use common::around;
use common::cases;
use common::files;
use common::numbers::Random;
use common::simulator;
use port::Lent;
use std::collections::BTreeMap;

#[allow(unused_imports)]
#[path = "../port.rs"]
mod port;

const ENTRIES: [&str; 9] = ["file", "load", "lines", "checksum", "stored", "parse", "rfc3339", "position", "elements"];

/// The two element lines of an orbit, as the port has to write them: the patched original's, with 0.0000 for a node or mean anomaly of 360.0000 (document 02 [3]).
/// One in four, by chance, is given such an angle, beside those that are drawn with one anyway.
fn written(r: &mut Random) -> [Vec<u8>; 2] {
    loop {
        let mut e = cases::printed(r);
        if r.one_in(4) {
            e[2 + r.below(2) as usize] = r.pick(&[-1e-20, 6.2831852]);
        }
        if let Ok(text) = patched::judge::lines(b"", e, cases::inside(r)) {
            let lines: Vec<Vec<u8>> = text.split(|&b| b == b'\n').map(|line| line.to_vec()).collect();
            return [lines[1].clone(), around::turned(&lines[2])];
        }
    }
}

fn shown(pair: &[Vec<u8>; 2]) -> String {
    pair.each_ref().map(|line| line.escape_ascii().to_string()).join("\n")
}

/// What written lines have to give, by their words rather than their columns: perigee and eccentricity are zeros, and the revolution number and checksum are six
/// digits behind the mean motion.
fn printed(pair: &[Vec<u8>; 2]) -> [u64; 6] {
    let words = |k: usize| std::str::from_utf8(&pair[k]).unwrap().split_whitespace().collect::<Vec<_>>();
    let number = |text: &str| text.replace('.', "").parse::<u64>().unwrap();
    let (line1, line2) = (words(0), words(1));
    let (year, day) = line1[3].split_at(2);
    let motion = &line2[7][..line2[7].len() - 6];
    [number(year), number(day), number(line2[2]), number(line2[3]), number(line2[6]), number(motion)]
}

/// Written, published and other element lines, of a pool of pairs.
fn element_lines(k: u64) -> [Vec<u8>; 2] {
    let r = &mut Random::new(k);
    match k % 4 {
        0 | 1 => written(r),
        2 => files::published(r),
        _ => files::elements(r),
    }
}

struct Run {
    exact: bool,
    r: Random,
    pool: Vec<Vec<u8>>,
}

impl Run {
    fn lend<T: Copy + PartialEq + std::fmt::Debug>(&self, n: usize, pattern: T) -> Lent<T> {
        if self.exact { Lent::exact(n, pattern) } else { Lent::new(n, pattern) }
    }

    /// One of the pool, with up to eight bytes changed, dropped or added, a piece of another put in, an end cut off, or only random bytes.
    fn input(&mut self) -> Vec<u8> {
        let r = &mut self.r;
        if r.one_in(16) {
            return (0..r.below(200)).map(|_| r.word() as u8).collect();
        }
        let mut b = self.pool[r.below(self.pool.len() as u64) as usize].clone();
        for _ in 0..r.below(9) {
            let at = r.below(b.len() as u64 + 1) as usize;
            match r.below(8) {
                0 => b.insert(at, r.word() as u8),
                1 => b.insert(at, r.pick(b"\n\r,#:.-+eETZ09 \t")),
                2 => b.truncate(at),
                3 => {
                    let from = &self.pool[r.below(self.pool.len() as u64) as usize];
                    let start = r.below(from.len() as u64 + 1) as usize;
                    let end = (start + r.below(40) as usize).min(from.len());
                    b.splice(at..at, from[start..end].iter().copied());
                }
                _ if at == b.len() => {}
                4 => b[at] = r.word() as u8,
                5 => b[at] ^= 1 << r.below(8),
                6 => b[at] = r.pick(&[0, 1, 16, 17, 127, 128, 255, b'\n', b',', b'9']),
                _ => {
                    b.remove(at);
                }
            }
        }
        b
    }

    /// Lends the bytes to a call, and sees that they are as they were.
    fn with(&self, bytes: &[u8], call: impl FnOnce(*const u8, usize) -> u32) -> u32 {
        let mut lent = self.lend(bytes.len(), 0xa5u8);
        unsafe { std::slice::from_raw_parts_mut(lent.start(), bytes.len()) }.copy_from_slice(bytes);
        let refusal = call(lent.start(), bytes.len());
        lent.guarded();
        assert!(lent.places() == bytes, "the bytes were changed: {bytes:?}");
        refusal
    }

    /// Room for all that an input may hold, or about as much as one holds, so that one place less and none to spare come up.
    fn room(&mut self, about: u64, all: usize) -> usize {
        if self.r.one_in(3) { self.r.below(about) as usize } else { all }
    }

    fn file(&mut self) -> u32 {
        let bytes = self.input();
        let room = self.room(24, 128);
        let (mut times, mut freqs) = (self.lend(room, i64::MIN), self.lend(room, port::PATTERN));
        let (mut numbers, mut center) = (self.lend(4, usize::MAX), self.lend(1, port::PATTERN));
        let refusal = self.with(&bytes, |b, n| unsafe {
            port::wisvalom_read_pass_file(b, n, times.start(), room, freqs.start(), room, numbers.start() as *mut [usize; 4], center.start())
        });
        let ok = (refusal == 0) as usize;
        let got = numbers.written(4 * ok);
        center.written(ok);
        let count = if refusal == 0 { got[0] } else { 0 };
        times.written(count);
        freqs.written(count);
        if refusal == 0 {
            assert!(got[1] <= got[2] && got[2] <= bytes.len() && got[3] <= 1, "name {got:?} of {} bytes", bytes.len());
        }
        assert!([0, 1, 2, 3, 4, 5, 21].contains(&refusal), "refusal {refusal} of {bytes:?}");
        refusal
    }

    fn load(&mut self) -> u32 {
        let bytes = self.input();
        let (c, t, f) = (self.room(7, 17), self.room(48, 64), self.room(48, 64));
        let (mut counts, mut times, mut freqs) = (self.lend(c, 0x5a5a5a5au32), self.lend(t, i64::MIN), self.lend(f, port::PATTERN));
        let (mut passes, mut samples) = (self.lend(1, usize::MAX), self.lend(1, usize::MAX));
        let refusal = self.with(&bytes, |b, n| unsafe {
            port::wisvalom_load(b, n, counts.start(), c, times.start(), t, freqs.start(), f, passes.start(), samples.start())
        });
        let (p, s) = (passes.written(1)[0], samples.written(1)[0]);
        assert!(refusal == 0 || (p, s) == (0, 0), "a refusal with {p} passes and {s} samples");
        counts.written(p);
        times.written(s);
        freqs.written(s);
        assert!([0, 4, 5, 21].contains(&refusal), "refusal {refusal} of {bytes:?}");
        refusal
    }

    fn lines(&mut self) -> u32 {
        let n = self.r.pick(&[0, 1, 6, 23, 24, 24, 25, 40, 300]);
        let strange = self.r.one_in(3);
        let r = &mut self.r;
        let name: Vec<u8> = (0..n).map(|_| if strange { r.word() as u8 } else { 31 + r.below(97) as u8 }).collect();
        let room = if r.one_in(3) { 140 + r.below(30) as usize } else { 165 };
        let (mut out, mut length) = (self.lend(room, 0xa5u8), self.lend(1, usize::MAX));
        let refusal = self.with(&name, |b, n| unsafe {
            port::wisvalom_format_tle_catalog(b, n, 7e6, 1.5, 0.1, 6.2, 1781222400, 0, out.start(), room, length.start())
        });
        let written = length.written(1)[0];
        out.written(written);
        assert!(written == if refusal == 0 { name.len() + 141 } else { 0 }, "{written} bytes, refusal {refusal}");
        assert!([0, 11, 21].contains(&refusal), "refusal {refusal} of {name:?}");
        refusal
    }

    fn checksum(&mut self) -> u32 {
        let r = &mut self.r;
        let n = r.below(80);
        let line: Vec<u8> = (0..n).map(|_| if r.one_in(2) { r.word() as u8 } else { r.pick(b"0123456789-") }).collect();
        let sum = self.with(&line, |b, n| unsafe { port::wisvalom_tle_checksum(b, n) });
        assert!(sum <= 9, "checksum {sum}");
        0
    }

    /// The fit on stored bytes; its scratch is always too short, so that none works.
    fn stored(&mut self) -> u32 {
        let bytes = self.input();
        let centers = if self.r.one_in(8) { self.r.below(20) as usize } else { bytes.first().map_or(0, |&n| n as usize % 17) };
        let (centers, name) = (vec![150.8e6; centers], [b'~'; 24]);
        let (room, scratch) = (self.room(7, 17), self.r.below(64) as usize);
        let mut floats = [room, room, room, room, 150, scratch].map(|n| self.lend(n, port::PATTERN));
        let (mut text, mut numbers) = (self.lend(165, 0xa5u8), self.lend(5, port::PATTERN));
        let (mut epoch, mut trials, mut small) = (self.lend(1, i64::MIN), self.lend(2, usize::MAX), self.lend(2, u32::MAX));
        let refusal = self.with(&bytes, |b, n| unsafe {
            let [dts, dfs, df1s, df2s, log, scratch] = floats.each_mut().map(|l| (l.start(), l.places().len()));
            let (number, count, word) = (numbers.start(), trials.start(), small.start());
            port::wisvalom_fit_and_format_stored(
                b, n, centers.as_ptr(), centers.len(), 6371e3, 0.0, 0.0, 7e6, 1.0, dts.0, dts.1, dfs.0, dfs.1, df1s.0, df1s.1, df2s.0, df2s.1,
                log.0, log.1, scratch.0, scratch.1, name.as_ptr(), name.len(), text.start(), 165, number, number.add(1), number.add(2),
                number.add(3), epoch.start(), word, count, number.add(4), word.add(1), count.add(1),
            )
        });
        floats.iter().for_each(|l| drop(l.written(0)));
        text.written(0);
        numbers.all(0.0);
        epoch.all(0);
        trials.all(0);
        assert!(small.written(2) == [0, refusal], "refusal {refusal}, its lines {:?}", small.places());
        assert!([4, 5, 8, 9, 10, 21].contains(&refusal), "refusal {refusal} of {bytes:?}");
        refusal
    }

    fn parse(&mut self) -> u32 {
        let bytes = self.input();
        let (mut taken, mut out) = (self.lend(1, u32::MAX), self.lend(1, port::PATTERN));
        let refusal = self.with(&bytes, |b, n| unsafe { port::wisvalom_parse(b, n, taken.start(), out.start()) });
        let number = taken.written((refusal == 0) as usize).first().copied().unwrap_or(0);
        assert!(number <= 1 && [0, 3].contains(&refusal), "taken {number}, refusal {refusal} of {bytes:?}");
        out.written(number as usize);
        refusal
    }

    fn rfc3339(&mut self) -> u32 {
        let bytes = self.input();
        let (mut seconds, mut nanos) = (self.lend(1, u64::MAX), self.lend(1, u64::MAX));
        let taken = self.with(&bytes, |b, n| unsafe { port::wisvalom_parse_from_rfc3339(b, n, seconds.start(), nanos.start()) as u32 }) as usize;
        seconds.written(taken);
        assert!(nanos.written(taken).iter().all(|&n| n < 1_000_000_000), "nanoseconds of {bytes:?}");
        0
    }

    /// An accepted place is finite, and no coordinate is over 2^24 m in size.
    fn position(&mut self) -> u32 {
        let bytes = self.input();
        let mut out = self.lend(3, port::PATTERN);
        let refusal = self.with(&bytes, |b, n| unsafe { port::wisvalom_read_position(b, n, out.start() as *mut [f64; 3]) });
        let place = out.written(if refusal == 0 { 3 } else { 0 });
        assert!(place.iter().all(|v| v.abs() <= 16777216.0), "{place:?} of {bytes:?}");
        assert!([0, 1, 2, 3, 13].contains(&refusal), "refusal {refusal} of {bytes:?}");
        refusal
    }

    /// A line of the pool, which has first and second lines in turn: half of them as they are, the others with some bytes changed or exchanged or an end cut off;
    /// of these every second has its right checksum. Now and then anything.
    fn element_line(&mut self, second: usize) -> Vec<u8> {
        if self.r.one_in(16) {
            return self.input();
        }
        let r = &mut self.r;
        let mut b = self.pool[2 * r.below(self.pool.len() as u64 / 2) as usize + second].clone();
        if r.one_in(2) || b.is_empty() {
            return b;
        }
        for _ in 0..1 + r.below(3) {
            let (at, other) = (r.below(b.len() as u64) as usize, r.below(b.len() as u64) as usize);
            match r.below(8) {
                0 => b[at] = r.word() as u8,
                1 => b[at] ^= 1 << r.below(8),
                2 | 3 => b[at] = r.pick(b" 0123456789+-.A"),
                4 if r.one_in(4) => b.truncate(at + 1),
                _ => b.swap(at, other),
            }
        }
        if r.one_in(2) { files::summed(b) } else { b }
    }

    /// A refusal leaves the six places alone; numbers that are taken are within their printed digits, the mean anomaly below a turn.
    fn read_elements(&self, pair: &[Vec<u8>; 2]) -> Result<Vec<u64>, u32> {
        let mut out = self.lend(6, port::WORD);
        let places = out.start() as *mut [u64; 6];
        let refusal = self.with(&pair[0], |a, n| self.with(&pair[1], |b, m| unsafe { port::wisvalom_read_element_lines(a, n, b, m, places) }));
        let got = out.written(if refusal == 0 { 6 } else { 0 });
        let ends = [100, 100_000_000_000, 10_000_000, 10_000_000, 3_600_000, 10_000_000_000];
        assert!(got.iter().zip(ends).all(|(&v, end)| v < end), "{got:?} of {}", shown(pair));
        assert!([0, 14, 15, 16].contains(&refusal), "refusal {refusal} of {}", shown(pair));
        if refusal == 0 { Ok(got) } else { Err(refusal) }
    }

    fn elements(&mut self) -> u32 {
        let pair = [self.element_line(0), self.element_line(1)];
        self.read_elements(&pair).err().unwrap_or(0)
    }

    /// A written pair reads back to its digits, node and mean anomaly below a turn, and with any digit changed to any other it is refused: by 14 in the first
    /// column, else by 15.
    fn digits(&mut self, refusals: &mut BTreeMap<u32, u64>) -> u32 {
        let pair = written(&mut self.r);
        let (got, said) = (self.read_elements(&pair), printed(&pair));
        assert!(got == Ok(said.to_vec()) && said[3] < 3_600_000 && said[4] < 3_600_000, "{got:?} of {}", shown(&pair));
        for (line, at) in (0..138).map(|k| (k / 69, k % 69)).filter(|&(line, at)| pair[line][at].is_ascii_digit()) {
            for digit in (b'0'..=b'9').filter(|&d| d != pair[line][at]) {
                let mut changed = pair.clone();
                changed[line][at] = digit;
                let (got, said) = (self.read_elements(&changed), if at == 0 { 14 } else { 15 });
                assert!(got == Err(said), "{got:?}, not refusal {said}, of {}", shown(&changed));
                *refusals.entry(said).or_default() += 1;
            }
        }
        0
    }
}

fn main() {
    let mut words: Vec<String> = std::env::args().skip(1).collect();
    let exact = words.iter().any(|w| w == "exact");
    words.retain(|w| w != "exact");
    if words.len() < 2 {
        eprintln!("damage SEED COUNT [exact] [ENTRY..]");
        std::process::exit(2);
    }
    let seed: u64 = words[0].parse().expect("SEED is a number");
    let count: u64 = words[1].parse().expect("COUNT is a number");
    let entries: Vec<&str> = if words.len() > 2 { words[2..].iter().map(|s| s.as_str()).collect() } else { ENTRIES.to_vec() };
    let mut all = 0;
    for entry in entries {
        let began = std::time::Instant::now();
        let pool: Vec<Vec<u8>> = (0..512u64)
            .map(|k| match entry {
                "parse" => files::decimal(&mut Random::new(k)),
                "rfc3339" => files::moment(&mut Random::new(k)),
                "position" => files::position(&mut Random::new(k)),
                "elements" => element_lines(k / 2)[k as usize % 2].clone(),
                "load" | "stored" => files::stored(k, &simulator::realistic(k, 2 + k as usize % 4, 6 + k as usize % 40).set),
                _ => files::file(seed.wrapping_mul(512).wrapping_add(k)),
            })
            .filter(|b| b.len() < 5000)
            .collect();
        let mut run = Run { exact, r: Random::new(seed), pool };
        let mut refusals: BTreeMap<u32, u64> = BTreeMap::new();
        for _ in 0..count {
            let refusal = match entry {
                "file" => run.file(),
                "load" => run.load(),
                "lines" => run.lines(),
                "checksum" => run.checksum(),
                "stored" => run.stored(),
                "parse" => run.parse(),
                "rfc3339" => run.rfc3339(),
                "position" => run.position(),
                "elements" => run.elements(),
                "digits" => run.digits(&mut refusals),
                _ => panic!("no entry point {entry}"),
            };
            *refusals.entry(refusal).or_default() += 1;
        }
        let by: Vec<String> = refusals.iter().map(|(n, c)| format!("{n}: {c}")).collect();
        println!("{entry}: {count} inputs, no fault, {:.1} s; by refusal {}", began.elapsed().as_secs_f64(), by.join(", "));
        all += count;
    }
    println!("{all} inputs, no fault");
}
