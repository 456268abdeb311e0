//! Lines of answers: a word, fields, '=', fields. A field is 16 hexadecimal digits.
use crate::{Moment, Set};

#[derive(Default)]
pub struct Line(pub String);

pub const NAN: u64 = 0x7ff8000000000000;

/// The bits of a float; every NaN has the same.
pub fn bits(v: f64) -> u64 {
    if v.is_nan() { NAN } else { v.to_bits() }
}

impl Line {
    pub fn of(word: &str) -> Line {
        Line(word.to_string())
    }
    pub fn word(mut self, v: u64) -> Line {
        self.0.push_str(&format!(" {v:016x}"));
        self
    }
    pub fn int(self, v: i64) -> Line {
        self.word(v as u64)
    }
    pub fn float(self, v: f64) -> Line {
        self.word(bits(v))
    }
    pub fn floats(self, v: &[f64]) -> Line {
        v.iter().fold(self, |l, &x| l.float(x))
    }
    /// How many, then each.
    pub fn list(self, v: &[f64]) -> Line {
        self.word(v.len() as u64).floats(v)
    }
    pub fn ints(self, v: &[i64]) -> Line {
        v.iter().fold(self.word(v.len() as u64), |l, &x| l.int(x))
    }
    pub fn moment(self, m: Moment) -> Line {
        self.int(m.seconds).word(m.nanos as u64)
    }
    /// How many, then eight to a word, the first in its top byte, zeros after the last.
    pub fn bytes(self, v: &[u8]) -> Line {
        v.chunks(8).fold(self.word(v.len() as u64), |l, c| {
            let mut eight = [0; 8];
            eight[..c.len()].copy_from_slice(c);
            l.word(u64::from_be_bytes(eight))
        })
    }
    /// Counts, centres, times, frequencies: each how many, then each.
    pub fn set(self, s: &Set) -> Line {
        let counts: Vec<i64> = s.counts.iter().map(|&n| n as i64).collect();
        self.ints(&counts).list(&s.centers).ints(&s.times).list(&s.freqs)
    }
    pub fn answer(mut self) -> Line {
        self.0.push_str(" =");
        self
    }
    /// The refusal alone, or 0 and what follows.
    pub fn refused_or<T>(self, r: &Result<T, u32>, f: impl FnOnce(Line, &T) -> Line) -> Line {
        match r {
            Ok(v) => f(self.word(0), v),
            Err(n) => self.word(*n as u64),
        }
    }
}

/// The fields of a text. Beside 16 hexadecimal digits a field may be written by hand: i with a whole number, or a float.
pub fn words(text: &str) -> Option<Vec<u64>> {
    text.split_whitespace()
        .map(|w| {
            if w.len() == 16 && w.bytes().all(|b| b.is_ascii_hexdigit()) {
                u64::from_str_radix(w, 16).ok()
            } else if let Some(n) = w.strip_prefix('i').and_then(|n| n.parse::<i128>().ok()) {
                Some(n as u64)
            } else {
                w.parse::<f64>().ok().map(|v| v.to_bits())
            }
        })
        .collect()
}

/// Reads fields one after the other; None where they end too soon.
pub struct Fields<'a> {
    all: &'a [u64],
    at: usize,
}

impl Fields<'_> {
    pub fn of(all: &[u64]) -> Fields<'_> {
        Fields { all, at: 0 }
    }
    pub fn done(&self) -> bool {
        self.at == self.all.len()
    }
    pub fn word(&mut self) -> Option<u64> {
        self.at += 1;
        self.all.get(self.at - 1).copied()
    }
    pub fn float(&mut self) -> Option<f64> {
        self.word().map(f64::from_bits)
    }
    pub fn floats<const N: usize>(&mut self) -> Option<[f64; N]> {
        let mut v = [0.0; N];
        for x in v.iter_mut() {
            *x = self.float()?;
        }
        Some(v)
    }
    fn many(&mut self) -> Option<&[u64]> {
        let n = self.word()? as usize;
        let from = self.at;
        self.at = from.checked_add(n)?;
        self.all.get(from..self.at)
    }
    pub fn list(&mut self) -> Option<Vec<f64>> {
        Some(self.many()?.iter().map(|&w| f64::from_bits(w)).collect())
    }
    pub fn moment(&mut self) -> Option<Moment> {
        Some(Moment { seconds: self.word()? as i64, nanos: u32::try_from(self.word()?).ok()? })
    }
    pub fn bytes(&mut self) -> Option<Vec<u8>> {
        let n = self.word()? as usize;
        let mut v = Vec::new();
        for _ in 0..n.div_ceil(8) {
            v.extend(self.word()?.to_be_bytes());
        }
        v.truncate(n);
        Some(v)
    }
    pub fn set(&mut self) -> Option<Set> {
        let counts = self.many()?.iter().map(|&w| u32::try_from(w).ok()).collect::<Option<Vec<u32>>>()?;
        let centers = self.list()?;
        let times = self.many()?.iter().map(|&w| w as i64).collect();
        Some(Set { counts, centers, times, freqs: self.list()? })
    }
}
