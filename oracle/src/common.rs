//! What the judge and the programs share: moments, pass sets, random numbers, the simulator, lines of answers, angles around the circle.
#[path = "around.rs"]
pub mod around;
#[path = "cases.rs"]
pub mod cases;
#[path = "files.rs"]
pub mod files;
#[path = "inputs.rs"]
pub mod inputs;
#[path = "lines.rs"]
pub mod lines;
#[path = "numbers.rs"]
pub mod numbers;
#[path = "simulator.rs"]
pub mod simulator;

/// Whole seconds since 1970 and nanoseconds after them.
#[derive(Clone, Copy, Debug, PartialEq)]
pub struct Moment {
    pub seconds: i64,
    pub nanos: u32,
}

/// 1957-01-01 and 2057-01-01, in seconds since 1970.
pub const FIRST: i64 = -410227200;
pub const END: i64 = 2745532800;

impl Moment {
    pub fn of_nanos(t: i64) -> Moment {
        Moment { seconds: t.div_euclid(1_000_000_000), nanos: t.rem_euclid(1_000_000_000) as u32 }
    }
    pub fn nanos(self) -> i64 {
        self.seconds * 1_000_000_000 + self.nanos as i64
    }
    /// Document 01's 4 is the negation.
    pub fn accepted(self) -> bool {
        self.seconds >= FIRST && self.seconds < END && self.nanos <= 999_999_999
    }
}

/// A pass set as a call gets it.
#[derive(Clone, Debug, Default)]
pub struct Set {
    pub counts: Vec<u32>,
    pub centers: Vec<f64>,
    pub times: Vec<i64>,
    pub freqs: Vec<f64>,
}

impl Set {
    /// Document 01's 5.
    pub fn sizes_disagree(&self) -> bool {
        let sum: u64 = self.counts.iter().map(|&n| n as u64).sum();
        self.counts.len() > 16
            || self.centers.len() != self.counts.len()
            || self.times.len() != self.freqs.len()
            || sum != self.times.len() as u64
            || self.times.len() > 4096
    }
    pub fn moments_outside(&self) -> bool {
        self.times.iter().any(|&t| !Moment::of_nanos(t).accepted())
    }
    pub fn non_empty(&self) -> usize {
        self.counts.iter().filter(|&&n| n > 0).count()
    }
    /// Document 01's stored bytes: pass count, counts, times, frequencies, little-endian.
    pub fn stored(&self) -> Vec<u8> {
        let mut out = (self.counts.len() as u32).to_le_bytes().to_vec();
        self.counts.iter().for_each(|n| out.extend(n.to_le_bytes()));
        self.times.iter().for_each(|t| out.extend(t.to_le_bytes()));
        self.freqs.iter().for_each(|f| out.extend(f.to_bits().to_le_bytes()));
        out
    }
}
