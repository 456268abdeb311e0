//! Records of what happens inside the patched original. None changes a number.
use chrono::{DateTime, Duration, Utc};
use std::cell::{Cell, RefCell};

/// One trial of a refinement: the set tried, its residuals and penalised sum, and the damping before it.
#[derive(Clone, Default)]
pub struct Trial {
    pub set: Vec<f64>,
    pub residuals: Vec<f64>,
    pub sum: f64,
    pub damping: f64,
}

#[derive(Clone, Default)]
pub struct Records {
    pub positions: u64,
    /// Best raan0, u0 and sum of each start.
    pub starts: Vec<[f64; 3]>,
    /// The estimated a, and the search's best raan0, u0 and sum.
    pub found: [f64; 4],
    pub first: Vec<Trial>,
    pub trials: Vec<Trial>,
    /// The last step of the second refinement, and its largest relative size.
    pub step: (Vec<f64>, f64),
    pub ended: &'static str,
}

thread_local! {
    static RECORDS: RefCell<Records> = RefCell::new(Records::default());
    static POSITIONS: Cell<u64> = const { Cell::new(0) };
}

/// The records since the last call.
pub fn take() -> Records {
    let mut records = RECORDS.with(|r| std::mem::take(&mut *r.borrow_mut()));
    records.positions = POSITIONS.with(|p| p.replace(0));
    records
}

fn with(f: impl FnOnce(&mut Records)) {
    RECORDS.with(|r| f(&mut r.borrow_mut()))
}

pub fn position() {
    POSITIONS.with(|p| p.set(p.get() + 1))
}

pub fn start(raan0: f64, u0: f64, sum: f64) {
    with(|r| r.starts.push([raan0, u0, sum]))
}

pub fn search(a: f64, raan0: f64, u0: f64, sum: f64) {
    with(|r| r.found = [a, raan0, u0, sum])
}

pub fn first(set: &[f64], residuals: &[f64], sum: f64) {
    let t = Trial { set: set.to_vec(), residuals: residuals.to_vec(), sum, damping: 0.0 };
    with(|r| r.first.push(t))
}

pub fn trial(set: &[f64], residuals: &[f64], sum: f64, damping: f64) {
    let t = Trial { set: set.to_vec(), residuals: residuals.to_vec(), sum, damping };
    with(|r| r.trials.push(t))
}

pub fn step(delta: &[f64], size: f64) {
    with(|r| r.step = (delta.to_vec(), size))
}

pub fn ended(how: &'static str) {
    with(|r| r.ended = how)
}

/// What a moment over 8,000,000,000,000 s from 1970 is thrown as: refusal 23.
pub struct Far;

/// t moved by d, or refusal 23.
pub fn moved(t: DateTime<Utc>, d: Duration) -> DateTime<Utc> {
    const LIMIT: i64 = 8_000_000_000_000;
    if let Some(m) = t.checked_add_signed(d) {
        let (s, n) = (m.timestamp(), m.timestamp_subsec_nanos());
        if s >= -LIMIT && (s < LIMIT || s == LIMIT && n == 0) {
            return m;
        }
    }
    std::panic::panic_any(Far)
}
