//! How often each thing was met, and in which sessions.

use second::generate::Kind;
use std::collections::BTreeMap;
use std::ops::Range;

/// The kinds that have every form, and sessions enough to meet what is seldom.
pub const KINDS: [(Kind, Range<u64>); 4] = [
    (Kind::Years, 0..6),
    (Kind::Mixed, 0..8),
    (Kind::Hostile, 0..8),
    (Kind::Bench, 0..1),
];

/// The kinds that have neither covers nor small filings.
pub const OTHER_KINDS: [(Kind, Range<u64>); 3] = [
    (Kind::Full, 0..2),
    (Kind::Single, 0..2),
    (Kind::Standards, 0..1),
];

#[derive(Default)]
pub struct Times(BTreeMap<String, u32>);

impl Times {
    pub fn of(&self, what: &str) -> u32 {
        self.0.get(what).copied().unwrap_or(0)
    }

    pub fn hold(&self, least: u32, whats: &[&str]) {
        for what in whats {
            let times = self.of(what);
            assert!(times >= least, "{what}: {times} times");
        }
    }

    pub fn meet(&mut self, what: impl Into<String>, is_so: bool) {
        *self.0.entry(what.into()).or_default() += u32::from(is_so);
    }
}
