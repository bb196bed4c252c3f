//! Counts of the ways in which submissions of a kind were decided, and which of them a run must
//! come to.

use std::collections::BTreeMap;
use std::fmt;

/// How often each way was come to.
#[derive(Clone, Debug)]
pub struct Reached {
    kind: &'static str,
    wanted: Vec<String>,
    least: u64,
    times: BTreeMap<String, u64>,
}

impl Reached {
    /// None so far, of submissions of this kind. Each of the wanted ways must be come to at least
    /// once.
    pub fn none(kind: &'static str, wanted: &[&str]) -> Reached {
        Reached::of(kind, wanted.iter().map(|&way| way.to_owned()).collect())
    }

    /// The same of ways that are made out of parts.
    pub fn of(kind: &'static str, wanted: Vec<String>) -> Reached {
        Reached {
            kind,
            wanted,
            least: 1,
            times: BTreeMap::new(),
        }
    }

    /// The same, but each must be come to so many times.
    pub fn at_least(self, least: u64) -> Reached {
        Reached { least, ..self }
    }

    /// What they are counts of.
    pub fn kind(&self) -> &'static str {
        self.kind
    }

    /// Counts what one submission came to.
    pub fn count(&mut self, ways: Vec<String>) {
        for way in ways {
            *self.times.entry(way).or_insert(0) += 1;
        }
    }

    /// What was not reached, or not often enough.
    pub fn missing(&self) -> Vec<&str> {
        let wanted = self.wanted.iter().map(String::as_str);
        wanted.filter(|way| self.times(way) < self.least).collect()
    }

    /// Adds other counts to these.
    pub fn add(&mut self, other: &Reached) {
        for (way, times) in &other.times {
            *self.times.entry(way.clone()).or_insert(0) += times;
        }
    }

    /// How often this way was come to.
    pub fn times(&self, way: &str) -> u64 {
        self.times.get(way).copied().unwrap_or(0)
    }
}

/// Those of the ways that hold.
pub(crate) fn holding<const N: usize>(ways: [(bool, &str); N]) -> impl Iterator<Item = String> {
    let ways = ways.into_iter().filter(|(holds, _)| *holds);
    let all: Vec<String> = ways.map(|(_, way)| way.to_owned()).collect();
    all.into_iter()
}

impl fmt::Display for Reached {
    fn fmt(&self, f: &mut fmt::Formatter<'_>) -> fmt::Result {
        f.write_str(self.kind)?;
        for way in &self.wanted {
            write!(f, "\n{:>9} {way}", self.times(way))?;
        }
        let missing = self.missing();
        if missing.is_empty() {
            Ok(())
        } else {
            write!(f, "\nnot reached: {missing:?}")
        }
    }
}
