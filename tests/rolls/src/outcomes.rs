//! Outcomes by name, each counted as often as it is met.

use std::collections::BTreeMap;

#[derive(Clone, Debug)]
pub struct Outcomes {
    names: &'static [&'static str],
    met: BTreeMap<&'static str, u64>,
}

impl Outcomes {
    /// None of these is met yet.
    pub fn of(names: &'static [&'static str]) -> Outcomes {
        Outcomes { names, met: BTreeMap::new() }
    }

    pub fn meet(&mut self, outcome: &'static str, is_met: bool) {
        assert!(self.names.contains(&outcome), "{outcome}");
        *self.met.entry(outcome).or_default() += u64::from(is_met);
    }

    pub fn count(&self, outcome: &str) -> u64 {
        assert!(self.names.contains(&outcome), "{outcome}");
        self.met.get(outcome).copied().unwrap_or_default()
    }

    /// What was not met.
    pub fn missing(&self) -> Vec<&'static str> {
        self.names.iter().copied().filter(|outcome| self.count(outcome) == 0).collect()
    }
}
