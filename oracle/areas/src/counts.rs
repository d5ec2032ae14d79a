//! How often each thing was met.

use std::collections::BTreeMap;

#[derive(Default)]
pub struct Counts(BTreeMap<&'static str, BTreeMap<String, u64>>);

impl Counts {
    pub fn add(&mut self, what: &'static str, which: impl ToString) {
        *self
            .0
            .entry(what)
            .or_default()
            .entry(which.to_string())
            .or_default() += 1;
    }

    /// Those that were never met.
    pub fn missing(&self, what: &'static str, wanted: &[&str]) -> Vec<String> {
        let met = |which: &&&str| {
            self.0
                .get(what)
                .is_some_and(|all| all.contains_key(**which))
        };
        let never = wanted.iter().filter(|which| !met(which));
        never.map(|which| format!("{what}: {which}")).collect()
    }

    pub fn report(&self) {
        for (what, all) in &self.0 {
            let told: Vec<String> = all
                .iter()
                .map(|(which, n)| format!("{which} {n}"))
                .collect();
            println!("{what}: {}", told.join(", "));
        }
    }
}
