//! Counts of answers.

use crate::{PairRefusal, Refusal};
use std::collections::BTreeMap;
use std::io::Write;

/// How often each answer was given.
#[derive(Default)]
pub struct Tally(BTreeMap<String, usize>);

impl Tally {
    pub fn add<T>(&mut self, result: &Result<T, Refusal>) {
        let name = result.as_ref().err().map_or("ok".to_string(), |r| r.number().to_string());
        self.name(&name);
    }

    /// Of a call on two images: `o` before a refusal of the older, `n` of the newer.
    pub fn add_pair<T>(&mut self, result: &Result<T, PairRefusal>) {
        match result {
            Ok(_) => self.name("ok"),
            Err(PairRefusal::Older(refusal)) => self.name(&format!("o{}", refusal.number())),
            Err(PairRefusal::Newer(refusal)) => self.name(&format!("n{}", refusal.number())),
            Err(PairRefusal::Pair(refusal)) => self.name(&refusal.number().to_string()),
        }
    }

    pub fn name(&mut self, name: &str) {
        *self.0.entry(name.to_string()).or_default() += 1;
    }

    /// Prints the counts and demands these answers and no others.
    pub fn close(&self, call: &str, answers: &str) {
        let counts: Vec<String> = self.0.iter().map(|(name, n)| format!("{name}: {n}")).collect();
        // Written past the test harness, so that it is always seen.
        let mut out = std::io::stdout();
        writeln!(out, "cases {call}: {}", counts.join(", ")).unwrap();
        let mut wanted: Vec<&str> = answers.split(',').collect();
        wanted.sort();
        assert_eq!(self.0.keys().map(String::as_str).collect::<Vec<_>>(), wanted, "{call}");
    }
}
