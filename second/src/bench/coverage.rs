//! Which rules of 01 a bench file reaches, against the list of all that a bench file can reach.

mod table;

use std::collections::BTreeMap;

use super::file::BenchFile;
use super::run;
use crate::purse::Verdict;
pub use table::{Entry, REACHABLE};

/// How often a file without limits gives each verdict.
#[derive(Clone, Debug, Default, PartialEq, Eq)]
pub struct Coverage {
    counts: BTreeMap<Verdict, usize>,
}

impl Coverage {
    pub fn add(&mut self, file: &BenchFile) {
        run::lines(file, |reply| {
            if let Some(verdict) = reply.verdict {
                *self.counts.entry(verdict).or_insert(0) += 1;
            }
        });
    }

    pub fn count(&self, verdict: &Verdict) -> usize {
        self.counts.get(verdict).copied().unwrap_or(0)
    }

    pub fn missing(&self) -> Vec<&'static Entry> {
        let is_missing = |entry: &&Entry| self.count(&entry.verdict()) == 0;
        REACHABLE.iter().filter(is_missing).collect()
    }

    /// Verdicts that the list does not have.
    pub fn unlisted(&self) -> Vec<Verdict> {
        let listed = |verdict: &Verdict| REACHABLE.iter().any(|entry| entry.verdict() == *verdict);
        let verdicts = self.counts.keys().copied();
        verdicts.filter(|verdict| !listed(verdict)).collect()
    }

    /// A line for each entry of the list: how often, the command, the status word, the rule.
    pub fn report(&self) -> String {
        let line = |entry: &Entry| {
            let count = match self.count(&entry.verdict()) {
                0 => "MISSING".to_string(),
                count => count.to_string(),
            };
            let name = entry.name();
            let (word, comment) = (entry.word, entry.comment);
            format!("{count:>8}  {name:<22}  {word:04X}  {comment}\n")
        };
        REACHABLE.iter().map(line).collect()
    }
}
