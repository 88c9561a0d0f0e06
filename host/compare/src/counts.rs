//! How often each thing came, and which came too seldom.

use std::collections::BTreeMap;

/// How often each thing came.
#[derive(Default)]
pub struct Counts<K>(BTreeMap<K, u64>);

impl<K: Ord> Counts<K> {
    /// It came so many times more.
    pub fn add(&mut self, thing: K, times: u64) {
        *self.0.entry(thing).or_default() += times;
    }

    /// Adds others to these.
    pub fn join(&mut self, others: Counts<K>) {
        others.0.into_iter().for_each(|(thing, times)| self.add(thing, times));
    }

    /// How often it came.
    pub fn of(&self, thing: &K) -> u64 {
        self.0.get(thing).copied().unwrap_or(0)
    }
}

/// What was exercised too little for a comparison to mean anything, a line each.
#[derive(Default)]
pub struct Missing(Vec<String>);

impl Missing {
    /// At least so many are due of this.
    pub fn least(&mut self, what: &str, count: u64, least: u64) {
        if count < least {
            self.0.push(format!("{what}: {count}, at least {least} are due"));
        }
    }

    /// Nothing may be missing.
    pub fn assert_none(&self, seed: u64) {
        assert!(self.0.is_empty(), "too little was exercised, seed {seed}\n{}", self.0.join("\n"));
    }
}
