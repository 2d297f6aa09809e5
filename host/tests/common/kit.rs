//! What tests with and without the archive share.
#![allow(dead_code)]

use std::collections::BTreeMap;

/// Every sequence of these.
pub fn sequences<T: Copy>(items: &[T]) -> Vec<Vec<T>> {
    if items.is_empty() {
        return vec![Vec::new()];
    }
    let mut all = Vec::new();
    for i in 0..items.len() {
        let others = [&items[..i], &items[i + 1..]].concat();
        for rest in sequences(&others) {
            all.push([&[items[i]], &rest[..]].concat());
        }
    }
    all
}

/// How often what came up.
#[derive(Default)]
pub struct Counts(pub BTreeMap<String, usize>);

impl Counts {
    pub fn add(&mut self, what: impl Into<String>) {
        *self.0.entry(what.into()).or_default() += 1;
    }

    pub fn add_if(&mut self, so: bool, what: &str) {
        if so {
            self.add(what);
        }
    }

    pub fn at_least(&self, least: usize, what: impl AsRef<str>) {
        let have = self.0.get(what.as_ref()).copied().unwrap_or(0);
        assert!(have >= least, "{}: {have}", what.as_ref());
    }
}
