//! A file of stored answers while it is made.

use std::collections::{BTreeMap, HashSet};

#[derive(Default)]
pub struct Stored {
    pub bytes: Vec<u8>,
    pub cases: usize,
    seen: HashSet<Vec<u8>>,
    by_number: BTreeMap<u8, usize>,
}

impl Stored {
    /// Adds a case that is not yet there.
    pub fn add(&mut self, case: Vec<u8>, number: u8) {
        if self.seen.insert(case.clone()) {
            self.bytes.extend(case);
            self.cases += 1;
            *self.by_number.entry(number).or_default() += 1;
        }
    }

    pub fn report(&self) {
        println!("{} cases, {} bytes", self.cases, self.bytes.len());
        for (number, count) in &self.by_number {
            println!("refusal {number}: {count}");
        }
    }
}
