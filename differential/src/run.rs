//! Compares the library with the crate and the model. Usage: run [COUNT] [SEED]

mod library;
mod limits;
mod reading;
mod run_lists;
mod run_opening;
mod run_templates;
mod run_texts;

use differential::generate::Random;
use differential::outputs::*;
use differential::records::*;
use std::collections::BTreeMap;
use std::process::ExitCode;

const COUNT: u64 = 240_000;
const SEED: u64 = 0x1517_0002;
/// The crate has no limit on depth, and its parser is recursive.
const STACK: usize = 1 << 28;

/// How many inputs and calls were compared, and the calls by refusal number.
#[derive(Default)]
pub struct Counts {
    inputs: usize,
    calls: usize,
    by_number: BTreeMap<u8, usize>,
}

impl Counts {
    pub fn add_call(&mut self, result: u64) {
        self.calls += 1;
        *self.by_number.entry((result >> 56) as u8).or_default() += 1;
    }

    /// Makes a call with outputs of several sizes and compares every byte.
    pub fn compare(
        &mut self,
        outcome: &Outcome,
        more: usize,
        call: impl Fn(&mut [u8]) -> u64,
    ) -> Result<(), String> {
        self.inputs += 1;
        let count = outcome.as_ref().map_or(0, Vec::len);
        for length in lengths(count, more) {
            self.compare_at(outcome, length, &call)?;
        }
        Ok(())
    }

    /// Makes a call with an output of so many bytes.
    pub fn compare_at(
        &mut self,
        outcome: &Outcome,
        length: usize,
        call: impl Fn(&mut [u8]) -> u64,
    ) -> Result<(), String> {
        let expected = answer(outcome, length);
        same_answer(&expected, &call_with(length, &call)?)?;
        self.add_call(expected.result);
        Ok(())
    }

    fn line(&self, name: &str) -> String {
        let numbers: Vec<String> = self
            .by_number
            .iter()
            .map(|(n, c)| format!("{n}: {c}"))
            .collect();
        format!(
            "{name}: {} inputs, {} calls compared, 0 differ; calls by refusal: {}",
            self.inputs,
            self.calls,
            numbers.join(", ")
        )
    }
}

fn main() -> ExitCode {
    let thread = std::thread::Builder::new().stack_size(STACK).spawn(compare);
    match thread.expect("a thread").join().expect("no panic") {
        Ok(()) => ExitCode::SUCCESS,
        Err(difference) => {
            println!("{difference}");
            ExitCode::FAILURE
        }
    }
}

fn compare() -> Result<(), String> {
    let count = argument(1, COUNT)?;
    let mut random = Random::new(argument(2, SEED)?);
    let mut counts = Counts::default();
    for _ in 0..count {
        reading::compare(&mut random, &mut counts)?;
    }
    reading::compare_written(&mut counts)?;
    limits::compare(&mut counts)?;
    println!("{}", counts.line("isle_read"));
    for line in run_templates::compare(&mut random, count / 4)? {
        println!("{line}");
    }
    println!("{}", run_opening::compare(&mut random, count / 4)?);
    println!("{}", run_texts::compare(&mut random, count)?);
    Ok(())
}

/// The number given as an argument, or another.
fn argument(place: usize, other: u64) -> Result<u64, String> {
    match std::env::args().nth(place) {
        Some(word) => word.parse().map_err(|_| format!("not a number: {word}")),
        None => Ok(other),
    }
}
