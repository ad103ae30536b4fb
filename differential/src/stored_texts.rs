//! The stored answers for reading of text.

use crate::stored::Stored;
use differential::generate::Random;
use differential::generate_texts::any_bytes;
use differential::hand_texts::*;
use differential::judge::number_of;
use differential::judge_texts::judge;
use differential::records::*;
use differential::{hand, model};

const SEED: u64 = 0x1517_0004;
const RANDOM_CASES: usize = 400;
/// Random texts of more bytes than this are left out, so that the file stays small.
const MOST_BYTES: usize = 300;
/// One of so many cases at the limits on bytes and tokens is stored, since they are long.
const LONG_CASES: usize = 3;
/// The limit on the records of a case.
const MOST_RECORDS: usize = 1_024;

pub fn make(stored: &mut Stored) -> Result<(), String> {
    for (text, ..) in hand::EXAMPLES {
        add(stored, text.as_bytes())?;
    }
    let long = long_cases().into_iter().step_by(LONG_CASES);
    for (text, number, place) in short_cases().chain(long) {
        add_case(stored, &text, number, place)?;
    }
    for text in hand::WHOLE.iter().chain(hand::POINTS) {
        add(stored, text.as_bytes())?;
    }
    let deep = [model::DEEPEST, model::DEEPEST + 1]
        .into_iter()
        .flat_map(hand::deep_texts);
    for text in hand::integer_texts().into_iter().chain(deep) {
        add(stored, text.as_bytes())?;
    }
    for (text, piece) in [(hand::WHOLE[13], b"\x0c"), (hand::WHOLE[16], b"-")] {
        for spoilt in put_behind_each(&hand::pieces_of(text), piece) {
            add(stored, &spoilt)?;
        }
    }
    random(stored)
}

/// A case whose refusal and place are written out.
fn add_case(stored: &mut Stored, text: &[u8], number: u8, place: u32) -> Result<(), String> {
    let outcome = judge(text)?;
    let found = outcome.as_ref().err();
    match found.map_or((0, 0), |refusal| (refusal.number, refusal.place)) == (number, place) {
        true => add(stored, text),
        false => Err(format!("{}: {found:?}", String::from_utf8_lossy(text))),
    }
}

fn add(stored: &mut Stored, text: &[u8]) -> Result<(), String> {
    let outcome = judge(text)?;
    let count = outcome.as_ref().map_or(0, Vec::len);
    if count <= MOST_RECORDS {
        stored.add(case_bytes(text, &outcome, count), number_of(&outcome));
    }
    Ok(())
}

/// One case as README.md describes it.
fn case_bytes(text: &[u8], outcome: &Outcome, count: usize) -> Vec<u8> {
    let answer = answer(outcome, count * WIDTH);
    let mut bytes = Vec::new();
    for number in [text.len(), 0, 0, count] {
        bytes.extend((number as u32).to_be_bytes());
    }
    bytes.extend(answer.result.to_be_bytes());
    bytes.extend(text);
    bytes.extend(answer.out);
    bytes
}

fn random(stored: &mut Stored) -> Result<(), String> {
    let mut random = Random::new(SEED);
    let before = stored.cases;
    while stored.cases < before + RANDOM_CASES {
        let text = any_bytes(&mut random);
        if text.len() <= MOST_BYTES {
            add(stored, &text)?;
        }
    }
    Ok(())
}
