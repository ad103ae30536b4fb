//! The stored answers for reading.

use crate::stored::Stored;
use differential::damage::*;
use differential::generate::*;
use differential::judge::{judge, number_of};
use differential::oracle::{self, Lent, lex};
use differential::records::*;
use differential::{hand, model};

const SEED: u64 = 0x1517_0001;
const RANDOM_CASES: usize = 1_400;
/// Random texts of more tokens than this are left out, so that the file stays small.
const MOST_TOKENS: usize = 24;

pub fn make(stored: &mut Stored) -> Result<(), String> {
    check_examples()?;
    hand_written(stored)?;
    every_token_damaged(stored)?;
    random(stored)
}

fn add_text(stored: &mut Stored, text: &str) -> Result<(), String> {
    match lex(text) {
        Some(lent) => add(stored, &lent),
        None => Ok(()),
    }
}

fn add(stored: &mut Stored, lent: &Lent) -> Result<(), String> {
    let shown = || {
        format!(
            "text: {:?}\n{:x?}",
            String::from_utf8_lossy(&lent.text),
            lent.tokens
        )
    };
    let outcome = judge(lent).map_err(|message| format!("{}\n{message}", shown()))?;
    stored.add(case_bytes(lent, &outcome), number_of(&outcome));
    Ok(())
}

/// One case as README.md describes it.
fn case_bytes(lent: &Lent, outcome: &Outcome) -> Vec<u8> {
    let count = outcome.as_ref().map_or(0, Vec::len);
    let answer = answer(outcome, count * WIDTH);
    let mut bytes = Vec::new();
    for number in [lent.tokens.len(), lent.text.len(), lent.end as usize, count] {
        bytes.extend((number as u32).to_be_bytes());
    }
    bytes.extend(answer.result.to_be_bytes());
    bytes.extend(bytes_of(&lent.tokens));
    bytes.extend(&lent.text);
    bytes.extend(answer.out);
    bytes
}

/// The examples of 01 hold of the crate and of the model.
fn check_examples() -> Result<(), String> {
    for &(text, number, place, count) in hand::EXAMPLES {
        let lent = lex(text).ok_or("an example that the lexer refuses")?;
        let outcome = judge(&lent)?;
        let expected = match number {
            0 => pack(0, count, 0),
            _ => pack(number, 0, place),
        };
        if answer(&outcome, count * WIDTH).result != expected {
            return Err(format!("example of 01: {text}: {outcome:?}"));
        }
    }
    check_dollars()?;
    check_sheet()
}

/// The cases of a `$` alone have the refusals and places that are written out.
fn check_dollars() -> Result<(), String> {
    for (text, number, place) in hand::dollars() {
        let lent = lex(&text).ok_or("a case that the lexer refuses")?;
        let outcome = judge(&lent)?;
        let found = outcome.as_ref().err();
        if found.map_or((0, 0), |refusal| (refusal.number, refusal.place)) != (number, place) {
            return Err(format!("a `$` alone: {text}: {outcome:?}"));
        }
    }
    Ok(())
}

/// The record list that 01 gives in full.
fn check_sheet() -> Result<(), String> {
    let record = |kind: u64, count: u64, position: u64, start: u32, length: u32| {
        [kind << 56 | count << 32 | position, pair(start, length), 0]
    };
    let expected = vec![
        record(20, 2, 6, 0, 0),
        record(35, 2, 6, 0, 0),
        record(24, 0, 7, 7, 1),
        record(30, 1, 9, 0, 0),
        record(24, 0, 9, 9, 1),
        record(41, 1, 12, 0, 0),
        record(24, 0, 12, 12, 1),
    ];
    match oracle::read_text("(rule (A x) y)") == Ok(expected) {
        true => Ok(()),
        false => Err("the sheet's example of 01 differs".to_string()),
    }
}

fn hand_written(stored: &mut Stored) -> Result<(), String> {
    for (text, ..) in hand::EXAMPLES {
        add_text(stored, text)?;
    }
    for text in hand::WHOLE.iter().chain(hand::POINTS) {
        add_text(stored, text)?;
    }
    for (text, ..) in hand::dollars() {
        add_text(stored, &text)?;
    }
    for text in hand::integer_texts() {
        add_text(stored, &text)?;
    }
    for depth in [model::DEEPEST, model::DEEPEST + 1] {
        for text in hand::deep_texts(depth) {
            add_text(stored, &text)?;
        }
    }
    for lent in hand::token_lists() {
        add(stored, &lent)?;
    }
    Ok(())
}

/// Each whole text, damaged at every token in each of several ways.
fn every_token_damaged(stored: &mut Stored) -> Result<(), String> {
    for text in hand::WHOLE {
        let pieces = hand::pieces_of(text);
        for i in 0..pieces.len() {
            for put in ["", "(", ")", "x", "5", "@"] {
                let mut damaged = pieces.clone();
                damaged[i] = put;
                add_text(stored, &damaged.join(" "))?;
            }
            add_text(stored, &pieces[..i].join(" "))?;
        }
    }
    Ok(())
}

fn random(stored: &mut Stored) -> Result<(), String> {
    let mut random = Random::new(SEED);
    let before = stored.cases;
    while stored.cases < before + RANDOM_CASES {
        let mut pieces = Pieces::new(&mut random);
        pieces.definition();
        if pieces.random.once_in(4) {
            pieces.definition();
        }
        let mut list = pieces.list;
        if list.len() > MOST_TOKENS {
            continue;
        }
        if random.once_in(2) {
            damage_pieces(&mut random, &mut list);
        }
        let text = join(&mut random, &list);
        random_text(stored, &mut random, &text)?;
    }
    Ok(())
}

/// The text as it is, or with a damaged character, or with a damaged token list.
fn random_text(stored: &mut Stored, random: &mut Random, text: &str) -> Result<(), String> {
    match random.below(6) {
        0 => add_text(stored, &damage_text(random, text)),
        1..=2 => match lex(text) {
            Some(mut lent) => {
                damage_lent(random, &mut lent);
                add(stored, &lent)
            }
            None => Ok(()),
        },
        _ => add_text(stored, text),
    }
}
