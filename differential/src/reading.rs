//! Random texts, damaged texts and damaged token lists, and hand-written ones, through `isle_read`.

use crate::{Counts, library};
use differential::damage::*;
use differential::generate::*;
use differential::hand;
use differential::judge::judge;
use differential::model;
use differential::oracle::{Lent, lex};
use differential::records::*;

/// One random input, compared with outputs of several sizes.
pub fn compare(random: &mut Random, counts: &mut Counts) -> Result<(), String> {
    let lent = any_lent(random);
    let more = 1 + random.below(60);
    match random.once_in(100) {
        true => compare_cut(random, &lent, more, counts),
        false => compare_lent(&lent, more, counts),
    }
}

/// The hand-written texts that the lexer takes, and the hand-written token lists.
pub fn compare_written(counts: &mut Counts) -> Result<(), String> {
    let texts = hand::WHOLE.iter().chain(hand::POINTS);
    let texts = texts.map(|text| text.to_string());
    let dollars = hand::dollars().map(|(text, ..)| text);
    let taken = texts.chain(dollars).filter_map(|text| lex(&text));
    for lent in taken.chain(hand::token_lists()) {
        compare_lent(&lent, 50, counts)?;
    }
    Ok(())
}

fn compare_lent(lent: &Lent, more: usize, counts: &mut Counts) -> Result<(), String> {
    let outcome = judge(lent).map_err(|message| format!("{}\n{message}", shown(lent)))?;
    compare_outcome(lent, &bytes_of(&lent.tokens), &outcome, more, counts)
}

/// A text that the lexer takes, and in some cases a damaged token list.
fn any_lent(random: &mut Random) -> Lent {
    loop {
        let mut text = any_text(random);
        if random.once_in(4) {
            text = damage_text(random, &text);
        }
        let Some(mut lent) = lex(&text) else {
            continue;
        };
        if random.once_in(3) {
            damage_lent(random, &mut lent);
            while random.once_in(3) {
                damage_lent(random, &mut lent);
            }
        }
        return lent;
    }
}

/// Token bytes that end inside a record.
fn compare_cut(
    random: &mut Random,
    lent: &Lent,
    more: usize,
    counts: &mut Counts,
) -> Result<(), String> {
    let mut tokens = bytes_of(&lent.tokens);
    tokens.extend(vec![0x11; 1 + random.below(WIDTH - 1)]);
    let outcome = model::read(&tokens, &lent.text, lent.end);
    compare_outcome(lent, &tokens, &outcome, more, counts)
}

/// Calls the library with outputs of several sizes and compares every byte.
pub fn compare_outcome(
    lent: &Lent,
    tokens: &[u8],
    outcome: &Outcome,
    more: usize,
    counts: &mut Counts,
) -> Result<(), String> {
    let read = |out: &mut [u8]| library::read(tokens, &lent.text, lent.end, out);
    let compared = counts.compare(outcome, more, read);
    compared.map_err(|message| format!("{}\n{message}", shown(lent)))
}

/// The input, for a message.
fn shown(lent: &Lent) -> String {
    let text = String::from_utf8_lossy(&lent.text);
    let mut lines = format!(
        "text {:?}, {} tokens, end {}",
        text,
        lent.tokens.len(),
        lent.end
    );
    for words in lent.tokens.iter().take(400) {
        lines += &format!("\n  {words:016x?}");
    }
    lines
}
