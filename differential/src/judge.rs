//! The answer for a lent input: the model's, held against the crate's wherever it has one.

use crate::model;
use crate::oracle::{self, Lent};
use crate::records::*;

/// The outcome of reading, or a description of a disagreement of crate and model.
pub fn judge(lent: &Lent) -> Result<Outcome, String> {
    let tokens = bytes_of(&lent.tokens);
    let read = |rules| model::read_by(&tokens, &lent.text, lent.end, rules);
    let outcome = read(model::RULES);
    let lone_dollar = model::lone_dollar(&tokens, &lent.text, lent.end);
    match (number_of(&outcome), lone_dollar) {
        (2 | 7, _) => return Ok(outcome),
        (8, _) | (_, Some(_)) => compare(lent, &read(model::AS_THE_CRATE))?,
        _ => compare(lent, &outcome)?,
    }
    let taken = model::taken(&tokens, &lent.text, lent.end);
    compare_dollars(lent, taken, lone_dollar)?;
    Ok(outcome)
}

pub fn number_of(outcome: &Outcome) -> u8 {
    outcome.as_ref().err().map_or(0, |refusal| refusal.number)
}

/// Holds an outcome of the model against the crate, read by the crate's rules where it was refused by
/// one that the crate has not got.
fn compare(lent: &Lent, outcome: &Outcome) -> Result<(), String> {
    match outcome {
        Err(Refusal { number: 27, place }) => compare_before(lent, *place),
        _ => {
            if let Some(of_crate) = oracle::read_tokens(lent) {
                same(&of_crate, outcome)?;
            }
            match text_of(lent) {
                Some(text) => same(&oracle::read_text(text), outcome),
                None => Ok(()),
            }
        }
    }
}

/// A word that is not covered: the crate accepts what stands before its definition.
fn compare_before(lent: &Lent, place: u32) -> Result<(), String> {
    let positions: Vec<u32> = lent.tokens.iter().map(|words| lower(words[0])).collect();
    let accepted_before = |word: usize| {
        let before = Lent {
            tokens: lent.tokens[..word - 1].to_vec(),
            ..lent.clone()
        };
        !matches!(oracle::read_tokens(&before), Some(Err(_)))
    };
    let found = (1..positions.len()).any(|i| positions[i] == place && accepted_before(i));
    match found {
        true => Ok(()),
        false => Err("27 where the crate refuses what stands before".to_string()),
    }
}

/// A `$` alone: the crate reads a constant there if that is refused, and none at those before it.
fn compare_dollars(lent: &Lent, taken: usize, refused: Option<usize>) -> Result<(), String> {
    let is_dollar = |&i: &usize| oracle::symbol_text(lent, lent.tokens[i]) == Some("$");
    let is_symbol = |&i: &usize| lent.tokens[i][0] >> 60 == SYMBOL as u64;
    let mut before = (0..taken).filter(is_symbol).filter(is_dollar);
    if let Some(i) = before.find(|&i| reads_constant(lent, i)) {
        return Err(format!("the crate reads a constant at token {i}"));
    }
    match refused {
        Some(i) if !reads_constant(lent, i) => {
            Err(format!("the crate reads no constant at token {i}"))
        }
        _ => Ok(()),
    }
}

/// Whether the crate reads a constant at an index. It reads a name there, since it looks at the
/// spelling of another; and an integer will do as well, or only a constant's name.
fn reads_constant(lent: &Lent, index: usize) -> bool {
    let refused = |number: u8| {
        let place = index as u32;
        Some(Err(Refusal { number, place }))
    };
    let takes_integer = || match read_integer(lent, index) {
        Some(Err(refusal)) => refusal.place as usize > index,
        other => other.is_some(),
    };
    read_symbol(lent, index, "$-") == refused(15)
        && (takes_integer() || read_symbol(lent, index, "x") == refused(16))
}

/// The crate's reading of the tokens before an index, and a symbol after them.
fn read_symbol(lent: &Lent, index: usize, name: &str) -> Option<Outcome> {
    let mut before = tokens_before(lent, index);
    let start = before.text.len() as u32;
    before.text.extend(name.bytes());
    let symbol = symbol_token(index as u32, start, name.len() as u32);
    before.tokens.push(symbol);
    oracle::read_tokens(&before)
}

/// The same with an integer after them.
fn read_integer(lent: &Lent, index: usize) -> Option<Outcome> {
    let mut before = tokens_before(lent, index);
    before.tokens.push(integer_token(index as u32, 0));
    oracle::read_tokens(&before)
}

/// The tokens before an index, and space for one more. Each position is the token's index, so that a
/// place tells the token: the positions that were lent need not differ.
fn tokens_before(lent: &Lent, index: usize) -> Lent {
    let mut tokens = lent.tokens[..index].to_vec();
    for (i, words) in tokens.iter_mut().enumerate() {
        words[0] = words[0] >> 32 << 32 | i as u64;
    }
    Lent {
        tokens,
        text: lent.text.clone(),
        end: index as u32 + 1,
    }
}

/// The text, if the lent tokens are exactly those that the lexer makes of it.
fn text_of(lent: &Lent) -> Option<&str> {
    let text = std::str::from_utf8(&lent.text).ok()?;
    let again = oracle::lex(text)?;
    (again.tokens == lent.tokens && again.end == lent.end).then_some(text)
}

fn same(of_crate: &Outcome, of_model: &Outcome) -> Result<(), String> {
    match of_crate == of_model {
        true => Ok(()),
        false => Err(format!("crate: {of_crate:?}\nmodel: {of_model:?}")),
    }
}
