//! Changes of the pieces of a text, of its characters and of token lists.

use crate::generate::{Random, any_piece};
use crate::oracle::Lent;
use crate::records::*;

/// One change of a list of pieces, which must not be empty.
pub fn damage_pieces(random: &mut Random, list: &mut Vec<String>) {
    let i = random.below(list.len());
    let after = (i + 1) % list.len();
    match random.below(7) {
        0 => drop(list.remove(i)),
        1 => list.insert(i, list[i].clone()),
        2 => list.swap(i, after),
        3 => list.truncate(i),
        4 => list.insert(i, any_piece(random)),
        _ => list[i] = any_piece(random),
    }
}

/// A change of one character of a text.
pub fn damage_text(random: &mut Random, text: &str) -> String {
    let mut bytes = text.as_bytes().to_vec();
    let some = b"()@$_;.-#0a \n\x0b\x0c\x00~";
    let byte = some[random.below(some.len())];
    let i = random.below(bytes.len() + 1);
    match random.below(3) {
        0 => bytes.insert(i, byte),
        1 if i < bytes.len() => drop(bytes.remove(i)),
        _ if i < bytes.len() => bytes[i] = byte,
        _ => bytes.push(byte),
    }
    String::from_utf8(bytes).expect("ASCII")
}

/// One change of a lent token list that the lexer need not have made.
pub fn damage_lent(random: &mut Random, lent: &mut Lent) {
    if lent.tokens.is_empty() {
        let any = [random.next(), random.next(), random.next()];
        return lent.tokens.push(any);
    }
    let count = lent.tokens.len();
    let i = random.below(count);
    match random.below(12) {
        0 => drop(lent.tokens.remove(i)),
        1 => lent.tokens.insert(i, lent.tokens[i]),
        2 => lent.tokens.swap(i, random.below(count)),
        3 => damage_text_byte(random, lent),
        4 => lent.end = (lent.end as usize).saturating_sub(random.below(4)) as u32,
        5 => lent.end = lent.end.saturating_add(random.next() as u32),
        _ => damage_token(random, lent, i),
    }
}

fn damage_text_byte(random: &mut Random, lent: &mut Lent) {
    if !lent.text.is_empty() {
        let i = random.below(lent.text.len());
        lent.text[i] = random.next() as u8;
    }
}

fn damage_token(random: &mut Random, lent: &mut Lent, i: usize) {
    let length = lent.text.len() as u32;
    let words = &mut lent.tokens[i];
    match random.below(10) {
        0 => words[0] ^= 1 << random.below(64),
        1 => words[1] ^= 1 << random.below(64),
        2 => words[2] ^= 1 << random.below(64),
        3 => words[0] = words[0] << 4 >> 4 | (random.next() & 15) << 60,
        4 => words[0] = words[0] >> 32 << 32 | (lent.end as u64 + random.below(2) as u64),
        5 => words[0] = words[0] >> 32 << 32 | random.below(lent.end as usize + 1) as u64,
        6 => words[1] = pair(upper(words[1]), length.wrapping_sub(upper(words[1]))),
        7 => {
            words[1] = pair(
                upper(words[1]),
                length.wrapping_sub(upper(words[1])).wrapping_add(1),
            )
        }
        8 => {
            words[1] = pair(
                random.below(length as usize + 2) as u32,
                random.below(4) as u32,
            )
        }
        _ => *words = symbol_token(lower(words[0]), upper(words[1]), random.below(2) as u32),
    }
}
