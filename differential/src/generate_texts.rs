//! Random texts as bytes: definitions with blanks, comments and numbers of every spelling, and with
//! damage that the lexer refuses or does not.

use crate::damage::damage_pieces;
use crate::generate::*;
use crate::hand_texts::SPOILING;

#[rustfmt::skip]
const GAPS: &[&str] = &[
    "\n", "\r", "\t", "\r\n", "  ", " \t\n", ";\n", ";c\r", ";(\n", "; (; )\n", ";;)\r\n", "(;;)",
    "(; ) ( @ 5 ;)", " (;(;;);) ", "(;(;;)(;(;;);););)", "(;;(;;););)", "(;);)", "(;\n;\n;)", "(;;;)",
];

/// White space and comments; nothing in most cases where nothing is needed.
fn gap(random: &mut Random, needed: bool) -> &'static str {
    match random.below(60) {
        0..=5 => random.pick(GAPS),
        6..=10 => " ",
        11 => "",
        _ if needed => " ",
        _ => "",
    }
}

/// A random text.
pub fn any_bytes(random: &mut Random) -> Vec<u8> {
    let pieces = any_pieces(random);
    let mut text = joined(random, &pieces);
    while random.once_in(4) {
        damage_bytes(random, &mut text);
    }
    if random.once_in(12) {
        text.truncate(random.below(text.len() + 1));
    }
    text
}

/// The pieces of one to three definitions, or of a deep one, in many cases damaged.
fn any_pieces(random: &mut Random) -> Vec<Vec<u8>> {
    let mut list = any_definitions(random);
    list.iter_mut().for_each(|piece| respell(random, piece));
    while random.once_in(4) && !list.is_empty() {
        damage_pieces(random, &mut list);
    }
    let mut pieces: Vec<Vec<u8>> = list.into_iter().map(String::into_bytes).collect();
    while random.once_in(3) {
        let i = random.below(pieces.len() + 1);
        let spoiling = SPOILING[random.below(SPOILING.len())];
        pieces.insert(i, spoiling.to_vec());
    }
    pieces
}

/// Another number in the place of one.
fn respell(random: &mut Random, piece: &mut String) {
    let is_number = piece.starts_with(|c: char| c.is_ascii_digit() || c == '-');
    if is_number && random.once_in(2) {
        *piece = any_number(random);
    }
}

fn joined(random: &mut Random, list: &[Vec<u8>]) -> Vec<u8> {
    let is_mark = |piece: &[u8]| [b"(", b")", b"@"].iter().any(|mark| piece == *mark);
    let mut text = Vec::new();
    for (i, piece) in list.iter().enumerate() {
        let apart = i > 0 && !is_mark(&list[i - 1]) && !is_mark(piece);
        text.extend(gap(random, apart).bytes());
        text.extend(piece);
    }
    text.extend(gap(random, false).bytes());
    text
}

/// A change of one byte, or two neighbours exchanged.
fn damage_bytes(random: &mut Random, text: &mut Vec<u8>) {
    let some = b"()@$_;.-#0aAxz9 \n\r\t\x0b\x0c\x00\x7f";
    let byte = match random.once_in(12) {
        true => random.next() as u8,
        false => some[random.below(some.len())],
    };
    let i = random.below(text.len() + 1);
    match random.below(4) {
        0 => text.insert(i, byte),
        1 if i < text.len() => drop(text.remove(i)),
        2 if i + 1 < text.len() => text.swap(i, i + 1),
        _ if i < text.len() => text[i] = byte,
        _ => text.push(byte),
    }
}

/// A number in some radix about as large as one of the limits, or not at all a number.
pub fn any_number(random: &mut Random) -> String {
    let (prefix, radix) = [
        ("", 10),
        ("", 10),
        ("0x", 16),
        ("0X", 16),
        ("0o", 8),
        ("0O", 8),
        ("0b", 2),
        ("0B", 2),
    ][random.below(8)];
    let mut digits = any_digits(random, radix);
    if random.once_in(4) {
        digits = "0".repeat(1 + random.below(4)) + &digits;
    }
    while random.once_in(4) {
        digits.insert(random.below(digits.len() + 1), '_');
    }
    if random.once_in(16) {
        let wrong = random.pick(&["a", "F", "g", "2", "8", "9", ".", "-", "+", "x"]);
        digits.insert_str(random.below(digits.len() + 1), wrong);
    }
    let sign = if random.once_in(2) { "-" } else { "" };
    format!("{sign}{prefix}{digits}")
}

fn any_digits(random: &mut Random, radix: u32) -> String {
    let off = random.below(5) as u128;
    let value = match random.below(12) {
        0 => off,
        1 => (1 << 63) - 2 + off,
        2..=3 => (1 << 64) - 2 + off,
        4..=6 => (1 << 127) - 2 + off,
        7..=8 => u128::MAX - off,
        9 => return one_above(radix, off as u32 % 2),
        10 => return String::new(),
        _ => (random.next() as u128) << 64 | random.next() as u128,
    };
    let digits = written(value >> random.below(2), radix);
    match random.once_in(2) {
        true => digits.to_uppercase(),
        false => digits,
    }
}

/// 2 to the 128th, or one more.
fn one_above(radix: u32, last: u32) -> String {
    match radix {
        16 => format!("1{}{last}", "0".repeat(31)),
        8 => format!("4{}{last}", "0".repeat(41)),
        2 => format!("1{}{last}", "0".repeat(127)),
        _ => format!("34028236692093846346337460743176821145{}", 6 + last),
    }
}

fn written(value: u128, radix: u32) -> String {
    match radix {
        16 => format!("{value:x}"),
        8 => format!("{value:o}"),
        2 => format!("{value:b}"),
        _ => value.to_string(),
    }
}
