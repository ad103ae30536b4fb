//! Hand-written cases for reading of text: the sentences of document 02, and texts spoilt at every
//! token and at the limits.

use crate::hand::*;
use crate::model::DEEPEST;
use crate::oracle::lex;
use crate::records::*;

/// What may spoil a text where it stands: bytes that the lexer refuses and bytes that it takes for
/// symbols, comments without an end, numbers that are none or too large, bytes that are not ASCII.
#[rustfmt::skip]
pub const SPOILING: &[&[u8]] = &[
    b"\x0c", b"\x0b", b"\x00", b"\x7f", b"(;", b"(; (; ;)", b"-", b"-x", b"- 1", b"0x", b"-0X", b"0b2",
    b"0o8", b"0x_", b"-_", b"12a", b"1_", b"340282366920938463463374607431768211456",
    b"-340282366920938463463374607431768211455", b"170141183460469231731687303715884105728",
    b"-170141183460469231731687303715884105728", b"-0x8000_0000_0000_0000_0000_0000_0000_0000",
    b"\x80", b"\xff", b"\xc3\xa9",
];

/// The sentences of 02 on reading of text: text, refusal and place. What is accepted has place 0.
#[rustfmt::skip]
pub const CASES: &[(&str, u8, u32)] = &[
    // 40 when the lexer refuses, at its position: in front of the first token already.
    ("\u{c}", 40, 0), (" \u{c}", 40, 1), ("(;", 40, 0), ("\n(; ;", 40, 1), ("(;(;;)", 40, 0), ("-", 40, 0),
    ("0x", 40, 0), ("-0b", 40, 0), ("0o8", 40, 0), ("1a", 40, 0), ("0x_", 40, 0), ("-_", 40, 0), ("- 1", 40, 0),
    ("340282366920938463463374607431768211456", 40, 0), ("-170141183460469231731687303715884105728", 40, 0),
    // What the lexer takes although it may surprise.
    ("(rule n -340282366920938463463374607431768211455 x y)", 0, 0), ("(rule n 0b1_ x y)", 0, 0),
    ("(decl f(;\u{c}(;-;)0x;)() T);-", 0, 0), ("(rule(A 5x)y)", 0, 0), ("\u{b}", 10, 0), ("\u{0}\u{c}", 10, 0),
    ("(decl a\u{b}b () T)", 15, 6), ("(rule (A x@y)z)", 0, 0), ("(attr a;b)\n)", 0, 0),
    // 41 at the byte, before everything else except 7 for the text.
    ("\u{80}", 41, 0), ("\u{c}\u{80}", 41, 1), (") - (; \u{ff}", 41, 7), ("(attr f);\u{e9}", 41, 9),
    // A kind is refused before the token is consumed, so before what stands behind it.
    (") \u{c}", 10, 0), ("5 \u{c}", 10, 0), ("(5 \u{c}", 10, 1), ("() \u{c}", 10, 1), ("(decl f 5 \u{c}", 10, 8),
    ("(decl f (5 \u{c}", 10, 9), ("(attr f) ) -", 10, 9), ("(rule @ \u{c}", 25, 6), ("(rule 5 ) \u{c}", 25, 8),
    ("(rule (A) @ \u{c}", 26, 10), ("(rule 5 x ) \u{c}", 26, 10), ("(pragma 5 \u{c}", 10, 8),
    // So are the words that are only tried for.
    ("(type T (foo \u{c}", 19, 8), ("(type T (5 \u{c}", 19, 8), ("(extern foo \u{c}", 22, 8),
    ("(extern ) \u{c}", 22, 8), ("(extern constructors \u{c}", 22, 8),
    // A word that is tried for and found is consumed, and what it stood behind too.
    ("(type T (\u{c}", 40, 9), ("(type T (enum \u{c}", 40, 14), ("(extern \u{c}", 40, 8), ("(extern const \u{c}", 40, 14),
    ("(decl pure \u{c}", 40, 11), ("(rule (and \u{c}", 40, 11), ("(rule (A) (if-let \u{c}", 40, 18),
    // A spelling or a value is checked after the token was consumed.
    ("(foo \u{c}", 40, 5), ("(foo x", 12, 1), ("(spec \u{c}", 40, 6), ("(spec x \u{c}", 27, 1), ("(instantiate -", 40, 13),
    ("(decl #a \u{c}", 40, 9), ("(decl #a x \u{c}", 14, 6), ("(decl a-b \u{c}", 40, 10), ("(decl a-b x \u{c}", 15, 6),
    ("(extern const c \u{c}", 40, 16), ("(extern const c x \u{c}", 16, 14), ("(pragma a \u{c}", 40, 10),
    ("(pragma a x \u{c}", 17, 8), ("(type T foo \u{c}", 40, 12), ("(type T foo x \u{c}", 18, 12),
    ("(attr f (foo \u{c}", 40, 13), ("(attr f (foo x \u{c}", 20, 9), ("(attr f (veri foo \u{c}", 40, 18),
    ("(attr f (veri foo x \u{c}", 21, 14), ("(rule 9223372036854775808 \u{c}", 40, 26),
    ("(rule 9223372036854775808 x \u{c}", 24, 6), ("(rule (A) a-b \u{c}", 40, 14), ("(rule (a-b \u{c}", 40, 11),
    // After a rule's name 40 becomes 23, at the name.
    ("(rule n \u{c}", 23, 6), ("(rule n\u{c}", 23, 6), ("(rule n (;", 23, 6), ("(rule n -", 23, 6), ("(rule n 0x", 23, 6),
    ("(rule a-b \u{c}", 23, 6), ("(rule a-b x \u{c}", 23, 6), ("(rule \u{b} -_", 23, 6), ("(rule _ 12a)", 23, 6),
    ("(rule n -170141183460469231731687303715884105728 x y)", 23, 6), ("(rule rule \u{c}", 23, 6),
    ("(attr f)\n (rule  n  \u{c}", 23, 17),
    // And only there.
    ("(rule \u{c}", 40, 6), ("(rule n 5 \u{c}", 40, 10), ("(rule 5 \u{c}", 40, 8), ("(rule n x \u{c}", 40, 10),
    ("(rule (rule n \u{c}", 40, 14), ("(rule (A) (rule n \u{c}", 40, 18), ("(decl f (rule n \u{c}", 40, 16),
    ("(attr rule n \u{c}", 40, 13), ("(extractor (rule n \u{c}", 40, 19), ("(rules n \u{c}", 12, 1),
    // A `$` alone for a constant is consumed before it is refused.
    ("(rule n $ \u{c}", 40, 10), ("(rule n $\u{c}", 40, 9), ("(rule n $ y \u{c}", 16, 8), ("(rule n $ -", 40, 10),
    ("(rule n $ (; y)", 40, 10), ("(rule n $(; y)", 40, 9), ("(rule n $) 0x", 16, 8), ("(rule n $ 12a", 40, 10),
    ("(rule n x $ \u{c}", 40, 12), ("(rule n x $\u{c})", 40, 11), ("(rule n x $) \u{c}", 16, 10),
    ("(rule n x $)\u{c}", 16, 10), ("(extern const $ \u{c}", 40, 16), ("(extern const $\u{c} T)", 40, 15),
    ("(extern const $ T \u{c}", 16, 14), ("(extractor (P) $ \u{c}", 40, 17), ("(extractor (P) $) \u{c}", 16, 15),
    ("(rule n $ $ \u{c}", 16, 8), ("(rule (A $ \u{c}", 40, 11), ("(rule (A x @ $ \u{c}", 40, 15),
    ("(rule n $- \u{c}", 40, 11), ("(rule n $- y \u{c}", 15, 8), ("(rule n $c \u{c}", 40, 11),
    // What stands before it comes before it, and a byte of 128 or more anywhere.
    ("(rule n \u{c} $", 23, 6), ("(rule n x \u{c} $", 40, 10), ("(rule $ \u{c}", 23, 6), ("(rule $ $ \u{c}", 40, 10),
    ("(rule ($ \u{c}", 40, 9), ("(spec) (rule n $ \u{c}", 27, 1), ("(rule n $ y) (spec) \u{c}", 16, 8),
    ("(rule n $ spec \u{c}", 16, 8), ("(rule n $ y)\u{80}", 41, 12),
];

/// The cases of a few bytes. A character of 128 or more stands for one byte.
pub fn short_cases() -> impl Iterator<Item = (Vec<u8>, u8, u32)> {
    let bytes = |text: &str| text.chars().map(|c| c as u8).collect();
    let cases = CASES.iter();
    cases
        .map(move |&(text, number, place)| (bytes(text), number, place))
        .chain(dollars().map(|(text, number, place)| (text.into_bytes(), number, place)))
}

/// The sentences on limits, with the texts that they need.
pub fn long_cases() -> Vec<(Vec<u8>, u8, u32)> {
    let mut cases = most_bytes();
    cases.extend(most_tokens());
    cases.extend(deepest());
    cases.extend(dollar_last());
    let bytes = |(text, number, place): Case| (text.into_bytes(), number, place as u32);
    cases.into_iter().map(bytes).collect()
}

type Case = (String, u8, usize);

/// 7 for the text before 41, 41 before 40; an accepted text as long as may be. The bytes of 128 or
/// more are two for each character.
#[rustfmt::skip]
fn most_bytes() -> Vec<Case> {
    let blanks = |count: usize| " ".repeat(count);
    vec![
        (blanks(MAX_TEXT), 0, 0),
        (blanks(MAX_TEXT + 1), 7, 0),
        (blanks(MAX_TEXT - 2) + "\u{80}", 41, MAX_TEXT - 2),
        (blanks(MAX_TEXT - 1) + "\u{80}", 7, 0),
        ("\u{c}".to_string() + &blanks(MAX_TEXT - 3) + "\u{80}", 41, MAX_TEXT - 2),
        ("\u{c}".to_string() + &blanks(MAX_TEXT), 7, 0),
        (blanks(MAX_TEXT - 1) + "\u{c}", 40, MAX_TEXT - 1),
        (")".to_string() + &blanks(MAX_TEXT), 7, 0),
    ]
}

/// 7 when the token after the most becomes the lookahead, and not before.
#[rustfmt::skip]
fn most_tokens() -> Vec<Case> {
    let most = MAX_TOKENS;
    vec![
        (after(most, ""), 0, 0),
        (after(most, " "), 0, 0),
        (after(most, "x"), 7, 0),
        (after(most, ")"), 7, 0),
        (after(most, "x \u{c}"), 7, 0),
        (after(most, "\u{c}"), 40, start(most)),
        (after(most, "- x"), 40, start(most)),
        (after(most - 1, ") x"), 10, start(most - 1)),
        (after(most - 1, "( x"), 7, 0),
        (after(most - 2, "(foo x"), 7, 0),
        (after(most - 2, "(foo"), 12, start(most - 2) + 1),
        (after(most - 2, "(foo \u{c}"), 40, start(most - 2) + 5),
        (after(most - 3, "(extern foo x"), 22, start(most - 3) + 8),
        (after(most - 3, "(extern foo \u{c}"), 22, start(most - 3) + 8),
        (after(most - 2, "(extern foo"), 7, 0),
        (after(most - 3, "(rule n x"), 7, 0),
        (after(most - 3, "(rule a-b x"), 7, 0),
        (after(most - 3, "(rule n \u{c}"), 23, start(most - 3) + 6),
        (after(most - 4, "(rule a-b x y"), 23, start(most - 4) + 6),
        (after(most - 3, "(rule 5 x"), 7, 0),
    ]
}

/// 8 before the token of depth 65 is looked at, unless the lexer refuses it or it is one too many.
fn deepest() -> Vec<Case> {
    let terms = "(A ".repeat(DEEPEST);
    let inside = "(rule ".len() + terms.len();
    let before = MAX_TOKENS - 2 - 2 * DEEPEST;
    vec![
        (format!("(rule {terms}"), 8, inside),
        (format!("(rule {terms}@"), 8, inside),
        (format!("(rule {terms}\u{c}"), 40, inside),
        (format!("(rule {terms}x \u{c}"), 8, inside),
        (
            after(before, &format!("(rule {terms}")),
            8,
            start(before) + inside,
        ),
        (after(before, &format!("(rule {terms}x")), 7, 0),
        (
            after(before, &format!("(rule {terms}\u{c}")),
            40,
            start(before) + inside,
        ),
        (
            after(before - 1, &format!("(rule {terms}x")),
            8,
            start(before - 1) + inside,
        ),
    ]
}

/// A `$` alone for a constant about the last token that may be: 7 if the one behind it is too many.
#[rustfmt::skip]
fn dollar_last() -> Vec<Case> {
    let most = MAX_TOKENS;
    vec![
        (after(most - 4, "(rule 5 $ x"), 7, 0),
        (after(most - 4, "(rule 5 $"), 16, start(most - 4) + 8),
        (after(most - 4, "(rule 5 $ \u{c}"), 40, start(most - 4) + 10),
        (after(most - 5, "(rule 5 $ x"), 16, start(most - 5) + 8),
        (after(most - 5, "(rule 5 $ x y"), 16, start(most - 5) + 8),
        (after(most - 5, "(rule 5 x $ y"), 7, 0),
        (after(most - 6, "(rule 5 x $ y"), 16, start(most - 6) + 10),
        (after(most - 4, "(extern const $ T"), 7, 0),
        (after(most - 5, "(extern const $ T)"), 16, start(most - 5) + 14),
    ]
}

/// An accepted text of so many tokens, at least seven.
pub fn filler(tokens: usize) -> String {
    let variants = tokens - "( type E ( enum ) )".split(' ').count();
    let (three, one) = ("(A)".repeat(variants / 3), " A".repeat(variants % 3));
    format!("(type E (enum{three}{one}))")
}

/// More text behind an accepted one of so many tokens.
fn after(tokens: usize, tail: &str) -> String {
    filler(tokens) + tail
}

/// Where that text starts.
fn start(tokens: usize) -> usize {
    filler(tokens).len()
}

/// Each hand-written text with each spoiling piece put before its first token, and behind each of
/// its tokens in turn: whole, and cut off after the piece.
pub fn spoilt_everywhere() -> impl Iterator<Item = Vec<u8>> {
    let taken = |text: &&&str| lex(text).is_some();
    let texts = WHOLE.iter().chain(POINTS).filter(taken);
    texts.flat_map(|text| {
        let each = |piece: &&[u8]| put_behind_each(&pieces_of(text), piece);
        SPOILING.iter().flat_map(each).collect::<Vec<_>>()
    })
}

/// The piece before the first and behind each of the others, apart from its neighbours or not.
pub fn put_behind_each(pieces: &[&str], piece: &[u8]) -> Vec<Vec<u8>> {
    let put = |i: usize| {
        let before = pieces[..i].join(" ").into_bytes();
        let after = pieces[i..].join(" ").into_bytes();
        [
            [&before[..], b" ", piece, b" ", &after].concat(),
            [&before[..], piece, &after].concat(),
            [&before[..], b" ", piece].concat(),
        ]
    };
    (0..=pieces.len()).flat_map(put).collect()
}

/// Each whole text with a token replaced, and a byte that the lexer refuses before it, behind it,
/// and behind the next one.
pub fn damaged_and_spoilt() -> impl Iterator<Item = Vec<u8>> {
    WHOLE.iter().flat_map(|text| {
        let pieces = pieces_of(text);
        let each = |i: usize| replaced_and_spoilt(&pieces, i);
        (0..pieces.len()).flat_map(each).collect::<Vec<_>>()
    })
}

fn replaced_and_spoilt(pieces: &[&str], i: usize) -> Vec<Vec<u8>> {
    #[rustfmt::skip]
    let others = [
        "", "(", ")", "x", "5", "@", "a-b", "#a", "$", "spec", "9223372036854775808",
    ];
    let with = |other: &&'static str| {
        let mut damaged = pieces.to_vec();
        damaged[i] = other;
        let spoilt = |at: usize, piece: &'static str| {
            let mut list = damaged.clone();
            list.insert(at.min(list.len()), piece);
            list.join(" ").into_bytes()
        };
        [i, i + 1, i + 2]
            .map(|at| [spoilt(at, "\u{c}"), spoilt(at, "-")])
            .concat()
    };
    others.iter().flat_map(with).collect()
}

/// Each hand-written text with a `$` alone in the place of each of its tokens: whole, and cut off
/// after it.
pub fn dollar_everywhere() -> impl Iterator<Item = Vec<u8>> {
    let taken = |text: &&&str| lex(text).is_some();
    let texts = WHOLE.iter().chain(POINTS).filter(taken);
    texts.flat_map(|text| {
        let pieces = pieces_of(text);
        let each = |i: usize| {
            let mut list = pieces.clone();
            list[i] = "$";
            [list.join(" "), list[..=i].join(" ")].map(String::into_bytes)
        };
        (0..pieces.len()).flat_map(each).collect::<Vec<_>>()
    })
}

/// Every text of so many bytes from the front of a hand-written one.
pub fn cut_everywhere() -> impl Iterator<Item = Vec<u8>> {
    let texts = WHOLE.iter().chain(POINTS);
    texts.flat_map(|text| (0..=text.len()).map(|length| text.as_bytes()[..length].to_vec()))
}

/// Texts about as deep as may be, with a byte that the lexer refuses behind each token.
pub fn deep_and_spoilt() -> impl Iterator<Item = Vec<u8>> {
    let texts = [DEEPEST, DEEPEST + 1].into_iter().flat_map(deep_texts);
    let dollars = deep_dollars().into_iter().map(|(text, ..)| text);
    let taken = texts.chain(dollars).filter(|text| lex(text).is_some());
    taken.flat_map(|text| put_behind_each(&pieces_of(&text), b"\x0c"))
}

/// Each whole text, and some with a `$` alone, at the end of a text so long that the most tokens end
/// at each of its tokens; and with a byte that the lexer refuses about there.
pub fn about_most_tokens() -> impl Iterator<Item = Vec<u8>> {
    let dollars = [EMPTY_CONSTANTS, "(extern const $ T)", "(extractor (P) $)"];
    WHOLE.iter().copied().chain(dollars).flat_map(|text| {
        let pieces = pieces_of(text);
        let each = |within: usize| ends_within(&pieces, within);
        (0..=pieces.len() + 1).flat_map(each).collect::<Vec<_>>()
    })
}

fn ends_within(pieces: &[&str], within: usize) -> Vec<Vec<u8>> {
    let before = filler(MAX_TOKENS - within);
    let whole = [before.as_bytes(), pieces.join(" ").as_bytes()].concat();
    let mut texts = vec![whole];
    for at in within.saturating_sub(1)..=(within + 1).min(pieces.len()) {
        let mut list = pieces.to_vec();
        list.insert(at, "\u{c}");
        texts.push([before.as_bytes(), list.join(" ").as_bytes()].concat());
    }
    texts
}

/// Accepted texts about as long as the smaller tables have space for, and with a byte that the lexer
/// refuses at the end.
pub fn about_small_texts() -> impl Iterator<Item = Vec<u8>> {
    let tokens = SMALL_TEXTS
        .into_iter()
        .flat_map(|most| most - 12..=most + 1);
    tokens.flat_map(|count| [filler(count), filler(count) + "\u{c}"].map(String::into_bytes))
}

/// Texts about as long as may be, or as a smaller table has space for: blanks, a name, comments, as
/// many tokens as bytes, with what is refused at either end.
pub fn about_most_bytes() -> impl Iterator<Item = Vec<u8>> {
    let fillings: [(&str, &str, &str); 8] = [
        ("", " ", ""),
        ("(", "(", ""),
        ("(attr f)", "\n", ""),
        ("(attr ", "n", ")"),
        ("(pragma ", "n", ")"),
        ("(attr f) ;", "c", "\n"),
        ("(;", "c", ";)(attr f)"),
        ("(rule n (;", "c", ""),
    ];
    let limits = SMALL_TEXTS.into_iter().chain([MAX_TEXT]);
    let lengths: Vec<usize> = limits.flat_map(|most| [most - 1, most, most + 1]).collect();
    fillings.into_iter().flat_map(move |filling| {
        let each = |length: usize| spoilt_ends(&filled(filling, length));
        lengths.iter().copied().flat_map(each).collect::<Vec<_>>()
    })
}

fn filled((before, item, after): (&str, &str, &str), length: usize) -> Vec<u8> {
    let times = length - before.len() - after.len();
    [before, &item.repeat(times), after].concat().into_bytes()
}

/// The text, and with other bytes in the place of its first and of its last.
fn spoilt_ends(text: &[u8]) -> Vec<Vec<u8>> {
    let mut texts = vec![text.to_vec()];
    for byte in [b')', 0x0c, 0x7f, 0x80] {
        for i in [0, text.len() - 1] {
            let mut other = text.to_vec();
            other[i] = byte;
            texts.push(other);
        }
    }
    texts
}
