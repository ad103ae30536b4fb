//! Hand-written cases: the examples of 01, its grammar points, limits, depth, bad tokens, and
//! constants that are a `$` alone.

use crate::model::DEEPEST;
use crate::oracle::{Lent, lex};
use crate::records::*;

/// The examples of 01 for reading: text, refusal, place, count (0 where 01 gives none).
pub const EXAMPLES: &[(&str, u8, u32, usize)] = &[
    ("", 0, 0, 0),
    ("(rule (A x) y)", 0, 0, 7),
    ("(rule 5 x)", 26, 9, 0),
    ("(rule", 25, 5, 0),
    ("(type T foo (enum))", 18, 12, 0),
    ("(type T (foo))", 19, 8, 0),
    ("(decl multi pure () T)", 0, 0, 3),
    ("(decl pure () T)", 10, 11, 0),
    ("(rule r 9223372036854775808 x y)", 24, 6, 0),
    ("(rule r 9223372036854775807 x y)", 0, 0, 7),
    ("(extern const c T)", 16, 14, 0),
    ("(pragma a)", 17, 8, 0),
    ("(spec", 27, 1, 0),
    ("(rule x _ _)", 0, 0, 5),
];

/// A rule with constants about as short as may be.
pub const NAMED_CONSTANTS: &str = "(rule (A) (if x) (if-let true 5) (if-let $c $$) true)";
/// The same with empty names, which reading refuses, but which lists that are lent may have.
pub const EMPTY_CONSTANTS: &str = "(rule (A) (if x) (if-let true 5) (if-let $ $) true)";

/// One whole text or more for each definition form. Each is damaged at every token.
pub const WHOLE: &[&str] = &[
    "(type T (primitive u8))",
    "(type T extern (enum A (B) (C x T) (D (f T) (g U))))",
    "(type S nodebug extern nodebug (struct))",
    "(type S (struct (a T) (b U)))",
    "(type S (struct T U V))",
    "(type E (enum))",
    "(decl f () T)",
    "(decl pure multi partial rec f (T U) V)",
    "(decl multi rec f (T) U)",
    "(attr f)",
    "(attr rule r (veri chain) (veri priority) (tag t))",
    "(attr f (tag a) (tag b))",
    "(rule (A x) y)",
    "(rule r 5 (A x) (B y))",
    "(rule r (A) z)",
    "(rule -3 (A) z)",
    "(rule (A x y @ (B _ true) $c -7) (if-let z (f x)) (if (g)) (let ((v T (h x))) (k v false $d 0x10)))",
    "(rule (and a (and) _ false) (let () x))",
    "(rule a x y)",
    "(rule r x @ y z)",
    NAMED_CONSTANTS,
    "(extractor (P) _)",
    "(extractor (P x y) (A x @ _ y))",
    "(extractor (P x) (and x x))",
    "(extern constructor f g)",
    "(extern extractor f g)",
    "(extern extractor infallible f g)",
    "(extern const $c T)",
    "(convert A B f)",
];

/// Texts for single grammar points, limits and refusals.
#[rustfmt::skip]
pub const POINTS: &[&str] = &[
    " ", "\n", "; only a comment", "(; a block ;)", "(", ")", "@", "x", "5", "()", "(()", "(5)", "(@)",
    "(rule)", "(rule ", "(rule\n", "(type)", "(decl)", "(attr)", "(extractor)", "(extern)", "(convert)",
    "(pragma)", "(pragma", "(pragma 5)", "(pragma $)", "(pragma a-b)", "(pragma #a)", "(pragma _)",
    "(spec)", "(macro (a) b)", "(state", "(model T (type Int))", "(form", "(instantiate f g)",
    "(decl f () T) (spec (f) (provide true))", "(decl f () T) (specs)", "(decl f () T))",
    "(decl f () T) x", "(decl f () T) (", "(decl f () T)(decl g (A) B)(convert A B f)",
    "(types T (enum))", "(Type T (enum))", "(typ", "(Rule x y)",
    // Words that are tested first are never names there.
    "(decl pure pure () T)", "(decl multi () T)", "(decl rec rec () T)", "(decl partial multi () T)",
    "(decl rec pure () T)", "(decl pure multi multi () T)", "(decl f (pure multi) rec)",
    "(attr rule)", "(attr rule rule)", "(attr rule rule (tag rule))", "(attr rules)",
    "(extern extractor infallible f)", "(extern extractor infallible infallible f)",
    "(extern constructor constructor extractor)", "(extern constructor infallible f)",
    "(extern const const T)", "(extern $c T)", "(extern", "(extern const", "(extern x y z)",
    "(type extern (enum))", "(type extern extern (enum))", "(type primitive (primitive primitive))",
    "(type enum (enum enum struct (struct struct)))", "(type T (struct struct))",
    "(type T nodebug", "(type T extern foo", "(type T foo", "(type T foo bar)", "(type T ())",
    "(type T (enum (A (f))))", "(type T (enum (A f (g T))))", "(type T (enum (A (f T) g)))",
    "(type T (enum ()))", "(type T (primitive))", "(type T (primitive a b))", "(type T (5))", "(type T 5)",
    // Rules: the first symbol is the name, the next integer the priority.
    "(rule x y)", "(rule x @ y z)", "(rule x y z w)", "(rule x 1 2 3)", "(rule 1 2 3)", "(rule 1 2)", "(rule 1)",
    "(rule _ x y)", "(rule true x y)", "(rule $ x y)", "(rule $c x y)", "(rule if x y)",
    "(rule a-b x y)", "(rule #x y z)", "(rule a b-c d)", "(rule a #b c)", "(rule a b c-d)",
    "(rule a b #c)", "(rule and _ _)", "(rule (and and) and)", "(rule (and) let)", "(rule (let) let)",
    "(rule (A) (let))", "(rule (A) (let ()))", "(rule (A) (let (()) x))", "(rule (A) (let ((a)) x))",
    "(rule (A) (let ((a T)) x))", "(rule (A) (let ((let let (let () let))) let))",
    "(rule (A) (if))", "(rule (A) (if x))", "(rule (A) (if-let))", "(rule (A) (if-let x))",
    "(rule (A) (if-let x y))", "(rule (A) (if x y) z)", "(rule (A) (if-let x y z) w)",
    "(rule (A) (B (if x)) )", "(rule (A) (B (if-let x y)))", "(rule (if x) y)", "(rule (A) (iff x))",
    "(rule (A) (and x))", "(rule (true) (false))", "(rule (_) (_))", "(rule ($c) ($d))", "(rule (5) x)",
    "(rule () x)", "(rule (A) ())", "(rule (A) (5))", "(rule (A) ((B)))", "(rule ((A)) x)", "(rule @ x)",
    "(rule (A) @)", "(rule (A x @) y)", "(rule (A _ @ x) y)", "(rule (A true @ x) y)",
    "(rule (A $c @ x) y)", "(rule (A 5 @ x) y)", "(rule (A x @ y @ z) w)", "(rule (A x@y@_) w)",
    "(rule (A @ x) y)", "(rule (A) x @ y)", "(rule (A) x y)",
    // Identifiers.
    "(decl a_b.c$d1 (_ $ $.) __)", "(decl .a () T)", "(decl a.b-c () T)", "(decl a () -)",
    "(decl a' () T)", "(decl _ (_) _)", "(decl $ ($) $)", "(decl a\u{b} () T)", "(decl \u{b}a () T)",
    "(decl a () T\u{7f})", "(extern const $-c T)", "(extern const $c-d T)", "(extern const $ T)",
    "(extern const $$ T)", EMPTY_CONSTANTS,
];

/// A `$` alone is refused where a constant stands, and there only: text, refusal and place. What is
/// accepted has place 0.
#[rustfmt::skip]
const DOLLARS: &[(&str, u8, u32)] = &[
    // The three places of a constant, with a name and without.
    ("(rule n $ y)", 16, 8), ("(rule n x $)", 16, 10), ("(extern const $ T)", 16, 14),
    ("(rule n $a y)", 0, 0), ("(rule n x $a)", 0, 0), ("(extern const $a T)", 0, 0), ("(rule n $$ y)", 0, 0),
    ("(rule n x $$)", 0, 0), ("(extern const $$ T)", 0, 0), ("(rule n $. $0)", 0, 0),
    ("(extern const $_ T)", 0, 0),
    // As a name it is fine.
    ("(rule $ x y)", 0, 0), ("(rule ($ x) y)", 0, 0), ("(rule (A x) ($ y))", 0, 0), ("(rule ($) ($))", 0, 0),
    ("(rule (A) (let (($ $ y)) z))", 0, 0), ("(extractor ($ $) $a)", 0, 0),
    ("(extern constructor $ $)", 0, 0), ("(extern extractor $ $)", 0, 0),
    ("(extern extractor infallible $ $)", 0, 0), ("(extern const $c $)", 0, 0), ("(decl $ ($) $)", 0, 0),
    ("(type $ (primitive $))", 0, 0), ("(type $ (enum $ ($ $) ($ ($ $))))", 0, 0),
    ("(type $ (struct $))", 0, 0), ("(attr $ (tag $))", 0, 0), ("(attr rule $)", 0, 0),
    ("(convert $ $ $)", 0, 0), ("(pragma $)", 17, 8), ("(type T $ (enum))", 18, 10), ("(type T ($))", 19, 8),
    ("(attr f ($))", 20, 9), ("(attr f (veri $))", 21, 14), ("(extern $ T)", 22, 8), ("($ x)", 12, 1),
    ("$", 10, 0), ("$)", 10, 0), ("(decl f $ T)", 10, 8),
    // Inside patterns and expressions, the first of several.
    ("(rule $ $ y)", 16, 8), ("(rule $ $ $)", 16, 8), ("(rule n 5 $ y)", 16, 10), ("(rule 5 $ y)", 16, 8),
    ("(rule 5$ y)", 16, 7), ("(rule (A $) y)", 16, 9), ("(rule (A $ $) $)", 16, 9), ("(rule ($ $) y)", 16, 9),
    ("(rule (A x $) y)", 16, 11), ("(rule (and $) y)", 16, 11), ("(rule (A (B $)) y)", 16, 12),
    ("(rule n x @ $ y)", 16, 12), ("(rule n x@$ y)", 16, 10), ("(rule (A $ @ x) y)", 16, 9),
    ("(rule (A $@x) y)", 16, 9), ("(rule (A $c @ x) y)", 25, 12), ("(rule $ @ x y)", 25, 8),
    ("(rule (A) (if $) y)", 16, 14), ("(rule (A) (if-let $ y) z)", 16, 18),
    ("(rule (A) (if-let x $) z)", 16, 20), (EMPTY_CONSTANTS, 16, 41), (NAMED_CONSTANTS, 0, 0),
    ("(rule (A) (B $))", 16, 13), ("(rule (A) ($ $))", 16, 13), ("(rule (A) (let ((x T $)) x))", 16, 21),
    ("(rule (A) (let (($ $ $)) x))", 16, 21), ("(rule (A) (let () $))", 16, 18),
    ("(rule (A) (let ((x T y)) $))", 16, 25), ("(extractor (P) $)", 16, 15), ("(extractor ($ $) $)", 16, 17),
    ("(extractor (P x) (A x $))", 16, 22), ("(rule n $;c\n y)", 16, 8), ("(rule n $(;c;)y)", 16, 8),
    // Before what is refused behind it, also at the end.
    ("(rule n $", 16, 8), ("(rule n x $", 16, 10), ("(extern const $", 16, 14), ("(rule n $)", 16, 8),
    ("(rule $)", 25, 7), ("(extern const $)", 16, 14), ("(extern const $ 5)", 16, 14),
    ("(extern const $ $-)", 16, 14), ("(rule n $ $-)", 16, 8), ("(rule n x $ y)", 16, 10),
    ("(rule n x $ $ )", 16, 10), ("(rule n $ y) (foo)", 16, 8), ("(rule n x $) )", 16, 10),
    // After what is refused before it, and after a spelling that is refused otherwise.
    ("(foo) (rule n $ y)", 12, 1), ("(rule a-b $ y)", 23, 6), ("(rule 9223372036854775808 $ y)", 24, 6),
    ("(rule (#a $) y)", 14, 7), ("(rule (a-b $) y)", 15, 7), ("(rule n $- y)", 15, 8),
    ("(rule n x $-)", 15, 10), ("(extern const $-c T)", 15, 14), ("(extern const c $)", 16, 14),
    ("(rule n $- $)", 15, 8), ("(rule @ $)", 25, 6),
    // Before and after a word that is not covered, and where such a word is a name.
    ("(rule n $ y) (spec", 16, 8), ("(rule n x $) (spec (f) $)", 16, 10),
    ("(extern const $ T)(form)", 16, 14), ("(spec) (rule n $ y)", 27, 1),
    ("(rule n x y) (model $) (rule n $ y)", 27, 14), ("(rule n spec $)", 16, 13),
];

/// The cases of a `$` alone, short and deep.
pub fn dollars() -> impl Iterator<Item = (String, u8, u32)> {
    let short = DOLLARS.iter();
    let deep = deep_dollars().into_iter();
    short
        .map(|&(text, number, place)| (text.to_string(), number, place))
        .chain(deep.map(|(text, number, place)| (text, number, place as u32)))
}

/// The same about as deep as may be: 8 comes first at depth 65, whatever stands there.
pub fn deep_dollars() -> Vec<(String, u8, usize)> {
    let terms = |count: usize| "(A ".repeat(count);
    let (deep, deeper) = (terms(DEEPEST - 1), terms(DEEPEST));
    let (length, close) = (deep.len(), ")".repeat(DEEPEST));
    let (binds, bodies) = ("a@".repeat(DEEPEST - 1), "(let () ".repeat(DEEPEST - 1));
    vec![
        (format!("(rule {deep}$"), 16, 6 + length),
        (format!("(rule {deeper}$"), 8, 6 + deeper.len()),
        (format!("(rule {deeper}$c"), 8, 6 + deeper.len()),
        (format!("(rule n x {deep}$"), 16, 10 + length),
        (format!("(rule n x {deeper}$"), 8, 10 + deeper.len()),
        (format!("(rule n {binds}$ y)"), 16, 8 + binds.len()),
        (format!("(rule n {binds}a@$ y)"), 8, 10 + binds.len()),
        (format!("(rule n x {bodies}$"), 16, 10 + bodies.len()),
        (format!("(rule n x {bodies}(let () $"), 8, 18 + bodies.len()),
        (format!("(rule {deeper}x{close} $)"), 8, 6 + deeper.len()),
        (format!("(rule {deep}(A x $"), 8, 9 + length),
        (format!("(rule {deep}$ (A x"), 16, 6 + length),
        (format!("(rule (A $ {deeper}x"), 16, 9),
        (format!("(rule n $ {deeper}x"), 16, 8),
        (
            format!("(rule n {deep}x{} $)", &close[1..]),
            16,
            9 + length + DEEPEST,
        ),
    ]
}

/// Integers at the limits, as priority, pattern and expression.
pub fn integer_texts() -> Vec<String> {
    #[rustfmt::skip]
    let integers = [
        "0", "-0", "1", "-1", "9223372036854775807", "9223372036854775808", "-9223372036854775808",
        "-9223372036854775809", "0x7fffffffffffffff", "-0x8000000000000000", "18446744073709551615",
        "18446744073709551616", "-18446744073709551616", "170141183460469231731687303715884105727",
        "170141183460469231731687303715884105728", "-170141183460469231731687303715884105727",
        "340282366920938463463374607431768211455", "-340282366920938463463374607431768211455",
        "0xffff_ffff_ffff_ffff_ffff_ffff_ffff_ffff", "0b1", "-0o7", "1__0",
    ];
    let each = |i: &&str| {
        [
            format!("(rule {i} x y)"),
            format!("(rule n {i} {i} {i})"),
            format!("(rule (A {i}) {i})"),
        ]
    };
    integers.iter().flat_map(each).collect()
}

/// Texts in which a pattern or an expression is nested to `depth`, or cut off there.
pub fn deep_texts(depth: usize) -> Vec<String> {
    let outside = depth - 1;
    let (terms, ands) = ("(A ".repeat(outside), "(and ".repeat(outside));
    let binds = "a@".repeat(outside);
    let bodies = "(let () ".repeat(outside);
    let values = "(let ((v T ".repeat(outside);
    let close = ")".repeat(outside);
    let close_values = ")) w)".repeat(outside);
    vec![
        format!("(rule {terms}x{close} y)"),
        format!("(rule {ands}5{close} y)"),
        format!("(rule n {binds}_ y)"),
        format!("(extractor (P) {terms}x{close})"),
        format!("(extractor (P) {binds}x)"),
        format!("(rule n x (if-let {terms}x{close} y) z)"),
        format!("(rule n x (if {terms}x{close}) z)"),
        format!("(rule n x {terms}$c{close})"),
        format!("(rule n x {bodies}v{close})"),
        format!("(rule n x {values}v{close_values})"),
        format!("(rule {terms}"),
        format!("(rule n x {terms}"),
        format!("(rule n {binds}"),
        format!("(rule n x {bodies}"),
        format!("(rule n x {values}"),
        format!("(rule {terms}@"),
        format!("(rule n x {terms}@"),
        format!("(rule n {binds}5-"),
        format!("(rule {terms}) "),
        format!("(rule n x {terms}) "),
    ]
}

/// The tokens of a text that has no comments, as they are written.
pub fn pieces_of(text: &str) -> Vec<&str> {
    let lent = lex(text).expect("a good text");
    let starts: Vec<usize> = lent
        .tokens
        .iter()
        .map(|words| lower(words[0]) as usize)
        .collect();
    let ends = starts.iter().skip(1).copied().chain([text.len()]);
    starts
        .iter()
        .zip(ends)
        .map(|(&start, end)| text[start..end].trim())
        .collect()
}

/// How often an item fits between two pieces of text: no more tokens and bytes than are read.
pub fn most_items(before: &str, item: &str, after: &str) -> usize {
    let tokens = |text: &str| lex(text).expect("a good text").tokens.len();
    let by_tokens = (MAX_TOKENS - tokens(before) - tokens(after)) / tokens(item);
    let by_bytes = (MAX_TEXT - before.len() - after.len()) / item.len();
    by_tokens.min(by_bytes)
}

/// Token lists that the lexer does not make.
pub fn token_lists() -> Vec<Lent> {
    let mut lists = empty_symbols();
    let good = lex("(rule r (A x) y)").expect("a good text");
    for i in 0..good.tokens.len() {
        lists.extend(one_bad(&good, i));
    }
    for kind in [0, 6, 7, 8, 15] {
        lists.push(alone([(kind as u64) << 60, 0, 0], "x", 1));
    }
    lists.extend(ends(&good));
    lists.extend(high_bytes());
    lists.extend(cut_constants());
    lists
}

fn alone(token: Words, text: &str, end: u32) -> Lent {
    Lent {
        tokens: vec![token],
        text: text.as_bytes().to_vec(),
        end,
    }
}

/// An empty symbol in the place of each symbol: 13, or 23 as a rule's name.
fn empty_symbols() -> Vec<Lent> {
    let texts = [
        "(rule r (A x) y)",
        "(decl f (T) U)",
        "(extern const $c T)",
        "(pragma a)",
        "(type T e (enum A))",
    ];
    let mut lists = Vec::new();
    for text in texts {
        let good = lex(text).expect("a good text");
        for i in 0..good.tokens.len() {
            let mut bad = good.clone();
            let position = lower(bad.tokens[i][0]);
            bad.tokens[i] = symbol_token(position, good.text.len() as u32, 0);
            lists.push(bad);
        }
    }
    lists
}

/// Symbols that are the `$` of a longer one in the text, each alone and all of them; the position is
/// another than the symbol's start.
fn cut_constants() -> Vec<Lent> {
    let texts = [
        "(rule $n $a $b)",
        "(rule ($A $x) ($B $y))",
        "(extern const $c $T)",
        "(extractor ($P $x) $c)",
    ];
    let mut lists = Vec::new();
    for text in texts {
        let good = lex(text).expect("a good text");
        let mut all = good.clone();
        for i in 0..good.tokens.len() {
            let start = upper(good.tokens[i][1]);
            if good.text[start as usize] == b'$' {
                let mut one = good.clone();
                one.tokens[i] = symbol_token(start + 1, start, 1);
                all.tokens[i] = one.tokens[i];
                lists.push(one);
            }
        }
        lists.push(all);
    }
    lists
}

/// One token spoilt in each of several ways.
fn one_bad(good: &Lent, i: usize) -> Vec<Lent> {
    let length = good.text.len() as u64;
    let [head, ..] = good.tokens[i];
    let kind = head >> 60 << 60;
    let position = lower(head) as u64;
    let symbol = 3 << 60 | position;
    let spoilt: [Words; 14] = [
        [position, 0, 0],
        [6 << 60 | position, 0, 0],
        [head | 1 << 32, good.tokens[i][1], good.tokens[i][2]],
        [head | 1 << 59, good.tokens[i][1], good.tokens[i][2]],
        [
            kind | (good.end as u64 + 1),
            good.tokens[i][1],
            good.tokens[i][2],
        ],
        [kind | good.end as u64, good.tokens[i][1], good.tokens[i][2]],
        [head, good.tokens[i][1] | 1 << 63, good.tokens[i][2]],
        [head, good.tokens[i][1], 1],
        [symbol, length << 32, 0],
        [symbol, length << 32 | 1, 0],
        [symbol, (length + 1) << 32, 0],
        [symbol, length, 0],
        [symbol, length + 1, 0],
        [symbol, u64::MAX, 0],
    ];
    let with = |words: Words| {
        let mut bad = good.clone();
        bad.tokens[i] = words;
        bad
    };
    spoilt.into_iter().map(with).collect()
}

/// Other end positions, and a text that goes on after the last token.
fn ends(good: &Lent) -> Vec<Lent> {
    let with = |end: u32, count: usize| {
        let mut other = good.clone();
        other.end = end;
        other.tokens.truncate(count);
        other
    };
    let count = good.tokens.len();
    vec![
        with(0, count),
        with(good.end - 1, count),
        with(good.end - 2, count),
        with(u32::MAX, count),
        with(u32::MAX, count - 1),
        with(good.end, count - 1),
        with(u32::MAX, 2),
        with(0, 0),
        with(u32::MAX, 0),
    ]
}

/// Bytes of 128 or more inside a symbol (2) and outside every symbol (no matter).
fn high_bytes() -> Vec<Lent> {
    let good = lex("(decl f (T) Uv) ;c").expect("a good text");
    let mut lists = Vec::new();
    for i in 0..good.text.len() {
        for byte in [127, 128, 255] {
            let mut other = good.clone();
            other.text[i] = byte;
            lists.push(other);
        }
    }
    lists
}
