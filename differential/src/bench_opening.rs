//! `isle_open` against expansion by the crate's functions on the same trees.

use crate::bench_times::*;
use crate::library;
use cranelift_isle::ast::{Extractor, Pattern};
use cranelift_isle::lexer::Pos;
use differential::generate_lists::opening_case;
use differential::hand_lists::{doubling, nested};
use differential::records::*;
use differential::steps::*;

/// The lists, and the crate's trees they were made of.
type Case = (Lists, Vec<Extractor>, Pattern);

pub fn opening() {
    list_table(
        "Opening",
        "The crate's column is expansion by its `make_macro_template` and `subst_macro_args`: every \
         template once, in list order, then each call once, its arguments before it. It tests \
         nothing first. A refusal for space takes the time to fill the space; the crate has no \
         limit to compare it with.",
    );
    for (name, text) in texts() {
        opening_line(name, text_case(&text), false);
    }
    opening_line("65,536 records, no call", no_call(), false);
    let name = "1,250 calls, with space for 65,536 records twice";
    opening_line(name, text_case(&calls(1_250)), true);
}

fn text_case(text: &str) -> Case {
    opening_case(text).expect("a good text")
}

fn texts() -> Vec<(&'static str, String)> {
    vec![
        ("one rule of host/examples/gate.isle", one_rule()),
        ("1,250 calls", calls(1_250)),
        ("2,500 calls", calls(2_500)),
        ("5,000 calls", calls(5_000)),
        ("nested 9 deep", nested(9)),
        ("nested 60 deep: refused for space", nested(60)),
        (
            "80 extractors that each call the one before twice: refused for space",
            doubling(80),
        ),
        ("256 such extractors: refused for space", doubling(256)),
        (
            "a call that passes over an argument of 20,000 records 1,000 times",
            passed_over(1_000),
        ),
        ("the same, 4,000 times", passed_over(4_000)),
        (
            "a call with 1,000 arguments, each used once",
            arguments(1_000),
        ),
        ("the same with 2,000", arguments(2_000)),
        ("the same with 4,000", arguments(4_000)),
        ("65,536 records, flat", flat()),
        ("65,536 records, 65,535 deep", deep()),
    ]
}

fn one_rule() -> String {
    let extractors = "(extractor (at_left cow hours) (visit cow $LEFT hours))\
                      (extractor (rested hours) (and hours (at_least 8)))\
                      (extractor (welcome cow) (at_left cow (rested _)))";
    format!("{extractors}(rule let_in 2 (welcome cow @ (ear_tag 4711)) (open_gate cow))")
}

fn calls(count: usize) -> String {
    let two = "(extractor (P x) (and x x))(extractor (Q x) (P (P x)))";
    format!("{two}(rule n (A{}) e)", " (Q z)".repeat(count))
}

/// An argument of 20,000 records before one that is used so many times.
fn passed_over(uses: usize) -> String {
    let (used, large) = (" y".repeat(uses), " z".repeat(10_000));
    format!("(extractor (U x y) (and{used}))(rule n (U (B{large}) z) e)")
}

/// A call with so many arguments, each used once.
fn arguments(count: usize) -> String {
    let names: String = (0..count).map(|i| format!(" p{i}")).collect();
    let given = " z".repeat(count);
    format!("(extractor (M{names}) (and{names}))(rule n (M{given}) e)")
}

/// 302 calls that give 217 records each, below a Term and its name.
fn flat() -> String {
    let (uses, calls) = (" x".repeat(216), " (F _)".repeat(302));
    format!("(extractor (F x) (and{uses}))(rule n (A{calls}) e)")
}

/// 15 Ands over 20 times 52 times 63 of them, and a wildcard in the innermost.
fn deep() -> String {
    let chain = |head: &str, levels: usize, inside: &str| {
        let (open, close) = (format!("({head} ").repeat(levels), ")".repeat(levels));
        format!("{open}{inside}{close}")
    };
    let (d, e) = (chain("and", 63, "x"), chain("D", 52, "x"));
    let pattern = chain("and", 15, &chain("E", 20, "_"));
    format!("(extractor (D x) {d})(extractor (E x) {e})(rule n {pattern} e)")
}

/// A pattern of the most records, and no extractor.
fn no_call() -> Case {
    let pos = Pos::new(0, 0);
    let subpats = vec![Pattern::Wildcard { pos }; MAX_RECORDS - 1];
    let pattern = Pattern::And { subpats, pos };
    let lists = Lists {
        text: vec![],
        first: vec![],
        second: pattern_bytes(&[pattern.clone()]),
    };
    (lists, vec![], pattern)
}

/// A line for an input; with the most space, or with no more than is needed.
fn opening_line(name: &str, (lists, extractors, pattern): Case, most: bool) {
    let mut store = vec![0; MAX_RECORDS * WIDTH];
    let mut out = store.clone();
    let result = library::open(&lists, &mut store, &mut out);
    if result >> 56 == 6 {
        let ours = alone(|| timed(|| library::open(&lists, &mut store, &mut out)));
        return list_line(name, MAX_RECORDS, None, ours);
    }
    let (templates, opened) = open_innermost_first(&extractors, &pattern);
    let (templates, opened) = (pattern_bytes(&templates), pattern_bytes(&[opened]));
    let records = opened.len() / WIDTH;
    assert_eq!(result, pack(0, records, 0), "{name}");
    assert!(store.starts_with(&templates), "other templates: {name}");
    assert!(out.starts_with(&opened), "other records: {name}");
    if !most {
        store.truncate(templates.len());
        out.truncate(opened.len());
    }
    let [of_crate, ours] = in_turns([
        &mut || timed(|| open_innermost_first(&extractors, &pattern)),
        &mut || timed(|| library::open(&lists, &mut store, &mut out)),
    ]);
    assert!(out.starts_with(&opened), "less space: {name}");
    list_line(name, records, Some(median(&of_crate)), median(&ours));
}
