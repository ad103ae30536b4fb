//! `isle_read` on tokens already made, and `isle_read_text`, against the crate's lexer and parser on
//! the same texts.

use crate::bench_texts::{inputs, small_inputs};
use crate::bench_times::*;
use crate::library;
use cranelift_isle::ast::Def;
use cranelift_isle::error::Error;
use cranelift_isle::lexer::{Lexer, Pos, Token};
use cranelift_isle::parser;
use differential::judge::judge;
use differential::oracle::{Lent, lex};
use differential::records::*;

const COLUMNS: &[&str] = &[
    "input",
    "text bytes",
    "tokens",
    "records",
    "crate's lexer",
    "crate's parser alone",
    "`isle_read`",
    "parser alone / `isle_read`",
    "lexer and parser / `isle_read`",
];

pub fn reading() {
    table(
        "Reading, nanoseconds for each token",
        "The library gets tokens already made, so the first ratio is of like with like. The second \
         is for a host that keeps the tokens and would else have the crate lex the text again.",
        COLUMNS,
    );
    for (name, texts) in inputs() {
        reading_line(&name, &texts);
    }
}

const TEXT_COLUMNS: &[&str] = &[
    "input",
    "text bytes",
    "tokens",
    "records",
    "crate's lexer and parser",
    "`isle_read_text`",
    "crate / `isle_read_text`",
];

pub fn reading_text() {
    table(
        "Reading of text, nanoseconds for each token",
        "Both sides get the text alone.",
        TEXT_COLUMNS,
    );
    for (name, texts) in small_inputs().into_iter().chain(inputs()) {
        text_line(&name, &texts);
    }
}

/// A text as the library takes it, with an output of exactly the records needed.
struct Reading {
    tokens: Vec<u8>,
    lent: Lent,
    out: Vec<u8>,
}

impl Reading {
    fn call(&mut self) -> u64 {
        library::read(&self.tokens, &self.lent.text, self.lent.end, &mut self.out)
    }

    fn call_with_text(&mut self) -> u64 {
        library::read_text(&self.lent.text, &mut self.out)
    }

    /// Of a text that the crate, the model and the library read alike.
    fn new(text: &String) -> Reading {
        let lent = lex(text).expect("a good text");
        let outcome = judge(&lent).expect("no disagreement");
        let records = outcome.as_ref().expect("an accepted text").len();
        let (tokens, out) = (bytes_of(&lent.tokens), vec![0; records * WIDTH]);
        let mut reading = Reading { tokens, lent, out };
        let expected = answer(&outcome, records * WIDTH);
        for call in [Reading::call, Reading::call_with_text] {
            reading.out.fill(0xEE);
            let result = call(&mut reading);
            assert!(result == expected.result && reading.out == expected.out);
        }
        reading
    }
}

/// How many bytes, tokens and records there are in all.
fn sizes_of(readings: &[Reading]) -> [usize; 3] {
    let sum = |size: fn(&Reading) -> usize| readings.iter().map(size).sum();
    [
        sum(|reading| reading.lent.text.len()),
        sum(|reading| reading.lent.tokens.len()),
        sum(|reading| reading.out.len() / WIDTH),
    ]
}

fn text_line(name: &str, texts: &[String]) {
    let mut readings: Vec<Reading> = texts.iter().map(Reading::new).collect();
    let sizes = sizes_of(&readings);
    let [of_crate, ours] = in_turns([
        &mut || timed(|| texts.iter().map(parse).collect::<Vec<_>>()),
        &mut || timed(|| readings.iter_mut().map(Reading::call_with_text).max()),
    ])
    .map(|times| median(&times));
    let mut cells = vec![name.to_string()];
    cells.extend(sizes.map(shown));
    cells.extend([of_crate, ours].map(|time| each(time, sizes[1])));
    cells.push(ratio(of_crate, ours));
    line(&cells);
}

fn reading_line(name: &str, texts: &[String]) {
    let mut readings: Vec<Reading> = texts.iter().map(Reading::new).collect();
    let sizes = sizes_of(&readings);
    let count = sizes[1];
    let mut kept = Vec::with_capacity(count);
    let [lexing, both, ours] = in_turns([
        &mut || {
            kept.clear();
            timed(|| texts.iter().for_each(|text| lex_all(text, &mut kept)))
        },
        &mut || timed(|| texts.iter().map(parse).collect::<Vec<_>>()),
        &mut || timed(|| readings.iter_mut().map(Reading::call).max()),
    ]);
    let parsing: Vec<f64> = both.iter().zip(&lexing).map(|(b, l)| b - l).collect();
    let times = [lexing, parsing, ours].map(|times| median(&times));
    let mut cells = vec![name.to_string()];
    cells.extend(sizes.map(shown));
    cells.extend(times.map(|time| each(time, count)));
    cells.push(ratio(times[1], times[2]));
    cells.push(ratio(median(&both), times[2]));
    line(&cells);
}

fn lexer(text: &str) -> Lexer<'_> {
    Lexer::new(0, text).expect("a good text")
}

fn parse(text: &String) -> Result<Vec<Def>, Error> {
    parser::parse(lexer(text))
}

/// All tokens, into a list that has the space for them.
fn lex_all(text: &str, kept: &mut Vec<(Pos, Token)>) {
    let mut lexer = lexer(text);
    while let Some(token) = lexer.next().expect("a good text") {
        kept.push(token);
    }
}
