//! Long names that overlap in the text, beside short names in lists that are otherwise the same.

use crate::bench_times::*;
use crate::library;
use differential::hand_names::*;
use differential::records::*;
use differential::steps::Lists;

/// A call that takes more nanoseconds is not made again.
const ONCE: f64 = 5e8;
/// A call that would take more nanoseconds is not made.
const LONGEST: f64 = 3e10;
/// Each larger list has so many times the names sought.
const STEP: usize = 8;

/// An entry; one that has no store leaves it as it is.
type Entry = fn(&Lists, &mut [u8], &mut [u8]) -> u64;

fn make_template(lists: &Lists, _: &mut [u8], out: &mut [u8]) -> u64 {
    library::make_template(lists, out)
}

const TEMPLATE: (&str, Entry) = ("`isle_make_template`", make_template);
const OPEN: (&str, Entry) = ("`isle_open`", library::open);

pub fn names() {
    other_length();
    hostile();
}

/// Parameters without the last byte of the names sought.
fn other_length() {
    table(
        "Names of another length",
        "A thousand parameters, each the name sought without its last byte. A thousand names are \
         sought, at different places in the text. Times of the processor.",
        &[
            "entry",
            "parameters of 1 byte, microseconds",
            "of 30,000 bytes, microseconds",
            "ratio",
        ],
    );
    let length = |long: bool| if long { 30_000 } else { 1 };
    let named = |more: usize| (0..1_000).map(move |i| pair(i, more as u32));
    let template = |long: bool| made(&letters(), named(length(long) + 1), named(length(long)));
    let opened = |long: bool| called_once(template(long));
    for ((entry, call), lists) in [
        (TEMPLATE, [template(false), template(true)]),
        (OPEN, [opened(false), opened(true)]),
    ] {
        let [short, long] = both(entry, call, &lists);
        line(&[
            entry.to_string(),
            each(short, 1_000),
            each(long, 1_000),
            ratio(long, short),
        ]);
    }
}

fn hostile() {
    table(
        "Hostile names",
        "Lists whose long names agree in all but the last byte, or are all different and agree in \
         so many bytes as is said, beside the same lists with names of 2 bytes. Times of the \
         processor.",
        &[
            "entry",
            "list",
            "2 bytes, microseconds",
            "long, microseconds",
            "long / 2 bytes",
            "calls timed",
        ],
    );
    template_rows();
    extractor_rows();
    parameter_rows();
    row(
        OPEN,
        "30,000 uses of an argument, a chain of 60 calls by a name of 30,000 bytes",
        &|long, part| used_again(if long { 30_000 } else { 2 }, 30_000 / part),
    );
}

fn template_rows() {
    row(
        TEMPLATE,
        "2,000 parameters, one name sought 2,000 times, 32,000 bytes: the last differs",
        &|long, part| last_byte(long, 2_000, 2_000 / part),
    );
    row(
        TEMPLATE,
        "1,000 parameters, 1,000 other names, 33,100 bytes: 31,000 and more agree",
        &|long, part| {
            let names = Different::new(long);
            let sought = (0..1_000 / part).map(|i| names.name(2 * i + 1));
            made(&names.text, sought, (0..1_000).map(|i| names.name(2 * i)))
        },
    );
    for (order, reversed) in [("in order", false), ("in reverse", true)] {
        let name = format!(
            "65,536 parameters {order}, 32,767 names sought among them, 32,000 different ones of \
             33,100 bytes: 1,000 to 33,000 agree"
        );
        row(TEMPLATE, &name, &|long, part| {
            at_the_limits(long, reversed, 32_767 / part)
        });
    }
}

fn extractor_rows() {
    row(
        OPEN,
        "256 extractors, 2,048 Terms, half of them calls, 33,100 bytes: 30,000 and more agree",
        &|long, part| many_terms(long, 1_024 / part, 8 / part),
    );
    row(
        OPEN,
        "256 extractors, 65,023 Terms, half of them calls, 33,100 bytes: 30,000 and more agree",
        &|long, part| many_terms(long, 32_767 / part, 252 / part),
    );
}

fn parameter_rows() {
    for (params, sought) in [(2_000, 2_000), (16, 16_000)] {
        let name = format!(
            "{} parameters, one name sought {} times, 32,000 bytes: the last differs",
            shown(params),
            shown(sought)
        );
        row(OPEN, &name, &|long, part| {
            called_once(last_byte(long, params, sought / part))
        });
    }
    row(
        OPEN,
        "16 parameters, 16,000 other names, 33,100 bytes: 17,000 and more agree",
        &|long, part| {
            let names = Different::new(long);
            let sought = (0..16_000 / part).map(|i| names.name(16 + i * 7_919 % 16_000));
            let params = (0..16).map(|i| names.name(i));
            called_once(made(&names.text, sought, params))
        },
    );
}

/// A text whose names differ in the last byte alone, where one ends at the text's end.
fn letters() -> Vec<u8> {
    let mut text = vec![b'a'; MAX_TEXT];
    text[MAX_TEXT - 1] = b'b';
    text
}

/// 32,000 different names: long ones that overlap, or of 2 bytes side by side. Both are in the
/// order of their numbers.
struct Different {
    text: Vec<u8>,
    long: bool,
}

impl Different {
    const AGREEING: usize = 33_000;
    const LENGTH: u32 = 33_100;

    fn new(long: bool) -> Different {
        let text = match long {
            true => [
                vec![b'a'; Self::AGREEING],
                vec![b'b'; MAX_TEXT - Self::AGREEING],
            ]
            .concat(),
            false => (0..(MAX_TEXT / 2) as u16)
                .flat_map(u16::to_be_bytes)
                .collect(),
        };
        Different { text, long }
    }

    fn name(&self, number: usize) -> u64 {
        assert!(number < 32_000);
        match self.long {
            true => pair(number as u32, Self::LENGTH),
            false => pair(2 * number as u32, 2),
        }
    }
}

/// Template making for Vars of some names.
fn made(
    text: &[u8],
    sought: impl Iterator<Item = u64>,
    params: impl Iterator<Item = u64>,
) -> Lists {
    Lists {
        text: text.to_vec(),
        first: bytes_of(&vars(sought)),
        second: bytes_of(&idents(&params.collect::<Vec<_>>())),
    }
}

/// The same as an extractor, with a pattern that is a Wildcard.
fn called_once(made: Lists) -> Lists {
    let params: Vec<u64> = words_of(&made.second)
        .iter()
        .map(|words| words[1])
        .collect();
    let def = extractor(pair(0, 1), &params, words_of(&made.first));
    Lists {
        text: made.text,
        first: bytes_of(&def),
        second: bytes_of(&wildcard()),
    }
}

/// Parameters that are all equal, at a thousand places, and a name that differs in the last byte.
fn last_byte(long: bool, params: usize, sought: usize) -> Lists {
    let length = if long { 32_000 } else { 2 };
    let name = pair(MAX_TEXT as u32 - length, length);
    let params = (0..params as u32).map(|i| pair(i % 1_000, length));
    made(&letters(), vec![name; sought].into_iter(), params)
}

fn at_the_limits(long: bool, reversed: bool, sought: usize) -> Lists {
    let names = Different::new(long);
    let placed = |i: usize| match reversed {
        true => 31_999 - i % 32_000,
        false => i % 32_000,
    };
    let sought = (0..sought).map(|i| names.name(i * 7_919 % 32_000));
    let params = (0..MAX_RECORDS).map(|i| names.name(placed(i)));
    made(&names.text, sought, params)
}

/// 256 extractors without parameters. Each second one has so many Terms in its template, the
/// others a Wildcard. Half of all Terms are calls of those.
fn many_terms(long: bool, in_pattern: usize, in_template: usize) -> Lists {
    let names = Different::new(long);
    let some = |count: usize, calls: usize, from: usize| -> Vec<Vec<Words>> {
        let number = |i: usize| match i % 2 {
            0 => 2 * ((from + i / 2) * 37 % calls),
            _ => 256 + (from + i / 2) * 37 % 2_700,
        };
        (0..count)
            .map(|i| term(names.name(number(i)), &[]))
            .collect()
    };
    let def = |k: usize| {
        let template = match k % 2 {
            0 => wildcard(),
            _ => and_of(&some(in_template, k.div_ceil(2), k)),
        };
        extractor(names.name(k), &[], template)
    };
    Lists {
        first: bytes_of(&(0..256).flat_map(def).collect::<Vec<_>>()),
        second: bytes_of(&and_of(&some(in_pattern, 128, 0))),
        text: names.text,
    }
}

/// An extractor that uses its parameter so many times, called with calls inside each other of one
/// whose template is its parameter. All calls of that one are at different places, and its name
/// differs from the first one's in the last byte.
fn used_again(length: u32, uses: usize) -> Lists {
    let x = pair(0, 1);
    let [many, same] = [pair(MAX_TEXT as u32 - length, length), pair(0, length)];
    let defs = [
        extractor(many, &[x], vars(vec![x; uses].into_iter())),
        extractor(same, &[x], var(x)),
    ];
    let inner = (1..=60).fold(wildcard(), |inner, i| term(pair(i, length), &[inner]));
    Lists {
        text: letters(),
        first: bytes_of(&defs.concat()),
        second: bytes_of(&term(many, &[inner])),
    }
}

/// A line for a list with short names and with long ones. Lists with fewer of the names sought come
/// first; where the next would take too long, its time is reckoned from the last one's.
fn row((entry, call): (&str, Entry), name: &str, make: &dyn Fn(bool, usize) -> Lists) {
    let all = [make(false, 1), make(true, 1)];
    let mut part = STEP * STEP * STEP;
    let mut once = checked(name, call, &[make(false, part), make(true, part)]).1;
    while part > 1 && once * STEP as f64 <= LONGEST {
        part /= STEP;
        once = checked(name, call, &[make(false, part), make(true, part)]).1;
    }
    let ([short, long], calls) = if part > 1 {
        let calls = format!("reckoned from 1 / {part} of the names sought");
        (
            [short_alone(name, call, &all[0]), once * part as f64],
            calls,
        )
    } else if once > ONCE {
        ([short_alone(name, call, &all[0]), once], "one".to_string())
    } else {
        (both(name, call, &all), "many".to_string())
    };
    line(&[
        entry.to_string(),
        name.to_string(),
        each(short, 1_000),
        each(long, 1_000),
        ratio(long, short),
        calls,
    ]);
}

/// A store and an output.
type Outputs = [Vec<u8>; 2];

/// The call with the most space: what it leaves, and its time.
fn with_space(name: &str, call: Entry, lists: &Lists) -> (Outputs, f64) {
    let mut outputs = [0, 1].map(|_| vec![0; MAX_RECORDS * WIDTH]);
    let [store, out] = &mut outputs;
    let mut result = 0;
    let time = processor_timed(|| result = call(lists, store, out));
    assert_eq!(result >> 56, 0, "refused: {name}");
    (outputs.map(without_rest), time)
}

/// The output up to its last record.
fn without_rest(mut out: Vec<u8>) -> Vec<u8> {
    let last = out.chunks(WIDTH).rposition(|record| record[0] != 0);
    out.truncate(last.map_or(0, |last| (last + 1) * WIDTH));
    out
}

/// Outputs of exactly the size needed, for short names and for long ones, and the time that the
/// call takes with the long ones. Both must give the same records, apart from the names.
fn checked(name: &str, call: Entry, lists: &[Lists; 2]) -> ([Outputs; 2], f64) {
    let [(short, _), (long, time)] = lists.each_ref().map(|lists| with_space(name, call, lists));
    let nameless = |out: &Vec<u8>| -> Vec<Words> {
        let without = |words: Words| match words[0] >> 56 {
            24 => [words[0], 0, words[2]],
            _ => words,
        };
        words_of(out).into_iter().map(without).collect()
    };
    let same = short.each_ref().map(nameless) == long.each_ref().map(nameless);
    assert!(same, "other records: {name}");
    ([short, long], time)
}

/// The times for short names and for long ones, in turns.
fn both(name: &str, call: Entry, lists: &[Lists; 2]) -> [f64; 2] {
    let [short, long] = lists;
    let ([[store, out], [long_store, long_out]], _) = &mut checked(name, call, lists);
    let times = in_few_turns([
        &mut || processor_timed(|| call(short, store, out)),
        &mut || processor_timed(|| call(long, long_store, long_out)),
    ]);
    times.map(|times| median(&times))
}

fn short_alone(name: &str, call: Entry, lists: &Lists) -> f64 {
    let ([mut store, mut out], _) = with_space(name, call, lists);
    let [times] = in_few_turns([&mut || processor_timed(|| call(lists, &mut store, &mut out))]);
    median(&times)
}
