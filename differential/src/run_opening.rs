//! Opening through the library.

use crate::run_lists::*;
use crate::{Counts, library};
use differential::expansion::{Opened, open_answer};
use differential::generate::Random;
use differential::generate_lists::*;
use differential::hand_lists::*;
use differential::hand_names::name_openings;
use differential::judge_lists::*;
use differential::outputs::*;
use differential::records::*;
use differential::steps::Lists;

pub fn compare(random: &mut Random, count: u64) -> Result<String, String> {
    let mut counts = Counts::default();
    for text in OPENINGS {
        compare_text(random, text, &mut counts)?;
    }
    let mut limits = limit_openings();
    limits.extend([255, 256, 257, 300].map(many_extractors));
    for text in limits {
        compare_text(random, &text, &mut counts)?;
        compare_on_small_stack(&text, &mut counts)?;
    }
    compare_limits(&mut counts)?;
    for lists in name_openings() {
        one(&lists, &open(&lists), 50, &mut counts)?;
    }
    for text in whole_texts().into_iter().chain([EMPTY_EXTERN]) {
        compare_every_change(&format!("{text}(rule n 0 x e)"), &mut counts)?;
    }
    for _ in 0..count {
        let text = opening_text(random);
        compare_text(random, &text, &mut counts)?;
    }
    Ok(counts.line("isle_open"))
}

/// The lists of a text, whole and damaged.
fn compare_text(random: &mut Random, text: &str, counts: &mut Counts) -> Result<(), String> {
    let more = 1 + random.below(60);
    let judged = judge_opening(random, text).map_err(|message| format!("{text}\n{message}"))?;
    if let Some((mut lists, outcome)) = judged {
        one(&lists, &outcome, more, counts)?;
        damage(random, &mut lists);
        one(&lists, &open(&lists), more, counts)?;
    }
    Ok(())
}

/// Calls the entry with stores and outputs of several sizes and compares every byte.
fn one(
    lists: &Lists,
    outcome: &Result<Opened, Refusal>,
    more: usize,
    counts: &mut Counts,
) -> Result<(), String> {
    counts.inputs += 1;
    let size = |list: &Option<Vec<Words>>| list.as_ref().map_or(MAX_RECORDS, Vec::len);
    let (store, out) = match outcome {
        Ok(opened) => (size(&opened.store), size(&opened.pattern)),
        Err(_) => (0, 0),
    };
    let exact = (store * WIDTH, out * WIDTH);
    let mut spaces: Vec<(usize, usize)> = lengths(store, more)
        .into_iter()
        .map(|s| (s, exact.1))
        .collect();
    spaces.extend(lengths(out, more).into_iter().map(|o| (exact.0, o)));
    spaces.push((exact.0.saturating_sub(1), exact.1.saturating_sub(1)));
    for space in spaces {
        one_space(lists, outcome, space, counts)
            .map_err(|message| format!("{}\n{message}", shown(lists)))?;
    }
    Ok(())
}

fn one_space(
    lists: &Lists,
    outcome: &Result<Opened, Refusal>,
    (store_length, out_length): (usize, usize),
    counts: &mut Counts,
) -> Result<(), String> {
    let (result, store, out) = open_answer(outcome, store_length, out_length);
    let mut found_store = Ok(Answer {
        result,
        out: vec![],
    });
    let found_out = call_with(out_length, |out| {
        found_store = call_with(store_length, |store| library::open(lists, store, out));
        found_store.as_ref().map_or(0, |answer| answer.result)
    })?;
    same_answer(&Answer { result, out: store }, &found_store?)
        .map_err(|m| format!("store: {m}"))?;
    same_answer(&Answer { result, out }, &found_out).map_err(|m| format!("output: {m}"))?;
    counts.add_call(result);
    Ok(())
}

/// A definition list with every bit changed, every record of another kind, every tree taken
/// out, doubled, and replaced by each other one.
fn compare_every_change(text: &str, counts: &mut Counts) -> Result<(), String> {
    let (lists, ..) = opening_case(text).ok_or("a whole text that the crate refuses")?;
    let records = words_of(&lists.first);
    let mut compare = |change: &mut dyn FnMut(&mut Vec<Words>)| {
        let mut damaged = records.clone();
        change(&mut damaged);
        let first = bytes_of(&damaged);
        let damaged = Lists {
            first,
            ..lists.clone()
        };
        one(&damaged, &open(&damaged), 50, counts)
    };
    for i in 0..records.len() {
        for bit in 0..WIDTH * 8 {
            compare(&mut |list| list[i][bit / 64] ^= 1 << (bit % 64))?;
        }
        for kind in 0..64 {
            compare(&mut |list| list[i][0] = list[i][0] << 8 >> 8 | kind << 56)?;
        }
        compare(&mut |list| remove_tree(list, i))?;
        compare(&mut |list| double_tree(list, i))?;
        for from in 0..records.len() {
            compare(&mut |list| graft_tree(list, i, from))?;
        }
    }
    Ok(())
}

/// Lists of 65,536 records and of one more, lists about as long as the small table, long texts,
/// and patterns far too deep.
fn compare_limits(counts: &mut Counts) -> Result<(), String> {
    let most = MAX_RECORDS - 1;
    let patterns = [
        and(wildcards(1)),
        and(wildcards(most)),
        wildcards(MAX_RECORDS + 1),
        chain(most, WILDCARD),
    ];
    for text in [MAX_TEXT, MAX_TEXT + 1] {
        for defs in [MAX_RECORDS / 2, MAX_RECORDS / 2 + 1] {
            for pattern in &patterns {
                let lists = attrs_and(defs, pattern, text);
                one(&lists, &open(&lists), 50, counts)?;
            }
        }
    }
    for defs in SMALL_TABLES.iter().flat_map(|most| [most / 2, most / 2 + 1]) {
        for size in about_small_tables() {
            let lists = attrs_and(defs, &and(wildcards(size - 1)), 1);
            one(&lists, &open(&lists), 50, counts)?;
        }
    }
    Ok(())
}

/// So many `attr`s, each two records with its name, and a pattern.
fn attrs_and(defs: usize, pattern: &[Words], text: usize) -> Lists {
    let attr = [[12 << 56 | 1 << 32, 0, 0], [24 << 56, pair(0, 1), 0]];
    Lists {
        text: vec![b'x'; text],
        first: bytes_of(&vec![attr; defs].concat()),
        second: bytes_of(pattern),
    }
}

/// The stack that the entry may use in all.
const STACK: usize = 1 << 20;

/// The call on a thread with no more stack than the entry may use.
fn compare_on_small_stack(text: &str, counts: &mut Counts) -> Result<(), String> {
    let (lists, ..) = opening_case(text).ok_or("a text that the crate refuses")?;
    let length = MAX_RECORDS * WIDTH;
    let (result, store, out) = open_answer(&open(&lists), length, length);
    let call = move || {
        let mut outputs = (vec![0; length], vec![0; length]);
        let result = library::open(&lists, &mut outputs.0, &mut outputs.1);
        (result, outputs)
    };
    let thread = std::thread::Builder::new().stack_size(STACK).spawn(call);
    let found = thread.expect("a thread").join().expect("no panic");
    counts.inputs += 1;
    counts.add_call(result);
    match found == (result, (store, out)) {
        true => Ok(()),
        false => Err(format!("on a small stack: {text}")),
    }
}
