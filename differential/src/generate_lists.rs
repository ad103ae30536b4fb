//! Random record lists for templates, substitution and opening.

use crate::generate::Random;
use crate::hand_lists::whole_texts;
use crate::oracle::Places;
use crate::records::*;
use crate::steps::*;
use cranelift_isle::ast::{Def, Extractor, Pattern};

const VARS: &[&str] = &["x", "y", "z", "w", "xy"];
const LEAVES: &[&str] = &["_", "5", "-1", "true", "false", "$c", "$"];
const TERMS: &[&str] = &["A", "B", "xx", "x"];
const EXTRACTORS: &[&str] = &["P", "Q", "R", "S", "A"];
/// An extractor that may be called: its name and number of parameters.
type Callable = (&'static str, usize);

/// Adds a pattern of at most `levels` levels.
fn pattern(random: &mut Random, text: &mut String, levels: usize, callable: &[Callable]) {
    match random.below(if levels > 1 { 14 } else { 5 }) {
        0..=2 => *text += random.pick(VARS),
        3..=4 => *text += random.pick(LEAVES),
        5 => {
            *text += random.pick(VARS);
            *text += " @ _";
        }
        6..=7 => {
            *text += random.pick(VARS);
            *text += " @ ";
            pattern(random, text, levels - 1, callable);
        }
        8 => items(random, text, levels, callable, "and", None),
        9..=10 => items(random, text, levels, callable, TERMS[0], None),
        _ => call(random, text, levels, callable),
    }
}

fn call(random: &mut Random, text: &mut String, levels: usize, callable: &[Callable]) {
    if callable.is_empty() || random.once_in(40) {
        let names = if random.once_in(8) { EXTRACTORS } else { TERMS };
        let name = random.pick(names);
        return items(random, text, levels, callable, name, None);
    }
    let (name, params) = callable[random.below(callable.len())];
    let count = if random.once_in(40) {
        None
    } else {
        Some(params)
    };
    items(random, text, levels, callable, name, count);
}

fn items(
    random: &mut Random,
    text: &mut String,
    levels: usize,
    callable: &[Callable],
    head: &str,
    count: Option<usize>,
) {
    let count = count.unwrap_or_else(|| random.below(4));
    *text += &format!("({head}");
    for _ in 0..count {
        text.push(' ');
        pattern(random, text, levels - 1, callable);
    }
    text.push(')');
}

fn params(random: &mut Random) -> Vec<&'static str> {
    (0..random.below(4)).map(|_| random.pick(VARS)).collect()
}

fn rule(random: &mut Random, text: &mut String, levels: usize, callable: &[Callable]) {
    *text += "(rule n 0 ";
    pattern(random, text, levels, callable);
    *text += " e)";
}

/// An extractor, then rules whose patterns serve as arguments.
pub fn template_text(random: &mut Random) -> String {
    let mut text = format!("(extractor (P {}) ", params(random).join(" "));
    pattern(random, &mut text, 4, &[]);
    text.push(')');
    (0..random.below(4)).for_each(|_| rule(random, &mut text, 3, &[]));
    text
}

/// Definitions, and at the end a rule whose pattern is to be opened.
pub fn opening_text(random: &mut Random) -> String {
    let mut text = String::new();
    let mut callable: Vec<Callable> = Vec::new();
    for i in 0..random.below(5) {
        if random.once_in(4) {
            text += random.pick(&whole_texts());
        }
        let name = match random.once_in(60) {
            true => random.pick(EXTRACTORS),
            false => EXTRACTORS[i],
        };
        let params = params(random);
        text += &format!("(extractor ({name} {}) ", params.join(" "));
        pattern(random, &mut text, 3, &callable);
        text.push(')');
        callable.push((name, params.len()));
    }
    let levels = 2 + random.below(3);
    rule(random, &mut text, levels, &callable);
    text
}

/// Template making: the lists, and the crate's template.
pub fn template_case(text: &str) -> Option<(Lists, Vec<Words>)> {
    let extractor = extractors(&defs_of(text)?).pop()?;
    let lists = Lists {
        text: text.as_bytes().to_vec(),
        first: pattern_bytes(&[extractor.template.clone()]),
        second: ident_bytes(&extractor.args),
    };
    Some((lists, pattern_records(&[made(&extractor)])))
}

/// Substitution: the lists, and what the crate gives. Arguments are the rules' patterns,
/// and with `own` the template itself is one more.
pub fn substitution_case(text: &str, own: bool) -> Option<(Lists, Option<Vec<Words>>)> {
    let defs = defs_of(text)?;
    let template = made(&extractors(&defs).pop()?);
    let mut patterns = rule_patterns(&defs);
    if own {
        patterns.insert(0, template.clone());
    }
    let lists = Lists {
        text: text.as_bytes().to_vec(),
        first: pattern_bytes(&[template.clone()]),
        second: pattern_bytes(&patterns),
    };
    let substituted = template.subst_macro_args(&patterns);
    Some((
        lists,
        substituted.map(|pattern| pattern_records(&[pattern])),
    ))
}

/// Opening: the lists, and the crate's trees they were made of.
pub fn opening_case(text: &str) -> Option<(Lists, Vec<Extractor>, Pattern)> {
    let mut defs = defs_of(text)?;
    let Some(Def::Rule(rule)) = defs.pop() else {
        return None;
    };
    let lists = Lists {
        text: text.as_bytes().to_vec(),
        first: def_bytes(&defs),
        second: pattern_bytes(&[rule.pattern.clone()]),
    };
    Some((lists, extractors(&defs), rule.pattern))
}

/// The store that single steps lead to, if they are not too many.
pub fn store_by_steps(random: &mut Random, extractors: &[Extractor]) -> Option<Vec<Words>> {
    let places = Places::unmoved();
    let mut nodes = Vec::new();
    for extractor in extractors {
        let opened = open_by_steps(random, extractors, &made(extractor))?;
        nodes.push(places.pattern(&opened));
    }
    Some(records_of(&nodes))
}

/// One change of the lists or of the text.
pub fn damage_lists(random: &mut Random, lists: &mut Lists) {
    if random.once_in(12) {
        let length = random.below(lists.text.len() + 1);
        return lists.text.truncate(length);
    }
    let list = match random.once_in(3) {
        true => &mut lists.second,
        false => &mut lists.first,
    };
    let mut records = words_of(list);
    if !records.is_empty() {
        damage_records(random, &mut records);
    }
    *list = bytes_of(&records);
}

fn damage_records(random: &mut Random, records: &mut Vec<Words>) {
    let count = records.len();
    let i = random.below(count);
    match random.below(20) {
        0 => drop(records.remove(i)),
        1 => records.insert(i, records[i]),
        2 => records.swap(i, random.below(count)),
        3 => records.truncate(i),
        4 => records[i][0] ^= 1 << random.below(64),
        5 => records[i][1] ^= 1 << random.below(64),
        6 => records[i][2] ^= 1 << random.below(64),
        7 => records[i][0] ^= 1 << (48 + random.below(4)),
        8 => records[i][0] ^= 1 << (32 + random.below(2)),
        9 => records[i][0] = records[i][0] << 8 >> 8 | (1 + random.below(47) as u64) << 56,
        10 => records[i][0] ^= 1 << random.below(32),
        11 => remove_tree(records, i),
        12 => double_tree(records, i),
        13..=14 => graft_tree(records, i, random.below(count)),
        _ => put_macro_arg(random, records, i),
    }
}

/// A MacroArg in the place of the first leaf pattern from `i` on.
fn put_macro_arg(random: &mut Random, records: &mut [Words], i: usize) {
    let is_leaf = |words: &&mut Words| matches!(words[0] >> 56, 32 | 33 | 36 | 38);
    if let Some(words) = records[i..].iter_mut().find(is_leaf) {
        let index = if random.once_in(8) {
            random.next()
        } else {
            random.below(4) as u64
        };
        *words = [38 << 56 | lower(words[0]) as u64, index, 0];
    }
}

/// The index after the last record of the tree at `i`; the list's end if it is cut off there.
fn tree_end(records: &[Words], i: usize) -> usize {
    let mut end = i;
    let mut left = 1;
    while left > 0 && end < records.len() {
        left += (records[end][0] << 16 >> 48) as usize;
        left -= 1;
        end += 1;
    }
    end
}

/// Changes the child count of the record above `i`, if there is one.
fn change_parent(records: &mut [Words], i: usize, change: i64) {
    let above = (0..i).rev().find(|&parent| tree_end(records, parent) > i);
    if let Some(parent) = above {
        records[parent][0] = records[parent][0].wrapping_add((change << 32) as u64);
    }
}

/// Takes a whole tree out, so that the child counts still come out.
pub fn remove_tree(records: &mut Vec<Words>, i: usize) {
    let end = tree_end(records, i);
    change_parent(records, i, -1);
    records.drain(i..end);
}

/// Puts a copy of a tree before it.
pub fn double_tree(records: &mut Vec<Words>, i: usize) {
    let copy = records[i..tree_end(records, i)].to_vec();
    change_parent(records, i, 1);
    records.splice(i..i, copy);
}

/// Puts a copy of the tree at `from` in the place of the tree at `i`.
pub fn graft_tree(records: &mut Vec<Words>, i: usize, from: usize) {
    let copy = records[from..tree_end(records, from)].to_vec();
    let end = tree_end(records, i);
    records.splice(i..end, copy);
}
