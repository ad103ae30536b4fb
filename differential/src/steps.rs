//! Templates, substitution and single steps by the crate's own functions on its own trees.

use crate::generate::Random;
use crate::oracle::Places;
use crate::records::*;
use cranelift_isle::ast::{Def, Extractor, Ident, Pattern};
use cranelift_isle::lexer::Lexer;
use cranelift_isle::parser;

/// What an entry on record lists takes: the text and two lists.
#[derive(Clone, Debug)]
pub struct Lists {
    pub text: Vec<u8>,
    pub first: Vec<u8>,
    pub second: Vec<u8>,
}

/// Definitions as the crate reads them; none if it refuses the text.
pub fn defs_of(text: &str) -> Option<Vec<Def>> {
    parser::parse(Lexer::new(0, text).ok()?).ok()
}

/// The patterns of the rules among the definitions.
pub fn rule_patterns(defs: &[Def]) -> Vec<Pattern> {
    let pattern = |def: &Def| match def {
        Def::Rule(rule) => Some(rule.pattern.clone()),
        _ => None,
    };
    defs.iter().filter_map(pattern).collect()
}

pub fn extractors(defs: &[Def]) -> Vec<Extractor> {
    let extractor = |def: &Def| match def {
        Def::Extractor(extractor) => Some(extractor.clone()),
        _ => None,
    };
    defs.iter().filter_map(extractor).collect()
}

pub fn pattern_bytes(patterns: &[Pattern]) -> Vec<u8> {
    bytes_of(&pattern_records(patterns))
}

pub fn pattern_records(patterns: &[Pattern]) -> Vec<Words> {
    let places = Places::unmoved();
    let nodes: Vec<Node> = patterns
        .iter()
        .map(|pattern| places.pattern(pattern))
        .collect();
    records_of(&nodes)
}

pub fn ident_bytes(idents: &[Ident]) -> Vec<u8> {
    bytes_of(&records_of(&Places::unmoved().idents(idents)))
}

pub fn def_bytes(defs: &[Def]) -> Vec<u8> {
    let places = Places::unmoved();
    let nodes: Vec<Node> = defs.iter().map(|def| places.def(def)).collect();
    bytes_of(&records_of(&nodes))
}

/// Rewrites one call after another, each chosen at random, until none is left.
/// None if that takes too many steps or records to be worth while.
pub fn open_by_steps(
    random: &mut Random,
    extractors: &[Extractor],
    pattern: &Pattern,
) -> Option<Pattern> {
    let mut pattern = pattern.clone();
    for _ in 0..400 {
        let calls = count_calls(extractors, &pattern);
        if calls == 0 {
            return Some(pattern);
        }
        if calls > 400 {
            return None;
        }
        let mut chosen = random.below(calls);
        pattern = step(extractors, &pattern, &mut chosen);
    }
    None
}

fn callee<'a>(extractors: &'a [Extractor], pattern: &Pattern) -> Option<&'a Extractor> {
    let sym = pattern.root_term()?;
    extractors
        .iter()
        .find(|extractor| extractor.term.0 == sym.0)
}

fn count_calls(extractors: &[Extractor], pattern: &Pattern) -> usize {
    let is_call = callee(extractors, pattern).is_some() as usize;
    let inside: usize = children(pattern)
        .iter()
        .map(|child| count_calls(extractors, child))
        .sum();
    is_call + inside
}

fn children(pattern: &Pattern) -> &[Pattern] {
    match pattern {
        Pattern::BindPattern { subpat, .. } => std::slice::from_ref(&**subpat),
        Pattern::Term { args, .. } => args,
        Pattern::And { subpats, .. } => subpats,
        _ => &[],
    }
}

/// Replaces the call that `chosen` counts down to.
fn step(extractors: &[Extractor], pattern: &Pattern, chosen: &mut usize) -> Pattern {
    if let Some(extractor) = callee(extractors, pattern) {
        if *chosen == 0 {
            *chosen = usize::MAX;
            return with_arguments(&made(extractor), pattern);
        }
        *chosen -= 1;
    }
    let mut copy = pattern.clone();
    each_child(&mut copy, |child| *child = step(extractors, child, chosen));
    copy
}

/// Every template in list order, and the pattern, with each call in them replaced once, its
/// arguments before it.
pub fn open_innermost_first(
    extractors: &[Extractor],
    pattern: &Pattern,
) -> (Vec<Pattern>, Pattern) {
    let mut opened = Vec::new();
    for extractor in extractors {
        let mut template = made(extractor);
        open_calls(extractors, &opened, &mut template);
        opened.push(template);
    }
    let mut pattern = pattern.clone();
    open_calls(extractors, &opened, &mut pattern);
    (opened, pattern)
}

/// Replaces each call of an extractor whose opened template is there.
fn open_calls(extractors: &[Extractor], opened: &[Pattern], pattern: &mut Pattern) {
    each_child(pattern, |child| open_calls(extractors, opened, child));
    let Some(sym) = pattern.root_term() else {
        return;
    };
    let called = |(extractor, _): &(&Extractor, &Pattern)| extractor.term.0 == sym.0;
    if let Some((_, template)) = extractors.iter().zip(opened).find(called) {
        *pattern = with_arguments(template, pattern);
    }
}

/// The template of an extractor, unopened.
pub fn made(extractor: &Extractor) -> Pattern {
    extractor.template.make_macro_template(&extractor.args)
}

/// A template with the arguments of a call.
fn with_arguments(template: &Pattern, call: &Pattern) -> Pattern {
    let substituted = template.subst_macro_args(children(call));
    substituted.expect("enough arguments")
}

fn each_child(pattern: &mut Pattern, mut change: impl FnMut(&mut Pattern)) {
    match pattern {
        Pattern::BindPattern { subpat, .. } => change(subpat),
        Pattern::Term { args: list, .. } | Pattern::And { subpats: list, .. } => {
            list.iter_mut().for_each(change)
        }
        _ => {}
    }
}
