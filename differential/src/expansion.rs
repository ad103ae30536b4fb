//! The model of templates, substitution and opening, written from 01.

use crate::lists::*;
use crate::model::DEEPEST;
use crate::records::*;

const IDENT: u8 = 24;
const EXTRACTOR: u8 = 19;
const VAR: u8 = 30;
const BIND: u8 = 31;
const TERM: u8 = 35;
const WILDCARD: u8 = 36;
const MACRO_ARG: u8 = 38;
const MOST_EXTRACTORS: usize = 256;

fn refuse<T>(number: u8, place: usize) -> Result<T, Refusal> {
    let place = place as u32;
    Err(Refusal { number, place })
}

/// The bytes of an Ident's name.
fn name<'a>(ident: &Node, text: &'a [u8]) -> &'a [u8] {
    assert_eq!(ident.kind, IDENT);
    let start = upper(ident.words[0]) as usize;
    &text[start..start + lower(ident.words[0]) as usize]
}

/// `isle_make_template` without its space.
pub fn make_template(text: &[u8], pattern: &[u8], params: &[u8]) -> Outcome {
    check_sizes(text, &[pattern, params])?;
    let tree = tree_of(pattern, Sort::Pattern, text)?;
    let params = trees_of(params, Sort::Ident, text)?;
    if let Some(index) = first_macro_arg(pattern) {
        return refuse(4, index);
    }
    let names: Vec<&[u8]> = params.iter().map(|param| name(param, text)).collect();
    Ok(records_of(&[template(&tree, &names, text)]))
}

fn first_macro_arg(list: &[u8]) -> Option<usize> {
    list.chunks(WIDTH).position(|record| record[0] == MACRO_ARG)
}

/// The template of a pattern.
fn template(node: &Node, params: &[&[u8]], text: &[u8]) -> Node {
    let bare = node.kind == VAR || node.kind == BIND && node.children[1].kind == WILDCARD;
    if bare {
        let sought = name(&node.children[0], text);
        if let Some(index) = params.iter().position(|param| *param == sought) {
            return Node::new(MACRO_ARG, node.position, vec![]).word1(index as u64);
        }
    }
    with_children(node, |child| template(child, params, text))
}

/// The node with each child replaced.
fn with_children(node: &Node, mut replace: impl FnMut(&Node) -> Node) -> Node {
    let children = node.children.iter().map(&mut replace).collect();
    Node {
        children,
        ..head_of(node)
    }
}

fn head_of(node: &Node) -> Node {
    Node {
        kind: node.kind,
        flags: node.flags,
        position: node.position,
        words: node.words,
        children: vec![],
    }
}

/// `isle_substitute` without its space. A list longer than any space is a 6.
pub fn substitute(text: &[u8], template: &[u8], patterns: &[u8]) -> Outcome {
    check_sizes(text, &[template, patterns])?;
    let tree = tree_of(template, Sort::Pattern, text)?;
    let patterns = trees_of(patterns, Sort::Pattern, text)?;
    let records = words_of(template);
    let index_of = |record: &Words| (record[0] >> 56 == MACRO_ARG as u64).then_some(record[1]);
    let lacks = |record: &Words| index_of(record).is_some_and(|i| i >= patterns.len() as u64);
    if let Some(place) = records.iter().position(lacks) {
        return refuse(5, place);
    }
    let sizes: Vec<usize> = patterns.iter().map(size).collect();
    let size_of = |record: &Words| index_of(record).map_or(1, |i| sizes[i as usize]);
    if records.iter().map(size_of).sum::<usize>() > MAX_RECORDS {
        return refuse(6, 0);
    }
    let filled = fill(&tree, &mut |index| patterns[index].clone());
    Ok(records_of(&[filled]))
}

/// How many records a tree has.
fn size(node: &Node) -> usize {
    1 + node.children.iter().map(size).sum::<usize>()
}

/// The template with a tree in the place of each MacroArg.
fn fill(node: &Node, arg: &mut dyn FnMut(usize) -> Node) -> Node {
    if node.kind == MACRO_ARG {
        return arg(node.words[0] as usize);
    }
    with_children(node, |child| fill(child, arg))
}

/// What opening gives apart from the spaces. None is a list longer than any space.
#[derive(Clone, Debug, PartialEq)]
pub struct Opened {
    pub store: Option<Vec<Words>>,
    pub pattern: Option<Vec<Words>>,
}

/// The result and both outputs for spaces of so many bytes.
pub fn open_answer(
    opened: &Result<Opened, Refusal>,
    store: usize,
    out: usize,
) -> (u64, Vec<u8>, Vec<u8>) {
    let fitting = |list: &Option<Vec<Words>>, bytes: usize| {
        let list = list.as_ref().filter(|list| list.len() <= space_of(bytes))?;
        let mut filled = bytes_of(list);
        filled.resize(bytes, 0);
        Some((list.len(), filled))
    };
    let refused = |number, place| (pack(number, 0, place), vec![0; store], vec![0; out]);
    let opened = match opened {
        Err(refusal) => return refused(refusal.number, refusal.place),
        Ok(opened) => opened,
    };
    match (fitting(&opened.store, store), fitting(&opened.pattern, out)) {
        (None, _) => refused(6, 0),
        (_, None) => refused(6, 1),
        (Some((_, store)), Some((count, out))) => (pack(0, count, 0), store, out),
    }
}

/// An extractor of a definition list.
struct Extractor<'a> {
    /// The index of its record.
    place: usize,
    name: &'a [u8],
    params: Vec<&'a [u8]>,
    pattern: &'a Node,
}

/// `isle_open` without its spaces.
pub fn open(text: &[u8], defs: &[u8], pattern: &[u8]) -> Result<Opened, Refusal> {
    check_sizes(text, &[defs, pattern])?;
    let list = trees_of(defs, Sort::Definition, text)?;
    let tree = tree_of(pattern, Sort::Pattern, text)?;
    let both = [defs, pattern].concat();
    if let Some(place) = first_macro_arg(&both) {
        return refuse(4, place);
    }
    check_depth(&list, &tree)?;
    let extractors = extractors_of(&list, text);
    if let Some(extractor) = extractors.get(MOST_EXTRACTORS) {
        return refuse(33, extractor.place);
    }
    check_extractors(&extractors, text)?;
    check_pattern(&extractors, &tree, defs.len() / WIDTH, text)?;
    Ok(opened(&extractors, &tree, text))
}

/// 8 at the first pattern or expression at depth 65.
fn check_depth(defs: &[Node], pattern: &Node) -> Result<(), Refusal> {
    let mut place = 0;
    for node in defs.iter().chain([pattern]) {
        check_depth_of(node, 0, &mut place)?;
    }
    Ok(())
}

fn check_depth_of(node: &Node, above: usize, place: &mut usize) -> Result<(), Refusal> {
    let is_level = matches!(node.kind, 30..=38 | 40..=45);
    let depth = above + is_level as usize;
    if depth > DEEPEST {
        return refuse(8, *place);
    }
    *place += 1;
    let mut children = node.children.iter();
    children.try_for_each(|child| check_depth_of(child, depth, place))
}

fn extractors_of<'a>(defs: &'a [Node], text: &'a [u8]) -> Vec<Extractor<'a>> {
    let mut place = 0;
    let mut extractors = Vec::new();
    for def in defs {
        if def.kind == EXTRACTOR {
            let (pattern, names) = def.children.split_last().expect("a template");
            let names: Vec<&[u8]> = names.iter().map(|ident| name(ident, text)).collect();
            extractors.push(Extractor {
                place,
                name: names[0],
                params: names[1..].to_vec(),
                pattern,
            });
        }
        place += size(def);
    }
    extractors
}

/// The Terms of a pattern whose first record stands at `place`, in order, with their places.
fn terms<'a>(node: &'a Node, place: &mut usize, found: &mut Vec<(usize, &'a Node)>) {
    if node.kind == TERM {
        found.push((*place, node));
    }
    *place += 1;
    for child in &node.children {
        terms(child, place, found);
    }
}

fn terms_from(node: &Node, mut place: usize) -> Vec<(usize, &Node)> {
    let mut found = Vec::new();
    terms(node, &mut place, &mut found);
    found
}

fn check_extractors(extractors: &[Extractor], text: &[u8]) -> Result<(), Refusal> {
    for (i, extractor) in extractors.iter().enumerate() {
        let (earlier, others) = extractors.split_at(i);
        if called(earlier, extractor.name).is_some() {
            return refuse(30, extractor.place);
        }
        let names = 1 + extractor.params.len();
        for (place, term) in terms_from(extractor.pattern, extractor.place + 1 + names) {
            let sought = name(&term.children[0], text);
            match called(earlier, sought) {
                Some(callee) => check_count(&earlier[callee], term, place)?,
                None if called(others, sought).is_some() => return refuse(32, place),
                None => {}
            }
        }
    }
    Ok(())
}

fn check_pattern(
    extractors: &[Extractor],
    pattern: &Node,
    place: usize,
    text: &[u8],
) -> Result<(), Refusal> {
    for (place, term) in terms_from(pattern, place) {
        if let Some(callee) = called(extractors, name(&term.children[0], text)) {
            check_count(&extractors[callee], term, place)?;
        }
    }
    Ok(())
}

/// The number of the extractor of that name.
fn called(extractors: &[Extractor], name: &[u8]) -> Option<usize> {
    extractors
        .iter()
        .position(|extractor| extractor.name == name)
}

fn check_count(callee: &Extractor, term: &Node, place: usize) -> Result<(), Refusal> {
    match term.children.len() - 1 == callee.params.len() {
        true => Ok(()),
        false => refuse(31, place),
    }
}

/// The size of an opened pattern: records of its own, and how often each parameter stands in it.
#[derive(Clone)]
struct Size {
    own: u64,
    uses: Vec<u64>,
}

impl Size {
    fn none(params: usize) -> Size {
        Size {
            own: 0,
            uses: vec![0; params],
        }
    }

    fn add(&mut self, other: &Size, times: u64) {
        self.own = self.own.saturating_add(other.own.saturating_mul(times));
        for (mine, its) in self.uses.iter_mut().zip(&other.uses) {
            *mine = mine.saturating_add(its.saturating_mul(times));
        }
    }

    /// The records, a MacroArg being one.
    fn records(&self) -> u64 {
        self.uses
            .iter()
            .fold(self.own, |sum, uses| sum.saturating_add(*uses))
    }
}

/// The opened templates so far, with the names they are called by.
struct Opener<'a> {
    extractors: &'a [Extractor<'a>],
    text: &'a [u8],
    sizes: Vec<Size>,
    templates: Vec<Node>,
}

fn opened(extractors: &[Extractor], pattern: &Node, text: &[u8]) -> Opened {
    let mut opener = Opener {
        extractors,
        text,
        sizes: Vec::new(),
        templates: Vec::new(),
    };
    let mut total = 0u64;
    for extractor in extractors {
        let made = template(extractor.pattern, &extractor.params, text);
        let size = opener.size(&made, extractor.params.len());
        total = total.saturating_add(size.records());
        if total > MAX_RECORDS as u64 {
            return Opened {
                store: None,
                pattern: None,
            };
        }
        let opened = opener.open(&made);
        opener.sizes.push(size);
        opener.templates.push(opened);
    }
    let fits = opener.size(pattern, 0).records() <= MAX_RECORDS as u64;
    Opened {
        store: Some(records_of(&opener.templates)),
        pattern: fits.then(|| records_of(&[opener.open(pattern)])),
    }
}

impl Opener<'_> {
    fn callee(&self, node: &Node) -> Option<usize> {
        let earlier = &self.extractors[..self.sizes.len()];
        match node.kind {
            TERM => called(earlier, name(&node.children[0], self.text)),
            _ => None,
        }
    }

    /// The size of an opened template of so many parameters.
    fn size(&self, node: &Node, params: usize) -> Size {
        let mut size = Size::none(params);
        if node.kind == MACRO_ARG {
            size.uses[node.words[0] as usize] = 1;
        } else if let Some(callee) = self.callee(node) {
            let template = &self.sizes[callee];
            size.own = template.own;
            for (arg, uses) in node.children[1..].iter().zip(&template.uses) {
                size.add(&self.size(arg, params), *uses);
            }
        } else {
            size.own = 1;
            for child in &node.children {
                size.add(&self.size(child, params), 1);
            }
        }
        size
    }

    /// A call's opened template with the opened arguments, each opened where it is used.
    fn open(&self, node: &Node) -> Node {
        match self.callee(node) {
            Some(callee) => {
                let args = &node.children[1..];
                fill(&self.templates[callee], &mut |index| {
                    self.open(&args[index])
                })
            }
            None => with_children(node, |child| self.open(child)),
        }
    }
}
