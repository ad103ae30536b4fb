//! Whether a lent record list is of its kind, written from 01 (refusals 7, 1 and 3).

use crate::records::*;

/// What may stand at a place in a tree.
#[derive(Clone, Copy, Debug, PartialEq)]
pub enum Sort {
    Definition,
    TypeValue,
    Variant,
    Fields,
    StructField,
    /// With its place among the fields.
    TupleField(u64),
    AttrKind,
    Priority,
    IfLet,
    Ident,
    Pattern,
    Expression,
    LetDef,
}

use Sort::*;

/// 7 for any input, then 1 for any list.
pub fn check_sizes(text: &[u8], lists: &[&[u8]]) -> Result<(), Refusal> {
    let too_many = |list: &&[u8]| list.len() / WIDTH > MAX_RECORDS;
    if text.len() > MAX_TEXT || lists.iter().any(too_many) {
        return Err(Refusal {
            number: 7,
            place: 0,
        });
    }
    match lists.iter().all(|list| list.len() % WIDTH == 0) {
        true => Ok(()),
        false => Err(Refusal {
            number: 1,
            place: 0,
        }),
    }
}

/// The trees of a list whose every tree is of the sort, else 3.
pub fn trees_of(list: &[u8], sort: Sort, text: &[u8]) -> Result<Vec<Node>, Refusal> {
    let trees = forest(&words_of(list));
    match trees {
        Some(trees) if trees.iter().all(|tree| fits(tree, sort, text)) => Ok(trees),
        _ => Err(Refusal {
            number: 3,
            place: 0,
        }),
    }
}

/// The tree of a list that holds exactly one, else 3.
pub fn tree_of(list: &[u8], sort: Sort, text: &[u8]) -> Result<Node, Refusal> {
    let mut trees = trees_of(list, sort, text)?;
    match trees.len() {
        1 => Ok(trees.remove(0)),
        _ => Err(Refusal {
            number: 3,
            place: 0,
        }),
    }
}

/// The trees of the records, if the child counts come out.
fn forest(records: &[Words]) -> Option<Vec<Node>> {
    let mut rest = records;
    let mut trees = Vec::new();
    while !rest.is_empty() {
        trees.push(tree(&mut rest)?);
    }
    Some(trees)
}

fn tree(rest: &mut &[Words]) -> Option<Node> {
    let (&[head, word1, word2], after) = rest.split_first()?;
    *rest = after;
    let count = head << 16 >> 48;
    let children: Option<Vec<Node>> = (0..count).map(|_| tree(rest)).collect();
    let node = Node {
        kind: (head >> 56) as u8,
        flags: (head >> 48) as u8,
        position: lower(head),
        words: [word1, word2],
        children: children?,
    };
    Some(node)
}

fn fits(node: &Node, sort: Sort, text: &[u8]) -> bool {
    let Some(sorts) = child_sorts(node, sort) else {
        return false;
    };
    let has_position = !matches!(node.kind, 6 | 13 | 14 | 15 | 21);
    sorts.len() == node.children.len()
        && node.flags <= flags_of(node.kind)
        && (has_position || node.position == 0)
        && words_fit(node, sort, text)
        && node
            .children
            .iter()
            .zip(sorts)
            .all(|(child, sort)| fits(child, sort, text))
}

/// All flags of a kind.
fn flags_of(kind: u8) -> u8 {
    match kind {
        1 | 20 => 3,
        11 => 15,
        12 | 17 | 32 | 42 => 1,
        _ => 0,
    }
}

fn words_fit(node: &Node, sort: Sort, text: &[u8]) -> bool {
    let [word1, word2] = node.words;
    match (node.kind, sort) {
        (24, _) => (word1 >> 32) + (word1 & 0xFFFF_FFFF) <= text.len() as u64 && word2 == 0,
        (10, TupleField(index)) => word1 == index && word2 == 0,
        (21 | 38, _) => word2 == 0,
        (33 | 43, _) => true,
        _ => word1 == 0 && word2 == 0,
    }
}

/// The sorts of the children of a node; none if its kind is not of the sort.
/// Where the node has too few children the list is longer than they are.
fn child_sorts(node: &Node, sort: Sort) -> Option<Vec<Sort>> {
    let count = node.children.len();
    let sorts = match (sort, node.kind) {
        (Definition, 1) => vec![Ident, TypeValue],
        (Definition, 11) => vec![Ident; count.max(2)],
        (Definition, 12) => first_then(Ident, AttrKind, count),
        (Definition, 16..=18) => vec![Ident; 2],
        (Definition, 19) => then_last(vec![Ident; count.max(2) - 1], Pattern),
        (Definition, 20) => rule_sorts(node.flags, count),
        (Definition, 23) => vec![Ident; 3],
        (TypeValue, 2) => vec![Ident],
        (TypeValue, 3) => vec![Variant; count],
        (TypeValue, 4) => vec![Fields],
        (Variant, 5) => vec![Ident, Fields],
        (Fields, 6) => vec![],
        (Fields, 7) => vec![StructField; count],
        (Fields, 8) => (0..count as u64).map(TupleField).collect(),
        (StructField, 9) => vec![Ident; 2],
        (TupleField(_), 10) => vec![Ident],
        (AttrKind, 13 | 14) => vec![],
        (AttrKind, 15) => vec![Ident],
        (Priority, 21) => vec![],
        (IfLet, 22) => vec![Pattern, Expression],
        (Ident, 24) => vec![],
        (Pattern, 30 | 34) => vec![Ident],
        (Pattern, 31) => vec![Ident, Pattern],
        (Pattern, 32 | 33 | 36 | 38) => vec![],
        (Pattern, 35) => first_then(Ident, Pattern, count),
        (Pattern, 37) => vec![Pattern; count],
        (Expression, 40) => first_then(Ident, Expression, count),
        (Expression, 41 | 44) => vec![Ident],
        (Expression, 42 | 43) => vec![],
        (Expression, 45) => then_last(vec![LetDef; count.max(1) - 1], Expression),
        (LetDef, 46) => vec![Ident, Ident, Expression],
        _ => return None,
    };
    Some(sorts)
}

fn first_then(first: Sort, others: Sort, count: usize) -> Vec<Sort> {
    let mut sorts = vec![others; count.max(1)];
    sorts[0] = first;
    sorts
}

fn then_last(mut sorts: Vec<Sort>, last: Sort) -> Vec<Sort> {
    sorts.push(last);
    sorts
}

fn rule_sorts(flags: u8, count: usize) -> Vec<Sort> {
    let mut sorts = Vec::new();
    if flags & 1 != 0 {
        sorts.push(Ident);
    }
    if flags & 2 != 0 {
        sorts.push(Priority);
    }
    sorts.push(Pattern);
    let iflets = count.saturating_sub(sorts.len() + 1);
    sorts.extend(vec![IfLet; iflets]);
    sorts.push(Expression);
    sorts
}
