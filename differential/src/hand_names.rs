//! Hand-written lists whose names are long, overlap in the text, or differ in one byte.

use crate::records::*;
use crate::steps::Lists;

/// A record of a kind with so many children.
fn head(kind: u64, children: usize) -> Words {
    [kind << 56 | (children as u64) << 32, 0, 0]
}

fn node(kind: u64, children: &[Vec<Words>]) -> Vec<Words> {
    [vec![head(kind, children.len())], children.concat()].concat()
}

/// An Ident by its range in the text.
pub fn ident(name: u64) -> Vec<Words> {
    vec![[24 << 56, name, 0]]
}

pub fn var(name: u64) -> Vec<Words> {
    node(30, &[ident(name)])
}

pub fn bind(name: u64, pattern: Vec<Words>) -> Vec<Words> {
    node(31, &[ident(name), pattern])
}

pub fn wildcard() -> Vec<Words> {
    node(36, &[])
}

pub fn and_of(patterns: &[Vec<Words>]) -> Vec<Words> {
    node(37, patterns)
}

pub fn term(name: u64, args: &[Vec<Words>]) -> Vec<Words> {
    node(35, &[vec![ident(name)], args.to_vec()].concat())
}

pub fn extractor(name: u64, params: &[u64], template: Vec<Words>) -> Vec<Words> {
    let mut children = vec![ident(name)];
    children.extend(params.iter().map(|param| ident(*param)));
    children.push(template);
    node(19, &children)
}

/// An And of Vars with these names.
pub fn vars(names: impl Iterator<Item = u64>) -> Vec<Words> {
    and_of(&names.map(var).collect::<Vec<_>>())
}

/// Parameters for template making.
pub fn idents(names: &[u64]) -> Vec<Words> {
    names.iter().flat_map(|name| ident(*name)).collect()
}

/// Names of one length that overlap in a text of two letters: the name of number `k` is all but `k`
/// of the first letters, then second ones. So any two are different, and the nearer their
/// numbers are to 0 the longer they agree.
pub struct Stairs {
    pub text: Vec<u8>,
    firsts: usize,
}

impl Stairs {
    /// For names of numbers up to `firsts`, with two bytes more than that. With `twice` the text
    /// stands two times, so that each name has another range as well.
    pub fn new(firsts: usize, twice: bool) -> Stairs {
        let half = [vec![b'a'; firsts], vec![b'b'; firsts + 2]].concat();
        let text = half.repeat(1 + twice as usize);
        Stairs { text, firsts }
    }

    pub fn name(&self, k: usize) -> u64 {
        pair(k as u32, self.firsts as u32 + 2)
    }

    /// The same bytes from the second time on.
    fn again(&self, k: usize) -> u64 {
        pair((self.text.len() / 2 + k) as u32, self.firsts as u32 + 2)
    }
}

fn lists(text: &[u8], first: &[Words], second: &[Words]) -> Lists {
    Lists {
        text: text.to_vec(),
        first: bytes_of(first),
        second: bytes_of(second),
    }
}

/// Lengths at which names may be compared in other ways.
const LENGTHS: &[usize] = &[1, 2, 7, 8, 9, 15, 16, 17, 31, 32, 33, 255, 256, 257, 4_096];

/// Lists for template making.
pub fn name_templates() -> Vec<Lists> {
    let mut all = Vec::new();
    for length in LENGTHS {
        all.extend(one_byte_apart(*length));
    }
    for (firsts, names) in [(8, 8), (140, 140), (260, 140), (4_100, 140)] {
        all.extend(many_parameters(firsts, names));
    }
    for bytes in [(b'a', b'b'), (0, 255), (128, 0), (127, 128)] {
        all.extend([3, 301].map(|count| each_place(300, bytes, count)));
    }
    all.extend([equal_letters(300), equal_letters(1_200), empty_names()]);
    all
}

/// A name of that length, a copy of it, and copies with another first, middle and last byte; also
/// the name without its last byte, and with one more.
fn one_byte_apart(length: usize) -> Vec<Lists> {
    let letters: Vec<u8> = (0..length).map(|i| b'a' + (i * i % 23) as u8).collect();
    let mut text = letters.repeat(5);
    for (copy, byte) in [(2, 0), (3, length / 2), (4, length - 1)] {
        text[copy * length + byte] = b'z';
    }
    text.push(b'a');
    let size = length as u32;
    let [name, copy, first, middle, last] = [0, 1, 2, 3, 4].map(|i| pair(i * size, size));
    let (shorter, longer) = (pair(0, size - 1), pair(size, size + 1));
    let sought = [
        name, copy, first, middle, last, shorter, longer, last, copy, name,
    ];
    let mut patterns: Vec<_> = sought.map(var).to_vec();
    patterns.extend(sought.map(|name| bind(name, wildcard())));
    patterns.extend(sought.map(|name| bind(name, var(name))));
    let pattern = and_of(&patterns);
    let params = [
        vec![],
        vec![name],
        vec![last],
        vec![copy, name],
        vec![first, middle, last],
        vec![last, middle, first, copy, name],
        vec![shorter, longer],
        vec![longer, shorter, name, last, first, middle, copy, name],
    ];
    let list = |params: &Vec<u64>| lists(&text, &pattern, &idents(params));
    params.iter().map(list).collect()
}

/// More parameters than names, so that some repeat, in several orders, with other lengths among
/// them that are sought or not. Half of the names sought are at another range.
fn many_parameters(firsts: usize, names: usize) -> Vec<Lists> {
    let stairs = Stairs::new(firsts, true);
    let count = 2 * names + 3;
    let known = names * 2 / 3;
    let of_length = |name: u64, less: usize| name - less as u64;
    let sought = (0..names).flat_map(|k| [stairs.name(k), stairs.again(k)]);
    let others = (0..names).map(|k| of_length(stairs.again(k), 1 + k % 2));
    let pattern = vars(sought.chain(others));
    let orders: [&dyn Fn(usize) -> u64; 6] = [
        &|i| stairs.name(i % known),
        &|i| stairs.again((count - i) % known),
        &|i| stairs.name(i * 7 % known),
        &|i| of_length(stairs.name(i * 5 % known), i % 4),
        &|i| of_length(stairs.again(i % known), 3 + i % 2),
        &|_| stairs.again(1),
    ];
    let list = |order: &&dyn Fn(usize) -> u64| {
        let params: Vec<u64> = (0..count).map(order).collect();
        lists(&stairs.text, &pattern, &idents(&params))
    };
    orders.iter().map(list).collect()
}

/// Names of one length that are all of one byte, and for each place a name that has another byte
/// there. So many of them are parameters, and all are sought.
fn each_place(length: usize, (byte, other): (u8, u8), count: usize) -> Lists {
    let around = vec![byte; length];
    let text = [around.clone(), vec![other], around].concat();
    let name = |start: usize| pair(start as u32, length as u32);
    let params: Vec<u64> = (0..count).map(|i| name(i * 7 % (length + 1))).collect();
    lists(&text, &vars((0..length + 2).map(name)), &idents(&params))
}

/// Names of a text of one letter: those of one length are all equal. The longest are not sought.
fn equal_letters(count: usize) -> Lists {
    let text = vec![b'a'; 2 * count + 1];
    let name = |i: usize, length: usize| pair((i % count) as u32, length as u32);
    let params: Vec<u64> = (0..count).map(|i| name(i, (i * 7 + 3) % count)).collect();
    let sought = (0..count / 2).map(|i| name(3 * i, i));
    lists(&text, &vars(sought), &idents(&params))
}

/// Names of no bytes, one of them at the text's end, and others.
fn empty_names() -> Lists {
    let names = [pair(3, 0), pair(0, 1), pair(0, 0), pair(2, 1), pair(1, 2)];
    let pattern = vars(
        names
            .into_iter()
            .chain([pair(1, 0), pair(0, 3), pair(1, 1)]),
    );
    lists(b"aba", &pattern, &idents(&names[1..]))
}

/// Lists for opening: those for template making, each as an extractor that is called, and many
/// extractors.
pub fn name_openings() -> Vec<Lists> {
    let mut all: Vec<Lists> = name_templates().iter().map(as_extractor).collect();
    for (firsts, count) in [(9, 9), (300, 9), (4_096, 9), (256, 200), (256, 256)] {
        all.extend(many_names(firsts, count));
    }
    all
}

/// An extractor with the parameters and the template, and a call of it with integers.
fn as_extractor(made: &Lists) -> Lists {
    let params: Vec<u64> = words_of(&made.second)
        .iter()
        .map(|words| words[1])
        .collect();
    let name = pair(0, 1);
    let integer = |i: usize| vec![[33 << 56, 0, i as u64]];
    let args: Vec<_> = (0..params.len()).map(integer).collect();
    let def = extractor(name, &params, words_of(&made.first));
    lists(&made.text, &def, &term(name, &args))
}

/// So many extractors with two parameters, from the second on with a call of an earlier one.
/// Accepted, and refused with 30, 31 and 32.
fn many_names(firsts: usize, count: usize) -> Vec<Lists> {
    let stairs = Stairs::new(firsts, true);
    let [x, y] = [pair(0, 1), pair(firsts as u32, 1)];
    let two = [var(x), var(y)];
    let swapped = [var(y), var(x)];
    // Neither a shorter nor a longer name calls.
    let prefixes = |k: usize| [stairs.name(k) - 1, stairs.again(k) + 1].map(|name| term(name, &[]));
    let template = |k: usize| match k {
        0 => var(y),
        _ if k % 16 == 0 => and_of(&prefixes(k)),
        _ => term(stairs.again(k * 7 % k.min(9)), &swapped),
    };
    let defs: Vec<_> = (0..count)
        .map(|k| extractor(stairs.name(k), &[x, y], template(k)))
        .collect();
    let calls = (0..count).flat_map(|k| [stairs.name(k), stairs.again(k)]);
    let mut patterns: Vec<_> = calls.map(|name| term(name, &two)).collect();
    patterns.extend((0..count.min(firsts - 1)).flat_map(prefixes));
    let pattern = and_of(&patterns);
    let with = |at: usize, def: Vec<Words>| {
        let mut changed = defs.clone();
        changed[at] = def;
        lists(&stairs.text, &changed.concat(), &pattern)
    };
    let last = count - 1;
    let mut all = vec![lists(&stairs.text, &defs.concat(), &pattern)];
    // A name again, at its own range or another; a call of itself, of a later one, and short of
    // arguments.
    for (at, name) in [
        (last, stairs.name(0)),
        (last, stairs.again(last / 2)),
        (last / 2, stairs.again(last / 3)),
        (1, stairs.again(0)),
    ] {
        all.push(with(at, extractor(name, &[y, x], var(x))));
    }
    for (at, called) in [(last, last), (last / 2, last), (0, 1), (last, 0)] {
        let call = term(stairs.again(called), &[var(x)]);
        all.push(with(at, extractor(stairs.name(at), &[x, y], call)));
    }
    for args in [1, 3] {
        let call = term(stairs.again(last), &vec![wildcard(); args]);
        all.push(lists(&stairs.text, &defs.concat(), &call));
    }
    all
}
