//! Random texts, always the same for one seed.

use crate::damage::damage_pieces;

/// A xorshift generator.
pub struct Random(u64);

impl Random {
    pub fn new(seed: u64) -> Random {
        Random(seed | 1)
    }

    pub fn next(&mut self) -> u64 {
        self.0 ^= self.0 << 13;
        self.0 ^= self.0 >> 7;
        self.0 ^= self.0 << 17;
        self.0.wrapping_mul(0x2545_F491_4F6C_DD1D)
    }

    /// A number from 0 to `limit` - 1.
    pub fn below(&mut self, limit: usize) -> usize {
        ((self.next() >> 16) % limit as u64) as usize
    }

    /// True once in `times` on average.
    pub fn once_in(&mut self, times: usize) -> bool {
        self.below(times) == 0
    }

    pub fn pick<'a>(&mut self, list: &[&'a str]) -> &'a str {
        list[self.below(list.len())]
    }
}

#[rustfmt::skip]
const NAMES: &[&str] = &[
    "x", "y", "z", "A", "B", "T", "Foo", "u8", "lower", "_a", "a.b", "E.V", "x1", "a$", "iadd", "_9",
];
/// A `$` alone is refused as a constant, so it is rare.
#[rustfmt::skip]
const CONSTANTS: &[&str] = &[
    "$c", "$C1", "$", "$_", "$.x", "$$", "$a", "$B", "$x", "$T1", "$0", "$9_", "$.", "$..", "$_.a", "$__",
    "$$c", "$c$", "$$$", "$a.b", "$true", "$and", "$if", "$const", "$long_name", "$E.V", "$y", "$z9",
];
#[rustfmt::skip]
const WORDS: &[&str] = &[
    "pragma", "type", "decl", "attr", "spec", "macro", "state", "model", "form", "instantiate",
    "rule", "extractor", "extern", "convert", "extern", "nodebug", "primitive", "enum", "struct",
    "pure", "multi", "partial", "rec", "veri", "tag", "chain", "priority", "constructor",
    "infallible", "const", "if-let", "if", "let", "and", "true", "false", "_", "True", "pur", "typ",
    "if_let", "lets", "an", "type_", "purer", "__",
];
#[rustfmt::skip]
const BAD_NAMES: &[&str] = &[
    "a-b", "#x1", "!", "a#", "+", "a,b", "'x", "x'", ".a", "=", "a:b", "x\u{b}", "\u{0}", "a\u{7f}",
    "$-", "if-let-",
];
#[rustfmt::skip]
const INTEGERS: &[&str] = &[
    "0", "1", "5", "-1", "-0", "0x7f", "0b101", "0o17", "1_000", "-0x10", "255",
    "9223372036854775807", "9223372036854775808", "-9223372036854775808", "-9223372036854775809",
    "18446744073709551615", "18446744073709551616", "170141183460469231731687303715884105727",
    "170141183460469231731687303715884105728", "-170141183460469231731687303715884105727",
    "340282366920938463463374607431768211455", "0xffff_ffff_ffff_ffff_ffff_ffff_ffff_ffff",
];

/// Makes the pieces of a text: one piece for each token.
pub struct Pieces<'a> {
    pub random: &'a mut Random,
    pub list: Vec<String>,
}

impl Pieces<'_> {
    pub fn new(random: &mut Random) -> Pieces<'_> {
        Pieces {
            random,
            list: Vec::new(),
        }
    }

    fn add(&mut self, piece: &str) {
        self.list.push(piece.to_string());
    }

    fn sometimes(&mut self, word: &str) {
        if self.random.once_in(3) {
            self.add(word);
        }
    }

    fn name(&mut self) {
        let name = match self.random.below(200) {
            0..=11 => self.random.pick(WORDS),
            12 => self.random.pick(BAD_NAMES),
            13..=15 => self.random.pick(CONSTANTS),
            _ => self.random.pick(NAMES),
        };
        self.add(name);
    }

    fn names(&mut self, most: usize) {
        for _ in 0..self.random.below(most + 1) {
            self.name();
        }
    }

    fn integer(&mut self) {
        let integer = self.random.pick(INTEGERS);
        self.add(integer);
    }

    pub fn definition(&mut self) {
        self.add("(");
        match self.random.below(24) {
            0..=4 => self.type_definition(),
            5..=7 => self.decl(),
            8..=9 => self.attr(),
            10..=16 => self.rule(),
            17..=19 => self.extractor(),
            20..=21 => self.extern_definition(),
            22 => {
                self.add("convert");
                (0..3).for_each(|_| self.name());
            }
            _ => self.other_definition(),
        }
        self.add(")");
    }

    fn other_definition(&mut self) {
        if self.random.once_in(2) {
            let word = self
                .random
                .pick(&["pragma", "spec", "macro", "state", "model", "form"]);
            self.add(word);
        } else {
            let word = self.random.pick(WORDS);
            self.add(word);
        }
        self.names(3);
    }

    fn type_definition(&mut self) {
        self.add("type");
        self.name();
        while self.random.once_in(3) {
            let word = self.random.pick(&["extern", "nodebug"]);
            self.add(word);
        }
        self.add("(");
        match self.random.below(4) {
            0 => {
                self.add("primitive");
                self.name();
            }
            1 => {
                self.add("struct");
                self.fields();
            }
            _ => {
                self.add("enum");
                (0..self.random.below(4)).for_each(|_| self.variant());
            }
        }
        self.add(")");
    }

    fn variant(&mut self) {
        if self.random.once_in(3) {
            return self.name();
        }
        self.add("(");
        self.name();
        self.fields();
        self.add(")");
    }

    fn fields(&mut self) {
        match self.random.below(3) {
            0 => {}
            1 => self.names(3),
            _ => (0..self.random.below(3)).for_each(|_| {
                self.add("(");
                self.name();
                self.name();
                self.add(")");
            }),
        }
    }

    fn decl(&mut self) {
        self.add("decl");
        for word in ["pure", "multi", "partial", "rec"] {
            self.sometimes(word);
        }
        self.name();
        self.add("(");
        self.names(3);
        self.add(")");
        self.name();
    }

    fn attr(&mut self) {
        self.add("attr");
        self.sometimes("rule");
        self.name();
        for _ in 0..self.random.below(4) {
            self.add("(");
            match self.random.below(16) {
                0..=6 => {
                    self.add("veri");
                    let word = self.random.pick(&["chain", "priority"]);
                    self.add(word);
                }
                7..=13 => {
                    self.add("tag");
                    self.name();
                }
                14 => {
                    self.add("veri");
                    self.name();
                }
                _ => self.name(),
            }
            self.add(")");
        }
    }

    fn extern_definition(&mut self) {
        self.add("extern");
        match self.random.below(13) {
            0..=3 => {
                self.add("constructor");
                self.name();
            }
            4..=7 => {
                self.add("extractor");
                self.sometimes("infallible");
                self.name();
            }
            8..=11 => {
                self.add("const");
                if self.random.once_in(8) {
                    self.name();
                } else {
                    let constant = self.random.pick(CONSTANTS);
                    self.add(constant);
                }
            }
            _ => self.name(),
        }
        self.name();
    }

    fn extractor(&mut self) {
        self.add("extractor");
        self.add("(");
        self.name();
        self.names(3);
        self.add(")");
        self.pattern(4);
    }

    fn rule(&mut self) {
        self.add("rule");
        if self.random.once_in(3) {
            self.name();
        }
        if self.random.once_in(3) {
            self.integer();
        }
        self.pattern(4);
        while self.random.once_in(4) {
            self.add("(");
            if self.random.once_in(2) {
                self.add("if-let");
                self.pattern(2);
            } else {
                self.add("if");
            }
            self.expression(2);
            self.add(")");
        }
        self.expression(4);
    }

    /// A pattern at most `levels` deep.
    pub fn pattern(&mut self, levels: usize) {
        match self.random.below(if levels > 1 { 13 } else { 7 }) {
            0..=1 => self.name(),
            2 => self.integer(),
            3 => {
                let constant = self.random.pick(CONSTANTS);
                self.add(constant);
            }
            4 => self.add("_"),
            5 => self.add("true"),
            6 => self.add("false"),
            7..=8 => {
                self.name();
                self.add("@");
                self.pattern(levels - 1);
            }
            9 => {
                self.add("(");
                self.add("and");
                (0..self.random.below(3)).for_each(|_| self.pattern(levels - 1));
                self.add(")");
            }
            _ => {
                self.add("(");
                self.name();
                (0..self.random.below(4)).for_each(|_| self.pattern(levels - 1));
                self.add(")");
            }
        }
    }

    /// An expression at most `levels` deep.
    fn expression(&mut self, levels: usize) {
        match self.random.below(if levels > 1 { 12 } else { 7 }) {
            0..=2 => self.name(),
            3 => self.integer(),
            4 => {
                let constant = self.random.pick(CONSTANTS);
                self.add(constant);
            }
            5 => self.add("true"),
            6 => self.add("false"),
            7..=8 => self.let_expression(levels),
            _ => {
                self.add("(");
                self.name();
                (0..self.random.below(4)).for_each(|_| self.expression(levels - 1));
                self.add(")");
            }
        }
    }

    /// What stands before and after a pattern or expression that is one level deeper.
    fn level(&mut self, in_pattern: bool) -> (&'static [&'static str], &'static [&'static str]) {
        match (in_pattern, self.random.below(5)) {
            (true, 0) => (&["(", "and"], &[")"]),
            (true, 1..=2) => (&["a", "@"], &[]),
            (false, 0) => (&["(", "let", "(", ")"], &[")"]),
            (false, 1) => (&["(", "let", "(", "(", "v", "T"], &[")", ")", "w", ")"]),
            (false, 2) => (&["(", "let", "(", "(", "v", "T", "w", ")", ")"], &[")"]),
            (_, 3) => (&["(", "A", "x"], &["y", ")"]),
            _ => (&["(", "A"], &[")"]),
        }
    }

    fn let_expression(&mut self, levels: usize) {
        self.add("(");
        self.add("let");
        self.add("(");
        for _ in 0..self.random.below(3) {
            self.add("(");
            self.name();
            self.name();
            self.expression(levels - 1);
            self.add(")");
        }
        self.add(")");
        self.expression(levels - 1);
        self.add(")");
    }
}

/// The pieces of a rule or extractor nested about as deep as is still read, perhaps cut off.
pub fn deep_pieces(random: &mut Random) -> Vec<String> {
    let in_pattern = random.once_in(2);
    let before: &[&str] = match (in_pattern, random.once_in(2)) {
        (true, true) => &["(", "rule"],
        (true, false) => &["(", "extractor", "(", "P", ")"],
        (false, true) => &["(", "rule", "(", "A", ")"],
        (false, false) => &["(", "rule", "x", "x", "(", "if"],
    };
    let mut pieces = Pieces::new(random);
    before.iter().for_each(|piece| pieces.add(piece));
    let mut after = Vec::new();
    for _ in 0..60 + pieces.random.below(9) {
        let (open, close) = pieces.level(in_pattern);
        open.iter().for_each(|piece| pieces.add(piece));
        after.push(close);
    }
    if pieces.random.once_in(4) {
        return pieces.list;
    }
    let inside = match pieces.random.once_in(4) {
        true => any_piece(pieces.random),
        false => "x".to_string(),
    };
    pieces.list.push(inside);
    after
        .iter()
        .rev()
        .copied()
        .flatten()
        .for_each(|piece| pieces.add(piece));
    pieces.add(")");
    pieces.list
}

/// A piece of any kind.
pub fn any_piece(random: &mut Random) -> String {
    let piece = match random.below(10) {
        0..=1 => "(",
        2..=3 => ")",
        4 => "@",
        5 => random.pick(INTEGERS),
        6 => random.pick(NAMES),
        7 => random.pick(CONSTANTS),
        8 => random.pick(WORDS),
        _ => random.pick(BAD_NAMES),
    };
    piece.to_string()
}

/// The pieces as one text, with blanks and comments between them.
pub fn join(random: &mut Random, list: &[String]) -> String {
    let mut text = String::new();
    for (i, piece) in list.iter().enumerate() {
        let apart = i > 0 && !is_mark(&list[i - 1]) && !is_mark(piece);
        text.push_str(blank(random, apart));
        text.push_str(piece);
    }
    if random.once_in(4) {
        text.push_str(blank(random, false));
    }
    text
}

fn is_mark(piece: &str) -> bool {
    ["(", ")", "@"].contains(&piece)
}

fn blank(random: &mut Random, needed: bool) -> &'static str {
    match random.below(60) {
        0 => "\n",
        1 => "\t ",
        2 => "\r\n",
        3 => ";c(\n",
        4 => " (;c(;;);) ",
        5..=9 => " ",
        _ if needed => " ",
        _ => "",
    }
}

/// The pieces of one to three definitions, or of a deep one.
pub fn any_definitions(random: &mut Random) -> Vec<String> {
    if random.once_in(40) {
        return deep_pieces(random);
    }
    let mut pieces = Pieces::new(random);
    (0..1 + pieces.random.below(3)).for_each(|_| pieces.definition());
    pieces.list
}

/// A random text: one to three definitions, or a deep one.
pub fn any_text(random: &mut Random) -> String {
    let mut list = any_definitions(random);
    while random.once_in(3) && !list.is_empty() {
        damage_pieces(random, &mut list);
    }
    join(random, &list)
}
