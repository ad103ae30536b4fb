//! A small model of reading, written from 01 and 02 over token records and apart from the Rust.
//! It judges every lent input, also where the crate has nothing to say.

use crate::records::*;

/// The depth that is still read.
pub const DEEPEST: usize = 64;

/// The words of the definitions that are not covered.
pub const UNCOVERED: [&[u8]; 6] = [
    b"spec",
    b"macro",
    b"state",
    b"model",
    b"form",
    b"instantiate",
];

/// Where reading refuses what the crate reads.
#[derive(Clone, Copy)]
pub struct Rules {
    /// The depth that is still read.
    pub deepest: usize,
    /// Whether a `$` alone is a constant, with an empty name.
    pub lone_dollars: bool,
}

/// The rules of reading.
pub const RULES: Rules = Rules {
    deepest: DEEPEST,
    lone_dollars: false,
};

/// The crate has neither of these rules.
pub const AS_THE_CRATE: Rules = Rules {
    deepest: usize::MAX,
    lone_dollars: true,
};

/// The reading of lent bytes: the complete list of records, or the first refusal.
pub fn read(tokens: &[u8], text: &[u8], end: u32) -> Outcome {
    read_by(tokens, text, end, RULES)
}

/// The same by other rules.
pub fn read_by(tokens: &[u8], text: &[u8], end: u32, rules: Rules) -> Outcome {
    let mut reader = Reader::of(tokens, text, end, rules)?;
    Ok(records_of(&reader.definitions()?))
}

/// The index of the `$` that reading refuses, because it stands alone for a constant.
pub fn lone_dollar(tokens: &[u8], text: &[u8], end: u32) -> Option<usize> {
    let mut reader = Reader::of(tokens, text, end, RULES).ok()?;
    let refusal = reader.definitions().err()?;
    let found = refusal.number == 16 && reader.at_word(|name| name == b"$");
    found.then_some(reader.next)
}

/// How many tokens reading takes before it refuses, if it comes to read them; all if it accepts.
pub fn taken(tokens: &[u8], text: &[u8], end: u32) -> usize {
    let Ok(mut reader) = Reader::of(tokens, text, end, RULES) else {
        return 0;
    };
    let _ = reader.definitions();
    reader.next
}

fn refuse<T>(number: u8, place: u32) -> Result<T, Refusal> {
    Err(Refusal { number, place })
}

/// A good token.
#[derive(Clone, Copy)]
struct Token<'a> {
    position: u32,
    what: What<'a>,
}

#[derive(Clone, Copy, PartialEq)]
enum What<'a> {
    Left,
    Right,
    At,
    Symbol { start: u32, name: &'a [u8] },
    Integer(i128),
}

impl<'a> Token<'a> {
    /// None if the record is bad (2).
    fn of(words: Words, text: &'a [u8], end: u32) -> Option<Token<'a>> {
        let position = lower(words[0]);
        let spare = words[0] << 4 >> 36;
        let what = match words[0] >> 60 {
            1 => What::Left,
            2 => What::Right,
            3 => symbol_of(words, text)?,
            4 => What::Integer(((words[1] as u128) << 64 | words[2] as u128) as i128),
            5 => What::At,
            _ => return None,
        };
        let has_words = matches!(what, What::Symbol { .. } | What::Integer(_));
        let good = spare == 0 && position <= end && (has_words || words[1..] == [0, 0]);
        good.then_some(Token { position, what })
    }
}

fn symbol_of(words: Words, text: &[u8]) -> Option<What<'_>> {
    let start = words[1] >> 32;
    let after = start + (words[1] & 0xFFFF_FFFF);
    if words[2] != 0 || after > text.len() as u64 {
        return None;
    }
    let name = &text[start as usize..after as usize];
    name.is_ascii().then_some(What::Symbol {
        start: start as u32,
        name,
    })
}

/// Whether a name keeps the identifier rule, else the number of its refusal.
fn identifier_fault(name: &[u8]) -> Option<u8> {
    let (first, later) = match name.split_first() {
        None => return Some(13),
        Some(parts) => parts,
    };
    if !first.is_ascii_alphabetic() && !b"_$".contains(first) {
        return Some(14);
    }
    let good = |byte: &u8| byte.is_ascii_alphanumeric() || b"_.$".contains(byte);
    (!later.iter().all(good)).then_some(15)
}

type Read<T> = Result<T, Refusal>;

struct Reader<'a> {
    tokens: Vec<Token<'a>>,
    end: u32,
    next: usize,
    rules: Rules,
}

impl<'a> Reader<'a> {
    /// A reader before the first of these tokens, or the refusal of one that is bad or of too many.
    fn of(tokens: &[u8], text: &'a [u8], end: u32, rules: Rules) -> Read<Reader<'a>> {
        if tokens.len() / WIDTH > MAX_TOKENS || text.len() > MAX_TEXT {
            return refuse(7, 0);
        }
        if tokens.len() % WIDTH != 0 {
            return refuse(1, 0);
        }
        let mut list = Vec::new();
        for (index, words) in words_of(tokens).into_iter().enumerate() {
            match Token::of(words, text, end) {
                Some(token) => list.push(token),
                None => return refuse(2, index as u32),
            }
        }
        Ok(Reader {
            tokens: list,
            end,
            next: 0,
            rules,
        })
    }

    fn peek(&self) -> Option<What<'a>> {
        self.tokens.get(self.next).map(|token| token.what)
    }

    /// The position of the next token, or the end position.
    fn place(&self) -> u32 {
        let token = self.tokens.get(self.next);
        token.map_or(self.end, |token| token.position)
    }

    /// 10 at the next token or 11 at the end.
    fn unexpected<T>(&self) -> Read<T> {
        let number = if self.peek().is_some() { 10 } else { 11 };
        refuse(number, self.place())
    }

    fn expect(&mut self, what: What) -> Read<()> {
        if self.peek() != Some(what) {
            return self.unexpected();
        }
        self.next += 1;
        Ok(())
    }

    fn at_symbol(&self) -> bool {
        matches!(self.peek(), Some(What::Symbol { .. }))
    }

    fn symbol(&mut self) -> Read<&'a [u8]> {
        let Some(What::Symbol { name, .. }) = self.peek() else {
            return self.unexpected();
        };
        self.next += 1;
        Ok(name)
    }

    /// Takes the next token if it is that word.
    fn take(&mut self, word: &str) -> bool {
        let is_word = self.at_word(|name| name == word.as_bytes());
        self.next += is_word as usize;
        is_word
    }

    fn at_word(&self, test: impl Fn(&[u8]) -> bool) -> bool {
        match self.peek() {
            Some(What::Symbol { name, .. }) => test(name),
            _ => false,
        }
    }

    /// Items up to a `)`, which is not taken.
    fn items(&mut self, mut item: impl FnMut(&mut Self, usize) -> Read<Node>) -> Read<Vec<Node>> {
        let mut list = Vec::new();
        while self.peek() != Some(What::Right) {
            list.push(item(self, list.len())?);
        }
        Ok(list)
    }

    /// An Ident with the first `cut` bytes of its symbol cut off.
    fn ident(&mut self, cut: u32) -> Read<Node> {
        let position = self.place();
        let Some(What::Symbol { start, name }) = self.peek() else {
            return self.unexpected();
        };
        if let Some(number) = identifier_fault(name) {
            return refuse(number, position);
        }
        if cut == 1 && !self.is_constant(name) {
            return refuse(16, position);
        }
        self.next += 1;
        let range = pair(start + cut, name.len() as u32 - cut);
        Ok(Node::new(24, position, vec![]).word1(range))
    }

    /// Whether an identifier starts with `$`, and has at least one character after it.
    fn is_constant(&self, name: &[u8]) -> bool {
        name[0] == b'$' && (name.len() > 1 || self.rules.lone_dollars)
    }

    fn name(&mut self) -> Read<Node> {
        self.ident(0)
    }

    fn constant(&mut self) -> Read<Node> {
        self.ident(1)
    }

    fn definitions(&mut self) -> Read<Vec<Node>> {
        let mut list = Vec::new();
        while self.peek().is_some() {
            list.push(self.definition()?);
        }
        Ok(list)
    }

    fn definition(&mut self) -> Read<Node> {
        self.expect(What::Left)?;
        let word_place = self.place();
        let word = self.symbol()?;
        let definition = match word {
            b"type" => self.type_definition(),
            b"decl" => self.decl(),
            b"attr" => self.attr(),
            b"rule" => self.rule(),
            b"extractor" => self.extractor(),
            b"extern" => self.extern_definition(),
            b"convert" => self.convert(),
            b"pragma" => self.pragma(),
            _ if UNCOVERED.contains(&word) => refuse(27, word_place),
            _ => refuse(12, word_place),
        }?;
        self.expect(What::Right)?;
        Ok(definition)
    }

    fn pragma(&mut self) -> Read<Node> {
        let name = self.name()?;
        refuse(17, name.position)
    }

    fn type_definition(&mut self) -> Read<Node> {
        let position = self.place();
        let name = self.name()?;
        let mut flags = 0;
        while self.at_symbol() {
            flags |= match self.symbol()? {
                b"extern" => 1,
                b"nodebug" => 2,
                _ => return refuse(18, self.place()),
            };
        }
        let value = self.type_value()?;
        Ok(Node::new(1, position, vec![name, value]).flags(flags))
    }

    fn type_value(&mut self) -> Read<Node> {
        let position = self.place();
        self.expect(What::Left)?;
        let (kind, children) = if self.take("primitive") {
            (2, vec![self.name()?])
        } else if self.take("enum") {
            (3, self.items(|reader, _| reader.variant())?)
        } else if self.take("struct") {
            (4, vec![self.fields()?])
        } else {
            return refuse(19, position);
        };
        self.expect(What::Right)?;
        Ok(Node::new(kind, position, children))
    }

    fn variant(&mut self) -> Read<Node> {
        let position = self.place();
        if self.at_symbol() {
            let children = vec![self.name()?, Node::new(6, 0, vec![])];
            return Ok(Node::new(5, position, children));
        }
        self.expect(What::Left)?;
        let children = vec![self.name()?, self.fields()?];
        self.expect(What::Right)?;
        Ok(Node::new(5, position, children))
    }

    fn fields(&mut self) -> Read<Node> {
        let position = self.place();
        match self.peek() {
            Some(What::Right) => Ok(Node::new(6, 0, vec![])),
            Some(What::Left) => {
                let fields = self.items(|reader, _| reader.struct_field())?;
                Ok(Node::new(7, position, fields))
            }
            _ => {
                let fields = self.items(|reader, index| reader.tuple_field(index))?;
                Ok(Node::new(8, position, fields))
            }
        }
    }

    fn struct_field(&mut self) -> Read<Node> {
        let position = self.place();
        self.expect(What::Left)?;
        let children = vec![self.name()?, self.name()?];
        self.expect(What::Right)?;
        Ok(Node::new(9, position, children))
    }

    fn tuple_field(&mut self, index: usize) -> Read<Node> {
        let position = self.place();
        let children = vec![self.name()?];
        Ok(Node::new(10, position, children).word1(index as u64))
    }

    fn decl(&mut self) -> Read<Node> {
        let position = self.place();
        let mut flags = 0;
        for (word, flag) in [("pure", 1), ("multi", 2), ("partial", 4), ("rec", 8)] {
            if self.take(word) {
                flags |= flag;
            }
        }
        let mut children = vec![self.name()?];
        self.expect(What::Left)?;
        children.extend(self.items(|reader, _| reader.name())?);
        self.expect(What::Right)?;
        children.push(self.name()?);
        Ok(Node::new(11, position, children).flags(flags))
    }

    fn attr(&mut self) -> Read<Node> {
        let position = self.place();
        let flags = self.take("rule") as u8;
        let mut children = vec![self.name()?];
        children.extend(self.items(|reader, _| reader.attr_kind())?);
        Ok(Node::new(12, position, children).flags(flags))
    }

    fn attr_kind(&mut self) -> Read<Node> {
        self.expect(What::Left)?;
        let word_place = self.place();
        let kind = match self.symbol()? {
            b"veri" => self.verification_kind()?,
            b"tag" => Node::new(15, 0, vec![self.name()?]),
            _ => return refuse(20, word_place),
        };
        self.expect(What::Right)?;
        Ok(kind)
    }

    fn verification_kind(&mut self) -> Read<Node> {
        let word_place = self.place();
        match self.symbol()? {
            b"chain" => Ok(Node::new(13, 0, vec![])),
            b"priority" => Ok(Node::new(14, 0, vec![])),
            _ => refuse(21, word_place),
        }
    }

    fn extern_definition(&mut self) -> Read<Node> {
        let position = self.place();
        if self.take("constructor") {
            Ok(Node::new(16, position, vec![self.name()?, self.name()?]))
        } else if self.take("extractor") {
            let flags = self.take("infallible") as u8;
            let children = vec![self.name()?, self.name()?];
            Ok(Node::new(17, position, children).flags(flags))
        } else if self.take("const") {
            let name_place = self.place();
            let children = vec![self.constant()?, self.name()?];
            Ok(Node::new(18, name_place, children))
        } else {
            refuse(22, position)
        }
    }

    fn extractor(&mut self) -> Read<Node> {
        let position = self.place();
        self.expect(What::Left)?;
        let mut children = vec![self.name()?];
        children.extend(self.items(|reader, _| reader.name())?);
        self.expect(What::Right)?;
        children.push(self.pattern(1)?);
        Ok(Node::new(19, position, children))
    }

    fn convert(&mut self) -> Read<Node> {
        let position = self.place();
        let children = vec![self.name()?, self.name()?, self.name()?];
        Ok(Node::new(23, position, children))
    }

    fn rule(&mut self) -> Read<Node> {
        let position = self.place();
        let mut children = Vec::new();
        let mut flags = 0;
        if self.at_symbol() {
            let name = self.name().or_else(|_| refuse(23, position))?;
            children.push(name);
            flags |= 1;
        }
        if let Some(What::Integer(value)) = self.peek() {
            let priority = i64::try_from(value).or_else(|_| refuse(24, position))?;
            children.push(Node::new(21, 0, vec![]).word1(priority as u64));
            flags |= 2;
            self.next += 1;
        }
        children.push(self.pattern(1)?);
        while let Some(iflet) = self.iflet()? {
            children.push(iflet);
        }
        children.push(self.expression(1)?);
        Ok(Node::new(20, position, children).flags(flags))
    }

    /// `(if-let p e)` or `(if e)`, if one stands here.
    fn iflet(&mut self) -> Read<Option<Node>> {
        if self.peek() != Some(What::Left) {
            return Ok(None);
        }
        self.next += 1;
        let with_pattern = self.take("if-let");
        if !with_pattern && !self.take("if") {
            self.next -= 1;
            return Ok(None);
        }
        let position = self.place();
        let pattern = if with_pattern {
            self.pattern(1)?
        } else {
            Node::new(36, position, vec![])
        };
        let expression = self.expression(1)?;
        self.expect(What::Right)?;
        Ok(Some(Node::new(22, position, vec![pattern, expression])))
    }

    fn enter(&self, depth: usize) -> Read<u32> {
        if depth > self.rules.deepest {
            return refuse(8, self.place());
        }
        Ok(self.place())
    }

    fn pattern(&mut self, depth: usize) -> Read<Node> {
        let position = self.enter(depth)?;
        match self.peek() {
            Some(What::Integer(value)) => {
                self.next += 1;
                Ok(Node::new(33, position, vec![]).integer(value))
            }
            Some(What::Symbol { name, .. }) => self.symbol_pattern(name, depth),
            Some(What::Left) => self.list_pattern(depth),
            _ => refuse(25, position),
        }
    }

    fn symbol_pattern(&mut self, name: &[u8], depth: usize) -> Read<Node> {
        let position = self.place();
        if name.first() == Some(&b'$') {
            return Ok(Node::new(34, position, vec![self.constant()?]));
        }
        if self.take("_") {
            return Ok(Node::new(36, position, vec![]));
        }
        if let Some(flag) = self.boolean() {
            return Ok(Node::new(32, position, vec![]).flags(flag));
        }
        let name = self.name()?;
        if self.peek() != Some(What::At) {
            return Ok(Node::new(30, position, vec![name]));
        }
        self.next += 1;
        let bound = self.pattern(depth + 1)?;
        Ok(Node::new(31, position, vec![name, bound]))
    }

    fn boolean(&mut self) -> Option<u8> {
        if self.take("true") {
            Some(1)
        } else if self.take("false") {
            Some(0)
        } else {
            None
        }
    }

    fn list_pattern(&mut self, depth: usize) -> Read<Node> {
        let position = self.place();
        self.expect(What::Left)?;
        let mut children = Vec::new();
        let kind = if self.take("and") {
            37
        } else {
            children.push(self.name()?);
            35
        };
        children.extend(self.items(|reader, _| reader.pattern(depth + 1))?);
        self.expect(What::Right)?;
        Ok(Node::new(kind, position, children))
    }

    fn expression(&mut self, depth: usize) -> Read<Node> {
        let position = self.enter(depth)?;
        match self.peek() {
            Some(What::Integer(value)) => {
                self.next += 1;
                Ok(Node::new(43, position, vec![]).integer(value))
            }
            Some(What::Symbol { name, .. }) => self.symbol_expression(name),
            Some(What::Left) => self.list_expression(depth),
            _ => refuse(26, position),
        }
    }

    fn symbol_expression(&mut self, name: &[u8]) -> Read<Node> {
        let position = self.place();
        if name.first() == Some(&b'$') {
            return Ok(Node::new(44, position, vec![self.constant()?]));
        }
        if let Some(flag) = self.boolean() {
            return Ok(Node::new(42, position, vec![]).flags(flag));
        }
        Ok(Node::new(41, position, vec![self.name()?]))
    }

    fn list_expression(&mut self, depth: usize) -> Read<Node> {
        let position = self.place();
        self.expect(What::Left)?;
        let mut children = Vec::new();
        let kind = if self.take("let") {
            self.expect(What::Left)?;
            children.extend(self.items(|reader, _| reader.let_definition(depth))?);
            self.expect(What::Right)?;
            children.push(self.expression(depth + 1)?);
            45
        } else {
            children.push(self.name()?);
            children.extend(self.items(|reader, _| reader.expression(depth + 1))?);
            40
        };
        self.expect(What::Right)?;
        Ok(Node::new(kind, position, children))
    }

    fn let_definition(&mut self, depth: usize) -> Read<Node> {
        let position = self.place();
        self.expect(What::Left)?;
        let children = vec![self.name()?, self.name()?, self.expression(depth + 1)?];
        self.expect(What::Right)?;
        Ok(Node::new(46, position, children))
    }
}
