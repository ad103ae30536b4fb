//! The crate as oracle: its lexer's tokens, its trees and its errors in the form of records.

use crate::records::*;
use cranelift_isle::ast::*;
use cranelift_isle::error::Error;
use cranelift_isle::lexer::{self, Lexer};
use cranelift_isle::parser;
use std::collections::HashMap;

/// What reading takes: token records, text and end position.
#[derive(Clone, Debug)]
pub struct Lent {
    pub tokens: Vec<Words>,
    pub text: Vec<u8>,
    pub end: u32,
}

/// The tokens that the crate's lexer makes; none if it refuses the text.
pub fn lex(text: &str) -> Option<Lent> {
    let mut lexer = Lexer::new(0, text).ok()?;
    let mut tokens = Vec::new();
    while let Some((pos, token)) = lexer.next().ok()? {
        tokens.push(token_record(pos.offset as u32, &token));
    }
    Some(Lent {
        tokens,
        text: text.as_bytes().to_vec(),
        end: lexer.pos().offset as u32,
    })
}

pub fn token_record(position: u32, token: &lexer::Token) -> Words {
    match token {
        lexer::Token::LParen => mark_token(LEFT, position),
        lexer::Token::RParen => mark_token(RIGHT, position),
        lexer::Token::At => mark_token(AT, position),
        lexer::Token::Symbol(s) => symbol_token(position, position, s.len() as u32),
        lexer::Token::Int(value) => integer_token(position, *value),
    }
}

/// The crate's reading of a text, which its lexer may refuse.
pub fn read_text(text: &str) -> Outcome {
    let places = Places::unmoved();
    places.outcome(Lexer::new(0, text).and_then(parser::parse))
}

/// The crate's reading of a token list, by writing the tokens out as a text of their own.
/// None if the lexer would not make these tokens of any text.
pub fn read_tokens(lent: &Lent) -> Option<Outcome> {
    let (text, places) = written_out(lent)?;
    let again = lex(&text)?;
    if !same_tokens(lent, &again) {
        return None;
    }
    let lexer = Lexer::new(0, &text).ok()?;
    Some(places.outcome(parser::parse(lexer)))
}

/// The tokens as text, one blank between them, with the place each stands for.
fn written_out(lent: &Lent) -> Option<(String, Places)> {
    let mut text = String::new();
    let mut places = HashMap::new();
    for &words in &lent.tokens {
        let start = upper(words[1]);
        places.insert(text.len(), (lower(words[0]), start));
        match (words[0] >> 60) as u8 {
            LEFT => text.push('('),
            RIGHT => text.push(')'),
            AT => text.push('@'),
            SYMBOL => text.push_str(symbol_text(lent, words)?),
            _ => text.push_str(&unsigned(words).to_string()),
        }
        text.push(' ');
    }
    places.insert(text.len(), (lent.end, 0));
    Some((text, Places(Some(places))))
}

/// The name of a symbol; none if it is outside the text or is not UTF-8.
pub fn symbol_text(lent: &Lent, words: Words) -> Option<&str> {
    let start = upper(words[1]) as usize;
    let bytes = lent.text.get(start..start + lower(words[1]) as usize)?;
    std::str::from_utf8(bytes).ok()
}

fn unsigned(words: Words) -> u128 {
    (words[1] as u128) << 64 | words[2] as u128
}

/// Whether two lists are of the same tokens, wherever they stand.
fn same_tokens(a: &Lent, b: &Lent) -> bool {
    let same = |(&x, &y): (&Words, &Words)| {
        x[0] >> 60 == y[0] >> 60
            && match (x[0] >> 60) as u8 {
                SYMBOL => symbol_text(a, x) == symbol_text(b, y),
                _ => x[1..] == y[1..],
            }
    };
    a.tokens.len() == b.tokens.len() && a.tokens.iter().zip(&b.tokens).all(same)
}

/// From an offset in the text that the crate read to the token's position and symbol start.
/// None stands for a text whose tokens were not moved.
pub struct Places(Option<HashMap<usize, (u32, u32)>>);

impl Places {
    pub fn unmoved() -> Places {
        Places(None)
    }

    fn at(&self, offset: usize) -> (u32, u32) {
        match &self.0 {
            None => (offset as u32, offset as u32),
            Some(places) => places[&offset],
        }
    }

    fn position(&self, pos: lexer::Pos) -> u32 {
        self.at(pos.offset).0
    }

    fn outcome(&self, result: Result<Vec<Def>, Error>) -> Outcome {
        match result {
            Ok(defs) => {
                let nodes: Vec<Node> = defs.iter().map(|def| self.def(def)).collect();
                Ok(records_of(&nodes))
            }
            Err(error) => Err(self.refusal(&error)),
        }
    }

    fn refusal(&self, error: &Error) -> Refusal {
        let Error::ParseError { msg, span } = error else {
            panic!("not an error of reading: {error:?}");
        };
        Refusal {
            number: refusal_number(msg),
            place: self.position(span.from),
        }
    }

    pub fn def(&self, def: &Def) -> Node {
        match def {
            Def::Type(ty) => self.ty(ty),
            Def::Rule(rule) => self.rule(rule),
            Def::Extractor(extractor) => self.extractor(extractor),
            Def::Decl(decl) => self.decl(decl),
            Def::Attr(attr) => self.attr(attr),
            Def::Extern(ext) => self.ext(ext),
            Def::Converter(converter) => self.converter(converter),
            // The forms that are not covered: no kind of ours, so never equal to an answer.
            _ => Node::new(255, 0, vec![]),
        }
    }

    fn ident(&self, ident: &Ident) -> Node {
        self.ident_from(ident, 0)
    }

    /// The Ident of a constant: the `$` before it is cut off.
    fn constant(&self, ident: &Ident) -> Node {
        self.ident_from(ident, 1)
    }

    fn ident_from(&self, ident: &Ident, cut: u32) -> Node {
        let (position, start) = self.at(ident.1.offset);
        Node::new(24, position, vec![]).word1(pair(start + cut, ident.0.len() as u32))
    }

    pub fn idents(&self, idents: &[Ident]) -> Vec<Node> {
        idents.iter().map(|ident| self.ident(ident)).collect()
    }

    fn ty(&self, ty: &Type) -> Node {
        let children = vec![self.ident(&ty.name), self.type_value(&ty.ty)];
        let flags = ty.is_extern as u8 | (ty.is_nodebug as u8) << 1;
        Node::new(1, self.position(ty.pos), children).flags(flags)
    }

    fn type_value(&self, value: &TypeValue) -> Node {
        match value {
            TypeValue::Primitive(name, pos) => {
                Node::new(2, self.position(*pos), vec![self.ident(name)])
            }
            TypeValue::Enum(variants, pos) => {
                let children = variants.iter().map(|v| self.variant(v)).collect();
                Node::new(3, self.position(*pos), children)
            }
            TypeValue::Struct(fields, pos) => {
                Node::new(4, self.position(*pos), vec![self.fields(fields)])
            }
        }
    }

    fn variant(&self, variant: &Variant) -> Node {
        let children = vec![self.ident(&variant.name), self.fields(&variant.fields)];
        Node::new(5, self.position(variant.pos), children)
    }

    fn fields(&self, fields: &Fields) -> Node {
        match fields {
            Fields::Unit => Node::new(6, 0, vec![]),
            Fields::Struct(fields) => {
                let children = fields.fields.iter().map(|f| self.struct_field(f)).collect();
                Node::new(7, self.position(fields.pos), children)
            }
            Fields::Tuple(fields) => {
                let children = fields.fields.iter().map(|f| self.tuple_field(f)).collect();
                Node::new(8, self.position(fields.pos), children)
            }
        }
    }

    fn struct_field(&self, field: &StructField) -> Node {
        let children = vec![self.ident(&field.name), self.ident(&field.ty)];
        Node::new(9, self.position(field.pos), children)
    }

    fn tuple_field(&self, field: &TupleField) -> Node {
        let children = vec![self.ident(&field.ty)];
        Node::new(10, self.position(field.pos), children).word1(field.index as u64)
    }

    fn decl(&self, decl: &Decl) -> Node {
        let mut children = vec![self.ident(&decl.term)];
        children.extend(self.idents(&decl.arg_tys));
        children.push(self.ident(&decl.ret_ty));
        let flags = decl.pure as u8
            | (decl.multi as u8) << 1
            | (decl.partial as u8) << 2
            | (decl.rec as u8) << 3;
        Node::new(11, self.position(decl.pos), children).flags(flags)
    }

    fn attr(&self, attr: &Attr) -> Node {
        let (name, flags) = match &attr.target {
            AttrTarget::Term(name) => (name, 0),
            AttrTarget::Rule(name) => (name, 1),
        };
        let mut children = vec![self.ident(name)];
        children.extend(attr.kinds.iter().map(|kind| self.attr_kind(kind)));
        Node::new(12, self.position(attr.pos), children).flags(flags)
    }

    fn attr_kind(&self, kind: &AttrKind) -> Node {
        match kind {
            AttrKind::Chain => Node::new(13, 0, vec![]),
            AttrKind::Priority => Node::new(14, 0, vec![]),
            AttrKind::Tag(name) => Node::new(15, 0, vec![self.ident(name)]),
        }
    }

    fn ext(&self, ext: &Extern) -> Node {
        match ext {
            Extern::Constructor { term, func, pos } => {
                let children = vec![self.ident(term), self.ident(func)];
                Node::new(16, self.position(*pos), children)
            }
            Extern::Extractor {
                term,
                func,
                pos,
                infallible,
            } => {
                let children = vec![self.ident(term), self.ident(func)];
                Node::new(17, self.position(*pos), children).flags(*infallible as u8)
            }
            Extern::Const { name, ty, pos } => {
                let children = vec![self.constant(name), self.ident(ty)];
                Node::new(18, self.position(*pos), children)
            }
        }
    }

    fn extractor(&self, extractor: &Extractor) -> Node {
        let mut children = vec![self.ident(&extractor.term)];
        children.extend(self.idents(&extractor.args));
        children.push(self.pattern(&extractor.template));
        Node::new(19, self.position(extractor.pos), children)
    }

    fn rule(&self, rule: &Rule) -> Node {
        let mut children = Vec::new();
        let mut flags = 0;
        if let Some(name) = &rule.name {
            children.push(self.ident(name));
            flags |= 1;
        }
        if let Some(priority) = rule.prio {
            children.push(Node::new(21, 0, vec![]).word1(priority as u64));
            flags |= 2;
        }
        children.push(self.pattern(&rule.pattern));
        children.extend(rule.iflets.iter().map(|iflet| self.iflet(iflet)));
        children.push(self.expr(&rule.expr));
        Node::new(20, self.position(rule.pos), children).flags(flags)
    }

    fn iflet(&self, iflet: &IfLet) -> Node {
        let children = vec![self.pattern(&iflet.pattern), self.expr(&iflet.expr)];
        Node::new(22, self.position(iflet.pos), children)
    }

    fn converter(&self, converter: &Converter) -> Node {
        let names = [&converter.inner_ty, &converter.outer_ty, &converter.term];
        let children = names.iter().map(|name| self.ident(name)).collect();
        Node::new(23, self.position(converter.pos), children)
    }

    pub fn pattern(&self, pattern: &Pattern) -> Node {
        let position = self.position(pattern.pos());
        match pattern {
            Pattern::Var { var, .. } => Node::new(30, position, vec![self.ident(var)]),
            Pattern::BindPattern { var, subpat, .. } => {
                Node::new(31, position, vec![self.ident(var), self.pattern(subpat)])
            }
            Pattern::ConstBool { val, .. } => Node::new(32, position, vec![]).flags(*val as u8),
            Pattern::ConstInt { val, .. } => Node::new(33, position, vec![]).integer(*val),
            Pattern::ConstPrim { val, .. } => Node::new(34, position, vec![self.constant(val)]),
            Pattern::Term { sym, args, .. } => {
                let mut children = vec![self.ident(sym)];
                children.extend(args.iter().map(|arg| self.pattern(arg)));
                Node::new(35, position, children)
            }
            Pattern::Wildcard { .. } => Node::new(36, position, vec![]),
            Pattern::And { subpats, .. } => {
                let children = subpats.iter().map(|subpat| self.pattern(subpat)).collect();
                Node::new(37, position, children)
            }
            Pattern::MacroArg { index, .. } => Node::new(38, position, vec![]).word1(*index as u64),
        }
    }

    fn expr(&self, expr: &Expr) -> Node {
        let position = self.position(expr.pos());
        match expr {
            Expr::Term { sym, args, .. } => {
                let mut children = vec![self.ident(sym)];
                children.extend(args.iter().map(|arg| self.expr(arg)));
                Node::new(40, position, children)
            }
            Expr::Var { name, .. } => Node::new(41, position, vec![self.ident(name)]),
            Expr::ConstBool { val, .. } => Node::new(42, position, vec![]).flags(*val as u8),
            Expr::ConstInt { val, .. } => Node::new(43, position, vec![]).integer(*val),
            Expr::ConstPrim { val, .. } => Node::new(44, position, vec![self.constant(val)]),
            Expr::Let { defs, body, .. } => {
                let mut children: Vec<Node> = defs.iter().map(|def| self.letdef(def)).collect();
                children.push(self.expr(body));
                Node::new(45, position, children)
            }
        }
    }

    fn letdef(&self, def: &LetDef) -> Node {
        let children = vec![
            self.ident(&def.var),
            self.ident(&def.ty),
            self.expr(&def.val),
        ];
        Node::new(46, self.position(def.pos), children)
    }
}

/// The number of the crate's error, told from its message.
fn refusal_number(msg: &str) -> u8 {
    let first_words = [
        ("Invalid rule name", 23),
        ("Invalid rule priority", 24),
        ("Unexpected token", 10),
        ("Unexpected EOF", 11),
        ("Unexpected identifier", 12),
        ("Unexpected pattern", 25),
        ("empty symbol", 13),
        ("Not a constant identifier", 16),
        ("Unknown pragma", 17),
        ("unknown type declaration modifier", 18),
        ("Unknown type definition", 19),
        ("Not a valid attribute", 20),
        ("Not a valid verification attribute", 21),
        ("Invalid extern", 22),
        ("Invalid expression", 26),
        // The lexer's.
        ("Unexpected character", 40),
        ("unterminated block comment", 40),
        ("cannot parse integer from empty string", 40),
        ("invalid digit found in string", 40),
        ("number too large to fit in target type", 40),
        ("integer literal cannot fit in i128", 40),
    ];
    for (words, number) in first_words {
        if msg.starts_with(words) {
            return number;
        }
    }
    if msg.starts_with("Identifier '") && msg.ends_with("does not start with letter or _ or $") {
        return 14;
    }
    if msg.starts_with("Identifier '") && msg.ends_with("(not a-z, A-Z, 0-9, _, ., $)") {
        return 15;
    }
    // An error inside a form that is not covered.
    255
}
