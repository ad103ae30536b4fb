//! What reading of a text is to answer. The crate answers on the text itself. What it has no number
//! for (7, 41, 8, 27, and 16 for a `$` alone) is told by document 02 from the bytes, and from the
//! crate's answers on texts that are the same up to the place in question.

use crate::model::{self, UNCOVERED};
use crate::oracle;
use crate::records::*;
use cranelift_isle::lexer::{Lexer, Token};

/// A byte that the lexer takes neither for white space nor for a part of a token: it refuses it.
const FORM_FEED: char = '\u{c}';

/// The outcome of reading, or a description of a disagreement of crate and model.
pub fn judge(text: &[u8]) -> Result<Outcome, String> {
    if text.len() > MAX_TEXT {
        return Ok(refuse(7, 0));
    }
    if let Some(i) = text.iter().position(|&byte| byte >= 128) {
        return Ok(refuse(41, i));
    }
    judge_plain(std::str::from_utf8(text).expect("ASCII"))
}

fn refuse(number: u8, place: usize) -> Outcome {
    Err(Refusal {
        number,
        place: place as u32,
    })
}

/// A text of bytes below 128 within the limit.
fn judge_plain(text: &str) -> Result<Outcome, String> {
    let lexed = Lexed::of(text);
    let covered = lexed.without_uncovered_words(text);
    let first_dollar = lexed.first_dollar(&covered);
    if let Some(place) = lexed.too_deep(text) {
        let comes_so_far = read_before(&covered, place) == refuse(40, place);
        return match comes_so_far && first_dollar.is_none_or(|dollar| dollar >= place) {
            true => Ok(refuse(8, place)),
            false => Err(format!("8 at {place}, where the crate does not come")),
        };
    }
    if lexed.lone_dollar(text) != first_dollar {
        return Err(format!("the crate's first `$` alone is {first_dollar:?}"));
    }
    let outcome = lexed.read(&covered);
    match first_dollar {
        Some(place) => judge_dollar(&covered, place, outcome),
        None => Ok(outcome.map_err(|refusal| lexed.numbered(refusal))),
    }
}

/// A `$` alone for a constant: 16 is due where the crate refuses the spelling of another name in its
/// place. It does not where the lexer refuses the token behind, or that is one too many. Then the
/// outcome is that for the text as it is.
fn judge_dollar(text: &str, place: usize, outcome: Outcome) -> Result<Outcome, String> {
    let other = format!("{}$-{}", &text[..place], &text[place + 1..]);
    let lexed = Lexed::of(&other);
    let of_other = lexed.read(&other);
    if of_other == refuse(15, place) {
        return Ok(refuse(16, place));
    }
    let is_last = lexed.last_place() == Some(place);
    let refused_behind = match (&outcome, &of_other) {
        (Err(a), Err(b)) if a.number == 40 => b.number == 40 && b.place == a.place + 1,
        _ => outcome == refuse(7, 0) && of_other == outcome,
    };
    match is_last && refused_behind {
        true => Ok(outcome),
        false => Err(format!("16 at {place}, but with `$-` there {of_other:?}")),
    }
}

/// Whether the crate reads a constant after a text. It reads a name there, since it looks at the
/// spelling of one; and an integer will do as well, or only a constant's name. The blank keeps the
/// integer apart from another before it.
fn reads_constant(before: &str) -> bool {
    let place = before.len() + 1;
    let read = |piece: &str| oracle::read_text(&format!("{before} {piece} "));
    let takes_integer = || match read("0") {
        Err(refusal) => refusal.place as usize > place,
        Ok(_) => true,
    };
    read("$-") == refuse(15, place) && (takes_integer() || read("x") == refuse(16, place))
}

/// The crate's reading of what stands before a place, with a byte after it that the lexer refuses:
/// 40 there, or 23 at a rule's name just before it, exactly if that place becomes the lookahead.
fn read_before(text: &str, place: usize) -> Outcome {
    oracle::read_text(&format!("{}{FORM_FEED}", &text[..place]))
}

/// The tokens that the crate's lexer makes of a text up to the first that it refuses, at most as
/// many as may be.
struct Lexed {
    tokens: Vec<Words>,
    /// Where the symbols start that are one of the uncovered words.
    uncovered: Vec<usize>,
    /// Where the symbols start that are a `$` alone.
    dollars: Vec<usize>,
    /// Whether the text ends after these tokens.
    whole: bool,
    /// Where the token starts that is one too many and that the lexer takes.
    after_most: Option<usize>,
}

impl Lexed {
    fn of(text: &str) -> Lexed {
        let mut lexed = Lexed {
            tokens: Vec::new(),
            uncovered: Vec::new(),
            dollars: Vec::new(),
            whole: false,
            after_most: None,
        };
        let Ok(mut lexer) = Lexer::new(0, text) else {
            return lexed;
        };
        while let Some((pos, token)) = lexer.peek() {
            if lexed.tokens.len() == MAX_TOKENS {
                lexed.after_most = Some(pos.offset);
                return lexed;
            }
            lexed.add(pos.offset, token);
            if lexer.next().is_err() {
                return lexed;
            }
        }
        lexed.whole = true;
        lexed
    }

    fn add(&mut self, place: usize, token: &Token) {
        self.tokens.push(oracle::token_record(place as u32, token));
        match token {
            Token::Symbol(name) if UNCOVERED.contains(&name.as_bytes()) => {
                self.uncovered.push(place)
            }
            Token::Symbol(name) if name == "$" => self.dollars.push(place),
            _ => {}
        }
    }

    /// The text with a capital letter in each uncovered word. It has the same tokens for all other
    /// definitions, where these words are names, and 12 where 27 is due.
    fn without_uncovered_words(&self, text: &str) -> String {
        let mut bytes = text.as_bytes().to_vec();
        for &place in &self.uncovered {
            bytes[place].make_ascii_uppercase();
        }
        String::from_utf8(bytes).expect("ASCII")
    }

    /// A refusal of the text without uncovered words, with the number that is due.
    fn numbered(&self, refusal: Refusal) -> Refusal {
        let known = self.uncovered.contains(&(refusal.place as usize));
        match refusal.number {
            12 if known => Refusal {
                number: 27,
                ..refusal
            },
            _ => refusal,
        }
    }

    /// Where the model meets depth 65 over these tokens, if that is at one of them or at the end of
    /// the text.
    fn too_deep(&self, text: &str) -> Option<usize> {
        let read = model::read(&bytes_of(&self.tokens), text.as_bytes(), self.end(text));
        match read {
            Err(Refusal { number: 8, place }) if place as usize <= text.len() => {
                Some(place as usize)
            }
            _ => None,
        }
    }

    /// Where the model meets a `$` alone for a constant over these tokens, before any other refusal.
    fn lone_dollar(&self, text: &str) -> Option<usize> {
        let tokens = bytes_of(&self.tokens);
        let index = model::lone_dollar(&tokens, text.as_bytes(), self.end(text))?;
        Some(lower(self.tokens[index][0]) as usize)
    }

    /// Where the first `$` alone stands for which the crate reads a constant.
    fn first_dollar(&self, covered: &str) -> Option<usize> {
        let mut dollars = self.dollars.iter().copied();
        dollars.find(|&place| reads_constant(&covered[..place]))
    }

    /// The end position for the model: above the text's if there is more after these tokens.
    fn end(&self, text: &str) -> u32 {
        (text.len() + !self.whole as usize) as u32
    }

    /// Where the last of these tokens starts.
    fn last_place(&self) -> Option<usize> {
        let words = self.tokens.last()?;
        Some(lower(words[0]) as usize)
    }

    /// The crate's reading of the text without uncovered words, within the limit on tokens.
    fn read(&self, covered: &str) -> Outcome {
        match self.after_most {
            Some(place) => self.with_a_limit(covered, place),
            None => oracle::read_text(covered),
        }
    }

    /// The crate's reading, and 7 where the token that starts at the place would be the lookahead.
    fn with_a_limit(&self, text: &str, place: usize) -> Outcome {
        let last = lower(self.tokens[MAX_TOKENS - 1][0]) as usize;
        let outcome = read_before(text, place);
        match outcome == refuse(40, place) || outcome == refuse(23, last) {
            true => refuse(7, 0),
            false => outcome,
        }
    }
}

/// The outcome for texts that the lexer takes whole is also that of reading the lexer's tokens.
pub fn tokens_of(text: &[u8]) -> Option<oracle::Lent> {
    let text = std::str::from_utf8(text).ok()?;
    let within = text.len() <= MAX_TEXT && text.is_ascii();
    let lent = within.then(|| oracle::lex(text))??;
    (lent.tokens.len() <= MAX_TOKENS).then_some(lent)
}
