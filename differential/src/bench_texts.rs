//! The texts on which reading is measured.

use crate::bench_times::shown;
use differential::generate::{Pieces, Random};
use differential::hand::most_items;
use differential::judge::judge;
use differential::model::DEEPEST;
use differential::oracle::{Lent, lex};
use differential::records::*;

const SEED: u64 = 0x1517_0003;
const SMALL_TEXTS: usize = 256;

/// Texts that are read one after another, by name.
pub type Input = (String, Vec<String>);

/// Small texts are many different ones, else the processor would know them by heart.
pub fn inputs() -> Vec<Input> {
    let mut random = Random::new(SEED);
    let mut inputs = Vec::new();
    let sizes = [
        ("64 texts of 1 KiB", 64, 1 << 10),
        ("4 texts of 16 KiB", 4, 1 << 14),
        ("1 text of 64 KiB", 1, MAX_TEXT),
    ];
    for (name, count, size) in sizes {
        let texts = (0..count).map(|_| long_text(&mut random, size));
        inputs.push((name.to_string(), texts.collect()));
    }
    let short = most_tokens(&mut random);
    inputs.push(("16,384 tokens, short names".to_string(), vec![short]));
    inputs.extend(deep_inputs());
    inputs.extend(flat_inputs());
    for length in [100, 1_000] {
        let name = "long_name_".repeat(length / 10);
        let decl = format!("(decl {name} ({name} {name}) {name})\n");
        let name = format!("names of {} bytes", shown(length));
        inputs.push((name, vec![filled("", &decl, "")]));
    }
    inputs
}

/// Texts of one rule, about 100 bytes each.
pub fn small_inputs() -> Vec<Input> {
    let mut random = Random::new(SEED);
    let about = |text: &String| (90..=110).contains(&text.len()) && text.starts_with("( rule ");
    let one = |_| loop {
        let text = definition(&mut random, in_practice);
        if about(&text) {
            return text;
        }
    };
    let texts: Vec<String> = (0..SMALL_TEXTS).map(one).collect();
    vec![(format!("{SMALL_TEXTS} texts of one rule"), texts)]
}

/// Definitions of every kind, with names as long as they are in practice and blanks at the end.
fn long_text(random: &mut Random, size: usize) -> String {
    let text = definitions(random, in_practice, |text| text.len() <= size);
    let blanks = " ".repeat(size - text.len());
    text + &blanks
}

/// A piece, where it is a name about as long as in practice.
fn in_practice(piece: &String) -> String {
    match piece.as_str() {
        "x" | "y" | "z" | "A" | "B" | "T" => format!("{piece}_operand"),
        _ => piece.clone(),
    }
}

/// Definitions of every kind, filled up to the limit on tokens by a last one.
fn most_tokens(random: &mut Random) -> String {
    let (before, after) = ("(type E (enum", "))");
    let tokens = |text: &str| lex(text).expect("a good text").tokens.len();
    let most = MAX_TOKENS - tokens(before) - tokens(after);
    let text = definitions(random, String::clone, |text| tokens(text) <= most);
    let missing = most - tokens(&text);
    format!("{text}{before}{}{after}", " A".repeat(missing))
}

/// Accepted definitions, one after another while all of them together fit.
fn definitions(
    random: &mut Random,
    spelled: impl Fn(&String) -> String,
    fits: impl Fn(&str) -> bool,
) -> String {
    let mut text = String::new();
    loop {
        let length = text.len();
        text += &definition(random, &spelled);
        if !fits(&text) {
            text.truncate(length);
            return text;
        }
    }
}

fn definition(random: &mut Random, spelled: impl Fn(&String) -> String) -> String {
    loop {
        let mut pieces = Pieces::new(random);
        pieces.definition();
        let spelled: Vec<String> = pieces.list.iter().map(&spelled).collect();
        let text = spelled.join(" ") + "\n";
        let accepted = |lent: Lent| matches!(judge(&lent), Ok(Ok(_)));
        if lex(&text).is_some_and(accepted) {
            return text;
        }
    }
}

/// An item as often as the limits allow.
fn filled(before: &str, item: &str, after: &str) -> String {
    let items = item.repeat(most_items(before, item, after));
    format!("{before}{items}{after}")
}

/// Rules whose pattern and expression are as deep as may be.
fn deep_inputs() -> Vec<Input> {
    let outside = DEEPEST - 1;
    let nested = |open: &str, inside: &str, close: &str| {
        format!("{}{inside}{}", open.repeat(outside), close.repeat(outside))
    };
    let terms = nested("(A ", "x", ")");
    let (ands, values) = (
        nested("(and ", "x", ")"),
        nested("(let ((v T ", "y", ")) w)"),
    );
    let (binds, bodies) = (nested("a @ ", "_", ""), nested("(let () ", "y", ")"));
    let forms = [
        ("terms", &terms, &terms),
        ("`and`s, and lets in values", &ands, &values),
        ("binds, and lets in bodies", &binds, &bodies),
    ];
    let input = |(name, pattern, expression): (&str, &String, &String)| {
        let rule = format!("(rule n {pattern} {expression})\n");
        let name = format!("rules {DEEPEST} deep: {name}");
        (name, vec![filled("", &rule, "")])
    };
    forms.map(input).to_vec()
}

/// One list of thousands, or thousands of small definitions.
fn flat_inputs() -> Vec<Input> {
    let forms = [
        ("one pattern of so many variables", "(rule (A", " x", ") y)"),
        (
            "one expression of so many integers",
            "(rule n x (A",
            " 5",
            "))",
        ),
        ("one enum of so many variants", "(type E (enum", " A", "))"),
        ("so many decls", "", "(decl f (T) U)\n", ""),
        ("so many rules", "", "(rule (A x) (B x))\n", ""),
    ];
    let input = |(name, before, item, after): (&str, &str, &str, &str)| {
        let count = most_items(before, item, after);
        let name = name.replace("so many", &shown(count));
        (name, vec![filled(before, item, after)])
    };
    forms.map(input).to_vec()
}
