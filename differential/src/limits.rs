//! Inputs at the limits on tokens and text bytes.

use crate::Counts;
use crate::reading::compare_outcome;
use differential::hand::most_items;
use differential::judge::judge;
use differential::model;
use differential::oracle::{Lent, lex};
use differential::records::*;

pub fn compare(counts: &mut Counts) -> Result<(), String> {
    for lent in many_tokens().iter().chain(&long_texts()) {
        let outcome = judge(lent)?;
        let mut tokens = bytes_of(&lent.tokens);
        compare_outcome(lent, &tokens, &outcome, 50, counts)?;
        tokens.push(0);
        let cut = model::read(&tokens, &lent.text, lent.end);
        compare_outcome(lent, &tokens, &cut, 50, counts)?;
    }
    Ok(())
}

/// Lists of 16,384 tokens, and of one more.
fn many_tokens() -> Vec<Lent> {
    let forms = [
        ("", "(attr f)", ""),
        ("(attr f ", "(tag a)", ")"),
        ("(type E (enum ", "A ", "))"),
        ("(type S (struct ", "T ", "))"),
        ("(decl f (", "T ", ") U)"),
        ("(extractor (P) (A ", "x ", "))"),
        ("(rule (A) (B ", "$c ", "))"),
        ("(rule (A) (B ", "$ ", "))"),
        ("(rule (A ", "1 ", ") y)"),
    ];
    let mut lists = Vec::new();
    for (before, item, after) in forms {
        let text = |times: usize| lex(&format!("{before}{}{after}", item.repeat(times)));
        let times = most_items(before, item, after);
        lists.extend([text(times), text(times + 1)].into_iter().flatten());
    }
    lists.iter().cloned().flat_map(exactly).collect()
}

/// The list itself, and filled up to the limit and one above it with a token at the end.
fn exactly(lent: Lent) -> Vec<Lent> {
    let last = *lent.tokens.last().expect("a token");
    let filled = |count: usize| {
        let mut list = lent.clone();
        list.tokens.resize(count, last);
        list
    };
    vec![lent.clone(), filled(MAX_TOKENS), filled(MAX_TOKENS + 1)]
}

/// Texts of 65,536 bytes, and of one more: a long name, and blanks after the last token.
fn long_texts() -> Vec<Lent> {
    let mut lists = Vec::new();
    for length in [MAX_TEXT - 1, MAX_TEXT, MAX_TEXT + 1] {
        let name = "n".repeat(length - "(pragma )".len());
        lists.extend(lex(&format!("(pragma {name})")));
        let name = "n".repeat(length - "(attr )".len());
        lists.extend(lex(&format!("(attr {name})")));
        lists.extend(lex(&format!(
            "(attr f){}",
            " ".repeat(length - "(attr f)".len())
        )));
        lists.extend(lex(&" ".repeat(length)));
    }
    lists
}
