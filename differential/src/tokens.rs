//! Writes the token file of an ISLE text, made by the crate's lexer. Usage: tokens TEXT_FILE TOKEN_FILE

use differential::oracle::{Lent, lex};
use differential::records::bytes_of;
use std::process::ExitCode;

fn main() -> ExitCode {
    let words: Vec<String> = std::env::args().collect();
    let [_, text_file, token_file] = &words[..] else {
        eprintln!("usage: tokens TEXT_FILE TOKEN_FILE");
        return ExitCode::from(2);
    };
    match convert(text_file, token_file) {
        Ok(()) => ExitCode::SUCCESS,
        Err(message) => {
            eprintln!("{message}");
            ExitCode::FAILURE
        }
    }
}

fn convert(text_file: &str, token_file: &str) -> Result<(), String> {
    let failed = |file: &str, error: std::io::Error| format!("{file}: {error}");
    let text = std::fs::read_to_string(text_file).map_err(|error| failed(text_file, error))?;
    if u32::try_from(text.len()).is_err() {
        return Err(format!("{text_file}: too long"));
    }
    let lent = lex(&text).ok_or(format!("{text_file}: the lexer refuses this text"))?;
    std::fs::write(token_file, file_of(&lent)).map_err(|error| failed(token_file, error))
}

/// Token count, text length and end position, 32 bits each; tokens; text.
fn file_of(lent: &Lent) -> Vec<u8> {
    let sizes = [lent.tokens.len() as u32, lent.text.len() as u32, lent.end];
    let header = sizes.into_iter().flat_map(u32::to_be_bytes);
    let tokens = bytes_of(&lent.tokens);
    header
        .chain(tokens)
        .chain(lent.text.iter().copied())
        .collect()
}
