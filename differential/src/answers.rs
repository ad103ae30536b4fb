//! Writes a file of stored answers. Usage: answers read|text|template|substitute|open FILE

mod stored;
mod stored_lists;
mod stored_reading;
mod stored_texts;

use std::process::ExitCode;
use stored::Stored;

/// The crate has no limit on depth, and its parser is recursive.
const STACK: usize = 1 << 28;

fn main() -> ExitCode {
    let thread = std::thread::Builder::new().stack_size(STACK).spawn(make);
    match thread.expect("a thread").join().expect("no panic") {
        Ok(()) => ExitCode::SUCCESS,
        Err(message) => {
            eprintln!("{message}");
            ExitCode::FAILURE
        }
    }
}

fn make() -> Result<(), String> {
    let words: Vec<String> = std::env::args().collect();
    let [_, entry, file] = &words[..] else {
        return Err("usage: answers read|text|template|substitute|open FILE".to_string());
    };
    let mut stored = Stored::default();
    match entry.as_str() {
        "read" => stored_reading::make(&mut stored)?,
        "text" => stored_texts::make(&mut stored)?,
        "template" => stored_lists::make_templates(&mut stored)?,
        "substitute" => stored_lists::make_substitutions(&mut stored)?,
        "open" => stored_lists::make_openings(&mut stored)?,
        _ => return Err(format!("no such entry: {entry}")),
    }
    std::fs::write(file, &stored.bytes).map_err(|error| error.to_string())?;
    stored.report();
    Ok(())
}
