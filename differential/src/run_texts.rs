//! Texts through `isle_read_text`.

use crate::{Counts, library};
use differential::generate::Random;
use differential::generate_texts::any_bytes;
use differential::hand;
use differential::hand_texts::*;
use differential::judge_texts::{judge, tokens_of};
use differential::outputs::*;
use differential::records::*;

pub fn compare(random: &mut Random, count: u64) -> Result<String, String> {
    let mut counts = Counts::default();
    compare_cases(&mut counts)?;
    let texts = spoilt_everywhere()
        .chain(damaged_and_spoilt())
        .chain(dollar_everywhere())
        .chain(cut_everywhere())
        .chain(deep_and_spoilt())
        .chain(about_most_tokens())
        .chain(about_small_texts())
        .chain(about_most_bytes());
    for text in texts {
        compare_text(&text, 50, &mut counts)?;
    }
    for (text, ..) in long_cases() {
        compare_on_small_stack(text, &mut counts)?;
    }
    for _ in 0..count {
        let text = any_bytes(random);
        compare_text(&text, 1 + random.below(60), &mut counts)?;
    }
    Ok(counts.line("isle_read_text"))
}

/// The examples of 01 and the sentences of 02, whose answers are written out.
fn compare_cases(counts: &mut Counts) -> Result<(), String> {
    for &(text, number, place, count) in hand::EXAMPLES {
        compare_case(text.as_bytes(), pack(number, count, place), counts)?;
    }
    for (text, number, place) in short_cases().chain(long_cases()) {
        let accepted = judge(&text)?.map_or(0, |records| records.len());
        compare_case(&text, pack(number, accepted, place), counts)?;
    }
    Ok(())
}

/// The answer must be the one that is written out.
fn compare_case(text: &[u8], result: u64, counts: &mut Counts) -> Result<(), String> {
    let outcome = judge(text)?;
    let space = outcome.as_ref().map_or(0, Vec::len) * WIDTH;
    if answer(&outcome, space).result != result {
        return Err(format!(
            "{}\nis not {result:016x}: {outcome:?}",
            shown(text)
        ));
    }
    compare_text(text, 50, counts)
}

/// Calls the library with outputs of several sizes, also an empty one, and compares every byte;
/// and with what it reads from the tokens of the crate's lexer.
fn compare_text(text: &[u8], more: usize, counts: &mut Counts) -> Result<(), String> {
    let with_text = |message: String| format!("{}\n{message}", shown(text));
    let outcome = judge(text).map_err(with_text)?;
    let read = |out: &mut [u8]| library::read_text(text, out);
    counts.compare(&outcome, more, read).map_err(with_text)?;
    counts.compare_at(&outcome, 0, read).map_err(with_text)?;
    let Some(lent) = tokens_of(text) else {
        return Ok(());
    };
    let tokens = bytes_of(&lent.tokens);
    let length = outcome.as_ref().map_or(0, Vec::len) * WIDTH + more;
    let by_tokens = call_with(length, |out| library::read(&tokens, text, lent.end, out));
    same_answer(&call_with(length, read)?, &by_tokens?).map_err(with_text)
}

/// The stack that the entry may use in all.
const STACK: usize = 1 << 20;

/// The call on a thread with no more stack than the entry may use.
fn compare_on_small_stack(text: Vec<u8>, counts: &mut Counts) -> Result<(), String> {
    let length = MAX_RECORDS * WIDTH;
    let expected = answer(&judge(&text)?, length);
    let message = format!("on a small stack: {}", shown(&text));
    let call = move || {
        let mut out = vec![0; length];
        let result = library::read_text(&text, &mut out);
        Answer { result, out }
    };
    let thread = std::thread::Builder::new().stack_size(STACK).spawn(call);
    let found = thread.expect("a thread").join().expect("no panic");
    counts.inputs += 1;
    counts.add_call(expected.result);
    match found == expected {
        true => Ok(()),
        false => Err(message),
    }
}

/// The text, for a message; of a long one what is at its ends.
fn shown(text: &[u8]) -> String {
    let lossy = String::from_utf8_lossy;
    match text.len() {
        0..=2_000 => format!("text {:?}", lossy(text)),
        length => format!(
            "text of {length} bytes {:?} .. {:?}",
            lossy(&text[..100]),
            lossy(&text[length - 200..])
        ),
    }
}
