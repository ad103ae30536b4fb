//! Outputs of several sizes, prefilled, and what an entry leaves in them.

use crate::records::*;

const GUARD: usize = 32;
const FILL: u8 = 0xEE;

/// Calls an entry with a prefilled output of `length` bytes.
pub fn call_with(length: usize, call: impl FnOnce(&mut [u8]) -> u64) -> Result<Answer, String> {
    let mut bytes = vec![FILL; GUARD + length + GUARD];
    let result = call(&mut bytes[GUARD..GUARD + length]);
    let after = bytes.split_off(GUARD + length);
    let out = bytes.split_off(GUARD);
    match bytes.iter().chain(&after).all(|&byte| byte == FILL) {
        true => Ok(Answer { result, out }),
        false => Err("bytes outside the output were written".to_string()),
    }
}

/// Output lengths for a list of `count` records: exact, larger, one byte and one record short.
pub fn lengths(count: usize, more: usize) -> Vec<usize> {
    let exact = count * WIDTH;
    let mut lengths = vec![exact, exact + more];
    if count > 0 {
        lengths.extend([exact - 1, exact - WIDTH]);
    }
    lengths
}

/// Whether two answers are equal, else both of them.
pub fn same_answer(expected: &Answer, found: &Answer) -> Result<(), String> {
    if expected == found {
        return Ok(());
    }
    let mut shown = format!(
        "expected {}\nfound    {}",
        result_of(expected),
        result_of(found)
    );
    let records = words_of(&expected.out)
        .into_iter()
        .zip(words_of(&found.out));
    if let Some(i) = (0..expected.out.len()).find(|&i| expected.out[i] != found.out[i]) {
        shown += &format!("\nbyte {i} of the output differs");
    }
    if let Some((i, (a, b))) = records.enumerate().find(|(_, (a, b))| a != b) {
        shown += &format!("\nrecord {i}: expected {a:016x?}\nrecord {i}: found    {b:016x?}");
    }
    Err(shown)
}

fn result_of(answer: &Answer) -> String {
    let result = answer.result;
    let (number, count, place) = (result >> 56, result >> 32 & 0xFF_FFFF, lower(result));
    format!(
        "refusal {number}, count {count}, place {place}, output of {} bytes",
        answer.out.len()
    )
}
