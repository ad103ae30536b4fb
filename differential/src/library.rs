//! The C interface of the library, as include/isle.h declares it.

use differential::steps::Lists;

#[link(name = "isle", kind = "static")]
unsafe extern "C" {
    fn isle_read(
        tokens: *const u8,
        tokens_length: usize,
        text: *const u8,
        text_length: usize,
        end: u32,
        out: *mut u8,
        out_length: usize,
    ) -> u64;
    fn isle_read_text(text: *const u8, text_length: usize, out: *mut u8, out_length: usize) -> u64;
    fn isle_make_template(
        text: *const u8,
        text_length: usize,
        pattern: *const u8,
        pattern_length: usize,
        params: *const u8,
        params_length: usize,
        out: *mut u8,
        out_length: usize,
    ) -> u64;
    fn isle_substitute(
        text: *const u8,
        text_length: usize,
        template: *const u8,
        template_length: usize,
        patterns: *const u8,
        patterns_length: usize,
        out: *mut u8,
        out_length: usize,
    ) -> u64;
    fn isle_open(
        text: *const u8,
        text_length: usize,
        defs: *const u8,
        defs_length: usize,
        pattern: *const u8,
        pattern_length: usize,
        store: *mut u8,
        store_length: usize,
        out: *mut u8,
        out_length: usize,
    ) -> u64;
}

// In each call every pointer stands beside its slice's length, and no output overlaps an input.

pub fn read(tokens: &[u8], text: &[u8], end: u32, out: &mut [u8]) -> u64 {
    unsafe {
        isle_read(
            tokens.as_ptr(),
            tokens.len(),
            text.as_ptr(),
            text.len(),
            end,
            out.as_mut_ptr(),
            out.len(),
        )
    }
}

pub fn read_text(text: &[u8], out: &mut [u8]) -> u64 {
    unsafe { isle_read_text(text.as_ptr(), text.len(), out.as_mut_ptr(), out.len()) }
}

/// Calls an entry on the text and the two lists, with these outputs.
macro_rules! call {
    ($entry:expr, $lists:expr, $($out:expr),+) => {
        unsafe {
            $entry(
                $lists.text.as_ptr(),
                $lists.text.len(),
                $lists.first.as_ptr(),
                $lists.first.len(),
                $lists.second.as_ptr(),
                $lists.second.len(),
                $($out.as_mut_ptr(), $out.len()),+
            )
        }
    };
}

pub fn make_template(lists: &Lists, out: &mut [u8]) -> u64 {
    call!(isle_make_template, lists, out)
}

pub fn substitute(lists: &Lists, out: &mut [u8]) -> u64 {
    call!(isle_substitute, lists, out)
}

pub fn open(lists: &Lists, store: &mut [u8], out: &mut [u8]) -> u64 {
    call!(isle_open, lists, store, out)
}
