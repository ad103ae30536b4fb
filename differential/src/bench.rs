//! Measures the library against the crate on the same inputs, and prints tables.
//! Usage: bench [SECTION ...]

mod bench_lists;
mod bench_names;
mod bench_opening;
mod bench_reading;
mod bench_texts;
mod bench_times;
mod library;

/// The sections by their names; without a name given all are measured.
const SECTIONS: &[(&str, fn())] = &[
    ("reading", bench_reading::reading),
    ("text", bench_reading::reading_text),
    ("templates", bench_lists::templates),
    ("substitution", bench_lists::substitution),
    ("opening", bench_opening::opening),
    ("judging", bench_lists::judging),
    ("names", bench_names::names),
];

fn main() {
    let given: Vec<String> = std::env::args().skip(1).collect();
    let is_section = |name: &String| SECTIONS.iter().any(|(section, _)| section == name);
    if let Some(name) = given.iter().find(|name| !is_section(name)) {
        panic!("no such section: {name}");
    }
    for (name, measure) in SECTIONS {
        if given.is_empty() || given.iter().any(|given| given == name) {
            measure();
        }
    }
}
