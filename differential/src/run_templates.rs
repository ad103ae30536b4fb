//! Template making and substitution through the library.

use crate::run_lists::*;
use crate::{Counts, library};
use differential::generate::Random;
use differential::generate_lists::template_text;
use differential::hand_lists::*;
use differential::hand_names::name_templates;
use differential::judge_lists::*;
use differential::records::*;
use differential::steps::Lists;

pub fn compare(random: &mut Random, count: u64) -> Result<Vec<String>, String> {
    let mut made = Counts::default();
    let mut substituted = Counts::default();
    for text in TEMPLATES {
        compare_text(random, text, &mut made, &mut substituted)?;
    }
    for lists in name_templates() {
        MAKE_TEMPLATE.compare_to(&lists, &make_template(&lists), 50, &mut made)?;
    }
    for _ in 0..count {
        let text = template_text(random);
        compare_text(random, &text, &mut made, &mut substituted)?;
    }
    compare_limits(&mut made, &mut substituted)?;
    Ok(vec![
        made.line("isle_make_template"),
        substituted.line("isle_substitute"),
    ])
}

/// An entry of the library, and the model of it.
struct Entry {
    call: fn(&Lists, &mut [u8]) -> u64,
    model: fn(&Lists) -> Outcome,
}

const MAKE_TEMPLATE: Entry = Entry {
    call: library::make_template,
    model: make_template,
};

const SUBSTITUTE: Entry = Entry {
    call: library::substitute,
    model: substitute,
};

/// Both entries on the lists of a text, whole and damaged.
fn compare_text(
    random: &mut Random,
    text: &str,
    made: &mut Counts,
    substituted: &mut Counts,
) -> Result<(), String> {
    let more = 1 + random.below(60);
    if let Some((lists, outcome)) = judge_template(text)? {
        MAKE_TEMPLATE.compare_to(&lists, &outcome, more, made)?;
        MAKE_TEMPLATE.compare_damaged(random, lists, more, made)?;
    }
    if let Some((lists, outcome)) = judge_substitution(text, random.once_in(3))? {
        SUBSTITUTE.compare_to(&lists, &outcome, more, substituted)?;
        SUBSTITUTE.compare_damaged(random, lists, more, substituted)?;
    }
    Ok(())
}

impl Entry {
    fn compare_to(
        &self,
        lists: &Lists,
        outcome: &Outcome,
        more: usize,
        counts: &mut Counts,
    ) -> Result<(), String> {
        let compared = counts.compare(outcome, more, |out| (self.call)(lists, out));
        compared.map_err(|message| format!("{}\n{message}", shown(lists)))
    }

    fn compare_damaged(
        &self,
        random: &mut Random,
        mut lists: Lists,
        more: usize,
        counts: &mut Counts,
    ) -> Result<(), String> {
        damage(random, &mut lists);
        self.compare_to(&lists, &(self.model)(&lists), more, counts)
    }

    /// With outputs of more space than a list may hold.
    fn compare(&self, lists: &Lists, counts: &mut Counts) -> Result<(), String> {
        let more = 2 * MAX_RECORDS * WIDTH;
        self.compare_to(lists, &(self.model)(lists), more, counts)
    }
}

const IDENT: Words = [24 << 56, 1, 0];

fn macro_arg(index: u64) -> Words {
    [38 << 56, index, 0]
}

fn lists(text: usize, first: Vec<Words>, second: Vec<Words>) -> Lists {
    Lists {
        text: vec![b'x'; text],
        first: bytes_of(&first),
        second: bytes_of(&second),
    }
}

/// Lists of 65,536 records and of one more, lists about as long as the smaller tables, long texts,
/// deep trees, and results that no space holds.
fn compare_limits(made: &mut Counts, substituted: &mut Counts) -> Result<(), String> {
    let deepest = MAX_RECORDS - 1;
    for text in [MAX_TEXT, MAX_TEXT + 1] {
        for count in [MAX_RECORDS, MAX_RECORDS + 1] {
            let full = and(wildcards(deepest));
            MAKE_TEMPLATE.compare(&lists(text, full, vec![IDENT; count]), made)?;
            let last = vec![macro_arg(deepest as u64)];
            SUBSTITUTE.compare(&lists(text, last, wildcards(count)), substituted)?;
        }
    }
    for count in about_small_tables() {
        let full = || and(wildcards(count - 1));
        MAKE_TEMPLATE.compare(&lists(1, full(), vec![IDENT; count]), made)?;
        SUBSTITUTE.compare(&lists(1, full(), wildcards(count)), substituted)?;
        let deep = chain(count - 1, macro_arg(0));
        SUBSTITUTE.compare(&lists(1, deep, full()), substituted)?;
    }
    MAKE_TEMPLATE.compare(&lists(1, chain(deepest, WILDCARD), vec![IDENT]), made)?;
    MAKE_TEMPLATE.compare(&lists(1, chain(deepest, macro_arg(0)), vec![IDENT]), made)?;
    let deep = chain(deepest, macro_arg(0));
    SUBSTITUTE.compare(&lists(1, deep.clone(), wildcards(1)), substituted)?;
    SUBSTITUTE.compare(&lists(1, deep.clone(), vec![]), substituted)?;
    SUBSTITUTE.compare(&lists(1, deep, chain(deepest, WILDCARD)), substituted)?;
    for count in [1, 2, 256, deepest] {
        for size in [1, 255, 256, MAX_RECORDS] {
            let template = and(vec![macro_arg(0); count]);
            SUBSTITUTE.compare(&lists(9, template, and(wildcards(size - 1))), substituted)?;
        }
    }
    Ok(())
}
