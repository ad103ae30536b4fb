//! The stored answers for templates, substitution and opening.

use crate::stored::Stored;
use differential::expansion::{Opened, open_answer};
use differential::generate::Random;
use differential::generate_lists::*;
use differential::hand_lists::*;
use differential::judge_lists::*;
use differential::records::*;
use differential::steps::Lists;

const SEED: u64 = 0x1517_0004;
const RANDOM_CASES: usize = 900;
const RANDOM_OPENINGS: usize = 150;
/// Longer cases are left out, so that the file stays small.
const LONGEST: usize = 40_000;
/// So are openings with more space than this, in records.
const MOST_LENT: usize = 4_096;

pub fn make_templates(stored: &mut Stored) -> Result<(), String> {
    check_template_example()?;
    let mut random = Random::new(SEED);
    for text in texts(&mut random) {
        if let Some((lists, outcome)) = judge_template(&text)? {
            add(stored, &lists, &outcome);
            each_damaged(&mut random, &lists, |lists| {
                add(stored, lists, &make_template(lists))
            });
        }
    }
    Ok(())
}

pub fn make_substitutions(stored: &mut Stored) -> Result<(), String> {
    let mut random = Random::new(SEED);
    for text in texts(&mut random) {
        for own in [false, true] {
            if let Some((lists, outcome)) = judge_substitution(&text, own)? {
                add(stored, &lists, &outcome);
                each_damaged(&mut random, &lists, |lists| {
                    add(stored, lists, &substitute(lists))
                });
            }
        }
    }
    Ok(())
}

pub fn make_openings(stored: &mut Stored) -> Result<(), String> {
    check_opening_example()?;
    let mut random = Random::new(SEED);
    let mut texts: Vec<String> = OPENINGS.iter().map(|text| text.to_string()).collect();
    texts.extend(limit_openings());
    texts.push(many_extractors(257));
    texts.extend((0..RANDOM_OPENINGS).map(|_| opening_text(&mut random)));
    for text in texts {
        if let Some((lists, outcome)) = judge_opening(&mut random, &text)? {
            add_openings(stored, &lists, &outcome);
            each_damaged(&mut random, &lists, |lists| {
                add_opening(stored, lists, &open(lists), [0, 0])
            });
        }
    }
    every_record_damaged(stored, &mut random)
}

/// 01: `(B y @ _ x @ (C y) x)` with x and y, and 5 at 2 with one pattern given.
fn check_template_example() -> Result<(), String> {
    let made = judge_template(TEMPLATES[0])?.and_then(|(_, outcome)| outcome.ok());
    let heads: Vec<(u64, u64)> = made.iter().flatten().map(|r| (r[0] >> 56, r[1])).collect();
    let kinds: Vec<u64> = heads.iter().map(|head| head.0).collect();
    let indices: Vec<u64> = heads
        .iter()
        .filter(|head| head.0 == 38)
        .map(|head| head.1)
        .collect();
    let substituted = judge_substitution(TEMPLATES[0], false)?.map(|(_, outcome)| outcome);
    let refused = substituted
        == Some(Err(Refusal {
            number: 5,
            place: 2,
        }));
    match kinds == [35, 24, 38, 31, 24, 35, 24, 38, 38] && indices == [1, 1, 0] && refused {
        true => Ok(()),
        false => Err("the template example of 01 differs".to_string()),
    }
}

/// 01: `(Q z)` opens to 11 records, and space for 10 gives 6.
fn check_opening_example() -> Result<(), String> {
    let judged = judge_opening(&mut Random::new(SEED), OPENINGS[0])?;
    let outcome = judged.ok_or("the opening example of 01 is refused")?.1;
    let result = |records: usize| open_answer(&outcome, 400 * WIDTH, records * WIDTH).0;
    match (result(11), result(10)) == (pack(0, 11, 0), pack(6, 0, 1)) {
        true => Ok(()),
        false => Err("the opening example of 01 differs".to_string()),
    }
}

fn texts(random: &mut Random) -> Vec<String> {
    let mut texts: Vec<String> = TEMPLATES.iter().map(|text| text.to_string()).collect();
    texts.extend((0..RANDOM_CASES / 2).map(|_| template_text(random)));
    texts
}

/// One damaged form of the lists, if they are short.
fn each_damaged(random: &mut Random, lists: &Lists, mut add: impl FnMut(&Lists)) {
    if lists.first.len() < LONGEST / 8 {
        let mut damaged = lists.clone();
        damage_lists(random, &mut damaged);
        add(&damaged);
    }
}

/// Every record of the definition forms changed in each of several ways.
fn every_record_damaged(stored: &mut Stored, random: &mut Random) -> Result<(), String> {
    let changes: [Words; 9] = [
        [1 << 56, 0, 0],
        [1 << 48, 0, 0],
        [1 << 49, 0, 0],
        [1 << 52, 0, 0],
        [1 << 32, 0, 0],
        [3 << 32, 0, 0],
        [1, 0, 0],
        [0, 1, 0],
        [0, 0, 1],
    ];
    for text in whole_texts() {
        let text = format!("{text}(rule n 0 x e)");
        let Some((lists, outcome)) = judge_opening(random, &text)? else {
            return Err(format!("a whole text that the crate refuses: {text}"));
        };
        add_openings(stored, &lists, &outcome);
        let records = words_of(&lists.first);
        for i in 0..records.len() {
            let mut all = changes.map(|change| changed(&records, i, change)).to_vec();
            all.extend([records.clone(), records.clone()]);
            remove_tree(&mut all[changes.len()], i);
            double_tree(&mut all[changes.len() + 1], i);
            for damaged in all {
                let lists = Lists {
                    first: bytes_of(&damaged),
                    ..lists.clone()
                };
                add_opening(stored, &lists, &open(&lists), [0, 0]);
            }
        }
    }
    Ok(())
}

fn changed(records: &[Words], i: usize, change: Words) -> Vec<Words> {
    let mut records = records.to_vec();
    (0..3).for_each(|word| records[i][word] ^= change[word]);
    records
}

/// One case of template making or substitution, as README.md describes it.
fn add(stored: &mut Stored, lists: &Lists, outcome: &Outcome) {
    let count = outcome.as_ref().map_or(0, Vec::len);
    let answer = answer(outcome, count * WIDTH);
    let mut case = head(lists, &[count], answer.result);
    case.extend(answer.out);
    stored.add(case, (answer.result >> 56) as u8);
}

/// The lengths, the space and the result, then the text and the lists.
fn head(lists: &Lists, space: &[usize], result: u64) -> Vec<u8> {
    let (first, second) = (lists.first.len() / WIDTH, lists.second.len() / WIDTH);
    let mut bytes = Vec::new();
    for number in [lists.text.len(), first, second].iter().chain(space) {
        bytes.extend((*number as u32).to_be_bytes());
    }
    bytes.extend(result.to_be_bytes());
    for part in [&lists.text, &lists.first, &lists.second] {
        bytes.extend(part);
    }
    bytes
}

/// An opening with exact spaces, and with each space one record short.
fn add_openings(stored: &mut Stored, lists: &Lists, outcome: &Result<Opened, Refusal>) {
    add_opening(stored, lists, outcome, [0, 0]);
    if outcome.is_ok() {
        add_opening(stored, lists, outcome, [1, 0]);
        add_opening(stored, lists, outcome, [0, 1]);
    }
}

/// One opening with each space so many records short, as README.md describes it.
fn add_opening(
    stored: &mut Stored,
    lists: &Lists,
    outcome: &Result<Opened, Refusal>,
    short: [usize; 2],
) {
    let size = |list: &Option<Vec<Words>>| list.as_ref().map_or(0, Vec::len);
    let (store, out) = match outcome {
        Ok(opened) => (size(&opened.store), size(&opened.pattern)),
        Err(_) => (0, 0),
    };
    let space = [store.saturating_sub(short[0]), out.saturating_sub(short[1])];
    let (result, store, out) = open_answer(outcome, space[0] * WIDTH, space[1] * WIDTH);
    let mut case = head(lists, &space, result);
    if result >> 56 == 0 {
        case.extend(store);
        case.extend(out);
    }
    if case.len() <= LONGEST && space.iter().all(|records| *records <= MOST_LENT) {
        stored.add(case, (result >> 56) as u8);
    }
}
