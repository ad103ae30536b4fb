//! The answers for templates, substitution and opening: the model's, held against the crate's.

use crate::expansion::{self, Opened};
use crate::generate::Random;
use crate::generate_lists::*;
use crate::records::*;
use crate::steps::*;

fn compare<T: PartialEq + std::fmt::Debug>(of_crate: &T, of_model: &T) -> Result<(), String> {
    match of_crate == of_model {
        true => Ok(()),
        false => Err(format!("crate: {of_crate:x?}\nmodel: {of_model:x?}")),
    }
}

pub fn make_template(lists: &Lists) -> Outcome {
    expansion::make_template(&lists.text, &lists.first, &lists.second)
}

pub fn substitute(lists: &Lists) -> Outcome {
    expansion::substitute(&lists.text, &lists.first, &lists.second)
}

pub fn open(lists: &Lists) -> Result<Opened, Refusal> {
    expansion::open(&lists.text, &lists.first, &lists.second)
}

/// Template making for a text, if the crate reads it.
pub fn judge_template(text: &str) -> Result<Option<(Lists, Outcome)>, String> {
    let Some((lists, of_crate)) = template_case(text) else {
        return Ok(None);
    };
    let outcome = make_template(&lists);
    compare(&Ok(of_crate), &outcome)?;
    Ok(Some((lists, outcome)))
}

/// Substitution for a text, if the crate reads it. The crate gives no place for a 5.
pub fn judge_substitution(text: &str, own: bool) -> Result<Option<(Lists, Outcome)>, String> {
    let Some((lists, of_crate)) = substitution_case(text, own) else {
        return Ok(None);
    };
    let outcome = substitute(&lists);
    match &outcome {
        Err(Refusal { number: 5, .. }) => compare(&of_crate, &None)?,
        _ => compare(&of_crate.map(Ok), &Some(outcome.clone()))?,
    }
    Ok(Some((lists, outcome)))
}

/// Opening for a text, if the crate reads it. What is accepted is also reached by single
/// steps in random order with the crate's own functions.
pub fn judge_opening(
    random: &mut Random,
    text: &str,
) -> Result<Option<(Lists, Result<Opened, Refusal>)>, String> {
    let Some((lists, extractors, pattern)) = opening_case(text) else {
        return Ok(None);
    };
    let outcome = open(&lists);
    if let Ok(opened) = &outcome {
        let store = store_by_steps(random, &extractors);
        compare_list(store, &opened.store)?;
        if opened.store.is_some() {
            let stepped = open_by_steps(random, &extractors, &pattern);
            compare_list(
                stepped.map(|pattern| pattern_records(&[pattern])),
                &opened.pattern,
            )?;
        }
    }
    Ok(Some((lists, outcome)))
}

/// A list reached by single steps, if any, against the model's, if any space holds it.
fn compare_list(stepped: Option<Vec<Words>>, of_model: &Option<Vec<Words>>) -> Result<(), String> {
    match (stepped, of_model) {
        (Some(stepped), Some(list)) => compare(&stepped, list),
        (Some(stepped), None) if stepped.len() <= MAX_RECORDS => Err(format!(
            "{} records that the model takes for too many",
            stepped.len()
        )),
        _ => Ok(()),
    }
}
