//! Template making and substitution against the crate's functions on the same trees, and the
//! judging of lent lists.

use crate::bench_times::*;
use crate::library;
use cranelift_isle::ast::Pattern;
use cranelift_isle::lexer::Pos;
use differential::generate::Random;
use differential::hand_lists::*;
use differential::records::*;
use differential::steps::*;

type Entry = fn(&Lists, &mut [u8]) -> u64;

pub fn templates() {
    let note = "The library judges both lists first (7, 1, 3), which the crate does not: its trees \
                are well formed by their types.";
    list_table("Template making", note);
    for size in [1 << 10, 1 << 14, MAX_TEXT] {
        let text = long_extractor(size);
        let extractor = extractors(&defs_of(&text).expect("a good text")).remove(0);
        let lists = Lists {
            text: text.clone().into_bytes(),
            first: pattern_bytes(&[extractor.template.clone()]),
            second: ident_bytes(&extractor.args),
        };
        let name = format!("text of {} bytes", shown(text.len()));
        let of_crate = || extractor.template.make_macro_template(&extractor.args);
        compared(&name, &lists, of_crate, library::make_template);
    }
}

/// An extractor whose text has about `size` bytes.
fn long_extractor(size: usize) -> String {
    let mut random = Random::new(0x1517_0005);
    let mut text = "(extractor (P x y z) (A".to_string();
    #[rustfmt::skip]
    let items = ["x", "y", "z", "w", "_", "5", "(B x w)", "x @ _", "w @ (C y)"];
    while text.len() < size - 40 {
        text += &format!(" {}", random.pick(&items));
    }
    text + "))"
}

pub fn substitution() {
    let note = "Here too the library judges both lists first.";
    list_table("Substitution", note);
    let many = [8_000, 16_000, 32_000, 65_000].map(|count| (count, 4_000));
    for (count, given) in many.into_iter().chain([(65_000, 1)]) {
        let (template, patterns) = macro_args(count, given);
        let lists = Lists {
            text: vec![],
            first: pattern_bytes(&[template.clone()]),
            second: pattern_bytes(&patterns),
        };
        let name = format!("{} MacroArgs, patterns: {}", shown(count), shown(given));
        let substitute = || template.subst_macro_args(&patterns);
        let of_crate = || substitute().expect("enough patterns");
        compared(&name, &lists, of_crate, library::substitute);
    }
}

/// A template of `count` MacroArgs, and `given` patterns of one record.
fn macro_args(count: usize, given: usize) -> (Pattern, Vec<Pattern>) {
    let pos = Pos::new(0, 0);
    let indices = (0..count).map(|i| i % given);
    let subpats = indices.map(|index| Pattern::MacroArg { index, pos });
    let template = Pattern::And {
        subpats: subpats.collect(),
        pos,
    };
    (template, vec![Pattern::Wildcard { pos }; given])
}

/// A line for an entry and the crate's function, which give the same records.
fn compared(name: &str, lists: &Lists, of_crate: impl Fn() -> Pattern, entry: Entry) {
    let expected = pattern_bytes(&[of_crate()]);
    let mut out = vec![0; expected.len()];
    let result = entry(lists, &mut out);
    assert_eq!(result, pack(0, out.len() / WIDTH, 0), "{name}");
    assert!(out == expected, "other records: {name}");
    let [theirs, ours] = in_turns([&mut || timed(&of_crate), &mut || {
        timed(|| entry(lists, &mut out))
    }]);
    let records = out.len() / WIDTH;
    list_line(name, records, Some(median(&theirs)), median(&ours));
}

/// Lists of the most records, in calls that do little else than judge them.
pub fn judging() {
    table(
        "Judging a lent list",
        "A template goes to `isle_substitute` without patterns or an output, which is refused \
         with 6; definitions go to `isle_open` with a pattern of one record.",
        &[
            "input",
            "records",
            "milliseconds",
            "nanoseconds for each record",
        ],
    );
    let most = MAX_RECORDS - 1;
    let templates = [
        ("template, flat", and(wildcards(most))),
        ("template, flat, of Terms with names", and_of_terms()),
        ("template, nested 65,535 deep", chain(most, WILDCARD)),
    ];
    for (name, template) in templates {
        let ours = judged(template.clone(), vec![], 6, |lists| {
            library::substitute(lists, &mut [])
        });
        judging_line(name, template.len(), ours);
    }
    let attr = [[12 << 56 | 1 << 32, 0, 0], [24 << 56, pair(0, 1), 0]];
    let attrs = vec![attr; MAX_RECORDS / 2].concat();
    let mut out = [0; WIDTH];
    let ours = judged(attrs, wildcards(1), 0, |lists| {
        library::open(lists, &mut [], &mut out)
    });
    judging_line("definitions, flat: 32,768 attrs", MAX_RECORDS, ours);
}

/// An And of 32,767 Terms that have a name each, and a wildcard.
fn and_of_terms() -> Vec<Words> {
    let term = [[35 << 56 | 1 << 32, 0, 0], [24 << 56, pair(0, 1), 0]];
    let mut list = and(vec![WILDCARD; 32_768]);
    list.splice(1..32_768, vec![term; 32_767].concat());
    list
}

fn judged(
    first: Vec<Words>,
    second: Vec<Words>,
    refusal: u64,
    mut call: impl FnMut(&Lists) -> u64,
) -> f64 {
    let lists = Lists {
        text: vec![b'x'],
        first: bytes_of(&first),
        second: bytes_of(&second),
    };
    assert_eq!(call(&lists) >> 56, refusal);
    alone(|| timed(|| call(&lists)))
}

fn judging_line(name: &str, records: usize, time: f64) {
    let milliseconds = format!("{:.2}", time / 1e6);
    line(&[
        name.to_string(),
        shown(records),
        milliseconds,
        each(time, records),
    ]);
}
