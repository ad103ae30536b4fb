//! Hand-written texts and lists for templates, substitution and opening.

use crate::hand::{EMPTY_CONSTANTS, NAMED_CONSTANTS, WHOLE};
use crate::records::Words;

pub const WILDCARD: Words = [36 << 56, 0, 0];

/// A definition list takes an extern constant with an empty name as well.
pub const EMPTY_EXTERN: &str = "(extern const $ T)";

/// The whole texts for lists that are lent: constants have an empty name in one of them. The crate
/// reads it, and so makes lists that reading does not make.
pub fn whole_texts() -> Vec<&'static str> {
    let lent = |text: &&'static str| match *text {
        NAMED_CONSTANTS => EMPTY_CONSTANTS,
        text => text,
    };
    WHOLE.iter().map(lent).collect()
}

/// Template making takes the last extractor; substitution takes the rules' patterns as well.
pub const TEMPLATES: &[&str] = &[
    // The example of 01: 5 at 2 with one pattern given.
    "(extractor (P x y) (B y @ _ x @ (C y) x))(rule n a e)",
    "(extractor (P x y) (B y @ _ x @ (C y) x))(rule n a e)(rule n (D b) e)",
    "(extractor (P x y) (B y @ _ x @ (C y) x))(rule n a e)(rule n (D b) e)(rule n _ e)",
    "(extractor (P) x)",
    "(extractor (P x) x)(rule n y e)",
    "(extractor (P x x) x)(rule n y e)(rule n z e)",
    "(extractor (P y x x) (A x y))(rule n 1 e)(rule n 2 e)(rule n 3 e)",
    "(extractor (P x) x @ x @ _)(rule n (A) e)",
    "(extractor (P x) x @ y @ _)(rule n (A) e)",
    "(extractor (P x) y @ x @ _)(rule n (A) e)",
    "(extractor (P x) y @ _)(rule n (A) e)",
    "(extractor (P x) x @ (and))(rule n (A) e)",
    "(extractor (P x) (x x (x x)))(rule n (A) e)",
    "(extractor (P x $x) (A $x x $))(rule n (A) e)",
    "(extractor (P xy) (A x xy xyz xy))(rule n (A) e)",
    "(extractor (P x) (and x (and) true 5 $c _ x))(rule n (and x x) e)",
    "(extractor (P _) (A _ _ @ _))(rule n x e)",
];

/// Opening takes the last rule's pattern and the definitions before it.
pub const OPENINGS: &[&str] = &[
    // The example of 01: 11 records.
    "(extractor (P x) (and x x))(extractor (Q x) (P (P x)))(rule n (Q z) e)",
    "(rule n x e)",
    "(extractor (P x) (and x x))(rule n P e)",
    "(extractor (P x) (and x x))(rule n P @ (P P) e)",
    "(extractor (P) _)(rule n (A (P) x @ (P)) e)",
    "(extractor (I x) x)(rule n (I (I (I y))) e)",
    "(extractor (K x y) x)(rule n (K (K a b) (K c d)) e)",
    "(extractor (K x y) y)(extractor (L x y) (K (K x y) (K y x)))(rule n (L (L a b) (K c d)) e)",
    "(extractor (P x) (A x))(extractor (Q x) (B (P x) y))(rule n (Q (P (Q z))) e)",
    "(extern extractor P f)(rule n (P x) e)",
    "(extern extractor P f)(extractor (P x) x)(rule n (P (P y)) e)",
    // 30, 31, 32 and their order.
    "(extractor (P x) x)(extractor (P y) y)(rule n (P z) e)",
    "(extractor (P x) x)(extractor (Q) (P))(rule n (P) e)",
    "(extractor (P x) x)(rule n (A (P) (P x y)) e)",
    "(extractor (P x) (P x))(rule n z e)",
    "(extractor (P x) (P))(rule n (P) e)",
    "(extractor (P x) (A (B (Q x))))(extractor (Q x) x)(rule n z e)",
    "(extractor (P x) x)(extractor (Q x) (A (P) (Q)))(rule n z e)",
    "(extractor (P x) x)(extractor (Q x) (A (Q) (P)))(rule n z e)",
    "(extractor (P x) x)(extractor (Q x) (P x))(extractor (P x y) y)(rule n z e)",
    "(extractor (P x) x)(extractor (P x) (P))(rule n z e)",
    "(extractor (P) (Q))(extractor (Q) (P x))(rule n (P a b) e)",
    "(extractor (P x) x)(rule r (P) (P))(decl P (P) P)(rule n (P y) e)",
    "(extractor (P x P) (A P x))(rule n (P a (P b c)) e)",
];

/// Openings at the limits: depth, number of extractors, sizes that no space holds.
pub fn limit_openings() -> Vec<String> {
    let mut texts = Vec::new();
    for depth in [64, 65] {
        let (open, close) = ("(A ".repeat(depth - 1), ")".repeat(depth - 1));
        let lets = "(let ((v T ".repeat(depth - 1);
        let close_lets = ")) w)".repeat(depth - 1);
        texts.extend([
            format!("(rule n {open}x{close} e)"),
            format!("(extractor (P x) {open}x{close})(rule n (P y) e)"),
            format!("(rule m x {open}y{close})(rule n z e)"),
            format!("(rule m x (if {lets}y{close_lets}) y)(rule n z e)"),
            format!("(rule n {}_ e)", "a @ ".repeat(depth - 1)),
        ]);
    }
    texts.extend([
        doubling(4),
        doubling(5),
        doubling(80),
        nested(9),
        nested(10),
        nested(60),
    ]);
    texts
}

/// Lists of so many extractors, the last also called.
pub fn many_extractors(count: usize) -> String {
    let one = |i: usize| format!("(extractor (E{i} x) x)");
    let all: String = (0..count).map(one).collect();
    format!("{all}(rule n (E{} y) e)", count - 1)
}

/// Each extractor but the first calls the one before twice.
pub fn doubling(count: usize) -> String {
    let mut text = "(extractor (E0 x) (and x x))".to_string();
    for i in 1..count {
        text += &format!("(extractor (E{i} x) (E{0} (and x (E{0} x))))", i - 1);
    }
    text + "(rule n (E0 y) e)"
}

/// Calls inside each other, each using its argument three times.
pub fn nested(depth: usize) -> String {
    let (open, close) = ("(D ".repeat(depth), ")".repeat(depth));
    format!("(extractor (D x) (A x x x))(extractor (K x y) x)(rule n (K {open}y{close} z) e)")
}

/// An And over these records.
pub fn and(children: Vec<Words>) -> Vec<Words> {
    let head = [37 << 56 | (children.len() as u64) << 32, 0, 0];
    [vec![head], children].concat()
}

/// Ands inside each other, and in the innermost that record.
pub fn chain(levels: usize, inside: Words) -> Vec<Words> {
    [vec![[37 << 56 | 1 << 32, 0, 0]; levels], vec![inside]].concat()
}

pub fn wildcards(count: usize) -> Vec<Words> {
    vec![WILDCARD; count]
}
