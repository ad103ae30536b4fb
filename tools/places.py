"""Counts, in a tree of this repository, the places that docs/DESIGN-PASS.md speaks of: python3 tools/places.py [TREE].
By text alone, with comments left out. A name behind a point lists the places themselves: python3 tools/places.py TREE NAME."""

import collections
import glob
import os
import re
import sys

TREE = sys.argv[1] if len(sys.argv) > 1 else "."
WANTED = sys.argv[2] if len(sys.argv) > 2 else None


def sources():
    for path in sorted(glob.glob(os.path.join(TREE, "crates/*/src/*.rt"))):
        text = open(path, encoding="utf-8").read()
        yield os.path.relpath(path, TREE), re.sub(r"//[^\n]*", "", text)


def closing(text, i, a, b):
    deep = 0
    for k in range(i, len(text)):
        deep += (text[k] == a) - (text[k] == b)
        if deep == 0:
            return k
    return len(text) - 1


def functions(text):
    """Each function: its name, its parameters, its result, its clauses and its body."""
    for m in re.finditer(r"\bfn (\w+)(<[^(]*>)?\(", text):
        shut = closing(text, m.end() - 1, "(", ")")
        params = text[m.end():shut]
        i = shut + 1
        result = re.match(r"\s*(?:->\s*([^{;\n]+?))?\s*(?=\n|\{|;|requires|ensures|ghost)", text[i:])
        clauses, k = [], i
        while True:
            c = re.compile(r"\s*(?:->\s*[^{;\n]+?\s*)?(requires|ensures|ghost)\b([^{;]*)\{").match(text, k)
            if not c:
                break
            end = closing(text, c.end() - 1, "{", "}")
            clauses.append((c[1], text[c.end():end].strip()))
            k = end + 1
        body = re.compile(r"[^{;]*\{").match(text, k)
        code = text[body.end():closing(text, body.end() - 1, "{", "}")] if body else ""
        yield m[1], params, (result[1] or "").strip() if result else "", clauses, code


ALL = [(path, f) for path, text in sources() for f in functions(text)]


def heads(test):
    return [f"{path} {f[0]}" for path, f in ALL if test(f)]


def lines(pattern):
    found = []
    for path, text in sources():
        for n, line in enumerate(text.split("\n"), 1):
            found += [f"{path}:{n} {line.strip()}" for _ in re.findall(pattern, line)]
    return found


def shape(body):
    """A body without its names, numbers and strings."""
    text = re.sub(r'b?"[^"]*"', "S", body)
    text = re.sub(r"\b\d\w*\b", "0", text)
    kept = "let|mut|if|else|for|in|while|match|return|continue|as|Some|None|Ok|Err|true|false|self"
    text = re.sub(rf"\b(?!(?:{kept})\b)[A-Za-z_]\w*", "x", text)
    return re.sub(r"\s+", " ", text).strip()


def twins():
    by = collections.defaultdict(list)
    for path, f in ALL:
        if f[4].strip().count("\n") >= 2:
            by[shape(f[4])].append(f"{path} {f[0]}")
    return [" = ".join(places) for places in by.values() if len(places) > 1]


def repeated(kind):
    """Clauses that stand word by word in three or more contracts."""
    by = collections.defaultdict(list)
    for path, f in ALL:
        for k, clause in f[3]:
            if k == kind:
                by[re.sub(r"\s+", " ", clause)].append(f"{path} {f[0]}")
    return [f"{clause}: {len(at)}" for clause, at in by.items() if len(at) > 2]


def travelling():
    """Parameters, three or more in a row, that stand in three or more heads."""
    by = collections.Counter()
    for _, f in ALL:
        names = [re.sub(r"\s+", " ", p).strip() for p in re.split(r",(?![^<]*>)", f[1]) if ":" in p]
        for i in range(len(names) - 2):
            by[", ".join(names[i:i + 3])] += 1
    return [f"{group}: {n}" for group, n in by.items() if n > 2]


def proofs(name):
    return [os.path.relpath(p, TREE) for p in sorted(glob.glob(os.path.join(TREE, f"crates/*/proofs/**/{name}"), recursive=True))]


def proof_lines():
    return [line for p in glob.glob(os.path.join(TREE, "crates/*/proofs/**/*.antt"), recursive=True) for line in open(p, encoding="utf-8")]


LENT = r"\b(\w+): &(?:'\w+ )?(?:mut )?\[\w+\],\s*(?:n|m|o|top|depth|len|at|used|count|d): (?:usize|u32)"

# Functions that compare, convert, copy or print by hand, as a reading found them.
BY_HAND = {
    "words": "word half put_half wide",
    "tokens": "greater within equals least lower mask first_byte",
    "names": "agreed agreed_after agreed_by agreed_long apart below block same_long choice wide",
    "forms": "less some reach",
    "judging": "less",
    "lexer": "bit byte_at product negated_upper",
    "steps": "again",
    "opening": "wide",
    "openings": "greater",
    "judge_lists": "one_if wide write_field",
    "replay": "byte_or_zero number number_of_first write",
    "sheet": "least begin end_line limited print print_next",
    "templates": "settle space_for",
}

PLACES = {
    "1 enums": lines(r"^\s*(?:pub )?enum \w+"),
    "1 constants-u8": lines(r"const \w+: u8 ="),
    "1 answers-u8": heads(lambda f: f[2] == "u8"),
    "1 parameters-u8": [f"{p} {f[0]}" for p, f in ALL for _ in re.findall(r":\s*u8\b", f[1])],
    "1 literal-refusals": lines(r"(?:refuse\w*|refused\w*|number_or)\([^;{]*[,( ](?:[1-9]|[1-4]\d)[,)]"),
    "1 literal-kinds": lines(r"\bkind(?:\(\))? (?:==|!=|>|<|>=|<=) \d+|\bkind: \d+"),
    "1 options-and-results": heads(lambda f: re.search(r"\b(?:Option|Result)\b", f[2])),
    "2 twins": twins(),
    "2 type-parameters": lines(r"\bfn \w+<(?!')"),
    "2 traits-and-impls": lines(r"^\s*(?:pub )?(?:trait \w+|impl\b.* for )"),
    "3 while": lines(r"\bwhile\b"),
    "3 for": lines(r"^\s*for \w|^\s*for \("),
    "3 chains": lines(r"\.(?:iter|rev|position|any|all|sum|fold)\("),
    "4 derives": lines(r"derive\("),
    "4 by-hand": [f"{p} {f[0]}" for p, f in ALL if f[0] in BY_HAND.get(p.split("/")[1], "").split()],
    "4 display-and-from": lines(r"impl .*\b(?:Display|From<|TryFrom<)"),
    "5 premises-in-three": repeated("requires"),
    "5 parameters-in-three": travelling(),
    "5 six-or-more-parameters": heads(lambda f: len([p for p in re.split(r",(?![^<]*>)", f[1]) if p.strip()]) > 5),
    "5 structs": lines(r"^\s*(?:pub )?struct \w+"),
    "5 ghost-facts": lines(r"^\s*(?:pub(?:\(\w+\))? )?ghost \w+: \{.*,$"),
    "6 length-beside": [f"{p} {f[0]}: {x}" for p, f in ALL for x in re.findall(LENT, f[1])],
    "7 switches": heads(lambda f: re.search(r"\bwhich\b|\bentry: (?:u8|Entry)\b|\bfield: (?:usize|Field)\b|\bform: (?:u8|usize|Form)\b|\bto: Side\b|\bside: u8\b", f[1])),
    "7 closures": lines(r"\|\w+(?:, \w+)*\| |F: Fn\w*\("),
    "8 answers": proofs("Answers.antt"),
    "8 invariants": proofs("Invariants.antt"),
    "8 proof-lines": proof_lines(),
    "lines of src": [line for _, text in sources() for line in text.split("\n") if line.strip()],
    "functions": [f"{p} {f[0]}" for p, f in ALL],
}

for name, places in PLACES.items():
    if WANTED is None:
        print(f"{name}: {len(places)}")
    elif WANTED in name.split():
        print("\n".join(str(place) for place in places))
