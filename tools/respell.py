#!/usr/bin/env python3
"""Brings the repository's own definitions and laws to one spelling: words in snake case, types and modules in camel case, no dot inside a name.

usage: python3 tools/respell.py [--list]      at the top of the repository, once, after the kit's port.py

Every name that a file of specs/ or proofs/ declares is looked at.
- Small camel case becomes snake case: sameBytes, same_bytes.
- A dash stays where it joins two names, else it becomes an underscore: length-be4 stays, no-dollar-word becomes no_dollar_word.
- A value whose name begins with a capital gets a small one; these are written out below, since a type may have the same name.
Files of specs/ and proofs/ are turned whole, .rt files, must-fail edits and pages only where such a name stands. --list prints the table and writes nothing.
"""
import glob
import json
import os
import re
import sys

WORD = re.compile(r"[^\s(){}\[\].;,@\"`|]+")
DECL = re.compile(r"^\s*((?:abbrev |unfoldable |pub |package |record |data )*)([^\s:(){}\[\].;,@\"`]+)((?:\s+[({][^:]*:[^)}]*[)}])*)\s+:(?:\s|$)(.*)$")
# Words of the library that laws are named after.
STD = set("length take drop append set sets replicate get_or map sum min max add mul sub suc zero cons nil fst snd some none true false true refl".split())
# Values that began with a capital, by the file that declares them.
VALUES = {
    "trees/specs/Ast.antt": {
        n: "ident_node" if n == "Ident" else "kind_" + re.sub(r"(?<=[a-z])(?=[A-Z])", "_", n).replace("·", "_").lower()
        for n in """TypeDef TypeValue·Primitive TypeValue·Enum TypeValue·Struct Variant Fields·Unit Fields·Struct Fields·Tuple StructField TupleField Decl Attr
        AttrKind·Chain AttrKind·Priority AttrKind·Tag Extern·Constructor Extern·Extractor Extern·Const Extractor Rule Priority IfLet Converter Identifier
        Pattern·Var Pattern·Bind Pattern·ConstBool Pattern·ConstInt Pattern·ConstPrim Pattern·Term Pattern·Wildcard Pattern·And Pattern·MacroArg
        Expr·Term Expr·Var Expr·ConstBool Expr·ConstInt Expr·ConstPrim Expr·Let LetDef Ident""".split()
    },
}

# A law that would have its function's name, and other names that would fall together or begin with a capital.
OTHERS = {
    "no-macroArg": "no_macro_arg_lem", "opened-call": "opened_call_lem", "no-iflet": "no_iflet_lem", "decl-flags": "decl_flags_lem", "call-number": "call_number_lem",
    "in-line": "in_line_lem", "is-sym-other": "is_sym_other_lem", "is-num-first": "is_num_first_lem", "is-num-other": "is_num_other_lem", "decl-names": "decl_names_lem", "rule-parts": "rule_parts_lem",
    "illSized": "ill_sized_stage", "illFormed": "ill_formed_stage", "Qz": "qz", "PQ": "pq", "Qz-opened": "qz_opened", "PQ-opened": "pq_opened", "Qz-left": "qz_left",
    "Qz-full": "qz_full", "Qz-worth": "qz_worth", "Qz-passes": "qz_passes", "Qz-ground": "qz_ground", "Qz-opens": "qz_opens", "PQ-open": "pq_open",
    "Qz-steps": "qz_steps", "P-source": "p_source", "B-made": "b_made", "extractorsPQ": "extractors_pq", "patternQz": "pattern_qz", "Tree-at": "tree_from",
}
# The same in one crate or file alone.
LOCAL = {
    "lexer/": {"run_end": "run_end_lem"},
    "examples/specs/Examples.antt": {"B": "b_records"},
    "examples/specs/Dollars.antt": {"P": "p_records"},
    "examples/proofs/Examples.antt": {"B": "b_records", "P": "p_records"},
    "forms/": {"MacroArg": "macro_arg"},
    "lookahead/proofs/Defs.antt": {"Left": "left"},
    "lookahead/proofs/Exprs.antt": {"Paren": "paren"},
    "lookahead/proofs/Rows.antt": {"Row'": "row'", "Turn'": "turn'"},
    "opening/proofs/CalledLaws.antt": {"Calls": "calls"},
    "opening/proofs/MadeLaws.antt": {"Stands": "stands"},
}
# Operators, and names that the library spells anew.
ALSO = {"orElse": "or_else", "⊑-getD": "⊑-get_or"}


def declared(root):
    out = {}
    for f in sorted(glob.glob(root + "/crates/*/specs/**/*.antt", recursive=True) + glob.glob(root + "/crates/*/proofs/**/*.antt", recursive=True)):
        if "/out/" in f:
            continue
        for l in open(f, encoding="utf-8"):
            if l.lstrip().startswith("--") or re.match(r"\s*(let|use|open|in)\b", l):
                continue
            m = DECL.match(l)
            if m:
                out.setdefault(m.group(2), []).append((f[len(root) + 8:], m.group(4)))
    return out


def snake(part):
    return re.sub(r"(?<=[a-z0-9])([A-Z])", lambda m: "_" + m.group(1).lower(), part)


def respelled(name, names):
    parts = name.split("-")
    out = parts[0] if parts[0][:1].isupper() else snake(parts[0])
    known = [p in names or snake(p) in names or p[:1].isupper() for p in parts]
    joins = len(parts) == 2 and all(known)
    for q in parts[1:]:
        t = q if q[:1].isupper() else snake(q)
        out += ("-" if joins else "_") + t
    return out


def table(root):
    decl = declared(root)
    words = set(STD)
    for n, where in decl.items():
        if "-" not in n and any("/specs/" in w[0] or w[0].split("/")[1] == "specs" for w in where):
            words.add(n)
    out = {}
    for n, where in decl.items():
        if all(w[0].endswith("/Proof.antt") for w in where):
            continue  # names of goals go by the kit's own rules
        if n in OTHERS:
            out[n] = OTHERS[n]
            continue
        if n[:1].isupper() and "-" not in n:
            continue
        if not re.match(r"[A-Za-z]", n):
            continue
        new = respelled(n, words)
        if new != n:
            out[n] = new
    return decl, out


def turn(text, rename):
    text = WORD.sub(lambda m: rename.get(m.group(0), m.group(0)), text)
    for old, new in ALSO.items():
        text = text.replace(old, new)
    return text


def imports(text, crate, module):
    """The names that a file takes from the module, by its `use` lines."""
    got = set()
    for m in re.finditer(r"use " + re.escape(f"Rattle.{crate}.specs.{module}") + r"\.\{([^}]*)\}", text):
        got |= {w.strip().split(" as ")[0] for w in m.group(1).split(",")}
    return got


def main():
    root = os.getcwd()
    decl, rename = table(root)
    if "TypeDef" not in decl:
        sys.exit("the names have this spelling already: nothing is done")
    clash = {}
    for n, new in rename.items():
        if new in decl:
            clash.setdefault(new, []).append(n)
    olds = {}
    for n, new in rename.items():
        olds.setdefault(new, []).append(n)
    for new, ns in olds.items():
        if len(ns) > 1:
            clash.setdefault(new, []).extend(ns)
    print(len(rename), "names;", "fall together:", json.dumps(clash, ensure_ascii=False))
    if "--list" in sys.argv:
        for n, new in sorted(rename.items()):
            print(n, new)
        return
    files = glob.glob(root + "/crates/*/specs/**/*.antt", recursive=True) + glob.glob(root + "/crates/*/proofs/**/*.antt", recursive=True)
    files += glob.glob(root + "/crates/*/src/**/*.rt", recursive=True) + glob.glob(root + "/crates/*/must-fail/*.edit")
    for f in sorted(files):
        text = open(f, encoding="utf-8").read()
        here = f[len(root) + 8:]
        new = turn(text, rename)
        if "--clashes" in sys.argv:
            have = set(WORD.findall(text))
            both = [(n, rename[n]) for n in have if n in rename and rename[n] in have]
            if both:
                print(here, both)
            continue
        for part, names in LOCAL.items():
            if here.startswith(part) and f.endswith(".antt"):
                new = turn(new, names)
        for where, values in VALUES.items():
            crate, module = where.split("/")[0], where.split("/")[2][:-5]
            if here == where:
                mine = values
            else:
                got = imports(text, crate, module)
                mine = {n: v for n, v in values.items() if n in got}
                for m in re.finditer(r"use " + re.escape(f"Rattle.{crate}.specs.{module}") + r" as (\w+)", text):
                    new = re.sub(r"\b" + m.group(1) + r"\.([^\s(){}\[\].;,@\"`|]+)", lambda x: m.group(1) + "." + values.get(x.group(1), x.group(1)), new)
            if mine:
                if f.endswith(".antt"):
                    new = turn(new, mine)
                else:
                    new = "".join(turn(l, mine) if re.match(r"\s*(ghost|requires|ensures)\b", l) else l for l in new.splitlines(keepends=True))
        if new != text:
            open(f, "w", encoding="utf-8").write(new)
    for f in [root + "/README.md"] + glob.glob(root + "/docs/*.md"):
        text = open(f, encoding="utf-8").read()
        new = re.sub(r"`[^`\n]*`", lambda m: turn(m.group(0), rename), text)
        if new != text:
            open(f, "w", encoding="utf-8").write(new)


main()
