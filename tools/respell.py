#!/usr/bin/env python3
"""Brings the repository's own names of specs/ and proofs/ to snake case, in the texts that cite them too.

usage: tools/respell.py [--list]        at the top of the repository

A definition, a field, a constructor and a variable have underscores alone: `max-end` becomes `max_end`. A lemma keeps the
dash between two names of definitions, as `levels-join`, and has an underscore at a plain word, as `adds_more`. A type that
was written with a dash is in camel case. What names mean is left as it was: functions of src/, exported names, strings and
what a proof file calls a goal are not touched. A new name that is declared already is shown, and then nothing is
written. --list writes nothing and lists the names, old and new. A lemma that has an underscore has
been brought over: a second run changes nothing.
"""

import glob
import os
import re
import sys

NAME = r'[^\s(){}.;,@"«»\[\]]+'
COMMENT = re.compile(r'(?<![^\s(){}.;,@"«»])--[^\n]*')
DECLARED = re.compile(
    rf"(?m)^( *)((?:(?:abbrev|unfoldable|pub|record|data|ruleset) )*)((?:{NAME} )*{NAME})(?: \{{[^{{}}\n]*\}}| \([^()\n]*\))* :(?=\s)"
)
BOUND = re.compile(rf"[({{]((?:{NAME} )+):(?=\s)")
CASED = re.compile(rf"λ ((?:{NAME} )+)\.|λ ({NAME})\.|let ({NAME}) =|(?<=in )({NAME}) =")
DASHED = re.compile(r"[\w'-]*\w-\w[\w'-]*")
SPAN = re.compile(r"`[^`\n]+`")
# What stands for names in a type's place, with the spelling of a type.
TYPES = {"In-order": "InOrder", "Handed-down": "HandedDown"}
# Words of the library that lemmas of the repository are named after.
LIBRARY = "length append map take drop reverse sum max cond perm suc leb and cons nil".split()


def read(path):
    with open(path, encoding="utf-8") as f:
        return f.read()


def texts(*kinds):
    for kind in kinds:
        yield from sorted(glob.glob(f"crates/*/{kind}", recursive=True))


def declarations():
    """The names that specs/ declare, and those that the files of lemmas do, each with whether it is a lemma's."""
    definitions, lemmas, variables = set(), set(), set()
    for path in texts("specs/**/*.antt", "proofs/*.antt"):
        code = COMMENT.sub("", read(path))
        for indent, marks, names in DECLARED.findall(code):
            is_lemma = "/proofs/" in path and not re.search("abbrev|unfoldable|record|data", marks) and not indent
            (lemmas if is_lemma else definitions).update(names.split())
        for found in BOUND.findall(code):
            variables.update(found.split())
        for found in CASED.findall(code):
            variables.update(" ".join(found).split())
    return definitions, lemmas - definitions, variables - definitions - lemmas


def lemma_spelling(old, known):
    """The lemma's name with a dash between two names of definitions, and an underscore at each plain word."""
    words, parts = old.split("-"), []
    while words:
        n = next((n for n in range(len(words), 0, -1) if "_".join(words[:n]) in known), 0)
        parts.append(("_".join(words[: n or 1]), bool(n)))
        del words[: n or 1]
    spelled = parts[0][0]
    for (_, before), (part, after) in zip(parts, parts[1:]):
        spelled += ("-" if before and after else "_") + part
    return spelled


def table():
    definitions, lemmas, variables = declarations()
    rows = {it: TYPES.get(it, it.replace("-", "_")) for it in definitions | variables if DASHED.fullmatch(it)}
    known = {rows.get(it, it) for it in definitions} | set(LIBRARY)
    rows.update({it: lemma_spelling(it, known) for it in lemmas if DASHED.fullmatch(it) and "_" not in it})
    return {old: new for old, new in rows.items() if old != new}


def turn_code(code, rows):
    return re.sub(NAME, lambda m: rows.get(m[0], m[0]), code)


def turn_spans(prose, rows):
    return SPAN.sub(lambda m: "`" + turn_code(m[0][1:-1], rows) + "`", prose)


def turn(path, text, rows):
    if path.endswith(".md"):
        return turn_spans(text, rows)
    if path.endswith(".edit"):
        lines = text.split("\n")
        return "\n".join(turn_code(l, rows) if re.match("(old|new): ", l) else turn_spans(l, rows) for l in lines)
    comment = re.compile(r"//[^\n]*|\"(?:\\.|[^\"\\])*\"") if path.endswith(".rt") else COMMENT
    out, at = [], 0
    for m in comment.finditer(text):
        out.append(turn_code(text[at : m.start()], rows))
        out.append(m[0] if m[0][0] == '"' else turn_spans(m[0], rows))
        at = m.end()
    return "".join(out) + turn_code(text[at:], rows)


def clashes(rows):
    """The new names that a text of specs/ or proofs/ declares already, and those that two old ones would share."""
    declared = set().union(*declarations())
    found = {f"{old} and {other}: both {new}" for old, new in rows.items() for other in rows if other < old and rows[other] == new}
    return sorted(found | {f"{old} would be {new}, which is declared already" for old, new in rows.items() if new in declared})


def main():
    rows = table()
    if "--list" in sys.argv[1:]:
        print("\n".join(f"{old}\t{rows[old]}" for old in sorted(rows)))
        return 0
    found = clashes(rows)
    if found:
        print("\n".join(found))
        return 1
    paths = [*texts("src/**/*.rt", "specs/**/*.antt", "proofs/**/*.antt", "must-fail/*.edit"), "README.md", *sorted(glob.glob("docs/*.md"))]
    for path in paths:
        text = read(path)
        turned = turn(path, text, rows)
        if turned != text:
            with open(path, "w", encoding="utf-8") as f:
                f.write(turned)
    print(f"{len(rows)} names")
    return 0


if __name__ == "__main__":
    raise SystemExit(main())
