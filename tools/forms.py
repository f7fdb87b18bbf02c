#!/usr/bin/env python3
"""Lists the places in crates/*/src where an older form of the language may stand, one block for each of eight points.

usage: tools/forms.py [FOLDER]     of this checkout, or of the one in the folder

It only lists candidates, by the text of the code: docs/DESIGN-PASS.md says of each whether it is a place, and why one stays.
"""
import collections
import difflib
import pathlib
import re
import sys

ROOT = pathlib.Path(sys.argv[1]) if len(sys.argv) > 1 else pathlib.Path(__file__).resolve().parent.parent
SOURCES = sorted(ROOT.glob("crates/*/src/*.rt"))
ITEM = re.compile(r"^( *)(?:pub(?:\([a-z]+\))? )?(?:extern \"C\" )?fn (\w+)", re.M)


def lines_with(pattern):
    """Each line of the code, comments and imports left out, in which the pattern stands."""
    for path in SOURCES:
        for number, line in enumerate(path.read_text().split("\n"), 1):
            code = line.split("//")[0]
            if re.search(pattern, code) and not re.match(r"\s*(ghost )?use ", code):
                yield f"{path.relative_to(ROOT / 'crates')}:{number}: {code.strip()}"


def functions():
    """Each function: its place, its name, its head with the clauses, and its body."""
    for path in SOURCES:
        text = path.read_text()
        for match in ITEM.finditer(text):
            indent = match.group(1)
            end = text.index(f"\n{indent}}}", match.end())
            open_brace = re.search(rf"(^{indent}|[^ ] )\{{\n", text[match.end():end], re.M)
            split = match.end() + open_brace.start() if open_brace else end
            yield path.relative_to(ROOT / "crates"), match.group(2), text[match.start():split], text[split:end]


KEPT = {"match", "if", "else", "while", "for", "in", "let", "mut", "return"}


def shape(body):
    """A body's words and signs, with all names alike and all numbers alike."""
    words = re.findall(r"\w+|[^\w\s]", re.sub(r"//.*", "", body))
    return ["0" if word[0].isdigit() else "n" if re.match(r"\w", word) and word not in KEPT else word for word in words]


def twins():
    """Pairs of functions of four lines or more whose bodies differ in names and numbers, and else by a fifth at most."""
    shapes = [(f"{path}: {name}", shape(body)) for path, name, _, body in functions() if body.count("\n") >= 4]
    for i, (one, of_one) in enumerate(shapes):
        for other, of_other in shapes[i + 1:]:
            alike = difflib.SequenceMatcher(None, of_one, of_other, autojunk=False)
            if alike.quick_ratio() >= 0.8 and alike.ratio() >= 0.8:
                yield f"{one} and {other}"


def facts():
    """What stands in the `requires` clauses of three or more functions, by its first word and by how many functions."""
    found = collections.defaultdict(set)
    for path, name, head, _ in functions():
        for clause in re.findall(r"requires(?: \w+)? \{ (.*) \}", head):
            for fact in re.split(r" × ", clause):
                words = re.findall(r"[A-Za-z_]{3,}", fact.replace("(", " "))
                key = " ".join(word for word in words if word not in ("old", "now", "new"))
                found[key].add(f"{path.parts[0]}::{name}")
    return [f"{len(where)}: {key}" for key, where in sorted(found.items(), key=lambda f: -len(f[1])) if len(where) >= 3]


def travelling():
    """Pairs of parameters, name and type, that three or more functions take."""
    found = collections.Counter()
    for _, _, head, _ in functions():
        takes = re.split(r"\n *(?:requires|ensures)|->|\) *\{?$", head, maxsplit=1)[0]
        names = sorted(set(re.findall(r"(\w+: [^,()]+?)\s*[,)]", re.sub(r"\s+", " ", takes) + ")")))
        found.update((a, b) for i, a in enumerate(names) for b in names[i + 1:])
    return [f"{count}: {a}, {b}" for (a, b), count in found.most_common() if count >= 3]


def repeated_places():
    """Answers of proofs that write one place of the code out twice or more."""
    for path in sorted(ROOT.glob("crates/*/proofs/**/Answers.antt")):
        for answer in re.split(r"\n\n", path.read_text()):
            places = collections.Counter(re.findall(r"\(goal\.at\.[^)]*\)\.[A-Z][\w-]*", answer))
            if any(count > 1 for count in places.values()):
                yield f"{path.relative_to(ROOT / 'crates')}: {re.search(r'^(?:pub )?([^ ]+) :', answer, re.M).group(1)}"


POINTS = {
    "1 enums": lambda: lines_with(r"\benum \w"),
    "1 flags beside a value, and numbers for none": lambda: lines_with(r"^\s*(pub )?(there|fits|hit|top|slot|number|hits): "),
    "1 numbers as codes": lambda: lines_with(r"number_of\(|is_refusal\(|\b1[0-5] =>|^\s*[0-9]( \| [0-9])* =>|number [!=]= "),
    "2 functions of one shape": twins,
    "3 loops": lambda: lines_with(r"^\s*(while|for|loop)\b"),
    "3 counters": lambda: lines_with(r"[+-]= "),
    "4 written by hand": lambda: lines_with(r"fn (cmp|eq|ne|lt|clone|fmt|from_\w+|to_\w+|number_of|bound|opposite|larger|smaller|same|before|write_\w+|\w+_at)\("),
    "5 facts": facts,
    "5 parameters": travelling,
    "6 arrays": lambda: lines_with(r"\[[^\]]*; [A-Za-z0-9_:]+\]"),
    "7 steps chosen by a value": lambda: lines_with(r"^\s*match |\bdyn |impl Fn|: Fn"),
    "8 answers that repeat a place": repeated_places,
}


def main():
    for name, point in POINTS.items():
        places = list(point())
        print(f"## {name}: {len(places)}")
        print("".join(f"{place}\n" for place in places))


main()
