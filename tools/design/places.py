#!/usr/bin/env python3
"""The places of each point of docs/DESIGN-PASS.md in the sources of a tree, each on a line, and how many there are.

    python3 tools/design/places.py [TREE] [--count]
"""
import glob
import os
import re
import sys
from collections import defaultdict

FUNCTION = re.compile(r"^[ ]*(?:pub(?:\(crate\))? )?(?:const )?(?:extern \"C\" )?fn (\w+)", re.M)


def sources(tree):
    for path in sorted(glob.glob(os.path.join(tree, "crates/*/src/*.rt"))):
        with open(path, encoding="utf-8") as f:
            yield "/".join(path.split(os.sep)[-3::2]), f.read()


def functions(text):
    """Each function's name, parameters, clauses and body."""
    for m in FUNCTION.finditer(text):
        at = text.index("(", m.end())
        depth, i = 0, at
        while True:
            depth += {"(": 1, ")": -1}.get(text[i], 0)
            i += 1
            if depth == 0:
                break
        rest = text[i:]
        line = rest.split("\n", 1)[0]
        indent = re.match(r"[ ]*", m.group(0)).group(0)
        clauses = re.match(rf"[^\n]*(\n{indent}    [^\n]*)*", rest).group(0)
        if clauses.endswith(";"):
            continue
        start = len(line) if line.endswith("{") else len(clauses) + len(indent) + 2
        end = rest.find(f"\n{indent}}}", start)
        yield m.group(1), text[at + 1:i - 1], rest[:start], rest[start + 1:end + 1]


def by_pattern(tree, pattern):
    for name, text in sources(tree):
        for n, line in enumerate(text.split("\n"), 1):
            if re.search(pattern, line) and not line.lstrip().startswith("//"):
                yield f"{name}:{n}: {line.strip()[:90]}"


def enums_like_option_or_result(tree):
    for name, text in sources(tree):
        for m in re.finditer(r"^(?:pub )?enum (\w+)(?:<.*?>)? \{\n(.*?)^\}", text, re.M | re.S):
            variants = re.findall(r"^    (\w+)( \{|\()?", m.group(2), re.M)
            bare = sum(1 for v in variants if not v[1])
            option = len(variants) == 2 and bare == 1
            if option or re.search(r"\bnumber: u32", m.group(2)):
                yield f"{name}: enum {m.group(1)}"


def kinds_by_number(tree):
    yield from enums_like_option_or_result(tree)
    yield from by_pattern(tree, r"^\s+pub (flag|flags|number|steps|names|levels|columns|rows): (u32|usize)")
    yield from by_pattern(tree, r"(number: \d+,|\b(fault|refused|fault_at|turned_away)\((f, )?\d+,)")
    yield from by_pattern(tree, r"\bmatch (table|code) \{|\b(code|table) == \d+")
    yield from by_pattern(tree, r"const NONE\b")


def shape(text):
    """A body with names and numbers taken out, so that twins are equal."""
    text = re.sub(r"//.*", "", text)
    text = re.sub(r"b?\"[^\"]*\"|\b\d\w*", "0", text)
    kept = {"if", "else", "while", "for", "in", "let", "mut", "match", "return", "true", "false", "Some", "None", "Ok", "Err", "len"}
    text = re.sub(r"[A-Za-z_]\w*(?:::\w+)*", lambda m: m.group(0) if m.group(0) in kept else "x", text)
    return re.sub(r"\s+|,(?=\s*[)\]])", "", text)


def twins(tree):
    """Functions of two statements or more whose bodies differ only in names and numbers, and types that differ in the name."""
    alike = defaultdict(list)
    for name, text in sources(tree):
        for function, _, _, body in functions(text):
            if body.count(";") + body.count("=>") + body.count("if ") >= 2:
                alike[shape(body)].append(f"{name}: {function}")
        for m in re.finditer(r"^(?:pub )?struct (\w+)(?:<.*?>)? \{\n(.*?)^\}", text, re.M | re.S):
            alike["struct " + re.sub(r"\s+", "", m.group(2))].append(f"{name}: struct {m.group(1)}")
    for group in alike.values():
        if len(group) > 1:
            yield from group


def loops_by_hand(tree):
    for name, text in sources(tree):
        for function, _, _, body in functions(text):
            for m in re.finditer(r"^([ ]*)(while .*?)\{\n(.*?)^\1\}", body, re.M | re.S):
                if re.search(r"\b(\w+) [+-]= \w+;|= next;|\.next\(\);|= \w+ \+ 1;", m.group(3)):
                    yield f"{name}: {function}: {m.group(2).strip()}"


HAND = (
    "wide|least|greatest|higher|highest|equal|equal_from|is_equal|is_less|is_next|bias|steps|upper_of|is_between|is_digit|is_capital|is_small|within|"
    "double_of|difference_of|is_low|edition_of|put_word|word|long|put_octets|clear|say\\w*|put_four|put_five|put_summary|put_ruling|put_located|put_written|"
    "put_checked|put_refusal|see|is_other|wants_no_\\w+|is_null|fault|refused|place_at|fault_at|fault_if|partner_of|unless_found|no_\\w+"
)


def by_hand(tree):
    for name, text in sources(tree):
        for function, *_ in functions(text):
            if re.fullmatch(HAND, function):
                yield f"{name}: {function}"


GROUPS = [
    ("form", "tables"), ("work", "heads"), ("more_work", "more_heads"), ("names", "marks"), ("out", "t"), ("number", "table", "row"),
    ("firsts", "zooms", "columns", "rows"), ("zoom", "column", "row"), ("from", "nulls"), ("size", "base", "texts"),
]
FACTS = ["Marks", "Head", "Indexes", "Shelves", "TileNames", "LeadsBy", "Prepared", "PreparedMore", "Sized", "Surveyed", "Numbered", "Room", "Roomy"]


def together(tree):
    """Signatures with parameters that travel together, and clauses with a fact that three functions or more ask for."""
    asked = defaultdict(list)
    for name, text in sources(tree):
        for function, parameters, clauses, _ in functions(text):
            named = re.findall(r"\b(\w+):", parameters)
            for group in GROUPS:
                if set(group) <= set(named):
                    yield f"{name}: {function}: {', '.join(group)}"
            wants = "\n".join(c for c in clauses.split("\n") if c.strip().startswith("requires"))
            for fact in FACTS:
                if re.search(rf"(?<![\w.]){fact} ", wants):
                    asked[fact].append(f"{name}: {function}: requires {fact}")
    for places in asked.values():
        if len(places) >= 3:
            yield from places


def parallel(tree):
    yield from by_pattern(tree, r"^(pub )?const [A-Z_]+: \[(u8|u16|u32|usize)")
    yield from by_pattern(tree, r"^(pub )?const [A-Z_]+: usize = \d;")


def switches(tree):
    yield from by_pattern(tree, r"\bmatch (fault|order|flaw|measure|test|along|plan|kind|key|scope|f|form|self\.form|code|table|k) \{")


def answers(tree):
    for path in sorted(glob.glob(os.path.join(tree, "crates/*/proofs/**/*.antt"), recursive=True)):
        with open(path, encoding="utf-8") as f:
            for line in f:
                if re.match(r"(abbrev )?pub \S+ : goal\.", line):
                    yield f"{os.path.relpath(path, tree)}: {line.split(':')[0].strip()}"


POINTS = [kinds_by_number, twins, loops_by_hand, by_hand, together, parallel, switches, answers]


def main():
    trees = [a for a in sys.argv[1:] if not a.startswith("--")]
    tree = trees[0] if trees else "."
    for number, find in enumerate(POINTS, 1):
        places = list(find(tree))
        print(f"point {number}: {len(places)}")
        if "--count" not in sys.argv:
            for place in places:
                print("   ", place)


main()
