#!/usr/bin/env python3
"""Brings the names of this repository's own definitions and lemmas to the spelling that its Rattle has.

usage: python3 tools/port/respell.py [FOLDER [--names]]     the folder that has crates/, or this repository; --names only prints each name, old and new

It was run once, on what port.py made of the older spelling (docs/PORT.md): types, facts and modules stay in camel case,
every other name becomes snake case, and a dash stays in a lemma's name only between two names. Functions of src/, what
C sees and strings are not touched. A second run changes nothing.
"""

import os
import re
import sys

# Names that Rattle makes, or asks for under that spelling.
MADE = re.compile(r"^(invariant|decreases)(-|$)")
# A declaration's name: at the start of a line, before a colon, a parameter or `where`.
DECLARED = re.compile(
    r"^(\s*)(?:(?:unfoldable|abbrev|pub|data|record|ruleset|elim)\s+)*([^\s:{}()=,;]+)(?=\s+(?:\{[^}]*\}\s*|\([^)]*\)\s*)*[:=])"
)
TOKEN = re.compile(r"[^\s(){}\[\];,.:«»\"`@]+")
RECORD = re.compile(r"^(\s*)(?:pub\s+)?(?:record|data)\s")
FOREIGN = re.compile(r"\b(?!Rattle\.(?:%s)\b)(?:Rattle|native|lib|mir|borrow|mathlib|Prim|denote)\.[^{;]*\{([^}]*)\}")
# Words of the library that lemmas of ours are named after, beside our own.
WORDS = set(
    "length drop take append map set sets add sub mul div mod min max pow first any suc zero not le lt eq ltb leb eqb cond get_or all and or some none".split()
)
# Lemmas that would have their function's name, each with the older name of that function: they get `_lem`.
NAMESAKES = {
    "at_none": "atNone",
    "at_table": "atTable",
    "by_number": "byNumber",
    "no_name": "noName",
    "can-look": "canLook",
    "faulty-row": "faultyRow",
    "is-nan": "is-nan",
    "located-words": "locatedWords",
    "reasons-in": "reasonsIn",
    "row-fault": "rowFault",
    "tiles-in": "tilesIn",
}


def snake(name):
    return re.sub(r"(?<=[A-Za-z0-9])([A-Z])", lambda m: "_" + m[1].lower(), name)


def parts_of(name, defined):
    """The new spelling of a name: camel case falls, and a dash stays between two names."""
    if re.match(r"[A-Z]", name) and "-" not in name:
        return name
    words = [word if re.match(r"[A-Z]", word) else snake(word) for word in name.split("-")]
    for cut in range(1, len(words)):
        before, after = "_".join(words[:cut]), "_".join(words[cut:])
        if before in defined and after in defined:
            return before + "-" + after
    return "_".join(words)


def files_of(root, *endings):
    for folder, dirs, files in os.walk(os.path.join(root, "crates")):
        dirs[:] = sorted(d for d in dirs if d != "out")
        for name in sorted(files):
            if name.endswith(endings):
                yield os.path.join(folder, name)


def read(path):
    with open(path, encoding="utf-8") as file:
        return file.read()


def declared_in(text):
    """The names that a file declares, and which of them are fields of its records."""
    names, fields, record = [], set(), None
    for line in text.splitlines():
        code = line.split("--")[0].rstrip()
        if not code:
            continue
        indent = len(code) - len(code.lstrip())
        if record is not None and indent <= record:
            record = None
        found = DECLARED.match(code)
        if found and not code.lstrip().startswith(("let ", "in ", "|", "use ", "module ", "λ")):
            names.append(found[2])
            if record is not None:
                fields.add(found[2])
        starts = RECORD.match(code)
        if starts and code.endswith("where"):
            record = len(starts[1])
    return names, fields


def clause_spans(text):
    """Where a source speaks of the logic: `ghost use` items, and the braces of `requires`, `ensures` and the like."""
    for found in re.finditer(r"^[ \t]*ghost use [^;]*;", text, re.M):
        yield found.span()
    for found in re.finditer(r"\b(?:requires|ensures|decreases|invariant|ghost \w+:)\b[^{;\n]*\{", text):
        depth, at = 1, found.end()
        while depth and at < len(text):
            depth += {"{": 1, "}": -1}.get(text[at], 0)
            at += 1
        yield found.end(), at


class Speller:
    def __init__(self, root):
        self.paths = list(files_of(root, ".antt"))
        self.sources = list(files_of(root, ".rt"))
        crates = sorted(os.listdir(os.path.join(root, "crates")))
        foreign = re.compile(FOREIGN.pattern % "|".join(crates))
        names, self.fields, library = set(), set(), set()
        for path in self.paths + self.sources:
            text = read(path)
            for found in foreign.finditer(text):
                library |= {it.strip() for it in found[1].split(",")}
            if path.endswith(".antt"):
                declared, fields = declared_in(text)
                names |= set(declared)
                self.fields |= fields
        self.library = library
        names = {n for n in names if not MADE.match(n)}
        simple = {snake(n) for n in names if "-" not in n} | WORDS
        self.new = {}
        for name in sorted(names - library):
            if name.endswith("-spec"):
                to = name.replace("-", "_")
            else:
                to = parts_of(name, simple)
            if NAMESAKES.get(name) in names:
                to = name.replace("-", "_") + "_lem"
            if to != name:
                self.new[name] = to

    def token(self, text, start, end, line_is_use):
        word = text[start:end]
        if word not in self.new:
            return word
        if start and text[start - 1] == "." and not line_is_use and word not in self.fields:
            return word
        return self.new[word]

    def code(self, line):
        use = line.lstrip().startswith(("use ", "ghost use ", "pub use ", "unfoldable pub use ", "unfoldable use "))
        return TOKEN.sub(lambda m: self.token(line, m.start(), m.end(), use), line)

    def comment(self, text):
        return re.sub(r"`[^`]*`", lambda m: self.code(m[0]), text)

    def proof(self, text):
        lines = []
        for line in text.split("\n"):
            at = re.search(r"(^|\s)--(\s|$)", line)
            cut = at.start() if at else len(line)
            lines.append(self.code(line[:cut]) + self.comment(line[cut:]))
        return "\n".join(lines)

    def source(self, text):
        out, last = "", 0
        for start, end in sorted(clause_spans(text)):
            if start < last:
                continue
            out += "\n".join(self.rust(it) for it in text[last:start].split("\n"))
            out += "\n".join(self.code(it) if not it.lstrip().startswith("//") else self.comment(it) for it in text[start:end].split("\n"))
            last = end
        return out + "\n".join(self.rust(it) for it in text[last:].split("\n"))

    def rust(self, line):
        at = line.find("//")
        return line if at < 0 else line[:at] + self.comment(line[at:])

    def turn(self):
        changed = 0
        for path in self.paths + self.sources:
            before = read(path)
            after = self.proof(before) if path.endswith(".antt") else self.source(before)
            if after != before:
                changed += 1
                with open(path, "w", encoding="utf-8") as file:
                    file.write(after)
        return changed


def main(arguments):
    folders = [it for it in arguments if not it.startswith("--")]
    root = folders[0] if folders else os.path.join(os.path.dirname(os.path.realpath(__file__)), "..", "..")
    speller = Speller(root)
    if "--names" in arguments:
        for old, new in sorted(speller.new.items()):
            print(old, new)
        return 0
    print(f"respell: {len(speller.new)} names, {speller.turn()} files")
    return 0


if __name__ == "__main__":
    sys.exit(main(sys.argv[1:]))
