#!/usr/bin/env python3
"""Turns the repository's own lower camel case names of definitions, lemmas and fields to snake case, as today's Rattle spells them.

usage: tools/snake_names.py            from the top, once, after the kit's port.py: rewrites crates/*/specs, crates/*/proofs and the ghost text of crates/*/src
       tools/snake_names.py --clashes  only tells which new names stand somewhere already

A name is turned segment by segment between its dashes, so that `sameBytes-self` becomes `same_bytes-self`. Code, strings, types and modules stay.
"""
import collections
import glob
import re
import sys

CAMEL = re.compile(r"(?<![A-Za-z0-9_'\\])[a-z][a-z0-9]*(?:[A-Z][a-z0-9]*)+(?![A-Za-z0-9_])")
PARTS = re.compile(r"[A-Z]+(?![a-z])|[A-Z][a-z0-9]*|[a-z][a-z0-9]*")
# Names that would fall together with a turned one where they stand: what they are called now, in the files whose path has one of the words.
APART = [
    ("itemGiven", "given_item", ["write_calls/", "c_writing/"]),
    ("numbers_after", "numbers_after_lem", ["c_writer/proofs/WriterStateLaws.antt"]),
    ("same_kind", "same_kind_lem", ["read_kinds/proofs/KindLaws.antt", "find_field/proofs/DetailFields.antt", "part_items/proofs/ItemsRead.antt"]),
    ("is_name", "name_is", ["join_split/proofs/split/Proof.antt"]),
    ("same_code", "same_code_lem", ["laws/proofs/Codes.antt", "laws_blocks/proofs/Padding.antt"]),
    ("in_order", "in_order_lem", ["laws_writer/proofs/LinesWritten.antt", "laws_writer/proofs/RecordsWritten.antt:in_order g.code", "laws_writer/proofs/RecordsWritten.antt:good-line, in_order"]),
    ("in_order", "ordered", ["read_file/proofs/record/step/Proof.antt"]),
    ("first_by", "first_by_lem", ["read_lines/proofs/", "read_file/proofs/StepLaws.antt", "read_line_checks/proofs/LineCheckLaws.antt"]),
]
STRING = re.compile(r'b?"(?:[^"\\]|\\.)*"')


def snake(name):
    return "_".join(part.lower() for part in PARTS.findall(name))


def sources(ending, *folders):
    return sorted(f for d in folders for f in glob.glob(f"crates/*/{d}/**/*.{ending}", recursive=True))


def code_of(line):
    return line.split("--")[0]


# The camel case names that definitions and proofs write.
def names_of(paths):
    found = set()
    for path in paths:
        with open(path, encoding="utf-8") as f:
            for line in f:
                found.update(CAMEL.findall(STRING.sub('""', code_of(line))))
    return found


def turned(text, names):
    return CAMEL.sub(lambda m: snake(m.group()) if m.group() in names else m.group(), text)


# The same of Rattle source, with its strings as they are.
def turned_source(text, names):
    out, at = [], 0
    for m in STRING.finditer(text):
        out += [turned(text[at:m.start()], names), m.group()]
        at = m.end()
    return "".join(out + [turned(text[at:], names)])


# A name's line is turned where its file's path is named, and where a text is named behind the path, only with that text.
def kept_apart(path, text):
    for old, new, places in APART:
        word = re.compile(r"(?<![A-Za-z0-9_'-])" + old + r"(?![A-Za-z0-9_'-])")
        for place in places:
            where, _, part = place.partition(":")
            if where in path:
                text = text.replace(part, word.sub(new, part)) if part else word.sub(new, text)
    return text


def clashes(paths, names):
    new = collections.defaultdict(list)
    for name in names:
        new[snake(name)].append(name)
    told = [f"{old} fall together as {name}" for name, old in new.items() if len(old) > 1]
    words = re.compile(r"[A-Za-z_][A-Za-z0-9_']*")
    for path in paths:
        with open(path, encoding="utf-8") as f:
            text = f.read()
        here = set(words.findall(text))
        old = set(CAMEL.findall(text)) & names
        told += [f"{path}: {name} and {snake(name)} both stand here" for name in sorted(old) if snake(name) in here]
    return told


def main(argv):
    if argv not in ([], ["--clashes"]):
        print(__doc__)
        return
    ghost = sources("antt", "specs", "proofs")
    code = sources("rt", "src")
    names = names_of(ghost)
    if argv == ["--clashes"]:
        print("\n".join(clashes(ghost + code, names)))
        return
    for path in ghost + code:
        with open(path, encoding="utf-8") as f:
            before = f.read()
        apart = kept_apart(path, before)
        after = turned(apart, names) if path.endswith(".antt") else turned_source(apart, names)
        if after != before:
            with open(path, "w", encoding="utf-8") as f:
                f.write(after)


if __name__ == "__main__":
    main(sys.argv[1:])
