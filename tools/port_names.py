#!/usr/bin/env python3
"""port_names FOLDER: brings the names that this repository declares in specs/ and proofs/ to today's spelling, once, in the crates below FOLDER.

Words are in snake case, types and modules in camel case. Run it right after port.py; docs/PORT.md says when that was.

- A lemma or a field that would meet a definition of another spelling in one file gets a dash in place of its underscore (MEETING).
- The definition `result` becomes `returned`, since `result` is what a function returns now; clauses that kept their λ for it lose it.
- Every other word in camel case becomes one in snake case, in code and in comments; texts in quotation marks stay.
"""
import os
import re
import sys

# the word, and the folders in which it is a lemma or a field
MEETING = [
    ("too_large", ["message_fields/proofs"]),
    ("numbers_of", ["equipment_esc/proofs"]),
    ("end_by", ["rules/proofs"]),
    ("in_order", ["rules/proofs"]),
    ("whole_part", ["dsdl_number/proofs"]),
    ("no_room", ["receiver/proofs"]),
    ("goes_on", ["judge_stream/proofs", "dsdl/proofs", "dsdl/specs"]),
    ("count_at", ["state/proofs"]),
    ("same_bool", ["judge_rules/proofs"]),
    ("by_front", ["dsdl_laws/proofs"]),
    ("size_fits", ["dsdl_laws/proofs"]),
    ("after_first", ["dsdl_laws/proofs"]),
    ("every_one", ["dsdl_laws/proofs"]),
]
WORD = r"(?<![\w'-]){}(?![\w'-])"
TEXT = re.compile(r'"(?:[^"\\\n]|\\.)*"')
CAMEL = re.compile(r"(?<![\w'])[a-z]\w*[a-z0-9][A-Z]\w*")
ALIAS = re.compile(r"use (\S+) as «?([\w-]+)»?")
KEPT = re.compile(r"ensures\* (\w+ )?\{ λ (\w+)\. ⌜ (.*) ⌝ \}")


def snake(word):
    old = None
    while old != word:
        old, word = word, re.sub(r"(?<=[a-z0-9])[A-Z]", lambda m: "_" + m[0].lower(), word)
    return word


def outside_texts(line, turn):
    at, out = 0, []
    for it in TEXT.finditer(line):
        out += [turn(line[at : it.start()]), it[0]]
        at = it.end()
    return "".join(out + [turn(line[at:])])


def split(line, mark):
    """The code of a line, and its comment."""
    at = re.search(rf"(?:^|(?<=\s)){re.escape(mark)}(?=\s|$)", line)
    return (line[: at.start()], line[at.start() :]) if at else (line, "")


def returned(code, aliases):
    code = re.sub(r"(?<![\w'.-])result(?![\w'-])", "returned", code)
    for it in aliases:
        code = re.sub(rf"(?<![\w'.-]){it}\.result(?![\w'-])", f"{it}.returned", code)
    return code


def antt(text, path):
    for word, folders in MEETING:
        if any(f"/crates/{it}/" in path for it in folders):
            text = re.sub(WORD.format(word), word.replace("_", "-"), text)
    aliases = [it[2] for it in ALIAS.finditer(text)]
    lines = []
    for line in text.split("\n"):
        code, comment = split(line, "--")
        turn = lambda t: CAMEL.sub(lambda m: snake(m[0]), t)
        lines.append(outside_texts(returned(code, aliases), turn) + turn(comment))
    return "\n".join(lines)


def clause(m):
    name, var, body = m[1] or "", m[2], m[3]
    if var != "_":
        body = re.sub(rf"(?<![\w'.-]){var}(?![\w'-])", "result", body)
    return "ensures %s{ %s }" % (name, body)


def rt(text):
    aliases = [it[2] for it in ALIAS.finditer(text)]
    ghost = re.compile(r"ghost use\b[^;]*;")
    text = ghost.sub(lambda m: re.sub(r"(?<=[{\s])result(?=[,}])", "returned", m[0]), text)
    lines = []
    for line in text.split("\n"):
        code, comment = split(line, "//")
        if KEPT.search(code):
            code = KEPT.sub(clause, returned(code, aliases))
        turn = lambda t: CAMEL.sub(lambda m: snake(m[0]), t)
        lines.append(outside_texts(code, turn) + turn(comment))
    return "\n".join(lines)


def main(top):
    count = 0
    for folder, below, files in os.walk(os.path.join(top, "crates")):
        below[:] = sorted(it for it in below if it != "out")
        for name in sorted(files):
            path = os.path.join(folder, name)
            if not name.endswith((".antt", ".rt")):
                continue
            with open(path, encoding="utf-8") as it:
                old = it.read()
            new = antt(old, os.path.abspath(path)) if name.endswith(".antt") else rt(old)
            if new != old:
                count += 1
                with open(path, "w", encoding="utf-8") as it:
                    it.write(new)
    print(f"{count} files")


if __name__ == "__main__":
    if len(sys.argv) != 2:
        sys.exit(__doc__)
    main(sys.argv[1])
