#!/usr/bin/env python3
"""Spells the repository's own definitions and lemmas as Rattle's library spells its own.

usage: tools/respell.py          at the top of the repository, once, after /opt/rattle/port/port.py

A name that a file of specs/ or proofs/ declares, and that has dashes, gets underscores, as leaf-count becomes leaf_count; one that
begins with a capital is a type or a statement and loses its dashes, as Levels-bounded becomes LevelsBounded. So do the statements of
STATEMENTS, which begin with a small letter. Names that Rattle makes (goals, steps of the code) and names of its library stay.
Sources, definitions and proofs are turned, and code spans of README.md and docs/*.md. Names that would fall together stop the script.
"""
import collections
import os
import re
import sys

STATEMENTS = {
    "number_spelled": "NumberSpelled",
    "optional-spelled": "OptionalSpelled",
    "payload-spelled": "PayloadSpelled",
    "spelled-in-parts": "SpelledInParts",
    "logical-spelled": "LogicalSpelled",
}
# Names that are bound where they are used, so that no declaration shows them.
BOUND = (
    "bare-c fits-inside from-given from-parent group-name hint-fits its-entries leaf-row-at-place leaf-ways Low-row null-above own-part "
    "plain-own table-row told-hint told-memory told-room told-walk"
).split()
NAME = r"[^\s(){}.;,@\"«»:λ→×≡∷∙]+"
HEAD = re.compile(rf"^\s*(?:(?:pub|abbrev|unfoldable)\s+)*(?:record|data)\s+(?:pub\s+)?({NAME})")
DECLARED = re.compile(rf"^\s*(?:(?:pub|abbrev|unfoldable)\s+)*((?:{NAME}\s+)*?{NAME})\s+:\s+(.*)")
LIBRARY = re.compile(r"use (?:Rattle\.(?:std|core)|borrow|denote|mathlib)[\w.]*\.\{([^}]*)\}")
# A word of antt; what stands before it tells whether it is a step of the code.
WORD = re.compile(r"[^\s(){}.;,@\"«»:\[\]|`]+")
STEP = re.compile(r"(?:^|[\s({\[,;])(?:c|w|l|goal|given|fn|initial|auto)(?:\.\d+)?\.$")
GOALS = re.compile(r"use [\w.+]*\.(?:Goals|Given)\.\{[^}]*\}")


def files(root, *ends):
    for folder, below, names in os.walk(os.path.join(root, "crates")):
        below[:] = sorted(b for b in below if b != "out")
        for name in sorted(names):
            if name.endswith(ends):
                yield os.path.join(folder, name)


def of_function(path, root):
    parts = os.path.relpath(path, root).split(os.sep)
    return parts[2] == "proofs" and len(parts) > 4


def read(path):
    with open(path, encoding="utf-8") as f:
        return f.read()


def declared(root):
    """The names that are declared here, and those that the library lends to a file that declares none of that name."""
    own, made, library = set(), set(), set()
    for path in files(root, ".antt"):
        text = read(path)
        for found in LIBRARY.finditer(text):
            library |= {n.strip().split(" as ")[0] for n in found.group(1).split(",")}
        for line in text.split("\n"):
            head = HEAD.match(line)
            if head:
                own.add(head.group(1))
                continue
            line = line.split("--")[0]
            m = DECLARED.match(line)
            if not m:
                continue
            for name in m.group(1).split():
                if of_function(path, root) and m.group(2).startswith(("goal.", "given.")):
                    made.add(name)
                else:
                    own.add(name)
    return own, made, library


def spelled(name):
    if name in STATEMENTS:
        return STATEMENTS[name]
    if name[0].isupper():
        return "".join(w[:1].upper() + w[1:] for w in name.split("-"))
    return name.replace("-", "_")


def table(root):
    own, made, library = declared(root)
    rows = {}
    for name in own:
        if name in STATEMENTS or ("-" in name and name not in made and name not in library and name[0] not in "-◌"):
            rows[name] = spelled(name)
    rows.update({name: spelled(name) for name in BOUND})
    back = collections.defaultdict(list)
    for old, new in rows.items():
        back[new].append(old)
        if new in own:
            back[new].append(new)
    met = {new: olds for new, olds in back.items() if len(olds) > 1}
    if met:
        sys.exit(f"these names would fall together: {met}")
    return rows


def turn_code(text, rows, steps_stay):
    kept = [m.span() for m in GOALS.finditer(text)] if steps_stay else []

    def one(m):
        new = rows.get(m.group())
        if new is None or any(a <= m.start() < b for a, b in kept):
            return m.group()
        if steps_stay and STEP.search(text[max(0, m.start() - 20):m.start()]):
            return m.group()
        return new

    return WORD.sub(one, text)


def turn_spans(text, rows):
    return re.sub(r"`[^`\n]*`", lambda m: WORD.sub(lambda w: rows.get(w.group(), w.group()), m.group()), text)


def turn_antt(text, rows, steps_stay):
    out = []
    for line in text.split("\n"):
        code, dashes, comment = line.partition("--") if re.search(r"(^|\s)--", line) else (line, "", "")
        out.append(turn_code(code, rows, steps_stay) + (dashes + turn_spans(comment, rows) if dashes else ""))
    return "\n".join(out)


QUIET = re.compile(r'"(?:[^"\\]|\\.)*"|//[^\n]*')


def turn_rt(text, rows):
    out, at = [], 0
    for m in QUIET.finditer(text):
        out.append(turn_code(text[at:m.start()], rows, False))
        out.append(turn_spans(m.group(), rows) if m.group().startswith("//") else m.group())
        at = m.end()
    return "".join(out) + turn_code(text[at:], rows, False)


def main():
    root = os.getcwd()
    rows = table(root)
    changed = 0
    for path in files(root, ".antt", ".rt"):
        before = read(path)
        after = turn_rt(before, rows) if path.endswith(".rt") else turn_antt(before, rows, of_function(path, root))
        if after != before:
            changed += 1
            with open(path, "w", encoding="utf-8") as f:
                f.write(after)
    own, _, _ = declared(root)
    # Of names that port.py turned, the pages have the old spelling still.
    pages = collections.ChainMap(rows, {n.replace("_", "-"): n for n in own if "_" in n})
    docs = os.path.join(root, "docs")
    for path in [os.path.join(root, "README.md")] + [os.path.join(docs, n) for n in sorted(os.listdir(docs)) if n.endswith(".md")]:
        before = read(path)
        after = turn_spans(before, pages)
        if after != before:
            changed += 1
            with open(path, "w", encoding="utf-8") as f:
                f.write(after)
    print(f"{len(rows)} names, {changed} files")


main()
