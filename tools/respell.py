#!/usr/bin/env python3
"""Brings the repository's own definitions, lemmas, fields and constructors to snake case: `steadyState` and `steady-nearest` become
`steady_state` and `steady_nearest`. Run it once at the repository's top, right after the toolchain's port script. It changes
.antt files, the clauses of .rt files, must-fail edits, and names in backticks on the pages of docs/ and in README.md. The goals of a
function's proof (`tie.Need-..`) keep their dashes, and so does what a file imports from the toolchain's library."""
import collections
import os
import re
import sys

NAME = r"[^\W\d][\w'′]*(?:-[\w'′]+)*"
TOKEN = re.compile(r"(?<![\w'′-])" + NAME + r"(?![\w'′-])")
DECLARED = re.compile(r"^ *(?:(?:pub|abbrev|unfoldable|record|data|let|where|in|\|) +)*(" + NAME + r") *(?:[({][^:\n]*)?:(?:\s|$)", re.M)
LET = re.compile(r"\blet (" + NAME + r") [:=]")
GOAL = re.compile(r"^(" + NAME + r") : (?:\{.*?\} → )?(?:tie|goal)\.", re.M)
# Words that would meet another name of the same scope, and what they are called instead.
OTHERWISE = {
    "change-fields": "change_fields_are",
    "done_at": "done_at_place",
    "energy-cell-at": "energy_cell_at_place",
    "energy-cells": "energy_count",
    "first-within": "first_within_most",
    "level-at": "level_at_place",
    "margins-are": "margins_hold",
    "name-on": "name_then",
    "next-cell": "next_at_cell",
    "place-by": "place_is",
    "refusal-line": "refusal_line_most",
    "rest-by": "rest_is",
    "temperature-cell-at": "temperature_cell_at_place",
    "temperature-cells": "temperature_count",
    "turned-away": "turned",
    "word-at": "word_at_place",
    "work-fields": "work_fields_are",
}


def files(ends):
    for folder, below, names in sorted(os.walk("crates")):
        below[:] = sorted(x for x in below if x not in ("out", "target"))
        for name in sorted(names):
            if name.endswith(ends):
                yield os.path.join(folder, name)


def read(path):
    with open(path, encoding="utf-8") as file:
        return file.read()


def respelled(name):
    if name in OTHERWISE:
        return OTHERWISE[name]
    if name[0].isupper():
        return name
    return re.sub(r"(?<=[a-z0-9])([A-Z])", lambda m: "_" + m.group(1).lower(), name).replace("-", "_").lower() if name.isascii() else \
        name.replace("-", "_")


def code_of(line):
    return line.split("--")[0] if line.lstrip().startswith("--") else line


def declared():
    """New spelling by old, of every name that the repository declares and that is not the name of a goal."""
    found, goals = collections.defaultdict(set), collections.defaultdict(set)
    for path in files(".antt"):
        text = "\n".join(code_of(line) for line in read(path).split("\n"))
        here = set(GOAL.findall(text))
        for name in DECLARED.findall(text) + LET.findall(text):
            (goals if name in here else found)[name].add(path)
    return {name: respelled(name) for name in found if respelled(name) != name}, goals, found


def imported(text):
    """Names that a file imports from the toolchain's library."""
    names = set()
    for path, inner in re.findall(r"\buse ([\w.·+']+)\.\{([^}]*)\}", text):
        own = re.match(r"Rattle\.(\w+)", path)
        if not (own and os.path.isdir(os.path.join("crates", own.group(1)))):
            names.update(re.findall(NAME, inner))
    return names


def turn(text, spelling, kept):
    return TOKEN.sub(lambda m: m.group() if m.group() in kept else spelling.get(m.group(), m.group()), text)


def turn_antt(path, text, spelling, goals):
    kept = imported(text) | {name for name in goals if path in goals[name]}
    lines = []
    for line in text.split("\n"):
        if line.lstrip().startswith("--"):
            lines.append(re.sub(r"`[^`]*`", lambda m: turn(m.group(), spelling, kept), line))
        else:
            lines.append(re.sub(r'"(?:[^"\\]|\\.)*"|[^"]+', lambda m: m.group() if m.group()[0] == '"' else turn(m.group(), spelling, kept), line))
    return "\n".join(lines)


def turn_rt(text, spelling):
    """Clauses and `ghost use` lines, and backticks in comments."""
    kept = imported(text)
    lines, inside = [], False
    for line in text.split("\n"):
        words = line.strip()
        if words.startswith("//"):
            lines.append(re.sub(r"`[^`]*`", lambda m: turn(m.group(), spelling, kept), line))
            continue
        if words.startswith(("requires", "ensures", "ghost")) or inside:
            inside = words in ("",) or line.count("{") - line.count("}") > 0 or inside and words not in ("} }", "}")
            if words.startswith("ghost use"):
                inside = False
            line = turn(line, spelling, kept)
        lines.append(line)
    return "\n".join(lines)


def turn_edit(text, spelling):
    return "\n".join(turn(line, spelling, set()) if line.startswith(("old:", "new:")) else re.sub(r"`[^`]*`", lambda m: turn(m.group(), spelling, set()), line) for line in text.split("\n"))


def main():
    spelling, goals, found = declared()
    meets = collections.defaultdict(set)
    for name in found:
        meets[respelled(name)].add(name)
    for new, old in sorted(meets.items()):
        if len(old) > 1:
            print("fall together:", new, sorted(old))
    if "--look" in sys.argv:
        return
    changed = 0
    for path in files((".antt", ".rt", ".edit")):
        text = read(path)
        if path.endswith(".antt"):
            new = turn_antt(path, text, spelling, goals)
        elif path.endswith(".rt"):
            new = turn_rt(text, spelling)
        else:
            new = turn_edit(text, spelling)
        if new != text:
            changed += 1
            with open(path, "w", encoding="utf-8") as file:
                file.write(new)
    pages = ["README.md"] + [os.path.join(folder, n) for folder, _, names in os.walk("docs") for n in names if n.endswith(".md")]
    for path in pages:
        text = read(path)
        new = re.sub(r"`[^`\n]*`", lambda m: turn(m.group(), spelling, set()), text)
        if new != text:
            changed += 1
            with open(path, "w", encoding="utf-8") as file:
                file.write(new)
    print(len(spelling), "names,", changed, "files")


main()
