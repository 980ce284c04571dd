#!/usr/bin/env python3
"""Brings this repository's own definitions and lemmas to one spelling: words in snake case, types and modules in camel case.

usage: python3 tools/spelling.py      at the top, once, right after the older spelling of the language itself was turned

It goes by whole names, over crates/ (sources, definitions, proofs and the wrong programs beside them) and, within back quotes, over the pages.
A name is turned where specs/ or proofs/ declare it: `processAt` becomes `process_at`, and the lemma `sum-none` becomes `sum_none`. Names of
sources (functions, fields, variants) keep their spelling. Where the new name would fall together with another, OTHER says what stands for it,
or the old one stays.
"""

import collections
import os
import re

NAME = re.compile(r"(?<![\w'′-])[A-Za-z_][\w'′]*(?:-[\w'′]+)*(?![\w-])")
DECLARED = re.compile(
    r"^ *(?:(?:abbrev|unfoldable|pub|opaque) )*([A-Za-z_][\w'′]*(?:-[\w'′]+)*)(?: [^:=\n]*)? :(?= |$)", re.M
)

# names whose turned form is a field, a parameter or another definition already
OTHER = {
    "atRest": "when_at_rest",
    "endedAt": "end_at",
    "homesSpare": "spare_in_homes",
    "isList": "is_list_kind",
    "objectCount": "count_of_objects",
    "objectHome": "home_of_object",
    "oneMore": "one_step_more",
    "processCount": "count_of_processes",
    "processHome": "home_of_process",
    "refusedWith": "with_refused",
    "rowAt": "row_from",
    "toObject": "to_an_object",
}


def files(endings):
    for folder, dirs, names in os.walk("crates"):
        dirs[:] = sorted(d for d in dirs if d != "out")
        for n in sorted(names):
            if n.endswith(endings):
                yield os.path.join(folder, n)


def read(path):
    with open(path, encoding="utf-8") as f:
        return f.read()


def walks_a_function(path):
    return os.path.basename(path) in ("Proof.antt", "Invariants.antt", "Answers.antt") or "/Proof/" in path


def snake(name):
    return re.sub(r"(?<=[a-z0-9'])([A-Z])", lambda m: "_" + m.group(1).lower(), name)


def turned():
    """Each declared name that is to be turned, with its new form."""
    used = collections.Counter()
    lemmas, goals = set(), set()
    for p in files((".antt", ".rt")):
        text = read(p)
        used.update(NAME.findall(text))
        if p.endswith(".antt"):
            (goals if walks_a_function(p) else lemmas).update(DECLARED.findall(text))
    new = {}
    for n in sorted(lemmas | goals):
        is_word = re.match(r"[a-z]", n) is not None
        if is_word and "-" not in n and re.search(r"[A-Z]", n):
            new[n] = OTHER.get(n, snake(n))
        elif is_word and "-" in n and n in lemmas and n not in goals:
            to = snake(n).replace("-", "_")
            if to not in used:
                new[n] = to
    taken = collections.Counter(new.values())
    return {n: to for n, to in new.items() if taken[to] == 1 or "-" not in n}


def main():
    new = turned()
    turn = lambda text: NAME.sub(lambda m: new.get(m.group(), m.group()), text)
    for p in files((".antt", ".rt", ".edit")):
        text = read(p)
        if turn(text) != text:
            with open(p, "w", encoding="utf-8") as f:
                f.write(turn(text))
    pages = ["README.md"] + sorted("docs/" + n for n in os.listdir("docs") if n.endswith(".md"))
    for p in pages:
        text = read(p)
        to = re.sub(r"`[^`\n]*`", lambda m: turn(m.group()), text)
        if to != text:
            with open(p, "w", encoding="utf-8") as f:
                f.write(to)
    print(f"{len(new)} names turned")


if __name__ == "__main__":
    main()
