#!/usr/bin/env python3
"""Respells this repository's own definitions and lemmas as today's Rattle does: words in snake case.

    python3 tools/respell.py        once, at the top of the repository, on what the kit's port.py made of it

A name that specs/ or proofs/ declare, and that begins with a small letter, has its words joined by `_`: `jobTold` is
`job_told`, `row-two` is `row_two`. Types and modules keep their names, and so do functions of src/, exported C names,
strings and numbers. Where a definition and a fact about it would fall together, the fact ends in `_lem`.
The names stand in specs/, proofs/, the clauses of src/, the must-fail edits and, between backquotes, in the pages.
"""
import glob
import re

DECLARED = re.compile(
    r"^\s*(?:abbrev |unfoldable )?(?:pub )?(?:abbrev |unfoldable )?([a-z][^\s:(){},.]*)"
    r"(?:\s*\{[^}]*\})*(?:\s*\([^)]*\))*\s*:(?:\s|$)"
)
TOKEN = re.compile(r"[^\s(){}\[\]:;,.`\"|&]+")
CAMEL = re.compile(r"(?<=[a-z0-9])([A-Z])")
# facts that port.py had already respelled, each beside a definition that now takes the name
FACTS = ["by_units", "no_place", "count_most", "read_told", "takes_at", "goes_on", "step_back", "row_back"]
# names of what the check makes, which a declared name may look like
MADE = re.compile(r"^(invariant|decreases)-|-requires$|^Need-")


def snake(name):
    return CAMEL.sub(lambda m: "_" + m.group(1).lower(), name).replace("-", "_")


def declared():
    found = set()
    for path in glob.glob("crates/*/specs/**/*.antt", recursive=True) + glob.glob("crates/*/proofs/**/*.antt", recursive=True):
        proof = path.endswith("/Proof.antt")
        with open(path, encoding="utf-8") as f:
            for line in f:
                m = DECLARED.match(line)
                # of a function's own proof only what is written as a definition is
                if m and not line.lstrip().startswith("--") and not MADE.search(m.group(1)) and (not proof or CAMEL.search(m.group(1))):
                    found.add(m.group(1))
    return found


def spelling():
    names = declared()
    new = {n: snake(n) for n in names if snake(n) != n}
    taken = {snake(n) for n in names if CAMEL.search(n)} | {n for n in names if n not in new and n not in FACTS}
    for n in new:
        if not CAMEL.search(n) and new[n] in taken:
            new[n] += "_lem"
    new |= {n: n + "_lem" for n in FACTS if n in names}
    spelled = [new.get(n, n) for n in names]
    together = {n for n in spelled if spelled.count(n) > 1}
    assert not together, together
    return new


def respelled(text, new, among=lambda m, line: True):
    out = []
    for line in text.split("\n"):
        out.append(TOKEN.sub(lambda m: new[m.group(0)] if m.group(0) in new and among(m, line) else m.group(0), line))
    return "\n".join(out)


def turn(pattern, new, among=lambda m, line: True):
    for path in sorted(glob.glob(pattern, recursive=True)):
        with open(path, encoding="utf-8") as f:
            text = f.read()
        changed = respelled(text, new, among)
        if changed != text:
            with open(path, "w", encoding="utf-8") as f:
                f.write(changed)


# what port.py did to the files and not to the edits of them
FORMS = [
    (re.compile(r"Rattle·(\w+)·specs\.specs\b"), r"Rattle.\1.specs"),
    (re.compile(r"Rattle·(\w+)"), r"Rattle.\1"),
    (re.compile(r"\bgetD\b"), "get_or"),
    (re.compile(r"\bnow \((\w+) \.entry\)"), r"\1.old"),
    (re.compile(r"\bnow \((\w+) \.exit\)"), r"\1.new"),
    (re.compile(r"λ r\. ⌜ (.*) ⌝"), r"\1"),
    (re.compile(r"\((\w+'?(?: \.\w+)+)\)"), lambda m: m.group(1).replace(" .", ".")),
    (re.compile(r"(?<=\w) \.(?=[a-z])"), "."),
    (re.compile(r"\(((?:\w+'?\.)+\w+)\)(?=\.)"), r"\1"),
    (re.compile(r"′"), "'"),
    (re.compile(r"(?<![\w)])_(\W{1,3})_(?=[,}])"), r"◌\1◌"),
]


def edited(line, dashed, after):
    """A line of a must-fail edit: its text in today's form, with today's names."""
    if line[:4] not in ("old:", "new:"):
        return line
    for form, to in FORMS:
        line = form.sub(to, line)
    return TOKEN.sub(lambda m: named(m.group(0), dashed, after), line)


def named(name, dashed, after):
    """A name outside the files that port.py turned: it may have respelled the declared one."""
    return dashed.get(name, snake(name) if snake(name) in after else name)


def main():
    declared_before = declared()
    new = spelling()
    camel = {n: s for n, s in new.items() if CAMEL.search(n)}
    dashed = {n: s for n, s in new.items() if "_" not in n}
    fields = {n for n in new if "-" in n or n in FACTS}

    def no_step(m, line):
        # in a function's proof `c.before.within-m` is a step, and no name of ours
        return not (m.start() and line[m.start() - 1] == "." and re.search(r"(?:\bc|w)\.(?:[\w-]+\.)*$", line[: m.start()]))

    turn("crates/*/specs/**/*.antt", new)
    turn("crates/*/proofs/*.antt", new)
    turn("crates/*/proofs/*/**/Proof.antt", new, no_step)
    turn("crates/*/src/**/*.rt", camel)
    after = {new.get(n, n) for n in declared_before}
    for path in sorted(glob.glob("crates/*/must-fail/*.edit")):
        with open(path, encoding="utf-8") as f:
            lines = f.read().split("\n")
        with open(path, "w", encoding="utf-8") as f:
            f.write("\n".join(edited(line, dashed, after) for line in lines))

    for path in ["README.md"] + sorted(glob.glob("docs/*.md")):
        with open(path, encoding="utf-8") as f:
            parts = f.read().split("`")
        with open(path, "w", encoding="utf-8") as f:
            f.write("`".join(TOKEN.sub(lambda m: named(m.group(0), dashed, after), part) if i % 2 else part for i, part in enumerate(parts)))
    print(len(new), "names respelled")


main()
