#!/usr/bin/env python3
"""Gives the repository's own definitions and lemmas the spelling of today's Rattle.

Run once, at the top of the repository, right after the kit's port.py.  A name that a file
of specs/ or proofs/ declares with dashes, as a-name, becomes a_name, wherever it stands as a
whole word: in specs, proofs, clauses, must-fail edits and docs.  So do their variables.  Names that Rattle itself
writes (goals, steps, loops) keep their dashes, and so do the names of the kit's lemmas.
"""
import collections
import glob
import re
import sys

ANTT = sorted(glob.glob("crates/*/specs/**/*.antt", recursive=True)
              + glob.glob("crates/*/proofs/**/*.antt", recursive=True))
OTHERS = sorted(glob.glob("crates/*/src/**/*.rt", recursive=True)
                + glob.glob("crates/*/must-fail/*.edit")
                + glob.glob("docs/*.md") + ["README.md"])
SIGNATURE = re.compile(r"^\s*(?:abbrev |unfoldable |pub |record |data )*([A-Za-z_][^\s(){}.;,:]*) :\s(?!goal\.)")
HEADED = re.compile(r"^\s*(?:pub )?(?:record|data) ([A-Za-z_][^\s(){}.;,:]*)")

declared = set()
for path in ANTT:
    for line in open(path, encoding="utf-8"):
        for form in (SIGNATURE, HEADED):
            found = form.match(line)
            if found:
                declared.add(found.group(1))

IMPORT = re.compile(r"use \S+?\.\{([^}]*)\}")
DASHED = re.compile(r"(?<![\w'.◌\-])[a-z][\w']*(?:-[\w']+)+(?![\w'◌\-])")
imported = set()
for path in ANTT:
    for found in IMPORT.finditer(open(path, encoding="utf-8").read()):
        imported |= {name.strip() for name in found.group(1).split(",")}

# the variables of definitions and lemmas, which no file imports
ANSWERS = ("/Answers.antt", "/Invariants.antt")
for path in ANTT:
    if not path.endswith(ANSWERS):
        for line in open(path, encoding="utf-8"):
            declared |= set(DASHED.findall(line.split("--")[0])) - imported

new_name = {name: name.replace("-", "_") for name in declared if "-" in name}
together = collections.defaultdict(set)
for name in declared:
    together[name.replace("-", "_")].add(name)
clashes = [sorted(names) for names in together.values() if len(names) > 1]
if clashes:
    sys.exit(f"names that fall together: {clashes}")

words = "|".join(re.escape(name) for name in sorted(new_name, key=len, reverse=True))
WHOLE = re.compile(rf"(?<![\w'\-◌])(?:{words})(?![\w'\-◌])")
# in the proof of a function, c.best-is is what Rattle calls a step or a value of the code
STEP = re.compile(r"\b[clw]\.$")

changed = 0
for path in ANTT + OTHERS:
    with open(path, encoding="utf-8") as file:
        text = file.read()

    def turned(found):
        if path.endswith(ANSWERS) and STEP.search(text[max(0, found.start() - 3):found.start()]):
            print(f"kept: {path}: {found.group(0)}")
            return found.group(0)
        return new_name[found.group(0)]

    after = WHOLE.sub(turned, text)
    if after != text:
        changed += 1
        with open(path, "w", encoding="utf-8") as file:
            file.write(after)
print(f"{len(new_name)} names, {changed} files")
