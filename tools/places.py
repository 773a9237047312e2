#!/usr/bin/env python3
"""Lists the places in src/ that the design pass looks at, point by point, and counts them.

Run at the repository's root (or with the root as argument); `-v` prints each place.
What it finds is a place to look at: docs/DESIGN-PASS.md says what became of each.
"""
import pathlib, re, sys
from collections import defaultdict

verbose = "-v" in sys.argv
roots = [a for a in sys.argv[1:] if a != "-v"]
root = pathlib.Path(roots[0] if roots else ".")
files = sorted((root / "crates").glob("*/src/**/*.rt"))
text = {f.relative_to(root / "crates"): f.read_text() for f in files}


def lines(pattern, skip=()):
    found = []
    for f, t in text.items():
        if f.parts[0] in skip:
            continue
        for n, line in enumerate(t.split("\n"), 1):
            line = line.strip()
            if re.search(pattern, line) and not line.startswith("//"):
                found.append((f"{f}:{n}", line))
    return found


def show(point, what, found):
    print(f"{point:>2}  {len(found):4}  {what}")
    if verbose:
        for place, line in found:
            print(f"          {place}  {line[:100]}")


def functions():
    """Each function: where it stands, its parameters, its clauses, its body."""
    for f, t in text.items():
        for m in re.finditer(r"^( *)(?:pub(?:\(crate\))? )?fn (\w+)", t, re.M):
            end = t.find("\n" + m[1] + "}", m.start())
            whole = t[m.start():end]
            n = t.count("\n", 0, m.start()) + 1
            head, _, body = whole.partition("\n" + m[1] + "{") if re.search(r"\n +(requires|ensures)", whole) else whole.partition("{")
            yield f"{f}:{n}", m[2], head, body


def shapes():
    """Functions with the same body but for names, types and numbers."""
    by = defaultdict(list)
    for place, name, head, body in functions():
        words = re.findall(r"\w+|[^\w\s]", body)
        if len(words) < 12:
            continue
        seen = {}
        keep = {"for", "in", "if", "else", "match", "return", "let", "mut", "while", "loop", "break", "continue", "true", "false", "as"}
        shape = " ".join(w if w in keep or not re.match(r"\w", w) else seen.setdefault(w, f"w{len(seen)}") for w in words)
        by[shape].append((place, name))
    return [p for group in by.values() if len(group) > 1 for p in group]


def repeated(kind):
    """Facts that stand in the `requires` of three or more functions."""
    by = defaultdict(list)
    for place, name, head, body in functions():
        for clause in set(re.findall(r"\n +" + kind + r" \w+ \{(.*)\}", head)):
            by[re.sub(r"\.(now|old|new)\b", "", clause).strip()].append(place)
    return [(f"{len(ps)} functions", fact) for fact, ps in sorted(by.items(), key=lambda x: -len(x[1])) if len(ps) > 2]


def together():
    """Sets of three or more parameters that four or more functions share."""
    sets = {}
    for place, name, head, body in functions():
        inside = head[head.find("(") + 1:]
        names = frozenset(re.findall(r"\b([a-z]\w*): ", re.split(r"\) ->|\n +requires|\n +ensures", inside)[0])) - {"self"}
        if len(names) > 2:
            sets[place] = names
    found = {}
    for a in sets.values():
        for b in sets.values():
            common = a & b
            if len(common) > 2:
                users = [p for p, s in sets.items() if common <= s]
                if len(users) > 3:
                    found[common] = users
    top = [c for c in found if not any(c < d and len(found[d]) >= len(found[c]) for d in found)]
    return [(f"{len(found[c])} functions", ", ".join(sorted(c))) for c in top]


show(1, "enums of our own", lines(r"^(pub(\(crate\))? )?enum "))
show(1, "a fault in an Option", lines(r"Option<\w*Fault>"))
show(1, "a number for each case, in a match", [p for p in lines(r"^\w+::\w+(\(.*\))? => \d+,|=> \(\d+, \w+, \w+\)")])
show(1, "0 or a length that stands for none, 0 for accepted", lines(r"^(return )?0;$|^(names|piece)\.len\(\)$|Ok\(_\) => (Ok\()?0|-> \(u64, u8\)"))
show(2, "structs of what was refused and why", lines(r"struct \w*Refused"))
show(2, "functions with the same body but for names, types and numbers", shapes())
show(2, "constants for no cost or no line", lines(r"^const N\w+: (Whole|Pair|Line)"))
show(3, "loops over a range, while, loop", lines(r"\bfor \w+ in [^{]*\.\.|\bwhile |\bloop \{"))
show(3, "other for loops, outside tests and programs", [p for p in lines(r"^for ", ("edges", "run_calls", "price_divisions")) if ".." not in p[1]])
show(4, "an error passed on, or a value converted or compared, by hand", lines(r"Err\(\w+\) => Err\(|fn (kind_of|refusal|is_line|is_pair)\b|=> unreachable"))
show(4, "newtypes that only print", lines(r"^struct \w+(<'a>)?\(.*\);"))
show(4, "casts by as", lines(r"\bas (u8|u16|u32|u64|usize)\b"))
show(5, "facts in the requires of three or more functions", repeated("requires"))
show(5, "sets of parameters that four or more functions share", together())
show(6, "arrays of a fixed length, outside tests and programs", lines(r"\[[\w:.{} ,]+; ?\d+\]", ("edges", "run_calls", "price_divisions")))
show(7, "a match on a call, a stage or a letter", lines(r"match (step\.call|self\.0|(\w+\.)*(stage|letter)) "))
