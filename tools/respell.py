#!/usr/bin/env python3
"""Brings the names of this repository's own definitions and lemmas to the spelling of today's Rattle.

usage: python3 tools/respell.py           at the top of the repository, once, after port.py
       python3 tools/respell.py --look    only list what would be renamed, and names that fall together

A fact or a type (first letter a capital) gets camel case, as WholeRuns for Whole-runs; everything else gets
snake case, as put_left for put-left. Names that Rattle makes (goals, steps, fields of a step) are let alone,
and so are functions of src/, strings, inputs and outputs. Renamed are: names that a file of specs/ or proofs/
declares, wherever they stand in specs/, proofs/, in clauses and ghost lines of src/, in must-fail edits and
between backquotes in docs/ and README.md.
"""
import os
import re
import subprocess
import sys

# a name ends at one of these
STOP = r"\s(){}\[\],;.:\"`|λ"
NAME = re.compile(rf"[^{STOP}]+")
DECLARED = re.compile(r"^\s*\|?\s*(?:(?:abbrev|unfoldable|pub|data|record|ruleset)\s+)*([^\s(){}:λ.,|]+)\s+(?:[({][^=]*)?:(?:\s|$)")
DATA = re.compile(r"^\s*(?:pub\s+)?(?:data|record)\s+([^\s(){}:λ.,]+)")
RECORD = re.compile(r"^(\s*)(?:pub\s+)?record\s.*\bwhere\s*$")
FIELD = re.compile(r"^\s+(?:pub\s+)?([^\s(){}:λ.,|]+)\s+:")
GOAL = re.compile(r"\bgoal\.([^\s(){}:λ.,;]+)")
# a name behind a dot is one of ours only behind the name of a module, or where it is a field of a record of ours
MODULES = {"machine", "simp", "store", "answer", "fate", "item", "no", "option", "progress", "row", "seen", "sort", "stop"}
# where the plain spelling would fall together with another name
OTHERWISE = {}


class Names(set):
    fields = frozenset()


def spelled(name):
    if name in OTHERWISE:
        return OTHERWISE[name]
    if name[0].isupper():
        return "".join(p[:1].upper() + p[1:] for p in re.split("[-_]", name))
    return name.replace("-", "_")


def files(*ends):
    listed = subprocess.run(["git", "ls-files", "-z", "-c", "-o", "--exclude-standard"], capture_output=True, text=True, check=True).stdout.split("\0")
    return [p for p in listed if p.endswith(ends) and os.path.exists(p)]


def read(path):
    with open(path, encoding="utf-8") as f:
        return f.read()


def without_comments(text):
    return re.sub(r"(?m)(^|\s)--.*$", r"\1", text)


def declared():
    """The names with a dash that files of specs/ and proofs/ declare, and the names that Rattle gives to goals."""
    ours, made = set(), set()
    for path in files(".antt"):
        text = without_comments(read(path))
        made |= set(GOAL.findall(text))
        for line in text.split("\n"):
            m = DATA.match(line) or DECLARED.match(line)
            if m and (("-" in m.group(1).strip("-")) or (m.group(1)[0].isupper() and "_" in m.group(1))):
                ours.add(m.group(1))
    return Names({n for n in ours if n not in made and re.match(r"[A-Za-z]", n)})


def fields():
    """The names with a dash of the fields of our own records."""
    found = set()
    for path in files(".antt"):
        within = None
        for line in read(path).split("\n"):
            head = RECORD.match(line)
            if head:
                within = len(head.group(1))
            elif within is not None and (not line.strip() or len(line) - len(line.lstrip()) <= within):
                within = None
            elif within is not None and FIELD.match(line):
                found.add(FIELD.match(line).group(1))
    return {n for n in found if "-" in n}


def turned(text, names):
    """The text with each of the names spelled anew."""

    def one(m):
        name = m.group(0)
        if name not in names:
            return name
        before = text[: m.start()]
        if before.endswith("."):
            qualifier = re.search(r"([^\s(){}\[\],;:]+)\.$", before)
            q = qualifier.group(1) if qualifier else ""
            if not (name in names.fields or q in MODULES or q.startswith("Rattle.")):
                return name
        return spelled(name)

    return NAME.sub(one, text)


def turned_quotes(text, names):
    return re.sub(r"`[^`\n]*`", lambda m: turned(m.group(0), names), text)


def turned_antt(text, names):
    out = []
    for line in text.split("\n"):
        m = re.search(r"(^|\s)--(\s|-|$)", line)
        at = m.start() if m else len(line)
        out.append(turned(line[:at], names) + turned_quotes(line[at:], names))
    return "\n".join(out)


def turned_rt(text, names):
    parts = re.split(r'("(?:\\.|[^"\\])*"|//[^\n]*)', text)
    return "".join(p if p.startswith('"') else turned_quotes(p, names) if p.startswith("//") else turned(p, names) for p in parts)


def fallen_together(names):
    """Names whose new spelling stands already in a file where the old one stands, or is declared elsewhere."""
    said = []
    by_new = {}
    for n in sorted(names):
        by_new.setdefault(spelled(n), []).append(n)
    said += [f"one spelling for {', '.join(v)}: {k}" for k, v in by_new.items() if len(v) > 1]
    for path in files(".antt", ".rt"):
        there = set(NAME.findall(without_comments(read(path)) if path.endswith(".antt") else read(path)))
        for n in sorted(there & set(names)):
            if spelled(n) in there:
                said.append(f"{path}: {n} and {spelled(n)}")
    return said


def main(argv):
    names = declared()
    names.fields = fields()
    if argv == ["--look"]:
        print("\n".join(f"{n} -> {spelled(n)}" for n in sorted(names)))
        print("\n".join("together: " + s for s in fallen_together(names)))
        return 0
    if argv:
        print(__doc__)
        return 2
    changed = 0
    for path in files(".antt", ".rt", ".edit", ".md"):
        if path.endswith("PORT.md"):
            continue
        old = read(path)
        turn = turned_antt if path.endswith(".antt") else turned_rt if path.endswith(".rt") else turned if path.endswith(".edit") else turned_quotes
        new = turn(old, names)
        if new != old:
            changed += 1
            with open(path, "w", encoding="utf-8") as f:
                f.write(new)
    print(f"respell: {len(names)} names, {changed} files")
    return 0


if __name__ == "__main__":
    raise SystemExit(main(sys.argv[1:]))
