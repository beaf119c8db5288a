#!/usr/bin/env python3
"""Lists places of src/ that an older way of writing leaves behind, by the points of docs/DESIGN-PASS.md.

    tools/places.py [ROOT]

It goes by text, so a person reads what it lists: some of it is meant. What it cannot see (a switch on a step, an arena, a
buffer with its length) is found by reading alone.
"""
import collections
import glob
import os
import re
import sys

KEYWORDS = set("""as break const continue crate else enum false fn for if impl in let loop match mod move mut pub ref return
self Self struct super trait true type unsafe use where while dyn""".split())


def sources(root):
    for path in sorted(glob.glob(os.path.join(root, "crates/*/src/**/*.rt"), recursive=True)):
        yield os.path.relpath(path, os.path.join(root, "crates")), open(path).read()


def bare(text):
    """The text without comments, with the same lines."""
    return re.sub(r"//[^\n]*", "", text)


def line_of(text, at):
    return text.count("\n", 0, at) + 1


def block(text, at):
    """From the brace at or after `at` to its partner."""
    start = text.index("{", at)
    depth = 0
    for i in range(start, len(text)):
        depth += {"{": 1, "}": -1}.get(text[i], 0)
        if depth == 0:
            return text[start : i + 1]
    return text[start:]


def two_case_enums(path, text):
    for m in re.finditer(r"\benum (\w+)", text):
        body = block(text, m.end())[1:-1]
        cases = re.findall(r"(?m)^\s*([A-Z]\w*)\s*(\(([^()]*)\))?\s*,", re.sub(r"#\[[^\]]*\]", "", body))
        holds = [len([x for x in c[2].split(",") if x.strip()]) for c in cases]
        if len(cases) == 2 and sorted(holds) in ([0, 1], [1, 1]):
            yield line_of(text, m.start()), "enum %s { %s }" % (m.group(1), ", ".join(c[0] + c[1] for c in cases))


def matching(pattern):
    def find(path, text):
        for m in re.finditer(pattern, text):
            yield line_of(text, m.start()), " ".join(m.group(0).split())

    return find


def functions(text):
    """Each function: line, name, parameters, clauses, body."""
    for m in re.finditer(r"\bfn (\w+)", text):
        at = text.find("(", m.end())
        depth = 0
        for i in range(at, len(text)):
            depth += {"(": 1, ")": -1}.get(text[i], 0)
            if depth == 0:
                break
        parameters = text[at + 1 : i]
        rest = text[i:]
        head = re.match(r"\)(?:[^{;]*?)(?=\n\s*(?:requires|ensures|where)\b|\s*\{|;)", rest)
        clauses, at = [], i + (head.end() if head else 1)
        while True:
            c = re.match(r"\s*((?:requires|ensures)[^{]*)", text[at:])
            if not c:
                break
            inner = block(text, at + c.end() - 1)
            clauses.append(" ".join((c.group(1) + inner).split()))
            at += c.end() + len(inner) - (1 if text[at + c.end() - 1] == "{" else 0)
            at = text.index(inner, at - len(inner) - 1) + len(inner)
        if not re.match(r"\s*\{", text[at:]):
            continue
        yield line_of(text, m.start()), m.group(1), parameters, clauses, block(text, at)


def skeleton(body):
    names = {}
    tokens = []
    for t in re.findall(r"[A-Za-z_]\w*!?|\d[\w.]*|\"[^\"]*\"|b'.'|\S", body):
        if re.match(r"[A-Za-z_]", t) and t not in KEYWORDS:
            t = "n%d" % names.setdefault(t, len(names))
        elif re.match(r"\d|\"|b'", t):
            t = "literal"
        tokens.append(t)
    return tuple(tokens)


def main():
    root = sys.argv[1] if len(sys.argv) > 1 else os.path.join(os.path.dirname(__file__), "..")
    groups = [
        ("1 enums of the shape of Option or Result", two_case_enums),
        ("1 flags beside values", matching(r"(?m)^\s+(?:pub )?\w+: bool,")),
        ("1 refusals told as a bool", matching(r"fn \w+\(&mut self[^)]*\) -> bool")),
        ("1 refusals told as a number", matching(r"Refused\(u8\)")),
        ("1 a match that only turns None or an error",
         matching(r"None => (?:return )?Err\(|Err\((\w+)\) => (?:return )?Err\(|None => false|Ok\(\(\)\) => (?:Ok\(\(\)\)|\{\})")),
        ("1 numbers matched one by one", matching(r"match [^{}]*\{\s*\d+ =>")),
        ("3 loops that count or search", matching(r"\bwhile [^{]*\{|\bloop \{|for \w+ in [^{]*\.\.[^{]*\{|\.enumerate\(\)")),
        ("4 text by a function of its own", matching(r"-> &'static str")),
        ("4 an impl that a derive gives", matching(r"impl[^{\n]*\b(?:PartialEq|Eq|Ord|PartialOrd|Clone|Copy|Drop|Hash)\b for [^{\n]*")),
        ("4 a conversion of its own", matching(r"fn \w+_of\(\w+: (?:u32|u8|Words|&\[u8\])\) -> (?:Option|Result)<[A-Z]\w+[,>]")),
    ]
    everything = [(p, bare(t)) for p, t in sources(root)]
    for title, find in groups:
        found = [(p, l, s) for p, t in everything for l, s in find(p, t)]
        print("## %s: %d" % (title, len(found)))
        for p, l, s in found:
            print("    %s:%d  %s" % (p, l, s[:110]))
    twins, travels, clauses = collections.defaultdict(list), collections.defaultdict(set), collections.defaultdict(list)
    for p, t in everything:
        if "_tests/" in p:
            continue
        for l, name, parameters, said, body in functions(t):
            shape = skeleton(body)
            if len(shape) >= 25:
                twins[shape].append("%s:%d %s" % (p, l, name))
            own = [" ".join(x.split()) for x in re.split(r",\s*(?![^<(\[]*[>)\]])", parameters) if ":" in x]
            own = [re.sub(r"'\w+ ?", "", x) for x in own]
            for i in range(len(own) - 2):
                travels[tuple(own[i : i + 3])].add("%s:%d %s" % (p, l, name))
            for c in said:
                clauses[re.sub(r"^(requires|ensures)( \w+)?", r"\1", c)].append("%s:%d %s" % (p, l, name))
    found = {k: v for k, v in twins.items() if len(v) > 1}
    print("## 2 functions that differ in names and literals alone: %d groups" % len(found))
    for v in found.values():
        print("    " + "; ".join(v))
    found = {k: v for k, v in travels.items() if len(v) > 2}
    print("## 5 three parameters in a row in three functions or more: %d" % len(found))
    for k, v in found.items():
        print("    (%s): %d" % (", ".join(k), len(v)))
    found = {k: v for k, v in clauses.items() if len(v) > 2}
    print("## 5 one clause in three functions or more: %d" % len(found))
    for k, v in found.items():
        print("    %s: %d" % (k[:120], len(v)))


main()
