#!/usr/bin/env python3
"""Counts, in crates/*/src, the places that docs/DESIGN-PASS.md speaks of.

usage: python3 tools/design_counts.py [-v] [DIR]

A line for each point; with -v also each place. A place is a candidate, found by its text alone: the page says what became of it.
"""

import collections
import difflib
import glob
import itertools
import os
import re
import sys

verbose = "-v" in sys.argv
roots = [a for a in sys.argv[1:] if not a.startswith("-")]
root = roots[0] if roots else "."

lines = []
for path in sorted(glob.glob(root + "/crates/*/src/**/*.rt", recursive=True)):
    short = os.path.relpath(path, root)
    for number, line in enumerate(open(path), 1):
        lines.append((short, number, line.rstrip("\n")))


def matching(pattern, without=None):
    found = []
    for path, number, line in lines:
        code = line.split("//")[0]
        if re.search(pattern, code) and not (without and re.search(without, code)):
            found.append("%s:%d: %s" % (path, number, line.strip()))
    return found


def functions():
    """Each function: its place, name, parameters, clauses and body."""
    found = []
    by_file = collections.OrderedDict()
    for path, number, line in lines:
        by_file.setdefault(path, []).append(line)
    for path, text in by_file.items():
        text = "\n".join(text)
        for m in re.finditer(r"\bfn (\w+)(?:<[^(]*>)?\((.*?)\)([^;{]*?(?:\n\s+(?:requires|ensures)[^\n]*)*)\s*(;|\n?\s*\{)", text, re.S):
            place = "%s:%d: %s" % (path, text[: m.start()].count("\n") + 1, m.group(1))
            body = ""
            if m.group(4) != ";":
                depth, i = 1, m.end()
                while depth and i < len(text):
                    depth += {"{": 1, "}": -1}.get(text[i], 0)
                    i += 1
                body = text[m.end() : i - 1]
            head = text[m.start() : m.end()]
            clauses = re.findall(r"\b(requires|ensures)\*? *(?:\w+ )?\{ (.*) \}", head)
            params = [re.sub(r"\s+", " ", p.strip()) for p in m.group(2).split(",") if p.strip()]
            found.append((place, m.group(1), params, clauses, body))
    return found


def shape(body):
    tokens = re.findall(r"\w+|[^\w\s]", re.sub(r"//[^\n]*", "", body))
    return ["n" if re.match(r"\w", t) and t not in ("if", "for", "let", "match", "return", "else", "in", "mut") else t for t in tokens]


def twins():
    found = []
    shapes = [(place, shape(body)) for place, _, _, _, body in fns]
    for (a, x), (b, y) in itertools.combinations(shapes, 2):
        if min(len(x), len(y)) >= 24 and abs(len(x) - len(y)) * 5 <= max(len(x), len(y)):
            if difflib.SequenceMatcher(None, x, y, False).ratio() >= 0.9:
                found.append("%s ~ %s" % (a, b))
    return found


def repeated_facts():
    where = collections.OrderedDict()
    for place, _, _, clauses, _ in fns:
        for kind, fact in clauses:
            where.setdefault("%s { %s }" % (kind, fact), set()).add(place)
    return ["%d: %s" % (len(p), f) for f, p in where.items() if len(p) >= 3]


def travelling():
    where = collections.OrderedDict()
    for place, _, params, _, _ in fns:
        for pair in itertools.combinations(sorted(p for p in params if "self" not in p), 2):
            where.setdefault(", ".join(pair), set()).add(place)
    return ["%d: %s" % (len(p), f) for f, p in where.items() if len(p) >= 3 and "rt:" not in f]


def answers():
    found = []
    for path in sorted(glob.glob(root + "/crates/*/proofs/**/Answers.antt", recursive=True)):
        for m in re.finditer(r"^pub (\S+) : goal\.", open(path).read(), re.M):
            found.append("%s: %s" % (os.path.relpath(path, root), m.group(1)))
    return found


fns = functions()
points = [
    ("1 enums of our own", matching(r"^\s*(pub(\(\w+\))? )?enum ")),
    ("1 numbers where an enum is", matching(r"\.number\(\)|\bkind: u8|match .*\.(kind|kt) ")),
    ("1 results matched by hand", matching(r"is_err\(\) \{|Err\(\w+\) => return|if let Err\(")),
    ("2 pairs of functions of one shape", twins()),
    ("3 loops over numbers, or with a count by hand", matching(r"for \(?[\w, ]+\)? in [^ ]*\.\.|\bwhile |\bloop \{|\+= 1;|saturating_add\(1\);")),
    ("4 conversions and printing by hand", matching(r"% 256|/ 256|256 \*|65536 \*|b'0' \+|b'A' \+|fn \w+_of\(\w+: [^,]*\) -> |fn (added|replace|boot_words|capital_digit|write_pair|push_number)\b")),
    ("5 facts in three contracts or more", repeated_facts()),
    ("5 parameters together in three functions or more", travelling()),
    ("6 arrays with a length or a place beside", matching(r"^\s*(pub(\(\w+\))? )?(bytes|buffer|core|keys): \[|\bn: usize[,)]|words\[\d+\]")),
    ("7 flags and modes that choose a step", matching(r"fn .*\b\w+: bool|^\s+(?:pub(?:\(\w+\))? )?\w+: bool,$|match .*\.mode|\bfn\(")),
    ("8 answers in proofs", answers()),
]
for name, found in points:
    print("%4d  %s" % (len(found), name))
    if verbose:
        for place in found:
            print("        " + place)
