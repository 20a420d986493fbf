#!/usr/bin/env python3
"""Brings the names that this repository's specs and proofs declare to today's spelling: snake case, and camel case for types.

usage: python3 tools/respell.py            once, at the top, behind the kit's port.py
       python3 tools/respell.py --list     only says what would be renamed

Only names with a dash are touched, and only where they are ours: declared in a file of specs/ or proofs/, brought in with 'as', or bound
in a proof. Names that a library declares stay, and so do goals and what stands for a step of the code in a proof (goal.X, c.X).
Comments and strings stay. A name whose new spelling is taken in some file where it stands is left, and said.
"""

import os
import re
import sys

NAME = r'[^\s(){}.;,@"«»]+'
DASHED = re.compile(r"[A-Za-z][\w'₀-₉]*(?:-[\w'₀-₉]+)+")
# a declaration: words, the name, implicit or explicit parameters, a colon
DECLARED = re.compile(r"(?m)^ *(?:(?:pub|abbrev|unfoldable|open|record|data|module|where) +)*(" + NAME + r")(?: +[({][^(){}]*(?:\([^()]*\)[^(){}]*)*[)}])* +:(?= |$)")
BOUND = re.compile(r"(?:\blet|λ)\s+\(?(" + NAME + r")")
VARIABLE = re.compile(r"[({] *((?:" + NAME + r" +)+):")
HEAD = re.compile(r"(?m)^ *((?:" + NAME + r" +)+)=(?= |$)")
AS = re.compile(r"\bas «?(" + NAME + r")")
USE = re.compile(r"\buse ([^\s;{]+)(\{[^;]*?\}(?=;|[ \t]*$))?", re.M)


def new_spelling(name):
    parts = name.split("-")
    if name[0].isupper():
        return "".join(p[:1].upper() + p[1:] for p in parts)
    return "_".join(parts)


def files(top):
    for folder, dirs, names in os.walk(top):
        dirs[:] = sorted(d for d in dirs if d not in ("out", ".git"))
        for n in sorted(names):
            if n.endswith((".rt", ".antt", ".edit")):
                yield os.path.join(folder, n)


def pieces(text, path):
    """The text in pieces, each with whether it is code (and not a comment or a string)."""
    if path.endswith(".antt"):
        quiet = re.compile(r'--[^\n]*|"(?:\\.|[^"\\\n])*"')
    elif path.endswith(".rt"):
        quiet = re.compile(r'//[^\n]*|b?"(?:\\.|[^"\\])*"')
    else:
        quiet = re.compile(r"(?!)")
    at = 0
    for m in quiet.finditer(text):
        # in antt a comment's dashes stand at a line's begin or behind a space
        if m[0].startswith("--") and m.start() and not text[m.start() - 1].isspace():
            continue
        yield text[at:m.start()], True
        yield m[0], False
        at = m.end()
    yield text[at:], True


def code_of(text, path):
    return "".join(t if code else " " for t, code in pieces(text, path))


def own_path(path):
    first = path.split(".")
    return not (first[0] == "Rattle" and len(first) > 1 and first[1] in LIBRARIES)


LIBRARIES = {"std", "core", "anyhow", "io", "libc", "os", "logic"}


def main():
    texts = {p: open(p, encoding="utf-8").read() for p in files("crates")}
    codes = {p: code_of(t, p) for p, t in texts.items()}
    ours, theirs, made = set(), set(), set()
    for p, code in codes.items():
        made.update(re.findall(r"\bgoal\.(" + NAME + ")", code))
        for path, items in USE.findall(code):
            if not own_path(path):
                theirs.update(re.findall(NAME, re.sub(NAME + r" as ", "", items)))
    for p, code in codes.items():
        if p.endswith(".edit"):
            continue
        ours.update(AS.findall(code))
        if p.endswith(".antt"):
            ours.update(DECLARED.findall(code))
            ours.update(BOUND.findall(code))
            for it in VARIABLE.findall(code) + HEAD.findall(code):
                ours.update(it.split())
    ours = {it for it in ours if DASHED.fullmatch(it)} - theirs - made
    table = {it: new_spelling(it) for it in ours}
    # a new spelling that some file has already, beside the old one; a Rust function and a folder may be called so
    for p, code in codes.items():
        bare = re.sub(r"\bfn \w+|\b\w+(?=\()|(?<=\.)\w+(?=\()|\bcrate::\S+|(?<=proofs)[.\w]+(?= as goal)", " ", code)
        words = set(re.findall(NAME, bare if p.endswith(".rt") else re.sub(r"(?<=proofs)\S+(?= as goal)", " ", code)))
        for it in sorted(words & set(table)):
            if table[it] in words:
                print(f"left: {p}: {it} would meet {table[it]}")
                del table[it]
    twice = {}
    for it in sorted(table):
        twice.setdefault(table[it], []).append(it)
    for new, olds in twice.items():
        if len(olds) > 1:
            print(f"look: {', '.join(olds)} would all be {new}")
    # in an edit, also what the kit's script has respelled
    declared = set()
    for p, code in codes.items():
        if p.endswith(".antt"):
            declared.update(DECLARED.findall(code))
    for p, code in codes.items():
        if p.endswith(".edit"):
            for it in re.findall(NAME, code):
                if DASHED.fullmatch(it) and new_spelling(it) in declared:
                    table.setdefault(it, new_spelling(it))
    if "--list" in sys.argv:
        rest = {}
        for p, code in codes.items():
            for it in re.findall(NAME, code):
                if DASHED.fullmatch(it) and it not in table and it not in theirs and it not in made:
                    rest.setdefault(it, p)
        print(f"{len(table)} names; dashed names that stay and are neither a library's nor a goal's:")
        for it, p in sorted(rest.items()):
            print("  ", it, p)
        return
    word = re.compile(r"((?<![^\s(){};,@])(?:c|l|goal)\.)?(" + NAME + ")")
    for p, text in texts.items():
        # the names that stand for the code's steps, in the proof of a function
        stays = lambda m: m[1] and "/proofs/" in p
        renamed = lambda m: m[0] if stays(m) else (m[1] or "") + table.get(m[2], m[2])
        new = "".join(word.sub(renamed, t) if code else t for t, code in pieces(text, p))
        if new != text:
            with open(p, "w", encoding="utf-8") as f:
                f.write(new)
    print(f"{len(table)} names respelled")


main()
