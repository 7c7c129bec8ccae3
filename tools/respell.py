#!/usr/bin/env python3
"""Spells this repository's own definitions and lemmas in snake case, and its types in camel case.

usage: python3 tools/respell.py [--check]     at the top of the repository

Run once, after the kit's own script had turned the library's names. A name that `.antt` files declare with a dash gets `_` in
its place, and a type loses it: `cur-offset` becomes `cur_offset`, `Some-cell` becomes `SomeCell`. A lemma keeps one dash where that
joins two words of the definitions, as `get-put` does. Names that Rattle makes (`returns-then-..`, `loop-..`) stay. Where two names
would fall together, the script says so and writes nothing.
"""
import os
import re
import sys

NAME = r"[A-Za-z0-9_'\u2032\u0370-\u03ff\u2080-\u2089\u2262\u2261\u2115\u2124\u228e\u00b7-]+"
TOKEN = re.compile(NAME)
SIGNED = re.compile(r"^([ \t]*)((?:(?:unfoldable|abbrev|pattern|pub)\s+)*)([A-Za-z][\w'\u2032\u2262\u2261\u228e\u2115\u2124-]*)\s*:\s(.*)$", re.M)
DECLARED = re.compile(r"^(?:abbrev )?(?:pub )?(?:record|data) ([\w'-]+)", re.M)
COMMENT = re.compile(r"--.*$", re.M)
STD = {"length", "take", "drop", "append", "map", "set", "lt", "le", "mem", "sum", "zero", "value", "insert", "mod", "filter", "replicate"}


def files(top):
    for folder, dirs, names in os.walk(top):
        dirs[:] = sorted(d for d in dirs if d not in ("out", "target", ".git"))
        for n in sorted(names):
            if n.endswith((".antt", ".rt")):
                yield os.path.join(folder, n)


def snake(name):
    return name.replace("-", "_").replace("\u2032", "'")


def camel(name):
    parts = re.split(r"[-_]", name)
    return "".join(p[:1].upper() + p[1:] for p in parts)


def new_name(name, words, lemma):
    if name[0].isupper():
        return camel(name)
    if lemma:
        parts = name.split("-")
        for k in range(1, len(parts)):
            head, tail = "_".join(parts[:k]), "_".join(parts[k:])
            if head in words and tail in words:
                return head + "-" + tail
    return snake(name)


def code_of(path, text):
    return COMMENT.sub("", text) if path.endswith(".antt") else re.sub(r"//.*$", "", text, flags=re.M)


def clauses(text):
    """The parts of a .rt file that speak of definitions: ghost use lines, and braces after a ghost word."""
    spans = []
    for m in re.finditer(r"ghost use [^;]*;", text):
        spans.append(m.span())
    for m in re.finditer(r"#\[tactic\([^\]]*\]", text):
        spans.append(m.span())
    for m in re.finditer(r"\b(?:requires|ensures)(?: \w+)? \{|\bghost \w+(?:: \{| = \{)|\bghost \w+: ", text):
        at = text.find("{", m.start())
        if at < 0:
            continue
        depth, k = 0, at
        while k < len(text):
            depth += (text[k] == "{") - (text[k] == "}")
            k += 1
            if depth == 0:
                break
        spans.append((m.start(), k))
    for m in re.finditer(r"\bghost fn [^{;]*[{;]", text):
        spans.append(m.span())
    return spans


def main():
    check = "--check" in sys.argv
    texts = {p: open(p, encoding="utf-8").read() for p in files("crates")}
    words = set(STD)
    lemmas, others = set(), set()
    for p, t in texts.items():
        if not p.endswith(".antt"):
            continue
        t = code_of(p, t)
        in_specs = os.sep + "specs" + os.sep in p
        for m in SIGNED.finditer(t):
            name, kind = m.group(3), m.group(4)
            if "goal." in m.group(4) or m.group(4).startswith(("goal", "need")):
                continue
            function = "abbrev" in m.group(2) or "unfoldable" in m.group(2)
            if in_specs and function and name[0].islower():
                words.add(snake(name))
            if "-" in name or "\u2032" in name:
                (others if in_specs or m.group(1) or function else lemmas).add(name)
        for m in DECLARED.finditer(t):
            if "-" in m.group(1):
                others.add(m.group(1))
    table = {n: new_name(n, words, n in lemmas and n not in others) for n in lemmas | others}
    table = {a: b for a, b in table.items() if a != b}
    by_new = {}
    for a, b in table.items():
        by_new.setdefault(b, []).append(a)
    bad = [f"{' and '.join(v)} would both be {k}" for k, v in by_new.items() if len(v) > 1]
    out = {}
    for p, t in texts.items():
        whole = code_of(p, t)
        paths = re.sub(r"use [\w.'-]+", " ", whole)
        tokens = set(TOKEN.findall(paths))
        for a, b in table.items():
            if a in tokens and b in tokens and p.endswith(".antt"):
                bad.append(f"{p}: {a} would be {b}, which stands there already")
        turn = lambda m: table.get(m.group(0), m.group(0))
        if p.endswith(".antt"):
            new, last = [], 0
            for m in COMMENT.finditer(t):
                new.append(TOKEN.sub(turn, t[last:m.start()]))
                new.append(re.sub(r"`[^`]*`", lambda q: TOKEN.sub(turn, q.group(0)), m.group(0)))
                last = m.end()
            new.append(TOKEN.sub(turn, t[last:]))
            out[p] = "".join(new)
        else:
            new, last = [], 0
            for a, b in sorted(clauses(t)):
                if a < last:
                    a = last
                if b <= a:
                    continue
                new.append(t[last:a])
                new.append(TOKEN.sub(turn, t[a:b]))
                last = b
            new.append(t[last:])
            out[p] = "".join(new)
    for it in bad:
        print("clash:", it)
    if "--table" in sys.argv:
        for a, b in sorted(table.items()):
            print(a, "->", b)
    if bad or check:
        print(len(table), "names,", len(bad), "clashes")
        return 1 if bad else 0
    for p, t in out.items():
        if t != texts[p]:
            with open(p, "w", encoding="utf-8") as f:
                f.write(t)
    print(len(table), "names respelled")
    return 0


if __name__ == "__main__":
    sys.exit(main())
