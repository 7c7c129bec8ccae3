#!/usr/bin/env python3
"""Brings words of the library that were imported under another word's name back under their own.

usage: python3 tools/plain_names.py     at the top of the repository

The kit's script kept the list words that go by recursion as `AllByRecursion as All` and `ContainsAt as Has`. A reader takes `All` for the
library's word of that name, and the gate refuses it.
"""
import os
import re

WORD = r"[\w'-]"
for folder, dirs, names in os.walk("crates"):
    dirs[:] = [d for d in dirs if d != "out"]
    for n in names:
        if not n.endswith((".antt", ".rt")):
            continue
        p = os.path.join(folder, n)
        with open(p, encoding="utf-8") as f:
            text = f.read()
        lines = text.split("\n")
        for new, old in re.findall(r"\b(AllByRecursion|ContainsAt) as (All|Has)\b", text):
            for k, line in enumerate(lines):
                code, dash, comment = line.partition("--")
                code = code.replace(f"{new} as {old}", new)
                code = re.sub(rf"(?<!{WORD}){old}(?!{WORD})", new, code)
                lines[k] = code + dash + comment
        if "\n".join(lines) != text:
            with open(p, "w", encoding="utf-8") as f:
                f.write("\n".join(lines))
