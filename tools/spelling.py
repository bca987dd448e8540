#!/usr/bin/env python3
"""Brings the names of this repository's definitions and lemmas to the spelling of today's Rattle: words in snake case,
types and modules in camel case. usage: python3 tools/spelling.py, once, at the top, right after port.py (docs/PORT.md).

A name is renamed where it is declared in a file of specs/ or a lemma file of proofs/ of a crate, and everywhere it is
used: in clauses, specs, proofs, must-fail edits, and between backticks in comments and pages. Functions, fields of
structs, constants, strings, inputs and outputs keep their names. Where a lemma and a definition would fall together,
the lemma's name ends in _lem.
"""
import os
import re
import sys

DECLARED = re.compile(
    r"^\s*(?:abbrev\s+|unfoldable\s+)?(?:pub\s+)?(?:abbrev\s+|unfoldable\s+|data\s+|record\s+)*"
    r"([^\s(){}:;.,=]+)\s*(?:\{[^}]*\}\s*|\([^)]*\)\s*)*:\s", re.M)
WORD = re.compile(r"[^\s(){}\[\]:;.,|«»`\"]+")
# the lemmas whose names a definition has once both are in snake case
FALLS_TOGETHER = ("latest-from kind-word all-differ times-within farm-within move-asked move-memory shown-asked"
                  " shown-lines offer-said offer-farm kept-all line-text row-texts farm-after day-text feed-all"
                  " has-number old-job-fails quotes-told chunk-finish in_order sorted_front all_digits").split()


def snake(name):
    s = re.sub(r"(?<=[a-z0-9₀])([A-Z])", lambda m: "_" + m.group(1).lower(), name)
    return s.replace("-", "_")


def files(root):
    for folder, dirs, names in os.walk(os.path.join(root, "crates")):
        dirs[:] = sorted(d for d in dirs if d != "out")
        for n in sorted(names):
            yield os.path.join(folder, n)


def read(path):
    with open(path, encoding="utf-8") as f:
        return f.read()


def is_lemma_file(path):
    return re.search(r"/crates/\w+/(specs/.*|proofs/[^/]+)\.antt$", path)


def renamed(root):
    new = {}
    for path in files(root):
        if is_lemma_file(path):
            for m in DECLARED.finditer(read(path)):
                name = m.group(1)
                if name in FALLS_TOGETHER:
                    new[name] = snake(name) + "_lem"
                elif not name[0].isupper() and snake(name) != name:
                    new[name] = snake(name)
    return new


def turned(text, new):
    return WORD.sub(lambda m: new.get(m.group(0), m.group(0)), text)


def in_ticks(text, new):
    return re.sub(r"`[^`\n]*`", lambda m: turned(m.group(0), new), text)


def by_line(text, new, comment):
    out = []
    for line in text.split("\n"):
        at = line.find(comment)
        code, rest = (line, "") if at < 0 else (line[:at], line[at:])
        quoted = re.split(r'("(?:[^"\\]|\\.)*")', code)
        out.append("".join(q if i % 2 else turned(q, new) for i, q in enumerate(quoted)) + in_ticks(rest, new))
    return "\n".join(out)


def main():
    root = os.getcwd()
    new = renamed(root)
    for path in files(root):
        if path.endswith((".rt", ".antt", ".edit")):
            old = read(path)
            text = by_line(old, new, "--" if path.endswith(".antt") else "//")
            if text != old:
                with open(path, "w", encoding="utf-8") as f:
                    f.write(text)
    pages = [os.path.join(root, "README.md")]
    for folder, _, names in os.walk(os.path.join(root, "docs")):
        pages += [os.path.join(folder, n) for n in names if n.endswith(".md")]
    for path in pages:
        old = read(path)
        text = in_ticks(old, new)
        if text != old:
            with open(path, "w", encoding="utf-8") as f:
                f.write(text)
    print(f"{len(new)} names")


if __name__ == "__main__":
    sys.exit(main())
