#!/usr/bin/env python3
"""Brings the names of definitions and lemmas to snake case: `recordAt` and `record-at` become `record_at`.

usage: tools/respell.py          at the top of the repository, once, after the toolchain's own port.py

What is renamed: each name that a file of specs/, or a file of lemmas of proofs/, declares in lower case with a dash or a capital:
definitions, lemmas, constructors and fields. Types, modules, functions of src/, strings and the names that the toolchain makes keep
theirs. A lemma whose name would fall together with a definition's gets the ending `_lem`. Renamed too is each use: in specs/, proofs/,
src/, must-fail/, and in backticks in pages and comments. The crate `log` becomes `logs`, for the toolchain has a library of its name.
"""

import os
import re
import sys

WORD = re.compile(r"[^\W\d][\w'′-]*", re.UNICODE)
HEAD = r"\s*(?:(?:abbrev|unfoldable|pub|opaque)\s+)*"
DECLARED = re.compile(HEAD + r"([a-z][\w'-]*)\s+:\s", re.UNICODE)
RULESET = re.compile(HEAD + r"ruleset\s+([a-z][\w'-]*)", re.UNICODE)
IMPORTED = re.compile(r"^\s*(?:ghost )?use (?!Rattle\.(?:%s)\.)[^{}\n]*\{([^}]*)\}", re.M)
# the laws of bits are named after the library's operations on words, and two lemmas have the name of a definition already
BY_HAND = {
    "bit-and": "bit-bit_and",
    "bit-or": "bit-bit_or",
    "bit-xor": "bit-bit_xor",
    "answer_at": "answer_at_lem",
    "flag_at": "flag_at_lem",
}


def files(top, *endings):
    for folder, dirs, names in os.walk(top):
        dirs[:] = sorted(d for d in dirs if d not in ("out", "target", ".git"))
        for name in sorted(names):
            if name.endswith(endings):
                yield os.path.join(folder, name)


def read(path):
    with open(path, encoding="utf-8", errors="surrogateescape") as f:
        return f.read()


def snake(name):
    name = re.sub(r"(?<=[a-z0-9])([A-Z])", lambda m: "_" + m.group(1), name)
    name = re.sub(r"([A-Z])(?=[A-Z][a-z])", r"\1_", name) if re.search(r"[A-Z]{2}[a-z]", name) else name
    return name.replace("-", "_").lower() if not re.search(r"-[A-Z]", name) else keep_capitals(name)


def keep_capitals(name):
    # a log of the scope has a capital for its name, as in `overtaken-in-B`
    return "_".join(part if re.fullmatch(r"[A-Z]\d*", part) else part.lower() for part in name.replace("-", "_").split("_"))


def is_lemmas(path):
    """Whether the file is of specs/, or of lemmas: not of a function's folder of proofs/."""
    return "/specs/" in path or re.search(r"/proofs/[^/]+\.antt$", path)


def renamings(crates):
    own = {}
    for path in files(crates, ".antt"):
        if is_lemmas(path):
            for line in read(path).split("\n"):
                m = DECLARED.match(line) or RULESET.match(line)
                if m and not line.lstrip().startswith("--"):
                    own.setdefault(m.group(1), path)
    map_of, to_of = dict(BY_HAND), {}
    # definitions first, so that a lemma makes way for them
    for name in sorted(own, key=lambda n: ("/specs/" not in own[n], "-" in n, n)):
        to = BY_HAND.get(name) or snake(name)
        while to in to_of:
            print(f"falls together: {name} and {to_of[to]}, at {to}")
            to += "_lem"
        to_of[to] = name
        if to != name:
            map_of[name] = to
    return map_of


def words(text, map_of):
    return WORD.sub(lambda m: map_of.get(m.group(0), m.group(0)), text)


def ticked(text, map_of):
    """Renames in backticks, and elsewhere what has a capital inside, which no English word has."""
    text = re.sub(r"`[^`\n]*`", lambda m: words(m.group(0), map_of), text)
    return WORD.sub(lambda m: map_of.get(m.group(0), m.group(0)) if re.search(r"[a-z][A-Z]", m.group(0)) else m.group(0), text)


def code(text, map_of, mark, skip):
    out = []
    for line in text.split("\n"):
        at = re.search(r"(?:^|\s)" + mark + r"(?:\s|$)", line)
        cut = at.start() if at else len(line)
        here = {k: v for k, v in map_of.items() if k not in skip} if skip else map_of
        out.append(words(line[:cut], here) + ticked(line[cut:], map_of))
    return "\n".join(out)


def rename_crate(old, new):
    """The crate's folder, and its name in crates.txt, in paths and before `::`."""
    if not os.path.isdir(f"crates/{old}"):
        return
    os.rename(f"crates/{old}", f"crates/{new}")
    for path in list(files(".", ".antt", ".rt", ".edit", ".md", ".txt")):
        text = read(path)
        new_text = re.sub(rf"\bRattle\.{old}\.", f"Rattle.{new}.", text)
        new_text = re.sub(rf"(?<![\w:.]){old}::", f"{new}::", new_text)
        new_text = re.sub(rf"\bcrates/{old}\b", f"crates/{new}", new_text)
        if path == "./crates.txt":
            new_text = re.sub(rf"\b{old}\b", new, new_text)
        if new_text != text:
            with open(path, "w", encoding="utf-8", errors="surrogateescape") as f:
                f.write(new_text)


def main():
    if not os.path.isdir("crates"):
        sys.exit("respell: run it at the top of the repository")
    if not os.path.isdir("crates/log"):
        sys.exit("respell: there is no crate log, so it has run here already")
    crates = sorted(os.listdir("crates"))
    imported = re.compile(IMPORTED.pattern % "|".join(crates), re.M)
    map_of = renamings("crates")
    changed = 0
    for path in list(files(".", ".antt", ".rt", ".edit", ".md")):
        text = read(path)
        if path.startswith("./docs/PORT"):
            continue
        if path.endswith(".md"):
            new = ticked(text, map_of)
        elif path.endswith(".edit"):
            new = "\n".join(words(l, map_of) if re.match(r"(old|new):", l) else ticked(l, map_of) for l in text.split("\n"))
        else:
            # a name of the library that has the spelling of one of ours stays, where the library's is imported
            skip = {n for m in imported.finditer(text) for n in WORD.findall(m.group(1)) if n in map_of}
            if skip:
                print(f"the library's: {sorted(skip)} in {path}")
            new = code(text, map_of, "//" if path.endswith(".rt") else "--", skip)
        if new != text:
            changed += 1
            with open(path, "w", encoding="utf-8", errors="surrogateescape") as f:
                f.write(new)
    rename_crate("log", "logs")
    print(f"respell: {len(map_of)} names, {changed} files")


if __name__ == "__main__":
    main()
