#!/usr/bin/env python3
"""Lists the places of docs/DESIGN-PASS.md in the sources: python3 tools/places.py [FOLDER], for one checkout.

1 enums, and numbers that stand for a kind or a refusal; 2 functions that differ only in types, sizes and constants; 3 loops that
are not `for`; 4 equality, conversion and printing by hand; 5 parameters that travel together, and facts that stand in three
contracts or more; 6 a buffer with its length beside it; 7 matches on numbers; 8 files and lines of the functions' proofs.
It finds by the text of crates/*/src alone, so each place is then read, and judged by hand on the page.
"""
import collections
import itertools
import pathlib
import re
import sys

TOP = pathlib.Path(sys.argv[1] if len(sys.argv) > 1 else ".")
TYPES = r"\b(u8|u16|u32|u64|usize|bool|bytes|halves|words|Full|Short|Mark|Idle|Send|Receipt)\b"


def functions(path):
    """Each function of a file: its name, parameters, result, contract and body."""
    text = re.sub(r"//.*", "", path.read_text())
    for found in re.finditer(r"\bfn (\w+)(<[^>(]*>)?\(", text):
        at, depth = found.end(), 1
        while depth:
            depth += {"(": 1, ")": -1}.get(text[at], 0)
            at += 1
        parameters = [p.strip() for p in re.split(r",(?![^<\[(]*[>\])])", text[found.end() : at - 1]) if p.strip()]
        start = at
        body = re.compile(r"\n *\{\n|[^{}]\{\n").search(text, at)
        if not body:
            continue
        at, depth = body.end(), 1
        while depth and at < len(text):
            depth += {"{": 1, "}": -1}.get(text[at], 0)
            at += 1
        head = text[start : body.start() + 1]
        result = re.match(r"\s*->\s*([^\n{]*)", head)
        yield found.group(1), parameters, result.group(1).strip() if result else "", head, text[body.end() : at - 1]


def all_functions():
    for path in sorted(TOP.glob("crates/*/src/**/*.rt")):
        for function in functions(path):
            yield (path.relative_to(TOP),) + function


def show(point, rows):
    rows = sorted(set(rows))
    print(f"\n## {point}: {len(rows)}")
    for row in rows:
        print("  " + row)


def lines(pattern):
    for path in sorted(TOP.glob("crates/*/src/**/*.rt")):
        for number, line in enumerate(path.read_text().split("\n"), 1):
            line = line.split("//")[0]
            if re.search(pattern, line):
                yield f"{path.relative_to(TOP)}:{number}: {line.strip()}"


def enums():
    for path in sorted(TOP.glob("crates/*/src/**/*.rt")):
        text = re.sub(r"//.*", "", path.read_text())
        for name, inside in re.findall(r"\benum (\w+)(?:<[^>]*>)? \{(.*?)\n\}", text, re.S):
            yield f"{path.relative_to(TOP)}: {name} {{ {' '.join(inside.split())} }}"


def plain(body):
    body = re.sub(r'b?"[^"]*"|b?\'[^\']*\'|0x[0-9A-Fa-f]+|\b\d+(u8|u16|u32|usize)?\b', "N", body)
    body = re.sub(TYPES, "T", body)
    body = re.sub(r"\w*(16|32|_half|_word|_halves|_words|_bytes)\b", "F", body)
    return " ".join(re.sub(r"\b\w+\b", lambda w: w.group(0), body).split())


def twins():
    groups = collections.defaultdict(list)
    for path, name, parameters, result, head, body in all_functions():
        if len(body.split()) > 3:
            groups[plain(body)].append(f"{path}: {name}")
    for names in groups.values():
        if len(names) > 1:
            yield "; ".join(names)


def together():
    held = collections.defaultdict(list)
    for path, name, parameters, result, head, body in all_functions():
        names = [p.split(":")[0].replace("mut ", "").strip() for p in parameters if ":" in p]
        for three in itertools.combinations(names, 3):
            held[three].append(f"{path.parts[1]}::{name}")
    for names, where in held.items():
        if len(where) > 2:
            yield f"{', '.join(names)}: {len(where)} functions"


def facts():
    held = collections.defaultdict(list)
    for path, name, parameters, result, head, body in all_functions():
        for clause in re.findall(r"requires(?: \w+)? \{(.*?)\}\s*(?=requires|ensures|$)", head, re.S):
            for fact in re.split(r"×", clause):
                fact = " ".join(fact.split()).strip("() ")
                if fact:
                    held[fact].append(f"{path.parts[1]}::{name}")
    for fact, where in held.items():
        if len(where) > 2:
            yield f"{fact}: {', '.join(where)}"


show("1a own enums", enums())
show("1b numbers that stand for a kind, a refusal or nothing", lines(r"\(u8, usize\)|Refused\(\d+|Stop\(\d+|number: u8|-> bool|: bool,$|128,$|report\.len\(\);$"))
show("2 functions that are the same but for types, sizes and constants", twins())
show("3 loops that are not `for`", lines(r"^\s*(while|loop)\b"))
show("4 equality, conversion and printing by hand", lines(r"\.0 [!=]= |== \w+\.\w+\.0|rt\.print\(|write_all\(|/ 256|\* 256|256 \*|65536"))
show("5a parameters that travel together", together())
show("5b facts in three contracts or more", facts())
show("6 a buffer with a length or a place beside it", (f"{p}: {n}" for p, n, ps, r, h, b in all_functions() if any(":" in x and "[" in x for x in ps) and any(re.match(r"(mut )?(size|end|count|n|len|length): usize", x) for x in ps)))
show("7 matches on numbers, tables of functions", lines(r"^\s*(0x[0-9A-F]+|\d+) =>|fn\(|dyn "))
proofs = [p for p in TOP.glob("crates/*/proofs/**/*.antt") if p.name in ("Answers.antt", "Invariants.antt") and p.parent.name != "proofs"]
print(f"\n## 8 functions' proofs: {len(proofs)} files, {sum(len(p.read_text().splitlines()) for p in proofs)} lines, {sum(len(re.findall(r'^pub ', p.read_text(), re.M)) for p in proofs)} answers")
