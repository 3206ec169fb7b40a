#!/usr/bin/env python3
"""Lists where a design that an older language asked for may still stand in src/, point by point (docs/DESIGN-PASS.md).

    python3 tools/places.py [FOLDER] [POINT]      FOLDER: a checkout, this one if none is named

The list is a net with wide meshes: a line of it is a place to be read, not yet a fault.
"""
import collections
import glob
import os
import re
import sys

ROOT = sys.argv[1] if len(sys.argv) > 1 else os.path.join(os.path.dirname(__file__), "..")
ONLY = sys.argv[2] if len(sys.argv) > 2 else None

FILES = {}
for path in sorted(glob.glob(os.path.join(ROOT, "crates/*/src/**/*.rt"), recursive=True)):
    with open(path, encoding="utf-8") as f:
        FILES[os.path.relpath(path, os.path.join(ROOT, "crates"))] = f.read().split("\n")

found = collections.OrderedDict()


def note(point, place, text):
    found.setdefault(point, []).append((place, " ".join(text.split())))


def grep(point, pattern):
    for name, lines in FILES.items():
        for i, line in enumerate(lines):
            if re.search(pattern, line):
                note(point, f"{name}:{i + 1}", line)


def blocks(pattern):
    """Items that open with the pattern and end at a closing brace of the same indent."""
    for name, lines in FILES.items():
        for i, line in enumerate(lines):
            if re.search(pattern, line):
                indent = re.match(r"\s*", line).group()
                j = i
                while j < len(lines) and not (lines[j].startswith(indent + "}") or (j == i and lines[j].rstrip().endswith(("}", ";")))):
                    j += 1
                yield name, i, lines[i:max(j, i + 1)]


def functions():
    """Each function: its place, name, parameters' names, and clauses."""
    for name, lines in FILES.items():
        text = "\n".join(lines)
        for m in re.finditer(r"^[ ]*(?:pub(?:\([a-z]+\))? )?(?:const )?fn (\w+)(?:<[^(]*>)?\(", text, re.M):
            depth, k = 1, m.end()
            while depth:
                depth += {"(": 1, ")": -1}.get(text[k], 0)
                k += 1
            params = re.findall(r"(?:^|,|\n)\s*(?:mut )?(_?\w+):", "," + text[m.end():k - 1])
            head = re.split(r"\{\}?$|;$", text[k:], maxsplit=1, flags=re.M)[0]
            clauses = re.findall(r"(requires|ensures)(?: \w+)? \{(.*)\}", head)
            yield f"{name}:{text.count(chr(10), 0, m.start()) + 1}", m.group(1), params, clauses


# 1: shapes of Option and Result, flags with values, numbers for kinds and refusals.
for name, i, body in blocks(r"^\s*(pub(\(crate\))? )?enum \w+"):
    indent = len(re.match(r"\s*", body[0]).group()) + 4
    variants = [b for b in body[1:] if re.match(r"\s{%d}[A-Z]" % indent, b)]
    data = [v for v in variants if re.search(r"[({]", v)]
    if (len(variants) == 2 and data) or [v for v in variants if re.search(r"\b(Wrong|Refused|No\w+|Not\w+|Failed)\b", v)]:
        note("1a enum that may be an Option or a Result", f"{name}:{i + 1}", body[0])
grep("1b number for a kind, a state or a refusal", r"fn (\w*number_of|kind_of|mode_of|bit_of|half_of|lane_of)\(|^\s*const (NONE|FAILED|MATCHED|HEADER|RULE|LABEL|SET|SPENT)\b|match kind_of|match bits")
grep("1c flag with a value beside it", r"^\s+(pub )?(matched|noted|stage|mode): (bool|u8)")
grep("1d value handed out beside a Result", r"\) -> \(.*Result<\(\), |^\s*grammar: &mut Grammar")
grep("1e error handed on by hand", r"Err\((\w+)\) => (Err\(\1\)|\{$|return Err)|^\s*(return )?Err\(Wrong::NotUnderstood\)|return Err\(anyhow!")
grep("1f function whose number says nothing", r"fn \w+(<E>)?\(\) -> u8")

# 2: functions of one name or of one body in two places.
bodies = collections.defaultdict(list)
for name, i, body in blocks(r"^\s*(pub(\(crate\))? )?(const )?fn \w+"):
    fn = re.search(r"fn (\w+)", body[0]).group(1)
    opened = [k for k, b in enumerate(body) if b.strip() == "{"]
    text = "\n".join(body[opened[0]:] if opened else body[1:])
    text = re.sub(r"\b(self|u8|u16|u32|u64|usize|[0-9]+)\b", "_", re.sub(r"\b[A-Z]\w*::", "", text))
    bodies[re.sub(r"\s+", " ", text)].append((f"{name}:{i + 1}", fn))
for text, places in bodies.items():
    if len(places) > 1 and len(text) > 30:
        note("2a bodies that differ in types and numbers alone", ", ".join(p for p, _ in places), ", ".join(f for _, f in places))
names = collections.defaultdict(list)
for place, fn, _, _ in functions():
    if not re.search(r"/(tests|main)\.rt", place):
        names[fn].append(place)
for fn, places in names.items():
    if len(places) > 1 and fn not in ("fmt", "from", "drop", "new", "main", "try_from"):
        note("2b functions of one name", ", ".join(places), fn)
grep("2c tables that stand more than once", r"^\s*(pub )?static \w+: \[u32; 23\]")

# 3: loops over an index.
for name, lines in FILES.items():
    for i, line in enumerate(lines):
        m = re.search(r"for (\w+) in (0|\w+)\.\.", line)
        if m and m.group(1) != "_":
            body = "\n".join(lines[i + 1:i + 12])
            if re.search(r"\[[^\]]*\b%s\b[^\]]*\]" % m.group(1), body):
                note("3a loop that counts an index", f"{name}:{i + 1}", line)
grep("3b counter kept by hand", r"^\s*\w+(\.\w+)? \+= 1;|for _ in 0\.\.")
grep("3c loop that a method of the library may say", r"for \(?i, \w+\)? in .*enumerate|while let Some\(\(")

# 4: conversion, comparison, dropping and printing by hand.
grep("4a conversion or printing by hand", r"fn \w+\(.*(Mode|Fact|Layer|Wrong|Refusal|u8|u32)\) -> (u8|usize|Mode|&'static str)|fn show_\w+")
grep("4b order or equality by hand", r"\w+\.place < \w+\.place|self\.\w+ == \w+ && self\.")
grep("4c drop by hand", r"^impl Drop for")
grep("4d blank or empty value by hand", r"fn (blank|none|none_recovered)\(|^const NOTHING")

# 5: facts in three contracts or more, parameters that travel together.
facts = collections.defaultdict(list)
groups = collections.defaultdict(list)
for place, fn, params, clauses in functions():
    for kind, clause in clauses:
        facts[(kind, re.sub(r"\s+", " ", clause.strip()))].append(f"{place} {fn}")
    named = [p for p in params if p not in ("rt", "heap", "f", "script")]
    for k in range(len(named)):
        for n in (2, 3, 4):
            if k + n <= len(named):
                groups[tuple(p.lstrip("_") for p in named[k:k + n])].append(f"{place} {fn}")
for (kind, clause), places in facts.items():
    if len(places) > 2:
        note("5a fact in three contracts or more", f"{len(places)} contracts", f"{kind} {{ {clause} }}")
for group, places in groups.items():
    if len(places) > 2 and not any(len(g) > len(group) and places == groups[g] for g in groups):
        note("5b parameters that travel together", f"{len(places)} functions", ", ".join(group))

# 6: buffers with a length beside them.
for name, i, body in blocks(r"^\s*(pub(\(crate\))? )?(struct \w+.*\{$|Whole \{$)"):
    for k, line in enumerate(body):
        if re.match(r"\s+(pub(\(\w+\))? )?(size|count|capacity|taken|places|rules): (u8|u16|u32|usize),", line):
            note("6 length beside a buffer", f"{name}:{i + k + 1}", f"{line} in {body[0]}")

# 7: switches on which step to run.
grep("7 switch on a step", r"match (control|fact|step|kind)\b|Fact::\w+ => ")

total = 0
for point, places in found.items():
    if ONLY and not point.startswith(ONLY):
        continue
    print(f"{point}: {len(places)}")
    for place, text in places:
        print(f"    {place}: {text}")
