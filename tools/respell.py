#!/usr/bin/env python3
"""Respells the names of this repository's own definitions and lemmas as today's Rattle spells them.

usage: python3 tools/respell.py [--dry]      at the top of the repository, once, after the kit's port.py

Types and facts are in upper camel case, everything else is in snake case. A name's type decides: what is declared as data
or as a record, or what gives a Type 0, is a type. Functions of src/, strings, inputs and outputs keep their names, comments
their words. It says which names fall together or are taken already, and then writes nothing.
"""

import os
import re
import sys

# names whose spelling does not follow from their form alone
SPECIAL = {
    "zero?": "is_zero",
    "Recovers": "recovers_lem",
    "is-nothing": "is_nothing_lem",
    "note-fits": "note_fits_lem",
    "places-fit": "places_fit_lem",
    "is-accepted": "is_accepted_lem",
    "first-label": "first_label_lem",
    "bit-or": "bit-bit_or",
    "Not-row": "IsNotRow",
    "P-of": "p_of",
    "Q-of": "q_of",
    "asks": "Asks",
    "asks-words": "AsksWords",
    "asks-references": "AsksReferences",
    "asks-work": "AsksWork",
    "asks-form": "AsksForm",
    "T-so": "T-so",
    "so-T": "so-T",
}

WORD = r"[^\s(){}\[\];,.]+"


def files(root, ends):
    for folder, dirs, names in os.walk(os.path.join(root, "crates")):
        dirs[:] = sorted(d for d in dirs if d != "out")
        for name in sorted(names):
            if name.endswith(ends):
                yield os.path.join(folder, name)


def respelled(name, is_type):
    if name in SPECIAL:
        return SPECIAL[name]
    if is_type:
        return "".join(p[:1].upper() + p[1:] for p in re.split("[-_]", name))
    return re.sub(r"-(?=[\w'])", "_", name)


def declarations(path):
    """The names that a file declares, each with whether it is a type."""
    with open(path, encoding="utf-8") as f:
        lines = f.read().split("\n")
    for n, line in enumerate(lines):
        if line.lstrip().startswith("--"):
            continue
        m = re.match(r"^(\s*)((?:(?:abbrev|unfoldable|pub|mutual)\s+)*)(data\s+|record\s+)?(" + WORD + r")(\s+[({].*)?\s+:(\s.*)?$", line)
        if not m:
            continue
        indent, _, kind, name, binders, rest = m.groups()
        if re.match(r"^[(λ×→⊎=]", name) or "goal." in line:
            continue
        signature = rest or ""
        k = n + 1
        while k < len(lines) and lines[k].startswith(indent + "  ") and not re.match(r"^\s*(pub |--)", lines[k]):
            signature += " " + lines[k].strip()
            k += 1
        is_type = bool(kind) or bool(re.search(r"Type 0( where)?\s*$", rest or "")) and name[:1].isupper()
        if not kind and name[:1].isupper() and not is_type and re.search(r"Type 0\b", signature):
            is_type = True
        yield name, is_type


def names_of(root):
    found = {}
    for path in files(root, ".antt"):
        for name, is_type in declarations(path):
            found[name] = found.get(name, False) or is_type
    return {a: respelled(a, t) for a, t in found.items() if respelled(a, t) != a}, set(found)


def outside_comments(text, mark, change):
    lines = []
    for line in text.split("\n"):
        cut = re.search(r"(^|\s)" + mark, line)
        head, tail = (line[: cut.start()], line[cut.start():]) if cut else (line, "")
        lines.append(change(head) + tail)
    return "\n".join(lines)


def turn(text, mapped):
    """Behind a dot stands a field, or a step of a proof by the name of its function, which has no special spelling."""

    def one(m):
        name = m.group(0)
        if name not in mapped:
            return name
        return name.replace("-", "_") if name in SPECIAL and text[: m.start()].endswith(".") else mapped[name]

    return re.sub(WORD, one, text)


def clauses(text):
    """The parts of a source file that are antt: what stands in the braces of ghost items and clauses, and ghost use lines."""
    for m in re.finditer(r"\bghost\s+use\b[^;]*;|\b(?:requires|ensures|ghost)\b[^{};]*\{", text):
        if m.group(0).endswith(";"):
            yield m.start(), m.end()
            continue
        depth, k = 1, m.end()
        while depth and k < len(text):
            depth += {"{": 1, "}": -1}.get(text[k], 0)
            k += 1
        yield m.end(), k


def turned(path, mapped):
    with open(path, encoding="utf-8") as f:
        text = f.read()
    if path.endswith(".antt"):
        return text, outside_comments(text, "--", lambda t: turn(t, mapped))
    out, last = [], 0
    for a, b in sorted(clauses(text)):
        if a < last:
            continue
        out += [text[last:a], turn(text[a:b], mapped)]
        last = b
    return text, "".join(out) + text[last:]


def taken(root, mapped):
    """Names that would fall together, or are in use already where the old name stands."""
    said = []
    back = {}
    for a, b in mapped.items():
        back.setdefault(b, []).append(a)
    said += [f"{b}: {' '.join(sorted(a))}" for b, a in back.items() if len(a) > 1]
    for path in files(root, (".antt", ".rt")):
        with open(path, encoding="utf-8") as f:
            words = set(re.findall(WORD, re.sub(r"(^|\s)(--|//).*", "", f.read())))
        said += [f"{path}: {a} {mapped[a]}" for a in sorted(words & set(mapped)) if mapped[a] in words]
    return said


def main():
    root = os.getcwd()
    mapped, _ = names_of(root)
    said = taken(root, mapped)
    if "--dry" in sys.argv:
        for a in sorted(mapped):
            print(a, mapped[a])
    for line in said:
        print("taken:", line)
    if said or "--dry" in sys.argv:
        return 1 if said else 0
    for path in files(root, (".antt", ".rt", ".edit")):
        old, new = turned(path, mapped)
        if new != old:
            with open(path, "w", encoding="utf-8") as f:
                f.write(new)
    print(f"{len(mapped)} names respelled")
    return 0


if __name__ == "__main__":
    sys.exit(main())
