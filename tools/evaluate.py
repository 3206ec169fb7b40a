#!/usr/bin/env python3
"""An independent evaluator of grammars over texts, written from docs/GRAMMAR.md and docs/RULES.md alone.

It has no memory, no stack of its own and nothing of the crates: each rule is evaluated afresh wherever it is
called. It made the expected answers of the crate vectors, before the engine was run on these cases:

    python3 tools/evaluate.py < crates/vectors/stdin > crates/vectors/stdout

A case is a line `WORD.. | TEXT | FRAMES`: words in hexadecimal; the text as bytes in hexadecimal, or as `log` and
words; the number of frames in decimal. A line that opens with # is a heading, and stands in the answers too.
"""
import sys
from collections import namedtuple

EMPTY, TERMINAL, CALL, SEQUENCE, CHOICE, REPETITION, NOT, THROW = range(8)
ON, OFF = "on", "off"

Word = namedtuple("Word", "kind a b c")
Grammar = namedtuple("Grammar", "rules labels sets expressions base")  # base: the word of expression 0


def fields(word):
    return Word(word >> 28, word >> 18 & 1023, word >> 8 & 1023, word & 255)


# The check: questions 1 to 4, then 6 and 7 (the caller has work words enough for 5).


class Refused(Exception):
    """A number, a layer and a word."""


def layout(words):
    """Questions 1 and 2, and where the five parts begin: rules, labels, sets, expressions, end."""
    if not 3 <= len(words) <= 1156:
        raise Refused(1, "words", 0)
    head = fields(words[0])
    sets = len(words) - 1 - head.b - head.c - head.a
    if not (head.kind == 8 and 1 <= head.a <= 1000 and 1 <= head.b <= 64 and head.c <= 27 and 0 <= sets <= 64):
        raise Refused(2, "words", 0)
    return 1, 1 + head.b, 1 + head.b + head.c, len(words) - head.a, len(words)


def right(part, word, labels):
    """Is a word of its part's kind, with its zeros and within its ranges?"""
    kind, a, b, c = fields(word)
    if part == "rule":
        return kind == 9 and b == c == 0
    if part == "label":
        return kind == 10 and c == 0 and (b == 1 or a == b == 0)
    if part == "set":
        return kind == 11 and (word & 0xFFFFFFF) >> labels + 1 == 0
    if kind == EMPTY:
        return a == b == c == 0
    if kind == TERMINAL:
        return c <= 31
    if kind == SEQUENCE:
        return c == 0
    return kind == CHOICE or kind <= THROW and b == c == 0


def names(grammar, e):
    """Does expression e name only what exists, operands lower?"""
    kind, a, b, c = grammar.expressions[e]
    if kind == CALL:
        return a < len(grammar.rules)
    if kind == THROW:
        return 1 <= a <= len(grammar.labels)
    if kind in (SEQUENCE, CHOICE):
        return a < e and b < e and (kind == SEQUENCE or c < len(grammar.sets))
    return kind in (EMPTY, TERMINAL) or a < e


def parts(grammar, e, mode, nothing):
    """The leading parts of expression e, each with its mode."""
    kind, a, b, _ = grammar.expressions[e]
    if kind == CALL:
        return [(grammar.rules[a], mode)]
    if kind == SEQUENCE:
        return [(a, mode)] + ([(b, mode)] if (a, mode) in nothing else [])
    if kind == CHOICE:
        return [(a, mode), (b, mode)]
    if kind == REPETITION:
        return [(a, mode)]
    if kind == NOT:
        return [(a, OFF)]
    if kind == THROW and mode == ON and grammar.labels[a - 1] is not None:
        return [(grammar.labels[a - 1], ON)]
    return []


def may_match_nothing(grammar):
    """The smallest set of expressions, each with a mode, that may match nothing."""
    nothing = set()

    def may(e, mode):
        kind, a, b, _ = grammar.expressions[e]
        if kind in (EMPTY, REPETITION, NOT):
            return True
        if kind == CALL:
            return (grammar.rules[a], mode) in nothing
        if kind == SEQUENCE:
            return (a, mode) in nothing and (b, mode) in nothing
        if kind == CHOICE:
            return (a, mode) in nothing or (b, mode) in nothing
        return kind == THROW and mode == ON and (grammar.labels[a - 1], ON) in nothing

    while True:
        more = {(e, mode) for e in range(len(grammar.expressions)) for mode in (ON, OFF) if may(e, mode)}
        if more == nothing:
            return nothing
        nothing = more


def ending_walks(grammar, nothing):
    """The expressions, each with a mode, from which every walk to leading parts ends."""
    ending = set()
    while True:
        more = {(e, mode) for e in range(len(grammar.expressions)) for mode in (ON, OFF)
                if all(part in ending for part in parts(grammar, e, mode, nothing))}
        if more == ending:
            return ending
        ending = more


def check(words):
    """The grammar of a row of words, or Refused."""
    rules, labels, sets, base, end = layout(words)
    for w in range(1, end):
        part = "rule" if w < labels else "label" if w < sets else "set" if w < base else "expression"
        if not right(part, words[w], sets - labels):
            raise Refused(3, "words", w)
    grammar = Grammar([fields(w).a for w in words[rules:labels]],
                      [fields(w).a if fields(w).b else None for w in words[labels:sets]],
                      words[sets:base], [fields(w) for w in words[base:]], base)
    count = len(grammar.expressions)
    for w in range(1, end):
        named = [*grammar.rules, *grammar.labels][w - 1] if w < sets else None
        if named is not None and named >= count or w >= base and not names(grammar, w - base):
            raise Refused(4, "references", w)
    nothing = may_match_nothing(grammar)
    for e, (kind, a, _, _) in enumerate(grammar.expressions):
        if kind == REPETITION and ((a, ON) in nothing or (a, OFF) in nothing):
            raise Refused(6, "form", base + e)
    ending = ending_walks(grammar, nothing)
    for e in range(count):
        if not {(e, ON), (e, OFF)} <= ending:
            raise Refused(7, "form", base + e)
    return grammar


# What an expression gives. A match has label None, and its place is its end.

Given = namedtuple("Given", "label place note recoveries")
Parse = namedtuple("Parse", "given fresh depth")  # given: None if it was too deep


class TooDeep(Exception):
    pass


def joined(x, y):
    """Of two notes the one further on; of the same place, both marks."""
    if x is None or y is None:
        return x or y
    return (x[0], x[1] | y[1]) if x[0] == y[0] else max(x, y)


def parse(grammar, accepts, frames):
    """Rule 0 in mode on at place 0."""
    completed, deepest = [], 0

    def rule(r, i, mode, level):
        given = at(grammar.rules[r], i, mode, level)
        completed.append((r, i, mode))
        return given

    def at(e, i, mode, level):
        nonlocal deepest
        if level > frames:
            raise TooDeep
        deepest = max(deepest, level)
        kind, a, b, c = grammar.expressions[e]
        if kind == EMPTY:
            return Given(None, i, None, [])
        if kind == TERMINAL:
            return Given(None, i + 1, None, []) if accepts(a, b, i) else Given(0, i, (i, 1 << c), [])
        if kind == CALL:
            return rule(a, i, mode, level + 1)
        if kind == SEQUENCE:
            return sequence(a, b, i, mode, level + 1)
        if kind == CHOICE:
            return choice(a, b, grammar.sets[c], i, mode, level + 1)
        if kind == REPETITION:
            return repetition(a, i, mode, level + 1)
        if kind == NOT:
            return predicate(at(a, i, OFF, level + 1), i)
        return throw(a, i, mode, level + 1)

    def sequence(a, b, i, mode, level):
        first = at(a, i, mode, level)
        if first.label is not None:
            return first
        then = at(b, first.place, mode, level)
        recoveries = first.recoveries + then.recoveries if then.label is None else []
        return Given(then.label, then.place, joined(first.note, then.note), recoveries)

    def choice(a, b, caught, i, mode, level):
        first = at(a, i, mode, level)
        if first.label is None or not caught >> first.label & 1:
            return first
        other = at(b, i, mode, level)
        return other._replace(note=joined(first.note, other.note))

    def repetition(a, i, mode, level):
        note, recoveries = None, []
        while True:
            given = at(a, i, mode, level)
            note = joined(note, given.note)
            if given.label == 0:
                return Given(None, i, note, recoveries)
            if given.label is not None:
                return given._replace(note=note, recoveries=[])
            i, recoveries = given.place, recoveries + given.recoveries

    def predicate(inner, i):
        if inner.label is None:
            return Given(0, i, (i, 0), [])
        if inner.label == 0:
            return Given(None, i, None, [])
        return Given(inner.label, inner.place, (i, 0), [])

    def throw(label, i, mode, level):
        recovery = grammar.labels[label - 1]
        if mode == OFF or recovery is None:
            return Given(label, i, (i, 0), [])
        given = at(recovery, i, ON, level)
        recoveries = [(label, i)] + given.recoveries if given.label is None else []
        return given._replace(note=joined((i, 0), given.note), recoveries=recoveries)

    try:
        given = rule(0, 0, ON, 1)
    except TooDeep:
        given = None
    return Parse(given, len(set(completed)), deepest)


# Texts, and the lines.


def byte_text(elements):
    return lambda a, b, i: i < len(elements) and a <= elements[i] <= b


def log_text(elements):
    return lambda a, b, i: i < len(elements) and elements[i] >> 28 == a and (b == 16 or elements[i] >> 24 & 15 == b)


def shown(done):
    if done.given is None:
        return f"refused 10 fresh {done.fresh}"
    label, place, note, recoveries = done.given
    outcome = f"match {place}" if label is None else f"fail {label} {place}"
    far, marks = ("none", 0) if note is None else note
    first, first_at = recoveries[0] if recoveries else (0, 0)
    count = min(len(recoveries), 65535)
    return f"{outcome} far {far} marks {marks:08X} recovered {count} first {first} at {first_at} fresh {done.fresh}"


def answer(line):
    row, text, frames = (part.split() for part in line.split("|"))
    try:
        grammar = check([int(word, 16) for word in row])
    except Refused as refused:
        return "refused {} layer {} word {}".format(*refused.args)
    log = text[:1] == ["log"]
    elements = [int(element, 16) for element in (text[1:] if log else text)]
    return shown(parse(grammar, (log_text if log else byte_text)(elements), int(frames[0])))


if __name__ == "__main__":
    sys.setrecursionlimit(10000)
    for line in sys.stdin.read().splitlines():
        print(line if line.startswith("#") else answer(line))
