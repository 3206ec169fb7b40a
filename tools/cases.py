#!/usr/bin/env python3
"""The cases of the crate vectors, the same at every run:

    python3 tools/cases.py > crates/vectors/stdin

Grammars are written as trees and numbered from the parts up. tools/evaluate.py says what a line is, and answers it.
"""
import random
import sys
from itertools import product

from evaluate import CALL, CHOICE, EMPTY, NOT, REPETITION, SEQUENCE, TERMINAL, THROW, Refused
from evaluate import byte_text, check, log_text, parse

NOTHING = (EMPTY,)


def seen(first, mark=0, last=None):
    """A terminal of a byte, or of bytes from the first to the last."""
    return (TERMINAL, ord(first), ord(last or first), mark)


def event(kind, loop, mark=0):
    return (TERMINAL, kind, loop, mark)


def call(rule):
    return (CALL, rule)


def then(*parts):
    return parts[0] if len(parts) == 1 else (SEQUENCE, parts[0], then(*parts[1:]))


def other(a, b, caught=0):
    return (CHOICE, a, b, caught)


def many(a):
    return (REPETITION, a)


def no(a):
    return (NOT, a)


def throw(label):
    return (THROW, label)


def word(kind, a=0, b=0, c=0):
    return kind << 28 | a << 18 | b << 8 | c


def row(rules, labels=(), sets=((0,),)):
    """The words of a grammar: trees for rules, trees or None for labels, labels caught for sets."""
    expressions = []

    def put(tree):
        expressions.append(word(tree[0], *[put(x) if isinstance(x, tuple) else x for x in tree[1:]]))
        return len(expressions) - 1

    bodies = [put(tree) for tree in rules]
    recoveries = [None if tree is None else put(tree) for tree in labels]
    return ([word(8, len(expressions), len(bodies), len(recoveries))] + [word(9, body) for body in bodies]
            + [word(10) if e is None else word(10, e, 1) for e in recoveries]
            + [word(11) | sum(1 << l for l in caught) for caught in sets] + expressions)


written = set()


def case(words, text, frames=64):
    if isinstance(text, str):
        shown = [f"{ord(x):02X}" for x in text]
    else:
        shown = ["log"] + [f"{x:08X}" for x in text]
    line = " ".join([*(f"{w:08X}" for w in words), "|", *shown, "|", str(frames)])
    if line not in written:
        written.add(line)
        print(line)


def cases(words, texts, frames=64):
    for text in texts:
        case(words, text, frames)


def depth(words, text):
    accepts = byte_text(text.encode()) if isinstance(text, str) else log_text(text)
    return parse(check(words), accepts, 10**9).depth


def every_count(words, text):
    """Every number of frames from 0 to one more than the depth."""
    for frames in range(depth(words, text) + 2):
        case(words, text, frames)


def short(alphabet, size):
    """All texts over an alphabet, up to a size."""
    return ["".join(x) for n in range(size + 1) for x in product(alphabet, repeat=n)]


SITE = row([then(many(call(1)), no(seen("\0", 3, "\xFF"))),
            then(seen("L"), many(call(2)), other(seen(";", 2), throw(1))),
            seen("0", 1, "9")],
           [many(then(no(seen("L")), seen("\0", 3, "\xFF")))])


def worked():
    print("# site files: lines, a missing semicolon skipped to the next L")
    cases(SITE, ["", "L1;", "L1", "L1L2;", "L1;L2;", "L;", "L", ";", "1", "L1;x", "L1x;L2", "LL", "L123;L4567;L89;"])
    every_count(SITE, "L1;")
    every_count(SITE, "L1L2;")
    print("# rows that the check refuses, and their neighbours that it accepts")
    for words in ["80040100 90000000 20000000", "80080100 90040000 00000000 50000000",
                  "80040101 90000000 A0000100 70040000", "80040101 90000000 A0000000 70040000",
                  "80080101 90040000 A0040100 70040000 60000000", "80040100 90000000", "70040100 90000000 00000000",
                  "80040100 90000001 00000000", "80040100 90000000 10000020", "80040100 90000000 1000001F",
                  "80040100 90040000 00000000", "80040100 90000000 20040000", "80040101 90000000 A0000000 70080000",
                  "80080100 90040000 30040100 00000000"]:
        case([int(w, 16) for w in words.split()], "A")


# Each kind of expression; a and b are the texts' letters, marks tell terminals apart.
A, B = seen("a", 1), seen("b", 2)
KINDS = [NOTHING, A, (TERMINAL, 98, 97, 4), (TERMINAL, 0, 1023, 5), (TERMINAL, 256, 1023, 6), call(1), then(A, B), then(A, throw(1)),
         other(A, B), other(A, B, 1), other(then(A, B), A), other(throw(1), B), other(throw(1), B, 1), many(A),
         many(then(A, B)), many(other(A, throw(1))), no(A), no(throw(1)), no(then(A, B)), throw(1), throw(2), throw(3)]


def every_kind():
    print("# every kind of expression, as a rule's body, followed by b, and under one predicate and under two")
    for kind in KINDS:
        for body in [kind, then(kind, B), no(kind), no(no(kind)), then(no(no(kind)), kind)]:
            words = row([body, then(A, B)], [B, None, many(B)], [(0,), (1,)])
            cases(words, ["", "ab", "bba"] if body is kind else ["ab"])


def labels_and_sets():
    print("# which labels a choice catches: sets of none, 0, 1, 2, 0 and 2, and 27")
    failing = [A, throw(1), throw(2), throw(27), then(seen("x"), throw(2))]
    for caught, tree in product(range(6), failing):
        words = row([other(tree, seen("x", 3), caught)], [None] * 27, [(), (0,), (1,), (2,), (0, 2), (27,)])
        case(words, "x")
    print("# a label that passes a sequence, a repetition, a call and a choice, and is caught at last")
    words = row([other(then(A, many(call(1))), then(A, B), 1), other(B, then(A, throw(1)))], [None], [(0,), (1,)])
    cases(words, ["", "a", "ab", "aa", "aba", "abb", "abx"])


def recovery():
    print("# recovery under predicates: a rule that throws is recovered in mode on and fails in mode off")
    thrower = other(A, throw(1))
    for body in [no(call(1)), no(no(call(1))), then(no(no(call(1))), call(1)), other(no(call(1)), call(1)),
                 other(no(call(1)), call(1), 1), then(call(1), other(no(no(call(1))), call(1), 1)),
                 no(then(A, no(call(1)))), other(no(no(no(call(1)))), NOTHING, 1)]:
        words = row([body, thrower], [many(B)], [(0,), (1,)])
        cases(words, ["", "a", "b", "abb"])
    print("# recoveries in sequences, choices and repetitions")
    need = other(B, throw(1))
    for body in [then(need, need), then(need, throw(2), need), then(throw(2), throw(1)), many(then(A, need)),
                 other(then(need, seen("c", 3)), need), other(then(A, need), then(A, throw(2))),
                 then(many(then(A, need)), no(seen("\0", 9, "\xFF"))), many(then(A, other(no(seen("c", 3)), throw(2)))),
                 other(many(then(A, need, need)), throw(2)), then(many(then(A, need)), seen("c", 3))]:
        words = row([body], [many(seen("x", 4)), NOTHING])
        cases(words, ["", "a", "ab", "aab", "aax", "axbac"])
    print("# a repetition that fails in a later round: what was recovered in the rounds before is not counted")
    words = row([many(then(A, need, other(no(seen("c", 3)), throw(3))))], [many(seen("x", 4)), NOTHING, None])
    cases(words, ["aa", "ac", "aac", "axac", "abac"])
    print("# recovery expressions that throw, that call rules, and that fail with label 0 or with another")
    words = row([many(then(A, other(B, throw(1)))), other(seen("x", 3), throw(2))],
                [then(call(1), other(seen("y", 4), throw(3))), many(seen("z", 5)), None])
    cases(words, ["a", "ab", "ax", "axy", "az", "azzy", "aby", "axyab", "azyazy"])
    for label in [A, seen("x", 7), throw(2), throw(3), no(throw(1)), no(NOTHING), then(seen("x", 7), throw(3)), no(no(throw(2)))]:
        words = row([other(then(A, throw(1)), A, 1)], [label, many(seen("x", 7)), None], [(0,), (0, 2, 3)])
        cases(words, ["a", "ax"])
    print("# so many recoveries that their count stops: 2 to the power of 15 and of 16, and two more or fewer")
    for power, more in [(15, 0), (16, 0), (16, 2)]:
        rules = [then(call(1), *[call(power)] * more)] + [then(call(r + 1), call(r + 1)) for r in range(1, power + 1)]
        words = row(rules + [throw(1)], [NOTHING])
        case(words, "")
    rules = [then(*[call(r) for r in range(1, 16)], call(16))] + [then(call(r + 1), call(r + 1)) for r in range(1, 16)]
    case(row(rules + [throw(1)], [NOTHING]), "")


def notes():
    print("# marks joined at equal places; the note further on stands")
    words = row([other(then(A, seen("x", 0)), other(then(A, seen("y", 31)), other(then(A, A, seen("z", 5)), then(A, seen("w", 7)))))])
    cases(words, ["", "a", "aa", "ax", "ay", "aaz", "aw", "b"])
    words = row([then(many(other(A, B)), no(seen("c", 3)), many(then(no(seen("d", 4)), seen("\0", 6, "\xFF"))), seen("e", 8))])
    cases(words, ["", "ab", "abc", "abd", "abxd", "abxe"])
    print("# a repetition's rounds look beyond their ends, and their notes are joined, whether it matches or fails")
    words = row([many(other(then(A, A, seen("x", 7)), other(A, throw(1))))], [None])
    cases(words, ["", "a", "aa", "aax", "aab"])
    words = row([many(other(then(A, A, A, seen("x", 7)), A))])
    cases(words, ["a", "aaa", "aaab", "aaax"])
    print("# notes of throws and of predicates that fail have no marks, and join those of their place")
    for body in [other(then(A, no(B)), then(A, seen("c", 3))), other(then(A, throw(1)), then(A, seen("c", 3)), 1),
                 then(A, throw(2)), then(A, no(no(seen("c", 3)))), no(NOTHING), other(no(throw(1)), A, 1)]:
        words = row([body], [None, many(B)], [(0,), (1,)])
        cases(words, ["", "a", "ab", "ac", "abb"])


def frames():
    print("# every number of frames, up to one more than the depth")
    every_count(row([then(A, no(then(B, call(1))), call(1)), other(B, throw(1))], [many(seen("x"))]), "axx")
    every_count(row([other(then(seen("(", 0), call(0), seen(")", 1), call(0)), NOTHING)]), "(())()")
    every_count(row([other(then(A, call(0)), NOTHING)]), "aaaa")
    every_count(row([other(then(call(1), seen("x")), other(then(call(1), seen("y")), call(1))), many(then(A, B))]), "aby")
    every_count(row([many(call(1)), then(no(no(then(A, throw(1)))), A)], [NOTHING]), "a")
    print("# a rule-place that is known, found where it would be too deep")
    words = row([then(no(no(call(1))), no(no(no(no(call(1)))))), many(A)])
    every_count(words, "aa")


def nested():
    print("# nesting: brackets with a recovery, and lists within lists")
    words = row([then(many(call(1)), no(seen("\0", 9, "\xFF"))), other(seen("a", 1), then(seen("(", 0), many(call(1)), other(seen(")", 2), throw(1))))],
                [many(then(no(seen(")", 2)), seen("\0", 3, "\xFF")))])
    cases(words, ["", "a", "(a)", "((a)(a))", "((a)", "(a", "a)", "((((", "(ab)a", "()()"])
    print("# rules read again and again at one place, and more of them than a ring holds")
    words = row([other(then(many(call(1)), seen("x", 3)), other(then(many(call(1)), seen("y", 4)), then(many(call(1)), many(call(2))))),
                 seen("a", 1), seen("b", 2)])
    cases(words, ["a" * n + end for n in (3, 63, 64, 70) for end in ("", "x", "y", "b")])
    twice = row([then(call(r), no(no(call(r + 1)))) if r < 14 else many(A) for r in range(1, 15)] + [then(A, A)])
    cases(twice, ["", "aa", "aaa"], 200)


def logs():
    print("# event logs: a kind with one loop, or with any by 16; no kind above 15, no loop above 16")
    texts = [[], [0x10000000], [0x1F000000], [0x13ABCDEF], [0x23000000], [0xF0000000]]
    for a, b in [(1, 0), (1, 16), (1, 15), (1, 3), (1, 17), (17, 16), (15, 16), (0, 16), (1, 19)]:
        cases(row([event(a, b, 9)]), texts if b == 16 else texts[1:4])
    print("# an alarm of a loop, then its reset; a reset that is missing skips to the next alarm of any loop")
    alarms = [then(event(1, n, n), other(event(2, n, 8), throw(1))) for n in (1, 2)]
    words = row([then(many(call(1)), no(call(2))), other(alarms[0], alarms[1]), other(event(1, 16, 16), event(2, 16, 17))],
                [many(then(no(event(1, 16, 18)), event(2, 16, 19)))])
    a1, a2, r1, r2, x = 0x11000001, 0x12000002, 0x21000003, 0x22000004, 0x30000000
    cases(words, [[], [a1, r1], [a1, r2], [a1, r2, a2, r2], [a1, a2, r2], [r1], [a1, r1, x], [a1], [a2, r1, r1, a1, r1]])
    every_count(words, [a1, r2, a2, r2])


def branches(rng, low, events):
    """A tree of a random kind over expressions that are trees too."""
    kind = rng.choice([TERMINAL] * 3 + [EMPTY, CALL, CALL, SEQUENCE, SEQUENCE, SEQUENCE, CHOICE, CHOICE, REPETITION, NOT, THROW, THROW])
    if low == 0 or kind == TERMINAL:
        mark = rng.randrange(8)
        return event(rng.randrange(2), rng.choice([0, 1, 16]), mark) if events else seen(rng.choice("ab"), mark, rng.choice("bb"))
    part = lambda: branches(rng, low - 1, events)
    if kind == CALL:
        return call(rng.randrange(3))
    if kind == THROW:
        return throw(1 + rng.randrange(3))
    if kind == CHOICE:
        return other(part(), part(), rng.randrange(4))
    return (kind, *[part() for _ in range({SEQUENCE: 2, REPETITION: 1, NOT: 1, EMPTY: 0}[kind])])


def random_text(rng, events):
    size = rng.randrange(8)
    if events:
        return [rng.randrange(2) << 28 | rng.randrange(2) << 24 | rng.randrange(256) for _ in range(size)]
    return "".join(rng.choice("abc") for _ in range(size))


def drawn(rng, events):
    """A well-formed grammar and a text that say more than that a first terminal failed."""
    while True:
        tree = lambda: branches(rng, 4, events)
        words = row([tree() for _ in range(3)], [rng.choice([None, tree(), tree()]) for _ in range(3)], [(0,), (0, 1), (1, 2), (0, 1, 2, 3)])
        text = random_text(rng, events)
        try:
            grammar = check(words)
        except Refused:
            continue
        done = parse(grammar, log_text(text) if events else byte_text(text.encode()), 60)
        if done.given is None or done.fresh < 3 or done.depth < 6 or len(words) > 60:
            continue
        return words, text, done


def at_random(seed, count, events):
    print(f"# drawn at random, {'event logs' if events else 'bytes'}; each class of answers as often as another")
    rng = random.Random(seed)
    left = {kind: count for kind in ("match", "recovered", "fail", "label", "deep")}
    while any(left.values()):
        words, text, done = drawn(rng, events)
        given = done.given
        kind = "recovered" if given.recoveries else "match" if given.label is None else "label" if given.label else "fail"
        if left["deep"] and rng.randrange(4) == 0:
            left["deep"] -= 1
            case(words, text, rng.randrange(1, done.depth))
        elif left[kind]:
            left[kind] -= 1
            case(words, text, rng.choice([done.depth, done.depth + 1, 64]))


if __name__ == "__main__":
    sys.setrecursionlimit(10000)
    worked()
    every_kind()
    labels_and_sets()
    recovery()
    notes()
    frames()
    nested()
    logs()
    at_random(1, 30, False)
    at_random(2, 10, True)
