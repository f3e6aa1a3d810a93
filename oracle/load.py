#!/usr/bin/env python3
"""The load of a starting number, written from docs/LOAD.md alone.

    load.py START > batch           the bytes of one load
    load.py --table START..         the rows of the page's table
"""
import struct
import sys

MODULUS = 2**32
NODE = 2**31


def draws(start):
    """Draws 1, 2, .. of a starting number; place 0 holds none."""
    present, drawn = start, [None]
    for _ in range(195):
        present = (1664525 * present + 1013904223) % MODULUS
        drawn.append(present // 65536)
    return drawn


def separator(i):
    return 1 + 6 * i


def block(i):
    return 2 + 6 * i


def token(i, j):
    return 3 + 6 * i + j


def donor(d):
    return 770 + d


def trees():
    """Kind words, measures and text of the three trees."""
    rows = [(NODE + 1, 256, b"")]
    for i in range(128):
        rows.append((2, 1, b";"))
        rows.append((NODE + 3, 4, b""))
        rows += [(4, 1, bytes([ord("a") + (i + j) % 26])) for j in range(4)]
    rows.append((NODE + 5, 16, b""))
    rows += [(6, 1, bytes([ord("A") + d])) for d in range(16)]
    rows.append((NODE + 7, 1, b""))
    rows.append((NODE + 3, 4, b""))
    rows += [(4, 1, bytes([ord("0") + j])) for j in range(4)]
    return [r[0] for r in rows], [r[1] for r in rows], b"".join(r[2] for r in rows)


def free_call(i, b, what, place):
    """Operation, target and listed elements of a call in block b, for calls 3 to 31 and 33 to 63."""
    j, one, other = place // 64 % 4, donor(place // 256 % 16), donor(place // 4096)
    case = what % 8
    if case == 0:
        return 0, block(b), [one]
    if case in (1, 2):
        return 1, token(b, j), [one]
    if case == 3:
        return 1, separator(b), [one, other]
    if case in (4, 5):
        return 2, token(b, j), [one]
    if case == 6:
        return 3, token(b, j), []
    return (1, separator(b), [one]) if i <= 31 else (3, block(b), [])


def further_call(i, what, place):
    """Operation, target, listed elements and rule number of call i, from 3 on."""
    j, one, other = place // 64 % 4, donor(place // 256 % 16), donor(place // 4096)
    rule = what // 16
    if i == 32:
        return 6, 0, [], 0
    if i <= 31:
        return (*free_call(i, place % 64, what, place), rule)
    if i <= 63:
        return (*free_call(i, 64 + place % 32, what, place), rule)
    b = i + 32
    if what % 2 == 0:
        return 4, token(b, j), [one, other], rule
    return 5, token(b, 0), [token(b, j), one], rule


def calls(drawn):
    """Operation, target, listed elements and rule number of each call."""
    d = drawn[1]
    x, rule = d % 64, d // 16
    found = [
        (2, block(x), [786], rule),
        (1, token(x, d // 64 % 4), [donor(0)], rule),
        (1, token(d // 1024, d // 256 % 4), [donor(1)], rule),
    ]
    return found + [further_call(i, drawn[2 * i - 4], drawn[2 * i - 3]) for i in range(3, 96)]


def noted(drawn):
    return [drawn[187 + n] % 769 for n in range(1, 9)]


def load(start):
    """The batch of a starting number, as bytes."""
    drawn = draws(start)
    kinds, measures, text = trees()
    made = calls(drawn)
    listed = [e for c in made for e in c[2]]
    words = [3, len(kinds), len(text), len(made), len(listed), 1, 8]
    words += kinds + measures
    words += [op + 256 * len(l) + 1048576 * rule for op, _, l, rule in made]
    words += [target for _, target, _, _ in made]
    words += listed + [block(drawn[1] % 64)] + [787] + noted(drawn) + list(range(1, 9))
    return struct.pack("<%dI" % len(words), *words) + text


def row(start):
    """A line of the table in docs/LOAD.md."""
    drawn, batch = draws(start), load(start)
    made = calls(drawn)
    shown = "; ".join("%d, %d, %d: %s" % (op, rule, target, " ".join(map(str, l))) for op, target, l, rule in made[:4])
    return "| %s | %s | %s | %s | %d | %s | %s |" % (
        format(start, ","), " ".join(map(str, drawn[1:5])), shown, " ".join(map(str, noted(drawn))),
        sum(len(c[2]) for c in made), format(len(batch), ","), format(sum(batch), ","))


def main():
    if sys.argv[1:2] == ["--table"]:
        for start in sys.argv[2:]:
            print(row(int(start)))
    else:
        sys.stdout.buffer.write(load(int(sys.argv[1])))


if __name__ == "__main__":
    main()
