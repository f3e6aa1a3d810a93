"""Writes the recorded series that crates/series_play plays: recorded_series.py > crates/series_play/stdin. The form of the input: crates/series_play/src/main.rt."""

import sys
from struct import pack

NODE = 1 << 31
AFTER, REPLACE, DELETE = 1, 2, 3


def words(*ws):
    return pack("<%dI" % len(ws), *ws)


def node(kind, *children):
    return (NODE + kind, children)


def token(text):
    return (3, text)


def preorder(tree):
    return [tree] + [it for child in tree[1] if tree[0] >= NODE for it in preorder(child)]


def arrays(trees):
    """Kind words, measures and text."""
    all_ = [it for tree in trees for it in preorder(tree)]
    return [it[0] for it in all_], [len(it[1]) for it in all_], b"".join(it[1] for it in all_ if it[0] < NODE)


def batch(trees, calls, mappings=()):
    kinds, measures, text = arrays(trees)
    listed = [e for _, _, new in calls for e in new]
    sizes = (len(trees), len(kinds), len(text), len(calls), len(listed), len(mappings), 0)
    ops = [op + (len(new) << 8) for op, _, new in calls]
    targets = [target for _, target, _ in calls]
    pairs = [it[0] for it in mappings] + [it[1] for it in mappings]
    return words(*sizes, *kinds, *measures, *ops, *targets, *listed, *pairs) + text


def tree_slice(tree, room):
    kinds, measures, text = arrays([tree])
    held = words(len(kinds), len(text), *kinds, *measures) + text
    return held + bytes([1] * (room - len(held)))


def bookmark_slice(*bookmarks):
    slots = [w for number, path in bookmarks for w in [number, len(path), *path] + [1] * (63 - len(path))]
    return words(len(bookmarks), *slots)


def part(data):
    return words(len(data)) + data


def call(data, edge=0, room=1000):
    return words(edge, room) + part(data)


def series(tree, bookmarks, calls):
    return part(tree) + part(bookmarks) + words(len(calls)) + b"".join(calls)


# root(P(a, z), b), z a node without children; beside it W(c) and V(d)
a, b, z = token(b"a"), token(b"b"), node(2)
P = node(1, node(2, a, z), b)
beside = [node(5, token(b"c")), node(5, token(b"d"))]
ALL = ((7, ()), (3, (0,)), (9, (0, 0)), (4, (0, 1)), (5, (1,)))
# .. with c behind a, and then without a
Pc = node(1, node(2, a, token(b"c"), z), b)
Pd = node(1, node(2, token(b"c"), z), b)

after_a = batch([P] + beside, [(AFTER, 2, [6])])
LONG = series(
    tree_slice(P, 100),
    bookmark_slice(*ALL),
    [
        call(after_a),  # accepted: z moves
        call(after_a),  # 22: the tree is another now
        call(batch([Pc] + beside, [(DELETE, 2, [])]), edge=2),  # 17
        call(batch([Pc] + beside, [(DELETE, 2, [])])),  # accepted: a's bookmark is dropped
        call(batch([Pd] + beside, [(REPLACE, 0, [5]), (REPLACE, 1, [7])])),  # 8
        call(batch([Pd], [], [(9, 9)])),  # 7
        call(batch([Pd], []), room=65),  # 13: the result slice
        call(batch([Pd, token(b"x" * 60)], [(AFTER, 4, [5])])),  # 5: a tree that starts with a token
        call(batch([Pd, node(5, token(b"x" * 60))], [(AFTER, 4, [6])])),  # 13: the memory
        call(batch([Pd] + beside, [(AFTER, 4, [6]), (DELETE, 1, [])])),  # accepted: b moves to the front
        call(batch([node(1, b, token(b"c")), node(5, token(b"c"))], [(REPLACE, 0, [3])])),  # accepted: a replaced root drops all
        call(batch([node(5, token(b"c"))], [])),  # accepted on what it left
    ],
)
TWICE = series(tree_slice(P, 100), bookmark_slice((4, (0,)), (4, (1,)), (5, (9,))), [call(after_a)])  # 20, 20
ASTRAY = series(tree_slice(P, 100), bookmark_slice((4, (0,)), (5, (2,))), [call(b"")])  # 21, 21
CUT = series(tree_slice(P, 100)[:49], bookmark_slice(), [call(after_a)])  # 4, 4

if __name__ == "__main__":
    sys.stdout.buffer.write(words(4) + LONG + TWICE + ASTRAY + CUT)
