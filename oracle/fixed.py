"""Cases made by hand: each is (what it shows, batch or bytes)."""

from struct import pack

from batches import AFTER, DELETE, EDITOR, FIRST, LIMITS, MANY, NODE, REPLACE, RUN, Batch, call_word, encode, encode_arrays, node, token
from damage import KINDS, LISTED, MEASURES, NOTES, NUMBERS, TARGETS, WORDS, Parts, add_mapping
from generator import NOTES as NOTES_HELD
from generator import TEXT as TEXT_BYTES
from generator import reach

SIZES = ("trees", "elements", "text bytes", "calls", "listed elements", "mappings", "notes")
OTHER = (EDITOR, None, [])


class S:
    """The tree of the marked examples, root(X(a), b), with c and d in trees of their own."""

    def __init__(self):
        self.a, self.b, self.c, self.d = token(2, b"a"), token(3, b"b"), token(4, b"c"), token(5, b"d")
        self.x = node(6, self.a)
        self.root = node(1, self.x, self.b)
        self.trees = [self.root, node(7, self.c), node(8, self.d)]
        self.copy = node(6, token(2, b"a"))
        self.r = node(9, self.copy)

    def batch(self, *calls, mappings=(), notes=(), more=(), rules=()):
        return Batch(self.trees + list(more), calls, mappings, notes, rules)


def printed():
    a, b, c = token(2, b"a"), token(3, b"b"), token(4, b"c")
    yield "the printed case", Batch([node(1, a, b), node(1, c)], [(AFTER, a, [c])], notes=[(c, 9)])


def marked():
    s = S()
    yield "S: c after X, then d after X", s.batch((AFTER, s.x, [s.c]), (AFTER, s.x, [s.d]))
    yield "S: delete X, c after X", s.batch((DELETE, s.x, []), (AFTER, s.x, [s.c]))
    yield "S: delete token a, c after a", s.batch((DELETE, s.a, []), (AFTER, s.a, [s.c]))
    yield "S: delete X, c after b", s.batch((DELETE, s.x, []), (AFTER, s.b, [s.c]))
    yield "S: replace X by c, delete X", s.batch((REPLACE, s.x, [s.c]), (DELETE, s.x, []))
    yield "S: delete X, replace X by c", s.batch((DELETE, s.x, []), (REPLACE, s.x, [s.c]))
    yield "S: X by many (d), a by c", s.batch((MANY, s.x, [s.d]), (REPLACE, s.a, [s.c]))
    yield "S: run X to b, and b replaced", s.batch((RUN, s.x, [s.b, s.c]), (REPLACE, s.b, [s.d]))
    yield "S: root replaced and X replaced", s.batch((REPLACE, s.root, [s.trees[1]]), (REPLACE, s.x, [s.c]))
    calls = (REPLACE, s.x, [s.r]), (AFTER, s.a, [s.c])
    yield "S: X by R(X'(a)), X mapped to X', c after a", s.batch(*calls, mappings=[(s.x, s.copy)], more=[s.r])
    yield "S: X by R(X'(a)), nothing mapped, c after a", s.batch(*calls, more=[s.r])
    z, c = node(6), token(4, b"c")
    yield "S: root(Z, b), Z empty: delete Z, c after Z", Batch([node(1, z, token(3, b"b")), node(7, c)], [(DELETE, z, []), (AFTER, z, [c])])


# ---------------------------------------------------------------- lines 2 to 7


def changed_parts(batch, change):
    parts = Parts(encode(batch))
    change(parts)
    return parts.bytes()


def one_beyond(size):
    """A batch that is right but for one of its sizes, which is one over its limit: its length is what its sizes give."""
    a, b = node(1), node(2)
    more = LIMITS[size][1] + 1
    return encode(
        (
            Batch([node(1) for _ in range(more)]),
            Batch([node(1, *(token(2) for _ in range(more - 1)))]),
            Batch([node(1, token(2, more * b"x"))]),
            Batch([node(1)], more * [OTHER]),
            Batch([a, b], [(FIRST, a, more * [b])]),
            Batch([node(1, a)], [], more * [(a, a)]),
            Batch([a], [], [], [(a, 1 + number) for number in range(more)]),
        )[size]
    )


def lines_2_to_4():
    data = encode(next(printed())[1])
    yield "no bytes at all", b""
    yield "27 bytes", data[:27]
    for i, (low, high) in enumerate(LIMITS):
        yield "%d %s, all there" % (high + 1, SIZES[i]), one_beyond(i)
        if low:
            for size in (2**32 - 1, 0):
                yield "%d %s, and an element" % (size, SIZES[i]), encode_arrays(size, [[NODE | 1], [0]] + 7 * [[]], b"")
        else:
            yield "%d %s" % (2**32 - 1, SIZES[i]), pack("<7I", *(2**32 - 1 if j == i else j < 2 for j in range(7)))
    yield "sizes alone", data[:28]
    yield "one byte short", data[:-1]
    yield "one byte long", data + b"x"
    yield "a call word is missing", data[:68] + data[72:]
    yield "sizes that promise more than there is", pack("<7I", 16, 2048, 16384, 256, 1024, 1024, 256)


def line_5():
    batch = next(printed())[1]
    yield "no elements", pack("<7I", 1, 0, 0, 0, 0, 0, 0)

    def put(what, array, place, value):
        return what, changed_parts(batch, lambda p: p.arrays[array].__setitem__(place, value))

    yield put("bit 16 of a kind word", KINDS, 1, 1 << 16 | 2)
    yield put("bit 30 of a kind word", KINDS, 0, NODE | 1 << 30 | 1)
    yield put("the old root is a token", KINDS, 0, 1)
    yield put("the second tree is a token", KINDS, 3, 1)
    yield put("a child too few: the next root is taken in", MEASURES, 0, 3)
    yield put("a child too many: a token stands as root", MEASURES, 0, 1)
    yield put("the last node lacks a child", MEASURES, 3, 2)
    yield put("a node of 2^32 - 1 children", MEASURES, 3, 2**32 - 1)
    yield put("token lengths exceed B", MEASURES, 4, 2)
    yield put("token lengths fall short of B", MEASURES, 4, 0)
    yield put("a token of 2^32 - 1 bytes", MEASURES, 4, 2**32 - 1)

    def wrap(p):
        p.arrays[MEASURES][1] += 2**31
        p.arrays[MEASURES][2] += 2**31

    yield "token lengths that add up to B modulo 2^32", changed_parts(batch, wrap)
    for trees in (1, 3):
        yield "two trees spelled, %d asked for" % trees, changed_parts(batch, lambda p: setattr(p, "trees", trees))
    yield "a token at depth 65", Batch([chain(64, token(2, b"a"))])
    yield "a childless node at depth 65", Batch([chain(64, node(2))])
    yield "depth 65 in the second tree", Batch([node(1), chain(64, token(2, b"a"))])


def chain(length, inner):
    """So many nodes above `inner`."""
    for _ in range(length):
        inner = node(1, inner)
    return inner


def line_6():
    s = S()
    z = node(6)
    s.trees.append(node(1, z, token(2, b"e"), token(2, b"f")))
    e, f = s.trees[3].children[1:]
    for op, target, listed, what in (
        (REPLACE, s.x, [], "call 2 lists nothing"),
        (REPLACE, s.x, [s.c, s.d], "call 2 lists two"),
        (DELETE, s.x, [s.c], "call 3 lists one"),
        (RUN, s.x, [], "call 5 without an end"),
        (FIRST, s.b, [s.c], "call 0 with a token as parent"),
        (FIRST, z, [s.c], "call 0 with a childless parent, which is allowed"),
        (AFTER, s.root, [s.c], "call 1 on a root"),
        (AFTER, s.trees[1], [], "call 1 on another tree's root"),
        (DELETE, s.root, [], "call 3 on a root"),
        (MANY, s.root, [s.trees[1]], "call 4 on a root"),
        (RUN, s.root, [s.root], "call 5 on a root"),
        (RUN, s.root, [s.trees[1]], "call 5 from root to root"),
        (REPLACE, s.root, [s.c], "a token replaces a root"),
        (RUN, s.a, [s.b], "a run whose ends have different parents"),
        (RUN, s.x, [s.trees[1].children[0]], "a run whose ends are in different trees"),
        (RUN, s.x, [s.root], "a run that ends at its parent"),
        (RUN, f, [e], "a reversed run"),
    ):
        yield what, s.batch((op, target, listed))
    plain = s.batch((AFTER, s.x, [s.c]))

    def with_call(what, op, target, listed, rule=0):
        return what, changed_parts(plain, lambda p: p.add_call(op, target, listed, rule))

    for op in (7, 8, 128, 255):
        yield with_call("operation %d" % op, op, 1, [])
    yield with_call("call 6 with a target", EDITOR, 1, [])
    yield with_call("call 6 that lists one", EDITOR, 0, [1])
    for op, listed in ((FIRST, []), (AFTER, []), (REPLACE, [0]), (DELETE, []), (MANY, []), (RUN, [1])):
        yield with_call("call %d on number E" % op, op, 12, listed)
    yield with_call("a target of 2^32 - 1", AFTER, 2**32 - 1, [])
    yield with_call("call 4 that lists number E", MANY, 1, [2, 12])
    yield with_call("a run that ends at number E", RUN, 1, [12])
    yield with_call("a run that lists 2^31", RUN, 1, [1, 2**31])
    yield "one listed more than the counts say", changed_parts(plain, lambda p: p.arrays[LISTED].append(1))
    yield "one listed less than the counts say", changed_parts(plain, lambda p: p.arrays[LISTED].pop())
    yield "a count of 4,095", changed_parts(plain, lambda p: p.arrays[WORDS].__setitem__(0, call_word(AFTER, 4095)))

    def huge(p):
        p.arrays[WORDS], p.arrays[TARGETS] = [call_word(EDITOR, 4095)] * 256, [0] * 256

    yield "256 counts of 4,095", changed_parts(plain, huge)


def line_7():
    s = S()
    batch = s.batch((AFTER, s.x, [s.c]), more=[s.r])  # numbers: X 1, a 2, b 3, R 8, X' 9

    def mapping(what, x, y):
        return what, changed_parts(batch, lambda p: add_mapping(p, x, y))

    yield mapping("a token as a mapping's input", 2, 9)
    yield mapping("a token as a mapping's output", 1, 3)
    yield mapping("a root as a mapping's output", 1, 8)
    yield mapping("a mapping from number E", 11, 9)
    yield mapping("a mapping to number E", 1, 11)
    yield mapping("a mapping from 2^32 - 1", 2**32 - 1, 9)
    yield mapping("a mapping to 2^32 - 1", 1, 2**32 - 1)

    def note(what, element, number):
        def add(p):
            p.arrays[NOTES].append(element)
            p.arrays[NUMBERS].append(number)

        return what, changed_parts(batch, add)

    yield note("a note on number E", 11, 1)
    yield note("a note on 2^32 - 1", 2**32 - 1, 1)
    yield note("a note numbered 0", 1, 0)

    def both(p):
        p.add_call(DELETE, 0, [])
        add_mapping(p, 1, 8)

    yield "line 6 comes before line 7", changed_parts(batch, both)
    yield "line 5 comes before line 6", changed_parts(batch, lambda p: (p.add_call(9, 0, []), p.arrays[KINDS].__setitem__(2, 1 << 20)))


# ---------------------------------------------------------------- recording and planning


def recording():
    s = S()
    by_c, by_d, delete = (REPLACE, s.x, [s.c]), (REPLACE, s.x, [s.d]), (DELETE, s.x, [])
    yield "replaced again: the new element is altered", s.batch(by_c, by_d)
    yield "replaced again after a delete that merged", s.batch(by_c, delete, by_d)
    yield "deleted twice", s.batch(delete, delete)
    yield "a delete merges into an earlier replacement, over an insertion", s.batch(by_c, (AFTER, s.x, [s.d]), delete)
    yield "two editors replace one node: not merged", s.batch(by_c, OTHER, by_d)
    yield "two editors delete one token: not merged", s.batch((DELETE, s.b, []), OTHER, (DELETE, s.b, []))
    yield "call 4 and a later delete do not merge", s.batch((MANY, s.x, [s.c]), delete)
    yield "call 5 with equal ends does not merge", s.batch((RUN, s.x, [s.x, s.c]), delete)
    yield "call 5 with equal ends is a call 4 on a token", s.batch((RUN, s.b, [s.b, s.c, s.d]), (AFTER, s.b, [s.c]))
    yield "call 5 with equal ends beside a first child", s.batch((RUN, s.x, [s.x, s.c]), (FIRST, s.root, [s.d]))
    yield "an ignored replacement is not discarded", s.batch((DELETE, s.b, []), (REPLACE, s.b, [s.c]))
    yield "four editors, two of them empty", s.batch(OTHER, (AFTER, s.x, [s.c]), OTHER, OTHER, (AFTER, s.x, [s.d]))
    yield "nothing but an operation 6", s.batch(OTHER)
    yield "no calls", s.batch()
    yield "insertions that list nothing", s.batch((FIRST, s.x, []), (AFTER, s.b, []))
    yield "call 4 that lists nothing", s.batch((MANY, s.x, []))
    yield "a run that lists nothing more", s.batch((RUN, s.x, [s.b]))
    empty = node(6)
    twice = Batch([node(1, empty, token(2, b"b")), node(1, node(3), token(4, b"c"))])
    new = twice.trees[1]
    twice.calls = [(REPLACE, empty, [new]), OTHER, (REPLACE, empty, [new.children[1]])]
    yield "an empty node replaced by two editors: dependent, not overlapping, and not mapped", twice


def planning():
    s = S()
    yield "insertions of two depths at one place", s.batch((AFTER, s.a, [s.c]), (AFTER, s.x, [s.d]), (AFTER, s.x, [s.c]))
    yield "first children of two depths and a replacement at one place", s.batch((FIRST, s.root, [s.c]), (FIRST, s.x, [s.d]), (REPLACE, s.a, [s.c]))
    yield "a deleted node discards its inside", s.batch((DELETE, s.x, []), (DELETE, s.a, []), (AFTER, s.a, [s.c]))
    yield "a discarded call 2 discards its inside", Batch(*nest(discarded=True))
    yield "a run discards what it contains, ends included", s.batch((RUN, s.x, [s.b, s.c]), (AFTER, s.b, [s.d]), (FIRST, s.x, [s.d]))
    yield "a first child at a run's start runs beside it", s.batch((RUN, s.x, [s.b, s.c]), (FIRST, s.root, [s.d]))
    yield "a node replaced by a token discards its inside", s.batch((REPLACE, s.x, [s.c]), (REPLACE, s.a, [s.d]))
    yield "a replaced token owns nothing", s.batch((REPLACE, s.b, [s.trees[1]]), (AFTER, s.b, [s.d]))
    yield "overlap is judged before discarding", s.batch((DELETE, s.x, []), (REPLACE, s.a, [s.c]), OTHER, (DELETE, s.a, []))
    yield "runs that overlap", s.batch((RUN, s.x, [s.b, s.c]), OTHER, (RUN, s.x, [s.b]))
    p, q = node(2, token(3, b"p")), node(2, token(3, b"q"))
    two = Batch([node(1, p, q), node(1, token(4, b"c"))])
    c = two.trees[1].children[0]
    two.calls = [(DELETE, p.children[0], []), (REPLACE, q.children[0], [c]), (AFTER, p.children[0], [c])]
    yield "replacements of one depth in two parents", two
    e, a = token(3), token(3, b"a")
    yield "overlap at one depth in two parents", Batch([node(1, node(2, e), node(2, a))], [(DELETE, a, []), (DELETE, e, [])])
    e, a = token(3), node(3, token(3, b"a"))
    yield "an overlap in another tree, whose report panics in the Rust", Batch([node(1), node(1, e, a)], [(DELETE, a, []), (DELETE, e, [])])
    yield "an edit in another tree alone", s.batch((AFTER, s.c, [s.d]), (DELETE, s.d, []))
    yield "edits in two trees, one listed by the other", s.batch((AFTER, s.c, [s.d]), (AFTER, s.x, [s.trees[1]]), notes=[(s.d, 1), (s.c, 1)])
    a, z, b, c = token(3, b"a"), token(3), token(3, b"b"), token(4, b"c")
    calls = [(RUN, a, [z]), (REPLACE, b, [c]), (AFTER, a, [c])]
    yield "splices that are not apart: the run deletes what came between its ends", Batch([node(1, node(2, a, z), b), node(1, c)], calls)


def nest(discarded=False):
    """root(P(Q(t))) with P deleted, Q replaced by a node, and something inside Q."""
    t = token(3, b"t")
    q = node(2, t)
    p = node(2, q, token(3, b"u"))
    root = node(1, p)
    new = node(1, node(5, token(4, b"n")))
    calls = [(DELETE, p, []), (REPLACE, q, [new.children[0]]), (AFTER, t, [new])]
    return [root, new], calls if discarded else calls[1:]


# ---------------------------------------------------------------- dependents


def dependents():
    for copies in (1, 2, 5):
        yield "a dependent through %d mapped trees" % copies, hops(copies)
    s = S()
    owner, after = (REPLACE, s.x, [s.r]), (AFTER, s.a, [s.c])
    maps = [(s.x, s.copy)]
    for what, calls, mappings in (
        ("a dependent call 5 with equal ends makes one climb", [owner, (RUN, s.a, [s.a, s.c])], maps),
        ("a dependent call 0 on X itself", [owner, (FIRST, s.x, [s.c])], maps),
        ("a dependent call 1 on X itself", [owner, (AFTER, s.x, [s.c])], maps),
        ("a dependent delete", [owner, (DELETE, s.a, [])], maps),
        ("a dependent call 4", [owner, (MANY, s.a, [s.c, s.d])], maps),
        ("the later mapping of one input wins", [owner, after], [(s.x, s.x), (s.x, s.copy)]),
        ("the earlier mapping of one input loses", [owner, after], [(s.x, s.copy), (s.x, s.x)]),
        ("X is R: no climb", [(REPLACE, s.x, [s.x]), after], []),
        ("X is R, X mapped elsewhere: no climb", [(REPLACE, s.x, [s.x]), after], maps),
        ("R and X' are listed again elsewhere", [owner, after, (AFTER, s.b, [s.r, s.copy])], maps),
    ):
        yield what, s.batch(*calls, mappings=mappings, more=[s.r])
    yield "X mapped to R itself: the climb passes R by", to_itself(False)
    yield "X mapped to R itself: the climb comes back by a mapping", to_itself(True)
    yield from runs_in_copies()
    yield from landings()
    yield from three_deep()


def hops(count):
    """X is mapped from tree to tree; each tree holds a copy of the one before."""
    inner = token(2, b"a")
    x = node(6, inner)
    source, trees, maps = x, [], []
    for i in range(count):
        copy = clone(source)
        source = node(9, token(3, b"-"), copy)
        maps.append((trees[-1] if trees else x, copy))
        trees.append(source)
    c = token(4, b"c")
    calls = [(REPLACE, x, [source]), (AFTER, inner, [c]), (FIRST, x, [c])]
    return Batch([node(1, x, token(3, b"b")), *trees, node(1, c)], calls, maps, [(inner, 1), (c, 2)])


def clone(element):
    if element.is_node:
        return node(element.kind, *(clone(child) for child in element.children))
    return token(element.kind, element.text)


def to_itself(back):
    """X's mapped node is R: the climb starts there."""
    a, c = token(2, b"a"), token(4, b"c")
    x, r = node(6, a), node(9, node(6, node(6, token(2, b"a"))))
    outer = node(8, r)
    maps = [(x, r)] + [(outer, r.children[0])] * back
    return Batch([node(1, x), outer, node(1, c)], [(REPLACE, x, [r]), (AFTER, a, [c])], maps)


def runs_in_copies():
    """A run inside X, X(y, z) being replaced by R(p, X'(y', z')); changes of R's tree come first where they start later."""
    x, copy = (node(6, token(2, b"y"), token(2, b"z")) for _ in range(2))
    r, c = node(9, token(3, b"p"), copy), token(4, b"c")
    trees, maps = [node(1, x, token(3, b"b")), r, node(1, c)], [(x, copy)]
    calls = [(REPLACE, x, [r]), (RUN, x.children[0], [x.children[1], c])]
    yield "a dependent run makes two climbs", Batch(trees, calls, maps)
    yield "a run whose start is gone", Batch(trees, calls + [(DELETE, copy.children[0], [])], maps)
    yield "a run whose end is gone", Batch(trees, calls + [(DELETE, copy.children[1], [])], maps)
    yield "a run that has grown deletes what came between its ends", Batch(trees, calls + [(AFTER, copy.children[0], [c, c])], maps)


def landings():
    def batch(inside, copied, op, target=None):
        """X(inside) is replaced by R(X'(copied)); the call is on `target`, by default on X."""
        x, copy, c = node(6, *inside), node(6, *copied), token(4, b"c")
        r = node(9, copy)
        return Batch([node(1, x, token(3, b"b")), r, node(1, c)], [(REPLACE, x, [r]), (op, target or x, [c])], [(x, copy)])

    a, inner = token(2, b"a"), node(5, token(2, b"i"))
    yield "a token lands on a node", batch([a], [node(5, token(2, b"z"))], REPLACE, a)
    yield "a node lands on a token", batch([inner], [token(2, b"z")], REPLACE, inner)
    yield "a missing step", batch([token(2, b"1"), a], [token(2, b"z")], AFTER, a)
    yield "a first-child position lands in a childless node", batch([a], [], FIRST)
    yield "a place below a mapped node", batch([inner], [node(5, token(2, b"z"))], AFTER, inner.children[0])
    compared = batch([a], [], FIRST)
    compared.calls.append((FIRST, compared.trees[0].children[0], [compared.trees[2]]))
    yield "two first-child positions land in one childless node, the later left: the Rust fails on comparing them", compared
    looping = batch([a], [], FIRST)
    looping.mappings.append((looping.trees[1], looping.trees[1].children[0]))
    looping.notes.append((looping.trees[1], 1))
    yield "a first-child position lands in a childless node, then a note is endless", looping
    x, empty, r = node(6, token(2, b"a")), token(3), node(9, node(6, token(2, b"a")))
    root = node(1, x, empty, token(3, b"b"))
    yield "an empty neighbour is contained but not below X", Batch([root, r], [(REPLACE, x, [r]), (REPLACE, empty, [r])], [(x, r.children[0])])


def three_deep():
    """A replaced, B inside A, C inside B, a token inside C, every one mapped."""
    t = token(2, b"t")
    c3 = node(5, t)
    b2 = node(6, token(2, b"("), c3)
    a1 = node(7, b2, token(2, b")"))
    root = node(1, token(3, b"<"), a1, token(3, b">"))
    trees, maps, calls = [root], [], []
    for source in (a1, b2, c3):
        copy = clone(source)
        new = node(9, token(4, b"+"), copy)
        trees.append(new)
        maps.append((source, copy))
        calls.append((REPLACE, source, [new]))
    calls.append((REPLACE, t, [trees[1].children[0]]))
    yield "three replacements in a chain", Batch(trees, calls, maps)
    yield "three replacements in a chain, queued inside out by two editors", Batch(trees, calls[:1:-1] + [OTHER] + calls[1::-1], maps)
    yield "a chain with the middle mapping missing", Batch(trees, calls, maps[::2])
    yield "a chain whose last change is discarded", Batch(trees, calls[:2] + [(DELETE, c3, []), calls[3]], maps)


# ---------------------------------------------------------------- climbs that never end, notes


def endless():
    a, c = token(2, b"a"), token(4, b"c")
    x, r = node(6, a), node(9, node(6, token(2, b"a")))
    loop = node(8, node(8, node(8)))
    inner, innermost = loop.children[0], loop.children[0].children[0]
    trees = [node(1, x), r, loop, node(1, c)]
    calls = [(REPLACE, x, [r]), (AFTER, a, [c])]
    yield "a climb in a circle of one mapping", Batch(trees, calls, [(x, innermost), (inner, innermost)])
    yield "a climb in a circle over a root", Batch(trees, calls, [(x, inner), (loop, innermost), (inner, inner)])
    b = token(2, b"b")
    y = node(6, b)
    both = [node(1, x, y), r, loop, node(1, c)]
    calls += [(REPLACE, y, [r]), (AFTER, b, [c])]
    yield "the later dependent is judged first: no parent left", Batch(both, calls, [(x, innermost), (inner, innermost)])
    yield "the later dependent is judged first: endless", Batch(both, calls, [(y, innermost), (inner, innermost)])
    yield "a dependent is judged before a note", Batch(both, calls, [(y, innermost), (inner, innermost)], [(x, 1)])
    yield "a note moves in a circle", Batch(trees, [], [(x, innermost), (innermost, x)], [(x, 1)])
    yield "a note whose ancestor's output is that ancestor's own child stays", Batch(trees, [], [(loop, inner)], [(innermost, 1)])
    yield "a note on a mapped node that maps to itself", Batch(trees, [], [(inner, inner)], [(inner, 1)])
    yield "the first note is lost, the second endless", Batch(
        [node(1, node(5, token(2, b"a")), x)] + trees[1:], [], [(x, innermost), (innermost, x), (r, inner)], [(r.children[0].children[0], 2), (x, 1)])  # fmt: skip


def notes():
    s = S()
    maps = [(s.x, s.copy)]
    owner = (REPLACE, s.x, [s.r])
    yield "notes follow a mapping into R", s.batch(owner, mappings=maps, more=[s.r], notes=[(s.a, 1), (s.x, 2), (s.b, 1)])
    yield "notes without a mapping go with X", s.batch(owner, more=[s.r], notes=[(s.a, 1), (s.x, 2), (s.b, 1)])
    yield "a note moves to a tree that is not listed", s.batch(mappings=maps, more=[s.r], notes=[(s.a, 1)])
    yield "a note lands nowhere", s.batch(mappings=[(s.root, s.copy)], more=[s.r], notes=[(s.b, 1)])
    yield "a node's note lands on a token", s.batch(mappings=[(s.root, s.copy)], more=[s.r], notes=[(s.x, 1)])
    inner = node(6, node(5))
    onto = node(1, inner, token(2, b"e"))
    yield "a token's note lands on a node", Batch([onto, s.r], [], [(s.copy, inner)], [(s.copy.children[0], 3)])
    yield "one number at several places, queue before start", s.batch(notes=[(s.b, 5), (s.a, 5), (s.x, 5), (s.b, 4), (s.b, 2**32 - 1)])
    yield "a note on an element listed twice", s.batch((AFTER, s.x, [s.c, s.c]), (FIRST, s.root, [s.c]), notes=[(s.c, 7), (s.trees[1], 8)])
    yield "a lost path yields the first notes", s.batch((DELETE, s.b, []), (FIRST, s.root, [s.b]), notes=[(s.b, 7)])
    yield "a moved path yields the present notes", s.batch(
        (AFTER, s.a, [s.c]), (FIRST, s.root, [s.d]), (FIRST, s.root, [s.x]), notes=[(s.a, 7), (s.c, 6), (s.d, 6)])  # fmt: skip
    yield "notes of one place keep the order in which they are held", s.batch(
        (AFTER, s.a, [s.c]), (FIRST, s.root, [s.x]), notes=[(s.c, 1), (s.a, 1), (s.c, 1), (s.x, 1)])  # fmt: skip
    yield "a replaced root takes the notes of its replacement", s.batch(
        (REPLACE, s.root, [s.trees[1]]), (AFTER, s.c, [s.d]), notes=[(s.a, 1), (s.c, 1), (s.d, 1), (s.trees[1], 1)])  # fmt: skip


# ---------------------------------------------------------------- running


def running():
    s = S()
    yield "a deleted element is listed: as it stood first", s.batch((DELETE, s.x, []), (AFTER, s.b, [s.x]))
    yield "an element is listed before an insertion into it", s.batch((AFTER, s.b, [s.x]), (AFTER, s.a, [s.c]))
    yield "an element is listed after an insertion into it", s.batch((FIRST, s.root, [s.trees[1]]), (AFTER, s.c, [s.d]))
    yield "a node lists itself", s.batch((REPLACE, s.x, [s.x]))
    yield "a node lists its own root", s.batch((AFTER, s.x, [s.root]), (AFTER, s.b, [s.root]))
    yield "the root is replaced by itself", s.batch((REPLACE, s.root, [s.root]))
    yield "the root is replaced by a node of its own", s.batch((REPLACE, s.root, [s.x]))
    yield "the root is replaced, and a change of the new tree comes along", s.batch((REPLACE, s.root, [s.trees[1]]), (AFTER, s.c, [s.d]))
    yield "another tree's root is replaced, then listed by its old child", s.batch((REPLACE, s.trees[1], [s.trees[2]]), (AFTER, s.b, [s.c]))
    yield "another tree's root is replaced, then listed", s.batch((REPLACE, s.trees[1], [s.trees[2]]), (FIRST, s.x, [s.trees[1]]))
    root, new = node(1), node(2, token(3, b"n"))
    calls = [(REPLACE, root, [root]), OTHER, (REPLACE, root, [new])]
    yield "a root without text is replaced by itself after its dependent replaced it", Batch([root, new], calls, notes=[(root, 1), (new, 2)])
    root, new = node(1, node(6)), node(2, token(3, b"n"))
    yield "the empty root is replaced, and then a change in it is gone", Batch([root, new], [(FIRST, root, [new]), (REPLACE, root, [new])])
    z = node(6)
    root = node(1, z, token(3, b"b"))
    yield "an insertion of nothing whose target is gone", Batch([root], [(DELETE, z, []), (AFTER, z, [])])
    y, z = token(3), token(3)
    root = node(1, y, z, token(3, b"b"))
    yield "an empty run discards a delete at its end", Batch([root], [(RUN, y, [z]), OTHER, (DELETE, z, [])])
    empty, c = token(4), token(4, b"c")
    many = Batch([node(1, y, z, token(3, b"b")), node(2, empty, c)])
    many.calls = [(AFTER, y, [empty, empty]), (FIRST, many.trees[0], [empty, c]), (AFTER, z, [empty])]
    yield "changed elements at one start keep the order of their steps", many
    yield from kinds_and_bytes()


def kinds_and_bytes():
    c = token(65535, bytes(range(256)))
    root = node(0, node(65535, token(0, b"\xff\x00")), token(32768, b"\x80"))
    yield "kinds 0 and 65535 and every byte", Batch([root, node(256, c)], [(AFTER, root.children[1], [c, c])], notes=[(c, 2**31)])


# ---------------------------------------------------------------- limits


def limits():
    z, y = token(2), node(3)
    root = node(1, z, y)
    yield "no text at all", Batch([root, node(4)], [(AFTER, z, [y, z]), (DELETE, y, []), (FIRST, root, [z])], notes=[(y, 1), (z, 1)])
    yield "one node, nothing else", Batch([node(1)])
    for sort, name in enumerate(("elements: 4,096", "text bytes: 16,384", "depth: 64", "tracked notes: 1,024")):
        yield "%s after a step, as allowed" % name, reach(sort, 5, 0)
        yield "%s after a step, and one more" % name, reach(sort, 5, 1)
    dropped = reach(NOTES_HELD, 5, 1)
    dropped.calls += [(DELETE, dropped.trees[1].children[0], [])]
    yield "too many notes after a step, though a later step drops some", dropped
    grown = reach(TEXT_BYTES, 5, 1)
    grown.calls.append((DELETE, grown.trees[1].children[0], []))
    yield "too much text after a step, though a later step deletes some", grown
    for late in (False, True):
        grown = reach(TEXT_BYTES, 5, 1)
        empty = node(6)
        grown.trees[0].children.insert(2 if late else 0, empty)
        grown.calls += [(DELETE, empty, []), (AFTER, empty, [])]
        yield "a step is too large %s one whose target is gone" % ("after" if late else "before"), grown
    bottom = token(2, b"a")
    deep = Batch([chain(63, bottom), node(1, token(4, b"c"))])
    deep.calls = [(AFTER, bottom, [deep.trees[1].children[0]])]
    yield "depth 64, and a change there", deep
    deeper = Batch([chain(63, token(2, b"a")), node(1, token(4, b"c"))])
    bottom = [it for it in deeper.trees[0].below()][-1]
    deeper.calls = [(AFTER, bottom, [deeper.trees[1]])]
    yield "depth 65 after a step", deeper
    yield from climbs()
    yield from sizes_at_their_limits()


def climbs():
    x, r, again = node(1), chain(63, node(2)), node(3)
    inner = [it for it in r.below()][-1]
    yield "a climb of 63 steps, the most that can be accepted", Batch([x, r, again], [(REPLACE, x, [r]), OTHER, (REPLACE, x, [again])], [(x, inner)])
    for count, back in ((1000, False), (300, True)):
        a, c = token(2, b"a"), token(4, b"c")
        x = node(6, a)
        parents = [node(5, node(5)) for _ in range(count)]
        maps = [(x, parents[0].children[0])] + [(p, q.children[0]) for p, q in zip(parents, parents[1:])]
        if back:
            maps.append((parents[-1], parents[0].children[0]))
        trees = [node(1, x), node(7, *parents), node(9, c)]
        calls = [(REPLACE, x, [trees[2]]), (AFTER, a, [c])]
        yield "a climb over %d mapped nodes that %s" % (count, "comes back" if back else "finds no parent"), Batch(trees, calls, maps)
    x, copy = node(6, token(2, b"a")), node(6, token(2, b"a"))
    r = node(9, node(6), copy)
    calls = [(REPLACE, x, [r]), (AFTER, x.children[0], [r.children[0]])]
    yield "1,024 mappings of one input, the last of which wins", Batch([node(1, x), r], calls, [(x, r.children[0])] * 1023 + [(x, copy)])


def sizes_at_their_limits():
    c = token(4, b"c")
    a = token(2, b"a")
    yield "16 trees", Batch([node(1, a), node(1, c)] + [node(3) for _ in range(14)], [(AFTER, c, [c]), (AFTER, a, [c])])
    yield "256 calls at one place", Batch([node(1, a), node(1, c)], [(AFTER, a, [c])] * 256)
    yield "256 editors", Batch([node(1, a), node(1, c)], [OTHER] * 255 + [(AFTER, a, [c])])
    yield "1,024 listed by 25 calls", Batch([node(1, a), node(1, c)], [(AFTER, a, [c] * 41)] * 24 + [(MANY, a, [c] * 40)], notes=[(a, 1)])
    yield "256 notes on one element", Batch([node(1, a), node(1, c)], [(AFTER, a, [a, a])], notes=[(a, 1 + i % 3) for i in range(256)])
    yield "2,048 elements", two_thousand()
    yield "a result of 65,536 bytes, as many as a program holds", longest_result(24)
    yield "a result of 65,537 bytes, one too many for a program", longest_result(23)
    yield "a result of 65,560 bytes, the longest, too many for a program", longest_result(0)
    yield "every size at its limit", every_size()
    data = encode(every_size())
    yield "65,536 bytes, all that is judged", data + bytes(65536 - len(data))


def two_thousand():
    parts = [node(2, *(token(3, bytes([97 + i % 26])) for _ in range(7))) for i in range(255)]
    last = [node(2), token(3, b"!"), token(3, b"?")]
    root, other = node(1, *parts, *last), node(1, token(4, b"c"), token(4, b"d"), token(4))
    new = other.children[0]
    calls = [(RUN, parts[100], [parts[200], new]), (AFTER, parts[250], [parts[50], new]), (REPLACE, last[1], [other]), (AFTER, parts[100].children[3], [new])]
    return Batch([root, other], calls, notes=[(parts[50].children[2], 1), (last[2], 2), (new, 3), (parts[150], 4)])


def longest_result(less):
    """The longest result but for so many bytes of text, of 42 at most."""
    p, q = node(2, token(3, b"p" * 8)), node(2, token(3, b"q" * 8))
    rest = [token(4, b"rest") for _ in range(2032)] + [token(4, b"r" * (48 - less))] + [token(4) for _ in range(10)]
    root = node(1, p, q, *rest)
    return Batch([root], [(AFTER, q, [p, p, p, q])] * 256, notes=[(p, 1)] + [(it, 2) for it in rest[:255]], rules=range(3840, 4096))


def every_size():
    tokens = [token(2, b"0123456789abcdef" if i < 600 else b"") for i in range(999)]
    root = node(1, *tokens)
    nodes = [node(3) for _ in range(1020)]
    inner = node(5, token(4, b"x" * (16384 - 9600)), *nodes)
    trees = [root, inner] + [node(6) for _ in range(13)] + [node(6, node(7), node(7))]
    calls = [(AFTER, tokens[i * 3], [tokens[700 + i], tokens[650], tokens[640], nodes[i]]) for i in range(256)]
    maps = [(nodes[i], nodes[i + 1]) for i in range(1019)] + [(nodes[0], trees[-1].children[0])] * 5
    while len(Batch(trees).elements()) < 2048:
        inner.children.append(token(4))
    return Batch(trees, calls, maps, [(tokens[i], 1 + i % 7) for i in range(256)], range(256))


# ---------------------------------------------------------------- Note 1: insertion into an empty node


def empty_nodes():
    """Where there is one change, or the position has children before rewriting, the Rust compares nothing and vouches."""
    a, b, c, d = token(2, b"a"), token(3, b"b"), token(4, b"c"), token(5, b"d")
    y, z = node(6), node(7)
    other = node(8, c, d)
    into = (FIRST, z, [c])
    empty, beside, both = [node(1), other], [node(1, a, z, b), other], [node(1, y, z), other]
    yield "an insertion into an empty root", Batch(empty, [(FIRST, empty[0], [c, d])], notes=[(empty[0], 1), (d, 2)])
    yield "nothing is inserted into an empty root", Batch(empty, [(FIRST, empty[0], [])])
    yield "an insertion into an empty node between tokens", Batch(beside, [into], notes=[(z, 1), (c, 1), (b, 1)])
    yield "an empty node goes into itself", Batch(beside, [(FIRST, z, [z, z])], notes=[(z, 1)])
    apart = [node(1, a, b), node(8, c, z)]
    yield "an insertion into another tree's empty node", Batch(apart, [into])
    yield "an empty node at depth 63 takes a token", Batch([chain(62, z), other], [into])
    yield "an empty node at depth 64 takes none: depth 65 after a step", Batch([chain(63, z), other], [into])
    yield "two insertions into one empty node, the later left", Batch(beside, [into, (FIRST, z, [d])])
    yield "two editors insert into one empty node, the later left", Batch(beside, [into, OTHER, (FIRST, z, [d])])
    yield "insertions before, into and after an empty node", Batch(beside, [(AFTER, z, [c]), (AFTER, a, [d]), into])
    yield "an insertion into an empty node that is listed elsewhere", Batch(beside, [into, (AFTER, b, [z])], notes=[(c, 1)])
    yield "an insertion into another tree's empty node, and both listed", Batch(apart, [into, (AFTER, a, [z, apart[1]])], notes=[(c, 1)])
    yield "a deleted empty node discards an insertion into it", Batch(beside, [(DELETE, z, []), into])
    yield "a deleted empty node discards an insertion into it, and c after it is gone", Batch(beside, [(DELETE, z, []), into, (AFTER, z, [c])])
    yield "a run of empty nodes discards an insertion into one of them", Batch(both, [(RUN, y, [z, d]), into])
    yield "deleting an empty node discards an insertion into its empty neighbour", Batch(both, [(DELETE, z, []), (FIRST, y, [c])])
    yield "an insertion into an empty node beside an overlap", Batch(beside, [into, (RUN, a, [b]), (DELETE, b, [])])
    yield "an empty root is replaced, and then an insertion into it is gone", Batch(empty, [(FIRST, empty[0], [c]), (REPLACE, empty[0], [other])])
    yield from landings_in_empty_nodes()


def landings_in_empty_nodes():
    c, d = token(4, b"c"), token(5, b"d")
    other = node(8, c, d)
    y, z, copy = node(6), node(7), node(7)
    r = node(9, token(2, b"r"), copy)
    neighbours, calls = [node(1, y, z), r, other], [(REPLACE, z, [r]), (FIRST, z, [c])]
    yield "an empty node is replaced by one with an empty copy, and takes an insertion there", Batch(neighbours, calls, [(z, copy)], [(c, 1)])
    yield "an empty node is replaced, nothing mapped, with an insertion into it", Batch(neighbours, calls)
    yield "an empty node is replaced with an insertion into its empty neighbour", Batch(neighbours, [calls[0], (FIRST, y, [c])], [(z, copy)])
    for what, inside, landing in (
        ("an insertion lands in an empty node below the mapped one", node(5, token(2, b"i")), node(5)),
        ("an insertion into an empty node lands in one with children", node(5), node(5, token(2, b"j"))),
        ("an insertion into an empty node lands on a token", node(5), token(2, b"j")),
    ):
        x, copy = node(6, token(2, b"a"), inside), node(6, token(2, b"a"), landing)
        r = node(9, copy)
        yield what, Batch([node(1, x, token(3, b"b")), r, other], [(REPLACE, x, [r]), (FIRST, inside, [c])], [(x, copy)])
    x, middle, last = node(6, token(2, b"a")), node(6, token(2, b"a")), node(6)
    trees = [node(1, x), node(9, middle), node(9, last), other]
    calls = [(REPLACE, x, [trees[1]]), (REPLACE, middle, [trees[2]]), (FIRST, middle, [c])]
    yield "an insertion into a copy lands in an empty one of a further tree", Batch(trees, calls, [(x, middle), (middle, last)])


# ---------------------------------------------------------------- Note 3: forty-one listed elements


def longest_lists():
    s = S()
    for most in (41, 42):
        new = [s.c, s.d] * 20 + [s.a] * (most - 40)
        for what, op, target, ends in (
            ("as first children", FIRST, s.x, []),
            ("after a node", AFTER, s.x, []),
            ("in place of a node", MANY, s.x, []),
            ("in place of a run", RUN, s.x, [s.b]),
            ("in place of a run with equal ends", RUN, s.b, [s.b]),
            ("in another tree", AFTER, s.c, []),
        ):
            yield "%d listed %s" % (most, what), s.batch((op, target, ends + new), notes=[(s.a, 1)])
        yield "%d listed inside a deleted node" % most, s.batch((DELETE, s.x, []), (AFTER, s.a, new))
        yield "%d listed by a second editor" % most, s.batch((AFTER, s.x, [s.c]), OTHER, (AFTER, s.b, new))
        yield "%d listed inside a replaced node" % most, s.batch((REPLACE, s.x, [s.r]), (AFTER, s.a, new), mappings=[(s.x, s.copy)], more=[s.r])
        yield "%d listed inside a replaced node that nothing maps" % most, s.batch((REPLACE, s.x, [s.r]), (AFTER, s.a, new), more=[s.r])
        yield "%d listed, and a root as a mapping's output" % most, s.batch((AFTER, s.x, new), mappings=[(s.x, s.root)])
        yield "%d listed, and a token as parent in a later call" % most, s.batch((AFTER, s.x, new), (FIRST, s.b, []))
        yield "%d listed, and a token as parent in an earlier call" % most, s.batch((FIRST, s.b, []), (AFTER, s.x, new))
        yield "%d listed by a replacement" % most, s.batch((REPLACE, s.x, new))
        yield "%d listed by a replacement that a delete would ignore" % most, s.batch((DELETE, s.x, []), (REPLACE, s.x, new))
        yield "%d listed by a delete" % most, s.batch((DELETE, s.x, new))
    yield "1,024 listed by one call", s.batch((MANY, s.x, [s.c] * 1024))


# ---------------------------------------------------------------- Note 8: rule numbers on calls


def rule_numbers():
    s = S()
    for what, target in (("node", s.x), ("token", s.b)):
        by_c, by_d, delete = (REPLACE, target, [s.c]), (REPLACE, target, [s.d]), (DELETE, target, [])
        yield "rule 1 replaces a %s by c, 2 by d, 3 by c: 3" % what, s.batch(by_c, by_d, by_c, rules=[1, 2, 3])
        yield "rule 1 replaces a %s by c, 2 by c: 1" % what, s.batch(by_c, by_c, rules=[1, 2])
        yield "rule 1 replaces a %s by c, 2 by c, 3 by d, 4 by d: 3" % what, s.batch(by_c, by_c, by_d, by_d, rules=[1, 2, 3, 4])
        yield "rule 7 replaces a %s by c, none by d: 0" % what, s.batch(by_c, by_d, rules=[7, 0])
        yield "rule 1 deletes a %s, 2 replaces it, 3 deletes it: nothing is changed" % what, s.batch(delete, by_c, delete, rules=[1, 2, 3])
        yield "rule 1 replaces a %s, 2 deletes it, 3 replaces it: nothing is changed" % what, s.batch(by_c, delete, by_d, rules=[1, 2, 3])
        yield "rule 2 replaces a %s, 3 inserts, 1 replaces it by another" % what, s.batch(by_c, (AFTER, s.a, [s.c]), by_d, rules=[2, 3, 1])
    by_c, after = (REPLACE, s.b, [s.c]), (AFTER, s.x, [s.d])
    yield "a number for each operation", s.batch(
        (FIRST, s.root, [s.c]), (AFTER, s.x, [s.d]), (MANY, s.b, [s.c, s.d]), (REPLACE, s.a, [s.d]), rules=[1, 2, 3, 4])  # fmt: skip
    yield "runs with equal ends have their numbers", s.batch((RUN, s.x, [s.x, s.c, s.d]), (RUN, s.b, [s.b, s.c]), rules=[5, 6])
    yield "rule 9 replaces a run of siblings by two", s.batch((RUN, s.x, [s.b, s.c, s.d]), rules=[9])
    yield "rule 12 replaces the root", s.batch((REPLACE, s.root, [s.trees[1]]), rules=[12])
    yield "rule 12 replaces the root, 13 by the same: 12", s.batch(*[(REPLACE, s.root, [s.trees[1]])] * 2, rules=[12, 13])
    yield "numbers go with their elements, not in the order of the calls", s.batch((AFTER, s.b, [s.c]), (AFTER, s.x, [s.d]), (FIRST, s.x, [s.c]), rules=[3, 2, 1])
    yield "four calls at one place, later ones to the left", s.batch(*[(AFTER, s.x, [it]) for it in (s.c, s.d, s.c, s.d)], rules=[1, 2, 3, 4])
    e, c = token(4), token(4, b"c")
    empty = Batch([node(1, token(3), token(3, b"b")), node(2, e, c)])
    y, root = empty.trees[0].children[0], empty.trees[0]
    empty.calls, empty.rules = [(AFTER, y, [e, e]), (FIRST, root, [e, c]), (AFTER, y, [e])], [1, 2, 3]
    yield "numbers of changed elements at one start", empty
    yield "two editors, and numbers in both", s.batch(by_c, OTHER, after, rules=[1, 0, 2])
    yield "two editors do not merge, and both keep their numbers", s.batch((AFTER, s.x, [s.c]), OTHER, (AFTER, s.x, [s.c]), rules=[1, 0, 2])
    yield "each editor merges by itself", s.batch(by_c, by_c, OTHER, (REPLACE, s.a, [s.c]), (REPLACE, s.a, [s.d]), rules=[1, 2, 0, 3, 4])
    yield "a number below another editor's", s.batch(after, OTHER, after, OTHER, after, rules=[3, 0, 1, 0, 2])
    yield "a discarded call's number goes with it", s.batch((MANY, s.x, [s.d]), (REPLACE, s.a, [s.c]), rules=[1, 2])
    owned = (REPLACE, s.x, [s.r]), (AFTER, s.a, [s.c])
    yield "the owner's number, not its dependent's", s.batch(*owned, rules=[1, 2], mappings=[(s.x, s.copy)], more=[s.r])
    yield "a change of another tree has no number here, its tree the lister's", s.batch((AFTER, s.c, [s.d]), (AFTER, s.x, [s.trees[1]]), rules=[1, 2])
    yield "a changed element and its number go with a node that is deleted later", s.batch((DELETE, s.x, []), (REPLACE, s.b, [s.d]), (AFTER, s.a, [s.c]), rules=[1, 2, 3])
    yield from wide_numbers()


def wide_numbers():
    s = S()
    after = (AFTER, s.x, [s.c])
    for rule in (1, 255, 256, 2047, 2048, 4094, 4095):
        yield "rule number %d" % rule, s.batch(after, (REPLACE, s.b, [s.d]), rules=[rule, 4095 - rule])
    yield "rule 4,095 lists 41: count and number side by side", s.batch((AFTER, s.x, [s.c, s.d] * 20 + [s.a]), rules=[4095])
    yield "rule 4,095 lists 42", s.batch((AFTER, s.x, [s.c, s.d] * 21), rules=[4095])
    yield "256 calls, each with a number of its own", s.batch(*[after] * 256, rules=range(3840, 4096))
    for rule in (1, 4095):
        yield "call 6 with number %d" % rule, s.batch(after, OTHER, after, rules=[0, rule, 0])
    yield "call 6 with number 1, first of all", s.batch(OTHER, after, rules=[1])
    yield "call 6 with number 1, and 42 listed", s.batch((AFTER, s.x, [s.c] * 42), OTHER, rules=[0, 1])
    yield "call 6 with number 1, and a root as a mapping's output", s.batch(OTHER, after, rules=[1], mappings=[(s.x, s.root)])
    plain = s.batch(after)

    def word(what, value):
        return what, changed_parts(plain, lambda p: p.arrays[WORDS].__setitem__(0, value))

    yield word("every bit of the number, and the count as it is", 0xFFF00101)
    yield word("bit 20 alone: a number, not a count", 0x00100101)
    yield word("bit 19: a count of 2,049", 0x00080101)
    yield word("every bit of the count and of the number", 0xFFFFFF01)
    yield word("operation 7 with a number", 0x00100107)


def row(first=b"a", *more):
    """A root of nodes with a token each, and d; x and y in another tree."""
    nodes = [node(2, token(3, it)) for it in (first, *more)]
    x, y = token(6, b"x"), token(6, b"y")
    return nodes, x, y, [node(1, *nodes, token(3, b"d")), node(5, x, y)]


def emptied_row():
    """A root of three empty nodes and b; c and d in another tree."""
    nodes, c, d = [node(2), node(2), node(2)], token(6, b"c"), token(6, b"d")
    return nodes, c, d, [node(1, *nodes, token(4, b"b")), node(5, c, d)]


def chosen_cases():
    """Cases by other choices than the default: (what it shows, batch, (edge rule, stronger rules first)). The model alone tells their answers."""
    s = S()
    by_c, by_d = (REPLACE, s.x, [s.c]), (REPLACE, s.x, [s.d])
    for first, second in ((1, 2), (2, 1), (2, 2)):
        for choices in ((0, 0), (0, 1), (1, 1)):
            yield "rule %d replaces X by c, another editor's rule %d by d" % (first, second), s.batch(by_c, OTHER, by_d, rules=[first, 0, second]), choices
    yield "a stronger change inside a weaker one's node is discarded", s.batch((DELETE, s.x, []), (REPLACE, s.a, [s.c]), rules=[1, 2]), (0, 1)
    (a, b, c), x, y, trees = row(b"a", b"b", b"c")
    yield "the middle one is withdrawn, and withdraws no other", Batch(trees, [(RUN, a, [b]), (RUN, b, [c]), (DELETE, c, [])], (), (), [3, 2, 1]), (0, 1)
    yield "withdrawn under the highest number, the first of it", Batch(trees, [(RUN, a, [c]), (DELETE, a, []), (DELETE, b, []), (DELETE, c, [])], (), (), [1, 2, 3, 3]), (0, 1)
    yield "what is left overlaps", Batch(trees, [(DELETE, a, []), (DELETE, b, []), OTHER, (DELETE, a, []), (DELETE, b, [])], (), (), [1, 0, 0, 2, 0]), (0, 1)
    yield "an insertion is not withdrawn", Batch(trees, [(RUN, a, [c]), (AFTER, a, [x])], (), (), [5, 1]), (0, 1)
    for choices in ((0, 1), (1, 1)):
        yield "a region that is withdrawn is none", Batch(trees, [(RUN, a, [b]), (DELETE, a, []), (AFTER, a, [x])], (), (), [1, 2, 0]), choices
    (p, q, r), c, d, trees = emptied_row()
    yield "both remove an empty node", Batch(trees, [(DELETE, p, []), OTHER, (DELETE, p, [])], (), (), [1, 0, 2]), (0, 1)
    yield "a run of empty nodes gives way to one of them", Batch(trees, [(RUN, p, [r]), (REPLACE, q, [c])], (), (), [1, 2]), (0, 1)
    for choices in ((0, 0), (0, 1)):
        yield "on refuses what off accepts", Batch(trees, [(DELETE, p, []), OTHER, (REPLACE, p, [trees[1]]), (FIRST, p, [c])], (), (), [1, 0, 2, 0]), choices
    for choices in ((0, 0), (1, 0), (1, 1)):
        yield "c after a deleted node", s.batch((DELETE, s.x, []), (AFTER, s.x, [s.c])), choices
    for choices in ((2, 0), (2, 2), (0, 2), (1, 4294967295)):
        yield "a choice that is neither 0 nor 1", s.batch(by_c), choices


def all_cases():
    parts = (printed, marked, lines_2_to_4, line_5, line_6, line_7, recording, planning, dependents, endless, notes, running, limits, empty_nodes, longest_lists, rule_numbers)
    for part in parts:
        for what, batch in part():
            yield what, encode(batch) if isinstance(batch, Batch) else batch
