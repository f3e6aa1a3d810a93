"""All short lists of calls over three small stages. A stage is tree 0 and the trees that it borrows from; a set is every list of calls of one sort
on one stage. Nothing is drawn: the sets are the same every time."""

from itertools import product
from struct import pack

from batches import AFTER, DELETE, EDITOR, FIRST, MANY, NODE, REPLACE, RUN, call_word, node, place, token

# Kinds: root 1, X 2, a 3, b 4, C 5, c 6, R 7, Y 8, Q 9. A copy has its original's kind, so that `find_element` can take one for the other.


class Stage:
    """Trees whose elements are numbered; `elements[number]` has parent, children and place."""

    def __init__(self, *trees):
        place(trees)
        self.elements = [element for tree in trees for element in tree.below()]
        self.count, self.trees = len(self.elements), len(trees)
        kinds = [it.kind | NODE if it.is_node else it.kind for it in self.elements]
        measures = [len(it.children) if it.is_node else len(it.text) for it in self.elements]
        self.arrays = pack("<%dI" % (2 * self.count), *kinds, *measures)
        self.text = b"".join(it.text for it in self.elements)

    def batch(self, calls, mappings=(), notes=()):
        """The bytes of calls (operation, target, listed), mappings (input, output) and notes (element, number), all in element numbers. A call's rule
        number is its place, counted from 1."""
        listed = [number for _, _, numbers in calls for number in numbers]
        rules = [0 if operation == EDITOR else turn for turn, (operation, _, _) in enumerate(calls, 1)]
        words = [call_word(operation, len(numbers), rule) for (operation, _, numbers), rule in zip(calls, rules)] + [target for _, target, _ in calls] + listed
        words += [x for x, _ in mappings] + [y for _, y in mappings] + [x for x, _ in notes] + [n for _, n in notes]
        sizes = (self.trees, self.count, len(self.text), len(calls), len(listed), len(mappings), len(notes))
        return pack("<7I", *sizes) + self.arrays + pack("<%dI" % len(words), *words) + self.text

    def home(self):
        return [number for number, it in enumerate(self.elements) if it.tree == 0]

    def nodes(self):
        return [number for number, it in enumerate(self.elements) if it.is_node]

    def mappings(self):
        """Every mapping that line 7 lets through."""
        return [(x, y) for x in self.nodes() for y in self.nodes() if not self.elements[y].is_root]


def lists(pool, most):
    """Every list of up to `most` out of the pool, the same one twice included."""
    return [numbers for count in range(most + 1) for numbers in product(pool, repeat=count)]


def calls_on(stage, targets, pool, most):
    """Every call that line 6 lets through on one of the targets and that puts in up to `most` elements of the pool."""
    out, put = [], lists(pool, most)
    for number in targets:
        target = stage.elements[number]
        if target.is_node:
            out += [(FIRST, number, numbers) for numbers in put]
        if target.is_root:
            out += [(REPLACE, number, (new,)) for new in pool if stage.elements[new].is_node]
            continue
        out += [(operation, number, numbers) for operation in (AFTER, MANY) for numbers in put]
        out += [(REPLACE, number, (new,)) for new in pool] + [(DELETE, number, ())]
        out += [(RUN, number, (end.number, *numbers)) for end in target.parent.children[target.index :] for numbers in put]
    return out


FURTHER = (EDITOR, 0, ())


# ---------------------------------------------------------------- sets


def any_call(stage, most):
    """One call, of any operation (7 is none), any target and any list, with numbers up to one that names no element."""
    numbers = range(stage.count + 1)
    for operation, target, listed in product(range(8), numbers, lists(numbers, most)):
        yield stage.batch([(operation, target, listed)])


def any_mapping_and_note(stage):
    """One mapping of any two numbers and one note of any number, numbered 0 or 1, and no call."""
    numbers = range(stage.count + 1)
    for x, y, z, number in product(numbers, numbers, numbers, (0, 1)):
        yield stage.batch([], [(x, y)], [(z, number)])


def runs_of(stage, calls, count, mappings=(), notes=()):
    """Every list of so many of the calls."""
    for chosen in product(calls, repeat=count):
        yield stage.batch(chosen, mappings, notes)


def apart(stage, calls):
    """Every two of the calls, from two editors."""
    for first, second in product(calls, repeat=2):
        yield stage.batch([first, FURTHER, second])


def mapped(stage, before, calls, notes):
    """One of the lists of calls `before` and one more call, with every list of up to two mappings."""
    for first, call, mappings in product(before, calls, lists(stage.mappings(), 2)):
        yield stage.batch([*first, call], mappings, notes)


def replacing(stage):
    """Every call that replaces a node by a node."""
    return [(REPLACE, x, (r,)) for x in stage.nodes() for r in stage.nodes()]


# ---------------------------------------------------------------- stages

# Document 01's S and what its examples list: 0(1(2'a'), 3'b'), 4(5'c'), 6(7(8'a')).
S = Stage(node(1, node(2, token(3, b"a")), token(4, b"b")), node(5, token(6, b"c")), node(7, node(2, token(3, b"a"))))
# The same with no text in tree 0 and a childless node, so that all ranges there are one: 0(1(2''), 3()), 4(5'c'), 6(7(8'')).
EMPTY = Stage(node(1, node(2, token(3)), node(4)), node(5, token(6, b"c")), node(7, node(2, token(3))))
# A node in a node, and a copy for each: 0(1(2(3'a')), 4'b'), 5(6(7(8'a'))), 9(10(11'a')).
NESTED = Stage(
    node(1, node(2, node(8, token(3, b"a"))), token(4, b"b")),
    node(7, node(2, node(8, token(3, b"a")))),
    node(9, node(8, token(3, b"a"))),
)
X, A, C, R, COPY = 1, 2, 5, 6, 7  # in S and EMPTY: X, its child, the token c, R, the copy of X in R
NOTES = ((A, 2), (COPY, 1))
# In NESTED: X is replaced by tree 1, the node inside X by tree 2; each has its copy there.
BOTH = ((REPLACE, 1, (5,)), (REPLACE, 2, (9,)))
CHAIN, CHAIN_NOTES = ((1, 6), (2, 10)), ((3, 1), (11, 2))


def sets():
    """What each set is, and its batches."""
    for name, stage, most in (("S", S, 3), ("S without text", EMPTY, 2)):
        every = calls_on(stage, range(stage.count), range(stage.count), 1)
        home = calls_on(stage, stage.home(), (C, R), 1) + [FURTHER]
        yield "%s, any call" % name, any_call(stage, most)
        yield "%s, any mapping and note" % name, any_mapping_and_note(stage)
        yield "%s, two calls that put in up to one each" % name, runs_of(stage, every, 2)
        yield "%s, two calls likewise, with a mapping and notes" % name, runs_of(stage, every, 2, [(X, COPY)], NOTES)
        yield "%s, two calls likewise, from two editors" % name, apart(stage, every)
        yield "%s, two calls on tree 0 that put in up to two each" % name, runs_of(stage, calls_on(stage, stage.home(), (X, A, C, R), 2), 2)
        yield "%s, three calls on tree 0 that put in c, R or nothing" % name, runs_of(stage, home, 3)
        yield "%s, three calls likewise, with a mapping and notes" % name, runs_of(stage, home, 3, [(X, COPY)], NOTES)
        yield "%s, a replacement and a call, up to two mappings" % name, \
            mapped(stage, [(it,) for it in replacing(stage)], calls_on(stage, range(stage.count), (C,), 1), NOTES)
    nested = calls_on(NESTED, NESTED.home(), (5, 9), 1) + [FURTHER]
    yield "a node in a node, three calls on tree 0, a mapping for each node", runs_of(NESTED, nested, 3, CHAIN, CHAIN_NOTES)
    yield "a node in a node, both replaced and a call, up to two mappings", \
        mapped(NESTED, [BOTH], calls_on(NESTED, NESTED.home(), (4,), 1), CHAIN_NOTES)
