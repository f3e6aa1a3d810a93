"""Seeded batches. `generate(seed, number)` gives the same batch every time, whatever was drawn before."""

from random import Random

from batches import AFTER, DELETE, EDITOR, FIRST, MANY, REPLACE, RUN, Batch, Element, encode, node, place, token
from damage import damage


class Draws:
    """All choices of one batch. Only `Random.random` is used: its sequence is the same in every Python."""

    def __init__(self, seed, number):
        self.random = Random(seed << 64 | number).random

    def below(self, n):
        return int(self.random() * n)

    def between(self, low, high):
        return low + self.below(high - low + 1)

    def chance(self, p):
        return self.random() < p

    def choose(self, items):
        return items[self.below(len(items))]

    def weighted(self, pairs):
        at = self.random() * sum(weight for _, weight in pairs)
        for item, weight in pairs:
            at -= weight
            if at < 0:
                return item
        return pairs[-1][0]

    def shuffled(self, items):
        items = list(items)
        for i in range(len(items) - 1, 0, -1):
            j = self.below(i + 1)
            items[i], items[j] = items[j], items[i]
        return items


class Style:
    """How trees look: most elements, most children, most depth, chance of a node, of an empty node, of an empty token, most text of a token."""

    def __init__(self, size, width, depth, node, empty_node, empty_token, text):
        self.size, self.width, self.depth = size, width, depth
        self.node, self.empty_node, self.empty_token, self.text = node, empty_node, empty_token, text


def small_style(d):
    empty = d.weighted(((0.0, 3), (0.15, 3), (0.5, 2), (0.9, 1)))
    return Style(d.between(2, 14), d.between(2, 4), d.between(2, 6), 0.5, empty * 0.6, empty, d.between(1, 3))


def large_style(d):
    return Style(d.between(60, 330), d.between(2, 12), d.choose((5, 10, 30, 60)), 0.55, 0.05, 0.1, 4)


# ---------------------------------------------------------------- trees


def some_kind(d):
    return d.between(1, 4) if d.chance(0.97) else d.choose((0, 255, 256, 65535))


def some_token(d, style):
    length = 0 if d.chance(style.empty_token) else d.between(1, style.text)
    return token(some_kind(d), bytes(97 + d.below(26) for _ in range(length)))


def some_tree(d, style, least=0):
    """A random node with at least `least` children."""
    left = [d.between(1, style.size)]

    def grow(depth, least):
        top = Element(some_kind(d), [])
        count = 0 if d.chance(style.empty_node) else d.between(1, style.width)
        for _ in range(max(count, least)):
            if left[0] <= 0 and len(top.children) >= least:
                break
            left[0] -= 1
            inner = depth < style.depth and left[0] > 0 and d.chance(style.node)
            top.children.append(grow(depth + 1, 0) if inner else some_token(d, style))
        return top

    return grow(1, least)


def copy_of(element):
    """A copy, and the pairs of nodes and their copies, outermost first."""
    pairs = []

    def copy(it):
        if not it.is_node:
            return token(it.kind, it.text)
        new = Element(it.kind, [])
        pairs.append((it, new))
        new.children = [copy(child) for child in it.children]
        return new

    return copy(element), pairs


def depth_of(element):
    return 1 + max((depth_of(child) for child in element.children or ()), default=0)


# ---------------------------------------------------------------- replacements with mappings


def around(d, style, inner):
    """A node that holds `inner` among other children, one or two storeys above it."""
    for _ in range(d.weighted(((1, 3), (2, 1)))):
        siblings = [some_token(d, style) for _ in range(d.below(3))]
        siblings.insert(d.below(len(siblings) + 1), inner)
        inner = Element(some_kind(d), siblings)
    return inner


def spoil(d, copy):
    """Changes a copy so that what was below the original may miss its place."""
    inner = [it for it in copy.below() if it.is_node and it.children]
    if inner:
        top = d.choose(inner)
        i = d.below(len(top.children))
        if d.chance(0.5):
            top.children.pop(i)
        else:
            top.children[i] = token(1, b"q") if top.children[i].is_node else node(1)


def replacement(d, style, batch, x):
    """A node that replaces x and, mostly, has a mapped copy of x in it; new trees and mappings go to the batch."""
    source = x
    for _ in range(d.weighted(((1, 6), (2, 2), (3, 1)))):
        copy, pairs = copy_of(source)
        if d.chance(0.93):
            batch.mappings.append((source, copy))
        batch.mappings += [pair for pair in pairs[1:] if d.chance(0.12)]
        if d.chance(0.06):
            spoil(d, copy)
            alive = set(copy.below())
            batch.mappings = [(a, b) for a, b in batch.mappings if b in alive or b not in (p[1] for p in pairs)]
        source = around(d, style, copy)
        batch.trees.append(source)
    if d.chance(0.1):
        batch.trees[-1] = around(d, style, source)
    elif d.chance(0.1):
        batch.trees[0].children.append(batch.trees.pop())  # the replacement stands in tree 0 itself
    return source


def nested(d, style, batch, x, levels):
    """Call 2 on x and mostly on a node inside x, and so on; gives the replaced nodes, outermost first."""
    new = x if d.chance(0.05) else replacement(d, style, batch, x)
    batch.calls.append((REPLACE, x, [new]))
    inside = [it for it in x.below() if it.is_node and it is not x]
    if levels > 1 and inside and len(batch.trees) < 12 and d.chance(0.85):
        return [x] + nested(d, style, batch, d.choose(inside[:3]), levels - 1)
    return [x]


# ---------------------------------------------------------------- calls

RANK = {FIRST: 0, AFTER: 0, RUN: 1, REPLACE: 2, DELETE: 2, MANY: 2}


class Calls:
    """Draws calls on placed trees. `taken` holds what replacements remove, so that most of them do not overlap."""

    def __init__(self, d, batch, weights, home=0.8):
        self.d, self.batch, self.weights, self.home = d, batch, weights, home
        place(batch.trees)
        self.all = batch.elements()
        self.old = [it for it in self.all if it.tree == 0]
        self.new = [it for it in self.all if it.tree != 0] or self.old
        self.taken = []
        for op, target, listed in batch.calls:
            self.clashes(op, target, listed, True)

    def target(self, fits, among=None):
        pool = among or (self.old if self.d.chance(self.home) else self.all)
        pool = [it for it in pool if fits(it)]
        return self.d.choose(pool) if pool else None

    def listed(self, count):
        return [self.one_listed() for _ in range(count)]

    def one_listed(self):
        if self.d.chance(0.35):
            return self.d.choose(self.batch.trees[1:] or self.old)
        return self.d.choose(self.new if self.d.chance(0.7) else self.all)

    def count(self):
        return self.d.weighted(((0, 1), (1, 6), (2, 3), (3, 1)))

    def clashes(self, op, target, listed, keep=False):
        """Whether a replacement overlaps one taken before; if not, or if told to, it is taken."""
        if RANK.get(op, 0) == 0:
            return False
        depth = 1 if target.is_root else target.depth - 1
        end = listed[0].end if op == RUN else target.end
        mine = (target.start, RANK[op], end)
        for tree, level, other in self.taken:
            first, second = sorted((mine, other))
            if (tree, level) == (target.tree, depth) and first[2] > second[0] and not keep:
                return True
        self.taken.append((target.tree, depth, mine))
        return False

    def draw(self, among=None):
        """One call, or None."""
        d, op = self.d, self.d.weighted(self.weights)
        if op == FIRST:
            target, listed = self.target(lambda it: it.is_node and it.children, among), self.listed(self.count())
        elif op == AFTER:
            target, listed = self.target(lambda it: not it.is_root, among), self.listed(self.count())
        elif op == REPLACE:
            target, listed = self.target(lambda it: not it.is_root or d.chance(0.3), among), self.listed(1)
            if target and target.is_root and not listed[0].is_node:
                listed = [d.choose([it for it in self.all if it.is_node])]
        elif op == RUN:
            target, listed = self.target(lambda it: not it.is_root, among), []
            if target:
                siblings = target.parent.children
                listed = [siblings[d.between(target.index, len(siblings) - 1)]] + self.listed(self.count())
        else:
            target = self.target(lambda it: not it.is_root, among)
            listed = self.listed(self.count()) if op == MANY else []
        if target is None or self.clashes(op, target, listed) and not d.chance(0.04):
            return None
        return (op, target, listed)

    def add(self, count, among=None):
        for _ in range(count):
            call = self.draw(among)
            if call:
                self.batch.calls.append(call)


EVEN = ((FIRST, 2), (AFTER, 4), (REPLACE, 3), (DELETE, 2), (MANY, 2), (RUN, 2))
INSERTING = ((FIRST, 4), (AFTER, 8), (REPLACE, 1), (DELETE, 1), (MANY, 1), (RUN, 1))


# ---------------------------------------------------------------- whole batches


def free(d):
    """Any calls on any trees."""
    style = small_style(d)
    batch = Batch([some_tree(d, style, 1)] + [some_tree(d, style) for _ in range(d.weighted(((0, 10), (1, 30), (2, 30), (4, 10), (15, 1))))])
    Calls(d, batch, EVEN, d.choose((0.5, 0.8, 1.0))).add(d.between(1, 8))
    return batch


def crowded(d):
    """Insertions and replacements at few places, of what stands at few places."""
    style = small_style(d)
    batch = Batch([some_tree(d, style, 2)] + [some_tree(d, style, 1) for _ in range(d.between(1, 2))])
    calls = Calls(d, batch, INSERTING)
    spots = [d.choose(calls.old) for _ in range(3)]
    calls.add(d.between(3, 10), spots)
    return batch


def moving(d):
    """Elements of the trees that are edited are listed, so that they come along as they stand then or as they stood first."""
    style = small_style(d)
    batch = Batch([some_tree(d, style, 2)] + [some_tree(d, style, 1) for _ in range(d.between(1, 3))])
    calls = Calls(d, batch, EVEN, 0.6)
    calls.new = calls.all
    calls.add(d.between(2, 9))
    return batch


def deep_tree(d, style):
    """A tree with several storeys of nodes above a random one."""
    tree = some_tree(d, style, 1)
    for _ in range(d.between(1, 3)):
        tree = around(d, style, tree)
    return tree


def chains(d):
    """Replacements inside replacements, with mappings that lead from one to the next, and changes inside them."""
    style = small_style(d)
    style.empty_token *= 0.4
    style.empty_node *= 0.4
    batch = Batch([deep_tree(d, style), some_tree(d, style, 1)])
    inner = [it for it in batch.trees[0].below() if it.is_node]
    x = batch.trees[0] if d.chance(0.08) else d.choose(inner[1:3])
    replaced = nested(d, style, batch, x, d.between(1, 4))
    calls = Calls(d, batch, INSERTING if d.chance(0.6) else EVEN, 0.8)
    for it in replaced:
        calls.add(d.below(3), [inside for inside in it.below() if inside is not batch.trees[0]])
    calls.add(d.below(3))
    batch.calls = d.shuffled(batch.calls)
    return batch


def emptied(d):
    """A node is replaced by one whose mapped copy has lost children, under first-child positions."""
    style = small_style(d)
    x = some_tree(d, style, 1)
    copy, _ = copy_of(x)
    batch = Batch([around(d, style, x), around(d, style, copy), some_tree(d, style, 1)], mappings=[(x, copy)])
    batch.calls.append((REPLACE, x, [batch.trees[1]]))
    full = [(a, b) for a, b in zip(x.below(), copy.below()) if a.is_node and a.children]
    for a, b in d.shuffled(full)[: d.between(1, 3)]:
        if a is x or d.chance(0.8):
            batch.calls.append((FIRST, a, [d.choose(batch.trees)]))
        if d.chance(0.7):
            b.children = []
    Calls(d, batch, INSERTING, 0.8).add(d.below(4))
    batch.calls = d.shuffled(batch.calls)
    return batch


def templates(d):
    """Insertions into empty nodes: alone, beside other calls, and in a replaced node."""
    style = small_style(d)
    style.empty_node = 0.6
    batch = Batch([some_tree(d, style, d.below(3)) for _ in range(d.between(2, 4))])
    inner = [it for it in batch.trees[0].below() if it.is_node and it is not batch.trees[0]]
    if inner and d.chance(0.4):
        nested(d, style, batch, d.choose(inner), 2)
    calls = Calls(d, batch, EVEN)
    empty = [it for it in calls.old if it.is_node and not it.children] or [it for it in calls.all if it.is_node]
    for _ in range(d.weighted(((1, 4), (2, 2), (3, 1)))):
        batch.calls.append((FIRST, d.choose(empty), calls.listed(calls.count())))
    calls.add(d.weighted(((0, 4), (1, 2), (4, 1))))
    batch.calls = d.shuffled(batch.calls)
    return batch


def listing(d):
    """Lists of about as many elements as a call may have, and of one more."""
    style = small_style(d)
    batch = Batch([some_tree(d, style, 2), some_tree(d, style, 1)])
    calls = Calls(d, batch, ((FIRST, 1), (AFTER, 2), (DELETE, 1), (MANY, 2), (RUN, 2)))
    few = calls.count
    calls.count = lambda: d.weighted(((40, 1), (41, 3), (42, 1))) if d.chance(0.7) else few()
    calls.add(d.between(1, 4))
    return batch


def tangled(d):
    """Chains with mappings that make no sense added to them or put in their place."""
    batch = chains(d) if d.chance(0.7) else free(d)
    nodes = [it for it in batch.elements() if it.is_node]
    place(batch.trees)
    outputs = [it for it in nodes if not it.is_root]
    if d.chance(0.3):
        batch.mappings = []
    if outputs:
        batch.mappings += [(d.choose(nodes), d.choose(outputs)) for _ in range(d.between(1, 6))]
        batch.mappings = d.shuffled(batch.mappings)
    return batch


def copied(d, big, calls):
    """A small tree and a big one, listed by so many calls, most of them insertions."""
    batch = Batch([node(1, node(1, token(1, b"a")), token(1, b"b")), big])
    draws = Calls(d, batch, ((FIRST, 1), (AFTER, 3), (MANY, 1)), 0.7)
    draws.new = [big, big, batch.trees[0]]
    draws.add(calls)
    return batch


def growing(d):
    """Few calls that copy much: towards the limits of line 12, and past them."""
    sort, calls = d.below(4), d.between(1, 9)
    if sort == 0:
        return copied(d, node(1, *(token(2) for _ in range(d.between(200, 1500)))), calls)
    if sort == 1:
        return copied(d, node(1, token(2, b"x" * d.between(500, 6000)), token(2, b"y")), calls)
    if sort == 2:
        big = token(1, b"z")
        for _ in range(d.between(5, 40)):
            big = node(1, big)
        return copied(d, big, calls)
    big = node(1, token(2, b"n"))
    batch = copied(d, big, calls)
    batch.notes = [(d.choose((big, big.children[0])), d.between(1, 3)) for _ in range(d.between(60, 250))]
    return batch


ELEMENTS, TEXT, DEPTH, NOTES = range(4)


def reach(sort, copies, over):
    """Insertions of so many copies (4 to 9) that come to a limit of line 12 and `over` more (-1 to 1)."""
    small, big, notes = node(1, node(1, token(1, b"a"))), node(1, token(2)), []
    place_after, part = small.children[0], 0
    if sort == ELEMENTS:  # those of both trees, and the copies
        part = 4000 // (copies + 1)
        big.children = [token(2) for _ in range(part - 1)]
        small.children += [token(3) for _ in range(4096 + over - part * (copies + 1) - 3)]
    elif sort == TEXT:
        part = 16000 // (copies + 1)
        big.children = [token(2, b"x" * part)]
        small.children.append(token(3, b"y" * (16384 + over - part * (copies + 1) - 1)))
    elif sort == DEPTH:  # the copies stand at depth 3
        for _ in range(60 + over):
            big.children = [node(1, *big.children)]
        place_after = place_after.children[0]
    else:
        part = 1000 // (copies + 1)
        notes = [(big.children[0], 1)] * part + [(small, 2)] * (1024 + over - part * (copies + 1))
    return Batch([small, big], [(AFTER, place_after, [big]) for _ in range(copies)], notes=notes)


def exact(d):
    """Insertions of copies that reach a limit of line 12 exactly, or miss it by one."""
    return reach(d.below(4), d.between(4, 9), d.between(-1, 1))


def large(d):
    """Larger trees with many calls."""
    style = large_style(d)
    batch = Batch([some_tree(d, style, 3)] + [some_tree(d, style) for _ in range(d.between(1, 5))])
    calls = Calls(d, batch, EVEN, 0.8)
    calls.new = [it for it in calls.new if it.end - it.start < 30] or calls.new
    calls.add(d.weighted(((20, 3), (40, 3), (200, 1))))
    batch.notes = [(d.choose(calls.all), d.between(1, 9)) for _ in range(d.weighted(((0, 2), (20, 2), (240, 1))))]
    return batch


SORTS = ((templates, 3), (listing, 1), (free, 18), (crowded, 12), (moving, 12), (chains, 34), (tangled, 12), (emptied, 2), (growing, 1.2), (exact, 0.4), (large, 0.4))


def add_editors(d, batch):
    for _ in range(d.weighted(((0, 7), (1, 3), (2, 1), (4, 0.2)))):
        batch.calls.insert(d.below(len(batch.calls) + 1), (EDITOR, None, []))


def add_notes(d, batch):
    elements = batch.elements()
    for _ in range(d.weighted(((0, 4), (1, 2), (3, 2), (8, 1)))):
        number = d.between(1, 3) if d.chance(0.95) else d.choose((4, 255, 256, 2**32 - 1))
        batch.notes.append((d.choose(elements), number))


RULES = 1 << 32  # rule numbers are drawn by themselves, under a number beyond every batch's: all else in a batch is as it was without them


def some_rule(d):
    """A rule number: none, a small one, any, or one at an edge of its bits."""
    sort = d.below(6)
    return 0 if sort < 2 else d.between(1, 3) if sort < 4 else d.below(4096) if sort == 4 else d.choose((1, 255, 256, 2047, 2048, 4094, 4095))


def add_rules(seed, number, batch):
    """Rule numbers: now and then none at all, or one for all calls; else each its own. Operation 6 has none."""
    d = Draws(seed, RULES + number)
    every = some_rule(d)
    sort = d.weighted(((0, 2), (1, 1), (2, 7)))
    rules = [(0, every, some_rule(d))[sort] for _ in batch.calls]
    batch.rules = [0 if op == EDITOR else rule for (op, _, _), rule in zip(batch.calls, rules)]


def generate(seed, number):
    """The batch of this number: what sort it is, and its bytes."""
    d = Draws(seed, number)
    damaged = d.chance(0.1)
    sort = d.weighted(SORTS[:8] if damaged else SORTS)
    batch = sort(d)
    add_editors(d, batch)
    add_notes(d, batch)
    add_rules(seed, number, batch)
    data = encode(batch)
    return ("damaged", damage(d, data)) if damaged else (sort.__name__, data)
