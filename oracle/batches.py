"""Batches as values: trees of elements, calls, mappings and notes that name elements, and the bytes that document 01 lays them out in."""

from struct import pack, unpack_from

NODE = 1 << 31
FIRST, AFTER, REPLACE, DELETE, MANY, RUN, EDITOR = range(7)
# Trees, elements, text bytes, calls, listed elements, mappings, notes.
LIMITS = ((1, 16), (0, 2048), (0, 16384), (0, 256), (0, 1024), (0, 1024), (0, 256))


class Element:
    """A node (children is a list) or a token (children is None). `place` fills in the rest."""

    __slots__ = ("kind", "children", "text", "parent", "index", "tree", "depth", "start", "end", "number")

    def __init__(self, kind, children=None, text=b""):
        self.kind, self.children, self.text = kind, children, text

    @property
    def is_node(self):
        return self.children is not None

    @property
    def is_root(self):
        return self.parent is None

    def below(self):
        """The element itself and all below it, in preorder."""
        yield self
        for child in self.children or ():
            yield from child.below()


def node(kind, *children):
    return Element(kind, list(children))


def token(kind, text=b""):
    return Element(kind, None, text)


def call_word(op, count, rule=0):
    """A call word: operation, count of listed elements, rule number."""
    return op + (count << 8) + (rule << 20)


def word_parts(word):
    """Operation, count of listed elements and rule number of a call word."""
    return word & 255, word >> 8 & 0xFFF, word >> 20


class Batch:
    """`calls` are (operation, target, listed); operation 6 has no target. `mappings` are (input, output), `notes` (element, number). `rules` are the rule
    numbers of the first calls; the others have 0."""

    def __init__(self, trees, calls=(), mappings=(), notes=(), rules=()):
        self.trees, self.calls, self.mappings, self.notes, self.rules = list(trees), list(calls), list(mappings), list(notes), list(rules)

    def elements(self):
        return [element for root in self.trees for element in root.below()]


def place(trees):
    """Gives every element its parent, child number, tree, depth, text range and number."""
    number = 0
    for tree, root in enumerate(trees):
        number, _ = place_below(root, None, 0, tree, 0, number)


def place_below(element, parent, index, tree, start, number):
    element.parent, element.index, element.tree, element.start, element.number = parent, index, tree, start, number
    element.depth = 1 if parent is None else parent.depth + 1
    number += 1
    at = start + len(element.text)
    for i, child in enumerate(element.children or ()):
        number, at = place_below(child, element, i, tree, at, number)
    element.end = at
    return number, at


def encode(batch):
    """The batch's bytes."""
    place(batch.trees)
    elements = batch.elements()
    rules = batch.rules + [0] * (len(batch.calls) - len(batch.rules))
    arrays = [
        [element.kind | NODE if element.is_node else element.kind for element in elements],
        [len(element.children) if element.is_node else len(element.text) for element in elements],
        [call_word(op, len(listed), rule) for (op, _, listed), rule in zip(batch.calls, rules, strict=True)],
        [0 if op == EDITOR else target.number for op, target, _ in batch.calls],
        [element.number for _, _, listed in batch.calls for element in listed],
        [x.number for x, _ in batch.mappings],
        [y.number for _, y in batch.mappings],
        [x.number for x, _ in batch.notes],
        [n for _, n in batch.notes],
    ]
    return encode_arrays(len(batch.trees), arrays, b"".join(element.text for element in elements))


def encode_arrays(trees, arrays, text):
    kinds, _, words, _, listed, inputs, _, notes, _ = map(len, arrays)
    sizes = (trees, kinds, len(text), words, listed, inputs, notes)
    flat = [word for array in arrays for word in array]
    return pack("<7I", *sizes) + pack("<%dI" % len(flat), *flat) + text


def decode_arrays(data):
    """Trees, the nine arrays and the text of bytes that pass lines 2 to 4, else None."""
    if len(data) < 28:
        return None
    sizes = unpack_from("<7I", data)
    if any(not low <= size <= high for size, (low, high) in zip(sizes, LIMITS)):
        return None
    trees, e, b, c, l, m, a = sizes
    lengths = (e, e, c, c, l, m, m, a, a)
    if len(data) != 28 + 4 * sum(lengths) + b:
        return None
    arrays, at = [], 28
    for length in lengths:
        arrays.append(list(unpack_from("<%dI" % length, data, at)))
        at += 4 * length
    return trees, arrays, data[at:]


def old_nodes(data):
    """The numbers of tree 0's nodes, of bytes that pass lines 2 to 5."""
    _, (kinds, measures, *_), _ = decode_arrays(data)
    out, number, owed = [], 0, 1
    while owed:
        owed -= 1
        if kinds[number] >= NODE:
            out.append(number)
            owed += measures[number]
        number += 1
    return out
