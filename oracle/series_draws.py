"""Series of edits (document 02, Note 14): starting trees with bookmarks, right and wrong, and batches on the tree that the one before left, or on another.

The memory is two slices: the tree as bytes (elements, text bytes, kinds, measures, text) and the bookmarks as words (how many, then slots of 65: number, length of the path,
child numbers). `Slices` holds them whole, with what lies beyond what is used."""

from collections import namedtuple
from struct import pack, unpack_from

from batches import AFTER, FIRST, NODE, REPLACE, Batch, Element, decode_arrays, encode, token
from books import joined, next_book
from damage import damage
from generator import EVEN, INSERTING, Calls, Draws, Style, add_editors, add_notes, add_rules, chains, exact, free, growing, large, nested, small_style, some_tree
from landed import notes

Slices = namedtuple("Slices", "tree bookmarks")

SERIES = 3 << 32  # under numbers beyond those of every other batch
SLOT, LONGEST, MOST_BOOKMARKS = 65, 63, 256
MOST_TREE = 8 + 8 * 4096 + 16384


# ------------------------------------------------------------------ slices and what they hold


def tree_bytes(flat):
    """A tree as the memory holds it."""
    words = (len(flat.kinds), len(flat.text), *flat.kinds, *flat.measures)
    return pack("<%dI" % len(words), *words) + bytes(flat.text)


def over(new, old):
    return new + old[len(new) :]


def slots_of(bookmarks, words):
    """The bookmarks in the slots of a slice; the rest of each slot, and of the slice, is what it was."""
    words = list(words)
    words[0] = len(bookmarks)
    for i, (number, path) in enumerate(bookmarks):
        words[1 + SLOT * i : 3 + SLOT * i + len(path)] = [number, len(path), *path]
    return tuple(words)


def with_memory(slices, lent):
    """The slices with this memory in them, and beyond it what they held."""
    return Slices(over(tree_bytes(lent.tree), slices.tree), slots_of(lent.bookmarks, slices.bookmarks))


def sizes_of(tree):
    return unpack_from("<2I", tree)


def lent_in(slices, most):
    """The memory that slices hold, whether a slot states a path beyond it, or a refusal's number: 4 without the two sizes, 3, 4."""
    tree, words = slices
    if len(tree) < 8:
        return 4
    n, b = sizes_of(tree)
    if n > most or b > 16384:
        return 3
    count = words[0] if words else 0
    if len(tree) < 8 + 8 * n + b or len(words) < 1 + SLOT * count:
        return 4
    every = unpack_from("<%dI" % (2 * n), tree, 8)
    slots = [words[1 + SLOT * i : 1 + SLOT * (i + 1)] for i in range(count)]
    bookmarks = tuple(notes.Bookmark(it[0], it[2 : 2 + it[1]]) for it in slots)
    flat = notes.Flat(every[:n], every[n:], tree[8 + 8 * n : 8 + 8 * n + b])
    return notes.Lent(flat, bookmarks), any(it[1] > LONGEST for it in slots)


# ------------------------------------------------------------------ trees and batches on them


def element(tree):
    """A tree of the model as an element that batches are made of."""
    kind, rest = tree
    return Element(kind & 0xFFFF, [element(it) for it in rest]) if kind & NODE else token(kind, rest)


def model_tree(it):
    return (it.kind | NODE, tuple(map(model_tree, it.children))) if it.is_node else (it.kind, it.text)


def on_tree(d, tree):
    """A batch on this tree: calls of every sort, replacements with mapped copies, rivals of a further rule book."""
    style, tree = small_style(d), element(tree)
    batch = Batch([tree] + [some_tree(d, style) for _ in range(d.weighted(((1, 6), (2, 4), (0, 1))))])
    inner = [it for it in tree.below() if it.is_node and it is not tree]
    if inner and d.chance(0.3):
        count = len(tree.children)
        nested(d, style, batch, d.choose(inner), d.between(1, 3))
        del tree.children[count:]  # a replacement that was put into tree 0 itself would make it another tree: it goes, with all that was drawn for it
        alive = set(batch.elements())
        if any(it not in alive for _, target, listed in batch.calls for it in [target, *listed]) or any(it not in alive for pair in batch.mappings for it in pair):
            batch.calls, batch.mappings = [], []
    if tree.children and d.chance(0.02):  # as many as may be listed, or more (16)
        batch.calls.append((AFTER, d.choose(tree.children), [d.choose(batch.trees[1:] or [tree])] * d.choose((41, 42, 50))))
    if d.chance(0.02):
        batch.calls.append((REPLACE, tree, [d.choose([it for it in batch.elements() if it.is_node])]))
    calls = Calls(d, batch, d.choose((EVEN, INSERTING, INSERTING)), d.choose((0.7, 0.9, 1.0)))
    calls.old = [it for it in calls.old if not it.is_root] or calls.old
    calls.new = [it for it in calls.new if sum(1 for _ in it.below()) < 40] or calls.new[-1:]
    calls.add(d.weighted(((0, 1), (1, 4), (3, 4), (6, 2))))
    if d.chance(0.2):
        batch.calls, batch.rules = joined(d, [batch.calls, next_book(d, batch, batch.calls)])
    return batch


def nearly(d, tree):
    """The same tree but for one kind, one byte of text, or one byte that stands in the token before."""
    root = element(tree)
    it, sort = d.choose(list(root.below())), d.below(3)
    tokens = [it for it in root.below() if not it.is_node]
    pairs = [(x, y) for x, y in zip(tokens, tokens[1:]) if y.text]
    if sort == 0 and pairs:
        before, it = d.choose(pairs)
        before.text, it.text = before.text + it.text[:1], it.text[1:]
    elif sort == 1 and it.text:
        at = d.below(len(it.text))
        it.text = it.text[:at] + bytes([it.text[at] ^ 1]) + it.text[at + 1 :]
    else:
        it.kind ^= 1
    return model_tree(root)


def batch_on(seed, number, tree):
    """The bytes of a batch on this tree, now and then damaged, or on another tree."""
    d = Draws(seed, SERIES + number)
    if tree is None or d.chance(0.05):
        batch = d.weighted(((free, 3), (chains, 1)))(d)
    else:
        batch = on_tree(d, nearly(d, tree) if d.chance(0.03) else tree)
    if not batch.rules:
        add_editors(d, batch)
        add_rules(seed, SERIES + number, batch)
    add_notes(d, batch)
    data = encode(batch)
    # On a tree near the limits a batch can be beyond them (3): it needs no further damage, and cannot be taken apart for it.
    return damage(d, data) if d.chance(0.05) and decode_arrays(data) else data


def doubled(d):
    """A tree that lists itself: it is left with more than 2,048 elements, which no batch can have."""
    root = Element(1, [token(2) for _ in range(d.between(1000, 1500))])
    return Batch([root], [(FIRST, root, [root])])


def first_tree(d):
    """The starting tree, and for a few series the bytes of a first batch on it, one that comes near the limits."""
    if d.chance(0.02):
        batch = d.weighted(((growing, 4), (exact, 2), (large, 1), (doubled, 2)))(d)
        return model_tree(batch.trees[0]), encode(batch)
    style = Style(d.between(10, 60), d.between(3, 8), d.between(2, 6), 0.4, 0.1, 0.15, 3) if d.chance(0.7) else small_style(d)
    return model_tree(some_tree(d, style, d.below(6))), None


# ------------------------------------------------------------------ starts


def some_bookmarks(d, tree):
    """Bookmarks on elements of the tree: none, few, one on each, or the most."""
    paths = [it[0] for it in notes.m.preorder(tree)]
    many = d.weighted(((0, 1), (d.between(1, 4), 4), (d.between(5, 16), 4), (len(paths), 2), (MOST_BOOKMARKS, 0.3)))
    numbers = d.shuffled(range(600))[: min(many, MOST_BOOKMARKS)]
    numbers = [it if d.chance(0.97) else 2**32 - 1 - it for it in numbers]
    chosen = d.shuffled(paths)[: len(numbers)] if d.chance(0.5) else []
    return tuple(notes.Bookmark(number, chosen[i] if i < len(chosen) else d.choose(paths)) for i, number in enumerate(numbers))


def slices_for(d, lent):
    """Slices of some lengths, full of a pattern, with this memory in them."""
    used = len(tree_bytes(lent.tree))
    room = used + d.weighted(((0, 1), (d.below(60), 2), (500, 6), (3000, 24))) if d.chance(0.97) else MOST_TREE
    words = 1 + SLOT * (len(lent.bookmarks) + d.weighted(((0, 4), (1, 2), (3, 1)))) + d.below(3)
    pattern = d.between(1, 255)
    return with_memory(Slices(bytes([pattern]) * room, tuple(pattern << 24 | i for i in range(words))), lent)


def put(it, at, value):
    return (*it[:at], value, *it[at + 1 :])


def poke(tree, at, value):
    return tree[:at] + pack("<I", value % 2**32) + tree[at + 4 :]


def other_words(change):
    return lambda d, it: it._replace(bookmarks=tuple(change(d, it.bookmarks)))


def in_slot(change):
    """Damage to the slot of some bookmark, if there is one."""

    def damage(d, it):
        count = it.bookmarks[0]
        return it._replace(bookmarks=change(d, it.bookmarks, 1 + SLOT * d.below(count), count)) if count else it

    return damage


def other_tree_word(d, it):
    n, _ = sizes_of(it.tree)
    at = 8 + 4 * d.below(2 * n)
    return it._replace(tree=poke(it.tree, at, d.choose((0, 1, 2, 3, 1 << 31, 1 << 16, 2**32 - 1, NODE | 1))))


def too_large(d, it):
    """A tree of more than 2,048 elements, which a first call refuses; of up to 4,096 a later one does not."""
    n = d.choose((2048, 2049, 3000, 4096, 4097))
    flat = notes.Flat((NODE | 1,) + (2,) * (n - 1), (n - 1,) + (0,) * (n - 1), b"")
    lent = notes.Lent(flat, (notes.Bookmark(1, (d.below(n - 1),)), notes.Bookmark(0, ())))
    return with_memory(Slices(bytes(8 + 8 * n + d.below(20)), (9,) * (1 + SLOT * 2)), lent)


def many_bookmarks(d, it):
    count = d.choose((256, 257, 300))
    return it._replace(bookmarks=slots_of([notes.Bookmark(i, ()) for i in range(count)], (5,) * (1 + SLOT * count)))


DAMAGE = {
    "tree cut": lambda d, it: it._replace(tree=it.tree[: d.below(len(it.tree))]),
    "no sizes": lambda d, it: it._replace(tree=it.tree[: d.below(9)]),
    "other size": lambda d, it: it._replace(tree=poke(it.tree, 4 * d.below(2), d.choose((0, 1, 2, 2048, 2049, 4096, 4097, 16384, 16385, 2**32 - 1)))),
    "other word of the tree": other_tree_word,
    "too large": too_large,
    "words cut": other_words(lambda d, it: it[: d.below(len(it))]),
    "other count": other_words(lambda d, it: put(it, 0, d.choose((0, it[0] - 1 if it[0] else 1, it[0] + 1, 257, 2**26, 2**32 - 1)))),
    "many bookmarks": many_bookmarks,
    "number twice": in_slot(lambda d, it, at, count: put(it, at, it[1 + SLOT * d.below(count)])),
    "other length of a path": in_slot(lambda d, it, at, count: put(it, at + 1, d.choose((0, 1, 2, 3, 62, 63, 64, 65, 2**32 - 1)))),
    "other child": in_slot(lambda d, it, at, count: put(it, at + 2 + d.below(4), d.choose((0, 1, 2, 5, 2**32 - 1)))),
}


def start(seed, number):
    """What a series begins with: the name of a damage or None, the slices, the model's tree, and the first batch where it is drawn with the tree."""
    d = Draws(seed, SERIES + (number << 8) + 255)
    tree, batch = first_tree(d)
    slices = slices_for(d, notes.Lent(notes.flat(tree), some_bookmarks(d, tree)))
    if batch is not None and len(slices.tree) < MOST_TREE and d.chance(0.8):
        slices = slices._replace(tree=over(slices.tree, bytes(MOST_TREE)))
    if not d.chance(0.12):
        return None, slices, tree, batch
    name = d.choose(list(DAMAGE))
    return name, DAMAGE[name](d, slices), tree, batch
