"""Batches of two rule books or three (document 02, Note 9): each book has an editor of its own, and what one replaces or deletes, the next one often does too."""

from batches import DELETE, EDITOR, MANY, REPLACE, RUN, encode
from damage import damage
from generator import EVEN, Calls, Draws, add_notes, chains, crowded, emptied, free, large, moving, replacement, small_style, tangled, templates

BOOKS = 2 << 32  # under numbers beyond those of every other batch
FIRST_BOOKS = ((free, 10), (crowded, 5), (moving, 6), (chains, 8), (tangled, 2), (templates, 2), (emptied, 1), (large, 0.2))
REMOVES = (REPLACE, DELETE, MANY, RUN)
MOST_CALLS = 256


def near(d, it):
    """The element itself, mostly; else one beside it, around it or in it."""
    sort = d.weighted(((0, 12), (1, 2), (2, 1), (3, 1)))
    if sort == 1 and not it.is_root:
        return d.choose(it.parent.children)
    if sort == 2 and not it.is_root:
        return it.parent
    return d.choose(it.children) if sort == 3 and it.children else it


def rival(d, calls, it):
    """A call that removes this element too, alone or with those beside it."""
    if it.is_root:
        return (REPLACE, it, [d.choose([other for other in calls.all if other.is_node])])
    op = d.weighted(((REPLACE, 3), (DELETE, 3), (MANY, 2), (RUN, 4)))
    if op != RUN:
        return (op, it, calls.listed(calls.count() if op == MANY else int(op == REPLACE)))
    beside = it.parent.children
    first, last = beside[d.between(max(0, it.index - 2), it.index)], beside[d.between(it.index, min(it.index + 2, len(beside) - 1))]
    return (RUN, first, [last] + calls.listed(calls.count()))


def next_book(d, batch, before):
    """A further book's calls: rivals of the calls before it, some of them replacements with mapped copies, and calls of its own."""
    style, replaced = small_style(d), [it for op, it, _ in before if op == REPLACE and it.is_node]
    mapped = [(REPLACE, it, [replacement(d, style, batch, it)]) for it in replaced if len(batch.trees) < 12 and d.chance(0.2)]
    calls = Calls(d, batch, EVEN)
    spots = [it for op, it, listed in before if op in REMOVES for it in [it, *listed[: op == RUN]]] or [d.choose(calls.old)]
    rivals = [rival(d, calls, near(d, it)) for it in spots if d.chance(0.6)]
    fresh = [call for call in (calls.draw() for _ in range(d.weighted(((0, 3), (1, 2), (3, 1))))) if call]
    return d.shuffled(mapped + rivals + fresh)


def numbers(d, books):
    """Rule numbers, few, so that some are equal and some are not: mostly one for each book, else each call its own."""
    few = d.choose(((0, 1), (1, 2), (0, 1, 2), (1, 2, 3), (0, 1, 2, 3), (7, 4094, 4095)))
    every = [d.choose(few) for _ in books] if d.chance(0.4) else d.shuffled((few * 2)[: len(books)])
    alone = d.chance(0.35)
    return [[d.choose(few) if alone else of_all for _ in book] for book, of_all in zip(books, every)]


def joined(d, books):
    """The books' calls with their numbers, an editor for each book; seldom one editor has two."""
    calls, rules = [], []
    for number, (book, its) in enumerate(zip(books, numbers(d, books))):
        if number and not d.chance(0.1):
            calls.append((EDITOR, None, []))
            rules.append(0)
        calls += book
        rules += its
    return calls[:MOST_CALLS], rules[:MOST_CALLS]


def two_books(seed, number):
    """The batch of this number; one in twelve is damaged."""
    d = Draws(seed, BOOKS + number)
    batch = d.weighted(FIRST_BOOKS)(d)
    books = [batch.calls]
    for _ in range(d.weighted(((1, 3), (2, 1)))):
        books.append(next_book(d, batch, [call for book in books for call in book]))
    batch.calls, batch.rules = joined(d, d.shuffled(books))
    add_notes(d, batch)
    data = encode(batch)
    return damage(d, data) if d.chance(1 / 12) else data
