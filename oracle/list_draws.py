"""Random lists for the writer, right and wrong. `draw(seed, number)` gives the same lists every time, whatever was drawn before."""

from collections import namedtuple

from batches import EDITOR, LIMITS, decode_arrays, word_parts
from damage import damage
from generator import SORTS, Draws, add_editors, add_notes, add_rules, encode
from landed import LEVEL, notes

# The lengths that the work slices need: draft, table, source.
NEEDS = (49180, 16384, 6147)
WORD = 2**32

# What the lists are, the lists, the destination's length, and the lengths of the work slices.
Drawn = namedtuple("Drawn", "sort lists room work")

# Lists in step; one of each changes its length by itself.
STEPS = (("kinds", "measures"), ("ops", "counts", "rules", "targets"), ("map_in", "map_out"), ("note_elements", "note_numbers"))
# A size that is beyond its limit: the lists that have it, and what they get more of.
SIZES = (
    (LIMITS[1], ("kinds", "measures"), (0, 0)),
    (LIMITS[3], ("ops", "counts", "rules", "targets"), (EDITOR, 0, 0, 0)),
    (LIMITS[4], ("listed",), (0,)),
    (LIMITS[5], ("map_in", "map_out"), (0, 0)),
    (LIMITS[6], ("note_elements", "note_numbers"), (0, 1)),
)


def apart(data):
    """The lists of bytes that pass lines 2 to 4, whatever they hold; else None."""
    parts = decode_arrays(data)
    if parts is None:
        return None
    trees, arrays, text = parts
    kinds, measures, words, targets, listed, map_in, map_out, noted, numbers = map(tuple, arrays)
    ops, counts, rules = zip(*map(word_parts, words)) if words else ((), (), ())
    return notes.Lists(trees, kinds, measures, text, ops, counts, rules, targets, listed, map_in, map_out, noted, numbers)


def put(d, numbers, change):
    """The numbers with one of them changed."""
    at = d.below(len(numbers))
    return numbers[:at] + (change(numbers[at]),) + numbers[at + 1 :]


def right(d, lists):
    return lists


def out_of_step(d, lists):
    """One list of a pair is longer or shorter than the other."""
    name = d.choose(d.choose(STEPS))
    list_ = getattr(lists, name)
    others = [list_ + (0,), list_ + list_ + (1,)] + ([list_[:-1], list_[1:], ()] if list_ else [])
    return lists._replace(**{name: d.choose(others)})


def wide_operation(d, lists):
    """An operation of 256 and more; its low byte is one that a call may have."""
    lists = with_a_call(lists)
    return lists._replace(ops=put(d, lists.ops, lambda op: op + 256 * d.choose((1, 2, 255, 2**16, 2**24 - 1))))


def wide_count(d, lists):
    """A count of 2^12 and more; its low bits are those of the count."""
    lists = with_a_call(lists)
    return lists._replace(counts=put(d, lists.counts, lambda n: n + 2**12 * d.choose((1, 2, 2**12, 2**20 - 1))))


def wide_rule(d, lists):
    """A rule number of 4,096 and more; its low bits are those of the number."""
    lists = with_a_call(lists)
    return lists._replace(rules=put(d, lists.rules, lambda n: n + 2**12 * d.choose((1, 2, 2**12, 2**20 - 1))))


def with_a_call(lists):
    """The lists, with an operation 6 where they have no call."""
    return lists if lists.ops else lists._replace(ops=(EDITOR,), counts=(0,), rules=(0,), targets=(0,))


def beyond(d, lists):
    """A size beyond its limits."""
    if d.chance(0.3):
        return lists._replace(trees=d.choose((0, 17, 2**31, WORD - 1, WORD, WORD + lists.trees, 2**64 - 1)))
    if d.chance(0.2):
        return lists._replace(text=lists.text + bytes(LIMITS[2][1] + d.choose((1, 2, 4096)) - len(lists.text)))
    return grown(d, lists, d.choose((1, 2, 256, 4096)))


def at_limit(d, lists):
    """A size exactly at its limit."""
    return grown(d, lists, 0)


def grown(d, lists, over):
    (_, most), names, more = d.choose(SIZES)
    short = most + over - len(getattr(lists, names[0]))
    return lists._replace(**{name: getattr(lists, name) + (number,) * short for name, number in zip(names, more)})


def refused(d, lists, data):
    """What lines 5 to 7 and 16 refuse, for the most part: damaged bytes that can still be taken apart."""
    for _ in range(20):
        found = apart(damage(d, data))
        if found is not None:
            return found
    return lists


CHANGES = ((right, 5), (out_of_step, 2), (wide_operation, 1), (wide_count, 1), (wide_rule, 1), (beyond, 2), (at_limit, 1), (refused, 4))


def length_of(lists):
    """How many bytes lists in step are laid out in."""
    return 28 + 4 * sum(len(list_) for name, list_ in lists._asdict().items() if name not in ("trees", "text", "counts", "rules")) + len(lists.text)


def drawn_room(d, length):
    """A destination with room to spare, of the very length, or too short."""
    return d.weighted(((length + d.below(64), 3), (length, 2), (max(length - 1, 0), 1), (d.below(length + 1), 1), (0, 1)))


def drawn_work(d):
    """Work slices as long as they need to be or longer; now and then one that is too short."""
    work = [need + d.choose((0, 0, 1, 5)) for need in NEEDS]
    if d.chance(0.05):
        at = d.below(len(work))
        work[at] = d.choose((0, NEEDS[at] - 1))
    return tuple(work)


def draw(seed, number):
    d = Draws(seed, number)
    batch = d.weighted(SORTS[:8] if d.chance(0.99) else SORTS)(d)
    add_editors(d, batch)
    add_notes(d, batch)
    add_rules(seed, number, batch)
    data = encode(batch)
    change = d.weighted(CHANGES)
    lists = change(d, apart(data), data) if change is refused else change(d, apart(data))
    return Drawn(change.__name__, lists, drawn_room(d, length_of(lists)), drawn_work(d))


# What a write comes to: the bytes written, None if it is refused; the refusal's number, 0 if there is none, and why; the destination afterwards.
Answer = namedtuple("Answer", "length refusal why after")


def want(drawn, destination):
    """What the model answers."""
    if any(have < need for have, need in zip(drawn.work, NEEDS)):
        return Answer(None, 1, "a work slice is too short", destination)
    if drawn.lists.trees >= WORD:
        return Answer(None, 14, "trees do not fit their word", destination)
    told, after = notes.write(drawn.lists, destination, LEVEL)
    if isinstance(told, notes.Refused):
        return Answer(None, told.number, told.why, after)
    return Answer(told, 0, "", after)
