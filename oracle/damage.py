"""Damaged copies of batches, for lines 2 to 7. A damaged copy may still be accepted."""

from struct import pack_into, unpack_from

from batches import AFTER, DELETE, EDITOR, FIRST, LIMITS, MANY, NODE, REPLACE, RUN, call_word, decode_arrays, encode_arrays, word_parts

KINDS, MEASURES, WORDS, TARGETS, LISTED, INPUTS, OUTPUTS, NOTES, NUMBERS = range(9)
HUGE = (2**31 - 1, 2**31, 2**32 - 1)


class Parts:
    """A batch as arrays, with where each call's listed elements start."""

    def __init__(self, data):
        self.trees, self.arrays, self.text = decode_arrays(data)

    def bytes(self):
        words = [[word % 2**32 for word in array] for array in self.arrays]
        return encode_arrays(self.trees, words, self.text)

    def size(self):
        return len(self.arrays[KINDS])

    def numbers(self, fits):
        return [i for i, kind in enumerate(self.arrays[KINDS]) if fits(i, kind)]

    def tokens(self):
        return self.numbers(lambda i, kind: kind < NODE)

    def nodes(self):
        """All nodes; the first element where an earlier fault has left none."""
        return self.numbers(lambda i, kind: kind >= NODE) or [0]

    def childless(self):
        return self.numbers(lambda i, kind: kind >= NODE and self.arrays[MEASURES][i] == 0)

    def roots(self):
        out, owed = [], 0
        for i, (kind, measure) in enumerate(zip(self.arrays[KINDS], self.arrays[MEASURES])):
            if owed == 0:
                out.append(i)
            owed += (measure if kind >= NODE else 0) - (owed > 0)
        return out

    def add_call(self, op, target, listed, rule=0):
        self.arrays[WORDS].append(call_word(op, len(listed), rule))
        self.arrays[TARGETS].append(target)
        self.arrays[LISTED] += listed

    def set_any(self, d, array, value):
        """Puts a value at a random place of an array; False if the array is empty."""
        if self.arrays[array]:
            self.arrays[array][d.below(len(self.arrays[array]))] = value
        return bool(self.arrays[array])


# ---------------------------------------------------------------- lines 2 to 4, on bytes


def cut_short(d, data):
    return data[: d.below(28)]


def wrong_size(d, data):
    out = bytearray(data)
    i = d.below(7)
    low, high = LIMITS[i]
    value = d.choose((high + 1, 0, *HUGE)) if low else d.choose((high + 1, *HUGE))
    pack_into("<I", out, 4 * i, value)
    return bytes(out)


def wrong_length(d, data):
    return data[: -d.between(1, 5)] if d.chance(0.5) else data + bytes(d.between(1, 5))


def other_size(d, data):
    out = bytearray(data)
    i = d.below(7)
    size = unpack_from("<I", out, 4 * i)[0]
    pack_into("<I", out, 4 * i, max(0, size + d.choose((-1, 1, 2))))
    return bytes(out)


def other_byte(d, data):
    out = bytearray(data)
    i = d.below(len(out))
    out[i] = d.below(256)
    return bytes(out)


def other_word(d, data):
    out = bytearray(data)
    i = d.below(len(out) // 4)
    pack_into("<I", out, 4 * i, d.choose((0, 1, 2, 7, 256, 257, *HUGE)))
    return bytes(out)


# ---------------------------------------------------------------- line 5


def stray_bit(d, p):
    i = d.below(p.size())
    p.arrays[KINDS][i] |= 1 << d.between(16, 30)


def token_for_node(d, p):
    i = d.below(p.size())
    p.arrays[KINDS][i] ^= NODE


def other_measure(d, p):
    i = d.below(p.size())
    p.arrays[MEASURES][i] = max(0, p.arrays[MEASURES][i] + d.choose((-1, 1, 2)))


def huge_measure(d, p):
    p.set_any(d, MEASURES, d.choose((2049, 16385, *HUGE)))


def wrapping_measures(d, p):
    """Two token lengths whose sum is right only modulo 2^32."""
    tokens = p.tokens()
    if len(tokens) > 1:
        p.arrays[MEASURES][tokens[0]] += 2**31
        p.arrays[MEASURES][tokens[-1]] += 2**31


def other_trees(d, p):
    p.trees = max(1, p.trees + d.choose((-1, 1)))


def other_text(d, p):
    p.text = p.text[:-1] if p.text and d.chance(0.5) else p.text + b"z"


def too_deep(d, p):
    """One more tree, of depth 63 to 66."""
    depth = d.between(63, 66)
    p.trees += 1
    p.arrays[KINDS] += [NODE | 1] * (depth - 1) + [d.choose((2, NODE | 2))]
    p.arrays[MEASURES] += [1] * (depth - 1) + [0]


def no_elements(d, p):
    p.arrays[KINDS], p.arrays[MEASURES], p.text = [], [], b""


# ---------------------------------------------------------------- line 6


def unknown_operation(d, p):
    if p.arrays[WORDS]:
        i = d.below(len(p.arrays[WORDS]))
        p.arrays[WORDS][i] = p.arrays[WORDS][i] & ~255 | d.choose((7, 8, 128, 255))


def other_operation(d, p):
    if p.arrays[WORDS]:
        i = d.below(len(p.arrays[WORDS]))
        p.arrays[WORDS][i] = p.arrays[WORDS][i] & ~255 | d.below(7)


def other_count(d, p):
    if p.arrays[WORDS]:
        i = d.below(len(p.arrays[WORDS]))
        op, count, rule = word_parts(p.arrays[WORDS][i])
        p.arrays[WORDS][i] = call_word(op, max(0, count + d.choose((-1, 1))), rule)


def huge_counts(d, p):
    """256 calls that list the most that a call word can say."""
    while len(p.arrays[WORDS]) < 256:
        p.add_call(EDITOR, 0, [])
    p.arrays[WORDS] = [word | 0xFFF00 for word in p.arrays[WORDS]]


def huge_count(d, p):
    p.set_any(d, WORDS, call_word(d.below(7), d.choose((1024, 2**11, 2**12 - 1))))


def one_listed_more(d, p):
    p.arrays[LISTED].append(d.below(p.size()))


def one_listed_less(d, p):
    if p.arrays[LISTED]:
        p.arrays[LISTED].pop()


def no_such_target(d, p):
    p.set_any(d, TARGETS, d.choose((p.size(), p.size() + 1, *HUGE)))


def no_such_listed(d, p):
    p.set_any(d, LISTED, d.choose((p.size(), p.size() + 1, *HUGE)))


def other_target(d, p):
    p.set_any(d, TARGETS, d.below(p.size()))


def other_listed(d, p):
    p.set_any(d, LISTED, d.below(p.size()))


def token_as_parent(d, p):
    if p.tokens():
        p.add_call(FIRST, d.choose(p.tokens()), [])


def childless_parent(d, p):
    """No fault: Note 1 allows it."""
    if p.childless():
        p.add_call(FIRST, d.choose(p.childless()), [0])


def root_as_target(d, p):
    root, op = d.choose(p.roots()), d.choose((AFTER, DELETE, MANY, RUN))
    p.add_call(op, root, [root] if op == RUN else [])


def token_for_root(d, p):
    if p.tokens():
        p.add_call(REPLACE, d.choose(p.roots()), [d.choose(p.tokens())])


def any_run(d, p):
    p.add_call(RUN, d.below(p.size()), [d.below(p.size())])


def editor_with_target(d, p):
    p.add_call(EDITOR, d.choose((1, p.size(), 2**32 - 1)), [])


def editor_with_listed(d, p):
    p.add_call(EDITOR, 0, [0])


def editor_with_rule(d, p):
    p.add_call(EDITOR, 0, [], d.choose((1, 2**11, 4095)))


def other_rule(d, p):
    """A fault in an operation 6 alone."""
    if p.arrays[WORDS]:
        i = d.below(len(p.arrays[WORDS]))
        op, count, _ = word_parts(p.arrays[WORDS][i])
        p.arrays[WORDS][i] = call_word(op, count, d.choose((1, 2, 255, 256, 2**11, 4095)))


def too_few_listed(d, p):
    p.add_call(d.choose((REPLACE, RUN)), d.below(p.size()), [])


def too_many_listed(d, p):
    p.add_call(d.choose((REPLACE, DELETE)), d.below(p.size()), [0, 0])


# ---------------------------------------------------------------- line 7


def add_mapping(p, x, y):
    p.arrays[INPUTS].append(x)
    p.arrays[OUTPUTS].append(y)


def mapping_of_token(d, p):
    if p.tokens():
        add_mapping(p, *d.choose(((d.choose(p.tokens()), d.choose(p.nodes())), (d.choose(p.nodes()), d.choose(p.tokens())))))


def mapping_to_root(d, p):
    add_mapping(p, d.choose(p.nodes()), d.choose(p.roots()))


def mapping_from_root(d, p):
    add_mapping(p, d.choose(p.roots()), d.choose(p.nodes()))


def mapping_of_nothing(d, p):
    none = d.choose((p.size(), *HUGE))
    add_mapping(p, *d.choose(((none, d.choose(p.nodes())), (d.choose(p.nodes()), none))))


def note_on_nothing(d, p):
    p.arrays[NOTES].append(d.choose((p.size(), *HUGE)))
    p.arrays[NUMBERS].append(1)


def note_numbered_zero(d, p):
    p.arrays[NOTES].append(d.below(p.size()))
    p.arrays[NUMBERS].append(0)


ON_BYTES = (cut_short, wrong_size, wrong_length, other_size, other_byte, other_word)
ON_PARTS = (
    stray_bit, token_for_node, other_measure, huge_measure, wrapping_measures, other_trees, other_text, too_deep, no_elements,
    unknown_operation, other_operation, other_count, huge_counts, huge_count, one_listed_more, one_listed_less, no_such_target,
    no_such_listed, other_target, other_listed, token_as_parent, childless_parent, root_as_target, token_for_root, any_run,
    editor_with_target, editor_with_listed, editor_with_rule, other_rule, too_few_listed, too_many_listed,
    mapping_of_token, mapping_to_root, mapping_from_root, mapping_of_nothing, note_on_nothing, note_numbered_zero,
)  # fmt: skip


def damage(d, data):
    """A damaged copy: one fault, or several so that their order matters."""
    parts = Parts(data)
    for _ in range(d.weighted(((0, 1), (1, 5), (2, 1)))):
        d.choose(ON_PARTS)(d, parts)
        if not parts.size():
            break
    data = parts.bytes()
    if d.chance(0.4):
        data = d.choose(ON_BYTES)(d, data)
    return data
