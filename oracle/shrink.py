"""Makes a batch small while it still shows what it showed."""

from batches import NODE, RUN, REPLACE, call_word, decode_arrays, encode_arrays, word_parts


class Flat:
    """A batch as flat lists: elements are [kind word, measure, text], calls [operation, target, listed, rule number]."""

    def __init__(self, trees, elements, calls, mappings, notes):
        self.trees, self.elements, self.calls, self.mappings, self.notes = trees, elements, calls, mappings, notes

    def bytes(self):
        arrays = [
            [kind for kind, _, _ in self.elements],
            [measure for _, measure, _ in self.elements],
            [call_word(op, len(listed), rule) for op, _, listed, rule in self.calls],
            [target for _, target, _, _ in self.calls],
            [number for _, _, listed, _ in self.calls for number in listed],
            *([pair[i] for pair in pairs] for pairs in (self.mappings, self.notes) for i in (0, 1)),
        ]
        return encode_arrays(self.trees, arrays, b"".join(text for _, _, text in self.elements))

    def but(self, **parts):
        return Flat(**{**vars(self), **parts})


def flatten(data):
    """The batch as flat lists; None unless its lengths fit and its calls and tokens use up what is listed and written."""
    decoded = decode_arrays(data)
    if decoded is None:
        return None
    trees, (kinds, measures, words, targets, listed, inputs, outputs, notes, numbers), text = decoded
    elements, calls, at = [], [], 0
    for kind, measure in zip(kinds, measures):
        own = 0 if kind >= NODE else measure
        elements.append([kind, measure, text[at : at + own]])
        at += own
    used = 0
    for word, target in zip(words, targets):
        op, count, rule = word_parts(word)
        calls.append([op, target, listed[used : used + count], rule])
        used += count
    if at != len(text) or used != len(listed):
        return None
    return Flat(trees, elements, calls, list(zip(inputs, outputs)), list(zip(notes, numbers)))


def runs(elements):
    """For each element its parent and the end of its subtree; None if the elements spell no trees."""
    parents, ends, open_nodes = [], [], []
    for i, (kind, measure, _) in enumerate(elements):
        parents.append(open_nodes[-1][0] if open_nodes else None)
        ends.append(i + 1)
        if open_nodes:
            open_nodes[-1][1] -= 1
        if kind >= NODE:
            open_nodes.append([i, measure])
        while open_nodes and open_nodes[-1][1] == 0:
            ends[open_nodes.pop()[0]] = i + 1
    return None if open_nodes else (parents, ends)


def without(flat, a, b, elements, trees):
    """The batch with the numbers a to b - 1 gone: what names them goes too."""
    alive = lambda e: not a <= e < b
    move = lambda e: e if e < a else e - (b - a)
    calls = []
    for op, target, listed, rule in flat.calls:
        kept = [move(e) for e in listed if alive(e)]
        needed = op == REPLACE or op == RUN and not alive(listed[0])
        if alive(target) and not (needed and len(kept) < len(listed)):
            calls.append([op, move(target), kept, rule])
    mappings = [(move(x), move(y)) for x, y in flat.mappings if alive(x) and alive(y)]
    notes = [(move(x), n) for x, n in flat.notes if alive(x)]
    return Flat(trees, elements, calls, mappings, notes)


def fewer_elements(flat):
    shape = runs(flat.elements)
    if shape is None:
        return
    parents, ends = shape
    for a in sorted(range(len(ends)), key=lambda i: i - ends[i]):
        elements = [list(it) for it in flat.elements]
        if parents[a] is not None:
            elements[parents[a]][1] -= 1
        yield without(flat, a, ends[a], elements[:a] + elements[ends[a] :], flat.trees - (parents[a] is None))
    for a, (kind, measure, _) in enumerate(flat.elements):  # a node gives way to its children
        if kind >= NODE and (parents[a] is not None or measure == 1):
            elements = [list(it) for it in flat.elements]
            if parents[a] is not None:
                elements[parents[a]][1] += measure - 1
            yield without(flat, a, a + 1, elements[:a] + elements[a + 1 :], flat.trees)


def fewer_of(items):
    """Copies with fewer items: half of them, then one less."""
    size = len(items) // 2
    while size >= 1:
        for i in range(0, len(items), size):
            yield items[:i] + items[i + size :]
        size = size // 2
    if len(items) == 1:
        yield []


def simpler(flat):
    for i, (op, target, listed, rule) in enumerate(flat.calls):
        for kept, by in [(kept, rule) for kept in fewer_of(listed)] + [(listed, lower) for lower in (0, 1) if lower < rule]:
            yield flat.but(calls=flat.calls[:i] + [[op, target, kept, by]] + flat.calls[i + 1 :])
    for i, (kind, measure, text) in enumerate(flat.elements):
        plain = kind & NODE | 1
        for new in ([kind, 0, b""], [kind, 1, b"a"], [plain, measure, text]):
            if kind < NODE and (len(new[2]) < len(text) or len(text) == 1 == len(new[2]) and text > new[2]) or kind != plain == new[0]:
                yield flat.but(elements=flat.elements[:i] + [new] + flat.elements[i + 1 :])
    for i, (element, number) in enumerate(flat.notes):
        if number > 1:
            yield flat.but(notes=flat.notes[:i] + [(element, 1)] + flat.notes[i + 1 :])


def candidates(data):
    """Smaller or simpler batches, the boldest first."""
    flat = flatten(data)
    if flat is None:
        for cut in (len(data) // 2, 4, 1):
            yield data[: len(data) - cut]
        return
    for part in ("calls", "mappings", "notes"):
        for kept in fewer_of(getattr(flat, part)):
            yield flat.but(**{part: kept}).bytes()
    for it in fewer_elements(flat):
        yield it.bytes()
    for it in simpler(flat):
        yield it.bytes()


def shrink(data, shows, tries=4000):
    """The smallest batch found that still shows it."""
    found = True
    while found and tries > 0:
        found = False
        for it in candidates(data):
            tries -= 1
            if it != data and shows(it):
                data, found = it, True
                break
            if tries <= 0:
                break
    return data


def describe(data):
    """A batch in words, as far as it can be read."""
    flat = flatten(data)
    if flat is None:
        return ["%d bytes that do not read as a batch" % len(data)]
    shape = runs(flat.elements)
    lines = ["elements: " + " ".join("%s%d:%d" % ("tn"[k >> 31], k & 0xFFFF, m) for k, m, _ in flat.elements)]
    if shape is not None:
        lines = ["tree: " + spelled(flat, i) for i, parent in enumerate(shape[0]) if parent is None]
    for op, target, listed, rule in flat.calls:
        lines.append("call %d on %d listing %s" % (op, target, listed) + (" by rule %d" % rule if rule else ""))
    lines += ["mapping %d to %d" % it for it in flat.mappings]
    return lines + ["note %d on %d" % (number, element) for element, number in flat.notes]


def spelled(flat, number):
    """An element as number(children) or number'text'."""
    ends = runs(flat.elements)[1]
    kind, _, text = flat.elements[number]
    if kind < NODE:
        return "%d%r" % (number, text.decode("latin-1"))
    inner, at = [], number + 1
    while at < ends[number]:
        inner.append(spelled(flat, at))
        at = ends[at]
    return "%d(%s)" % (number, ", ".join(inner))
