"""Claims for the checker (document 02, Note 11): our own output of drawn batches, and copies damaged in every clause and every refusal.

Laid out they are eight words (kind words, measures and bytes of text of the old tree, the same of the new one, pairs, changed elements), the lists in that order (of
the pairs first the old elements, then the new ones), and both texts."""

from collections import namedtuple
from random import Random
from struct import pack, unpack_from

from generator import generate
from landed import LEVEL, notes

Claims = namedtuple("Claims", "old new olds news changed")
ROOM = 262144


def words(it):
    return pack("<%dI" % len(it), *it)


def laid_out(c):
    old, new = c.old, c.new
    sizes = (len(old.kinds), len(old.measures), len(old.text), len(new.kinds), len(new.measures), len(new.text), len(c.olds), len(c.changed))
    lists = (old.kinds, old.measures, new.kinds, new.measures, c.olds, c.news, c.changed)
    return words(sizes) + b"".join(map(words, lists)) + bytes(old.text) + bytes(new.text)


def read(data):
    """The claims that some bytes lay out, or a refusal's number."""
    if len(data) < 32:
        return 2
    a, b, c, d, e, f, g, h = unpack_from("<8I", data)
    if len(data) != 32 + 4 * (a + b + d + e + 2 * g + h) + c + f:
        return 4
    at, lists = 32, []
    for many in (a, b, d, e, g, g, h):
        lists.append(unpack_from("<%dI" % many, data, at))
        at += 4 * many
    text, text2 = data[at : at + c], data[at + c :]
    return Claims(notes.Flat(lists[0], lists[1], text), notes.Flat(lists[2], lists[3], text2), *lists[4:])


def want(data):
    """What the program prints, by the model."""
    c = read(data[:ROOM])
    answer = c if isinstance(c, int) else notes.check_output(*c)
    if isinstance(answer, bool):
        return "accepted\n" if answer else "rejected\n"
    return "refused %d\n" % (answer if isinstance(answer, int) else answer.number)


def own(batch):
    """The claims of our own output of a batch; None where it is refused."""
    edit = notes.edit(batch, level=LEVEL)
    return None if isinstance(edit, notes.Refused) else Claims(*notes.own_claims(edit))


# ------------------------------------------------------------------ damage, each by a name


def put(it, at, value):
    it = list(it)
    it[at] = value
    return tuple(it)


def without(it, at):
    return tuple(it[:at]) + tuple(it[at + 1 :])


def pair(c, at):
    return c._replace(olds=without(c.olds, at), news=without(c.news, at))


def some(r, it):
    return r.randrange(len(it))


def flat(side, field, change):
    """Damage to one list of one tree."""

    def damage(r, c):
        tree = getattr(c, side)
        it = getattr(tree, field)
        return c._replace(**{side: tree._replace(**{field: change(r, it)})}) if it else c

    return damage


def exchange(r, c):
    i, j = some(r, c.news), some(r, c.news)
    return c._replace(news=put(put(c.news, i, c.news[j]), j, c.news[i]))


DAMAGE = {
    "none": lambda r, c: c,
    "no_root": lambda r, c: pair(c, 0),
    "pair_dropped": lambda r, c: pair(c, some(r, c.olds)),
    "pair_again": lambda r, c: (lambda i: c._replace(olds=c.olds + (c.olds[i],), news=c.news + (c.news[i],)))(some(r, c.olds)),
    "old_twice": lambda r, c: c._replace(olds=c.olds + (c.olds[some(r, c.olds)],), news=c.news + (some(r, c.new.kinds),)),
    "new_twice": lambda r, c: c._replace(olds=c.olds + (some(r, c.old.kinds),), news=c.news + (c.news[some(r, c.news)],)),
    "new_side": lambda r, c: c._replace(news=put(c.news, some(r, c.news), some(r, c.new.kinds))),
    "old_side": lambda r, c: c._replace(olds=put(c.olds, some(r, c.olds), some(r, c.old.kinds))),
    "exchanged": exchange,
    "shuffled": lambda r, c: (lambda p: c._replace(olds=tuple(c.olds[i] for i in p), news=tuple(c.news[i] for i in p)))(r.sample(range(len(c.olds)), len(c.olds))),
    "changed_dropped": lambda r, c: c._replace(changed=without(c.changed, some(r, c.changed))) if c.changed else c,
    "changed_more": lambda r, c: c._replace(changed=tuple(c.changed) + (some(r, c.new.kinds),)),
    "changed_again": lambda r, c: c._replace(changed=tuple(c.changed) * 2),
    "changed_below": lambda r, c: c._replace(changed=tuple(x + 1 for x in c.changed)),
    "no_changed": lambda r, c: c._replace(changed=()),
    "kind": flat("new", "kinds", lambda r, it: put(it, some(r, it), it[some(r, it)])),
    "old_kind": flat("old", "kinds", lambda r, it: (lambda i: put(it, i, it[i] ^ 1 << r.randrange(32)))(some(r, it))),
    "byte": flat("new", "text", lambda r, it: bytes(put(it, some(r, it), r.randrange(256)))),
    "old_byte": flat("old", "text", lambda r, it: bytes(put(it, some(r, it), r.randrange(256)))),
    "text_cut": flat("new", "text", lambda r, it: it[1:]),
    "measure": flat("new", "measures", lambda r, it: put(it, some(r, it), r.randrange(4))),
    "old_measure": flat("old", "measures", lambda r, it: put(it, some(r, it), r.randrange(4))),
    "kinds_short": flat("old", "kinds", lambda r, it: it[:-1]),
    "measures_short": flat("new", "measures", lambda r, it: it[:-1]),
    "pairs_out_of_step": lambda r, c: c._replace(new=c.new._replace(kinds=c.new.kinds[:-1])),
    "empty": lambda r, c: c._replace(old=notes.Flat((), (), b"")),
    "too_many": lambda r, c: c._replace(new=notes.Flat((0x80000001,) + (2,) * 4096, (4096,) + (0,) * 4096, b"")),
    "too_long": flat("old", "text", lambda r, it: it + bytes(16385)),
    "old_beyond": lambda r, c: c._replace(olds=put(c.olds, some(r, c.olds), len(c.old.kinds) + r.randrange(3))),
    "new_beyond": lambda r, c: c._replace(news=put(c.news, some(r, c.news), len(c.new.kinds) + r.randrange(3) * 2**30)),
    "changed_beyond": lambda r, c: c._replace(changed=tuple(c.changed) + (len(c.new.kinds),)),
}


def ours(r, seed):
    """Our own output of a drawn batch."""
    c = None
    while c is None:
        _, batch = generate(seed, r.randrange(10**9))
        c = own(batch)
    return c


def drawn(r, seed, base=ours):
    """The names of the damage, and our own output of a drawn batch with it."""
    c = base(r, seed)
    names = [r.choice(list(DAMAGE)) for _ in range(1 if r.random() < 0.8 else 2)]
    for name in names:
        if c.olds and c.news and c.new.kinds and c.old.kinds:
            c = DAMAGE[name](r, c)
    return names, c


def draw(seed, number):
    """The name of the damage and the claims as bytes."""
    r = Random("claims %d %d" % (seed, number))
    names, c = drawn(r, seed)
    data = laid_out(c)
    if r.random() < 0.04:
        at = some(r, data)
        names, data = ["bytes"], r.choice((data[:at], data + b"\0" * r.randrange(1, 5), data[:at] + bytes([data[at] ^ 1 << r.randrange(8)]) + data[at + 1 :]))
    return " and ".join(names), data
