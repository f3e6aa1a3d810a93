"""What is asked of a program where the Rust answers so. The Rust has no rule numbers: those of `changed` lines are left out."""

import re

import landed
from batches import decode_arrays, old_nodes, word_parts
from rust import found

GONE = "an edit target must still be present"
THE_RUST = ("edit_algo.rs:", "mapping.rs:", "syntax_editor.rs:")
MOST_NOTES = 1024
ROOM = 65536  # of a program's result
AGREED, NOTES, DIFFERENT = "agreed", "refused 12 for notes on the way", "different"


def refused(number):
    return "refused %d\n" % number


def failed_on_childless(answer):
    """Whether the Rust failed on comparing a first-child position in a childless node. Then Note 1 stands in its place, and the model alone judges."""
    return answer.printed == "childless\n"


def without_rules(printed):
    """A printed form without its rule numbers. A `changed` line that lacks its number is like none of the Rust's."""
    return re.sub(r"(?m)^changed (\d+)(?: (\d+))?$", lambda it: "changed " + it[1] if it[2] else it[0] + " by no number", printed)


def result_length(printed):
    """The length of the result that is printed so, with its rule numbers."""
    elements, text, changed, notes = map(int, printed.split()[1:5])
    return 24 + 8 * elements + text + 8 * changed + 8 * notes


def expected(batch, answer):
    """What the program must print, as far as the Rust tells, without rule numbers; else as the model does, with them."""
    word = answer.printed.split()[0]
    if failed_on_childless(answer):
        return landed.edit_program(batch)
    if word == "panic" and answer.remark.startswith(THE_RUST):
        return refused(11 if answer.remark.endswith(GONE) else 9)
    if word == "panic" or answer.remark == "touched":
        return "a fault of the oracle\n"  # a panic of the stand-in, or an overlap after which the tree was not left as it was
    if word == "ok" and result_length(answer.printed) > ROOM:
        return refused(13)
    return {"overlap": refused(8), "loop": refused(10), "large": refused(12)}.get(word, answer.printed)


def expected_finds(batch, answer):
    """What `find_element` must give for each node of tree 0, by its number, of a batch that is accepted."""
    if failed_on_childless(answer):
        return {number: landed.find_element(batch, number) for number in old_nodes(batch)}
    return found(answer.remark)


def source(answer):
    """Who vouches for what is expected."""
    return {"refused": "reader", "large": "trees", "childless": "model"}.get(answer.printed.split()[0], "Rust")


def may_hold_many_notes(batch):
    """Whether tracked notes can have passed their limit on the way, which the Rust does not show: a step at most adds all of them for each
    listed element."""
    _, arrays, _ = decode_arrays(batch)
    most = len(arrays[7])
    for word in arrays[2]:
        most *= 1 + word_parts(word)[1]
    return most > MOST_NOTES


def verdict(batch, answer, printed):
    """Whether what a program printed agrees with the Rust's answer."""
    want = expected(batch, answer)
    if want == (printed if failed_on_childless(answer) else without_rules(printed)):
        return AGREED
    if printed == refused(12) and want not in map(refused, (*range(2, 11), 16)) and may_hold_many_notes(batch):
        return NOTES
    return DIFFERENT
