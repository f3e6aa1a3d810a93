"""The model: document 01 as the requests of document 02 that have landed leave it, as a program.

`model.py` of the shared tools is document 01; `notes.py` there is every request on top of it, by level."""

import sys
from functools import lru_cache
from pathlib import Path
from types import ModuleType

# Notes 1 to LEVEL of document 02 have landed.
LEVEL = 9
TOOLS = Path(__file__).resolve().parent.parent.parent / "shared" / "tools"


def texts():
    """The two modules' texts, the lower one first."""
    return {name: (TOOLS / (name + ".py")).read_text() for name in ("model", "notes")}


def built(texts):
    """The module `notes` over the module `model`, made from these texts."""
    for name, text in texts.items():
        module = sys.modules[name] = ModuleType(name)
        exec(compile(text, name, "exec"), module.__dict__)
    # Printing a batch's answer and finding elements in it take one edit; edits of a batch by several choices read it once.
    module.edit = lru_cache(maxsize=1)(module.edit)
    module.check = lru_cache(maxsize=1)(module.check)
    return module


notes = built(texts())


def edit_program(batch, model=notes, arguments=()):
    """What the edit program prints."""
    return model.edit_program(batch, arguments, level=LEVEL)


def account_program(batch, model=notes, arguments=()):
    """What the account program prints (document 02, Note 5)."""
    return model.account_program(batch, arguments, level=LEVEL)


def result(batch):
    """The result's bytes, or a refusal."""
    return notes.result(batch, level=LEVEL)


def find_element(batch, number, arguments=()):
    """The element of the new tree, None, or a refusal."""
    return notes.find_element(batch, number, notes.arguments(arguments, LEVEL), level=LEVEL)


def share_program(batch, arguments=()):
    """What the share program prints (document 02, Note 10)."""
    told = notes.share(batch[:65536], notes.arguments(arguments, LEVEL), level=LEVEL)
    return "refused %d\n" % told.number if isinstance(told, notes.Refused) else "share %d %d\n" % told


def sorted_rules(batch):
    """The rule numbers of the recorded changes of a batch that passes lines 2 to 7, in sorted order."""
    batch, shape = notes.check(batch[:65536], LEVEL)
    return [change.rule for change in notes.m.sort_changes(shape, notes.record(batch, LEVEL))]
