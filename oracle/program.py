"""The program that is compared: an executable, one that stays and answers batch after batch, or a Python module that is loaded once."""

import importlib.util
import subprocess
from pathlib import Path

from rust import ROOT, Partner, found

# The documents as a program, at the level of what has landed.
MODEL = str(ROOT / "oracle" / "landed.py")


def load_module(path):
    spec = importlib.util.spec_from_file_location("program", path)
    module = importlib.util.module_from_spec(spec)
    spec.loader.exec_module(module)
    return module


def caught(function):
    """A program that fails counts as printing what it failed with."""

    def run(batch):
        try:
            return function(batch)
        except Exception as error:
            return "failed: %r\n" % error

    return run


class Stream:
    """A program that stays and answers batches as the oracle does; `found` is what it says of `find_element` for the last one."""

    def __init__(self, path):
        self.partner = Partner([path, "--stream"])

    def __call__(self, batch):
        self.ask([batch])
        return self.told()

    def ask(self, batches):
        self.partner.ask(batches)

    def told(self):
        answer = self.partner.told()
        self.found = found(answer.remark)
        return answer.printed


def load(path):
    """Two functions: what the program prints for a batch, and its `find_element`, None if it has none. A path with ` --stream` behind it is a program
    that stays and answers batch after batch."""
    if path.endswith(" --stream"):
        return Stream(path.removesuffix(" --stream")), None
    if not Path(path).exists():
        raise SystemExit("no program %s" % path)
    if path.endswith(".py"):
        module = load_module(path)
        return caught(module.edit_program), getattr(module, "find_element", None)
    return caught(lambda batch: subprocess.run([path], input=batch, capture_output=True, timeout=60).stdout.decode("latin-1")), None
