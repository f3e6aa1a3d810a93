"""Programs as partners, the oracle first of all: batches go in, answers come out."""

import subprocess
from collections import namedtuple
from pathlib import Path
from struct import pack, unpack

ROOT = Path(__file__).resolve().parent.parent
PROGRAM = ROOT / "target" / "oracle" / "oracle"
GREEN = ROOT / "target" / "oracle" / "oracle-green"

# `printed` is the printed form, `refused N` of the reader, or overlap, panic, loop, large; `remark` says how it came about.
Answer = namedtuple("Answer", "printed remark")


class Partner:
    """A program that reads batches and writes answers in two parts, each with its length in front."""

    def __init__(self, command):
        self.process = subprocess.Popen(command, stdin=subprocess.PIPE, stdout=subprocess.PIPE)

    def answer(self, batch):
        self.ask([batch])
        return self.told()

    def ask(self, batches):
        """Hands over batches before any of their answers is read: no more than a pipe holds, lest both sides wait for each other."""
        self.process.stdin.write(b"".join(pack("<I", len(batch)) + batch for batch in batches))
        self.process.stdin.flush()

    def told(self):
        return Answer(self.part(), self.part())

    def part(self):
        (length,) = unpack("<I", self.process.stdout.read(4))
        return self.process.stdout.read(length).decode()


class Rust(Partner):
    def __init__(self):
        if not PROGRAM.exists():
            raise SystemExit("no %s; run oracle/build first" % PROGRAM.relative_to(ROOT))
        super().__init__([PROGRAM, "--stream"])


def found(remark):
    """What `find_element` gives, by the number asked for: `find 0:3 1:` is 3 for 0 and none for 1."""
    pairs = (pair.split(":") for pair in remark.split()[1:])
    return {int(old): int(new) if new else None for old, new in pairs}
