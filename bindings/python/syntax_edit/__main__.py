"""The command: ``python3 -m syntax_edit show FILE|- [--edge 0|1] [--stronger 0|1]``, or ``show --load N``."""

from __future__ import annotations

import argparse
import sys
from typing import List, Optional

from .batch import Batch
from .show import picture


def _arguments() -> argparse.ArgumentParser:
    """What may be asked for."""
    parser = argparse.ArgumentParser(prog="python3 -m syntax_edit", description="The proved syntax tree editor, for people.")
    commands = parser.add_subparsers(dest="command", required=True)
    it = commands.add_parser("show", help="shows a batch as text: its trees, what became of each call, the new tree and its text")
    it.add_argument("file", nargs="?", metavar="FILE", help="the batch's bytes; - reads them from standard input")
    it.add_argument("--load", type=int, metavar="N", help="shows the load of this starting number (docs/LOAD.md)")
    it.add_argument("--edge", type=int, default=0, metavar="0|1", help="the edge rule")
    it.add_argument("--stronger", type=int, default=0, metavar="0|1", help="stronger rules first")
    return parser


def _data(file: str) -> bytes:
    """The bytes of the named file, or of standard input."""
    if file == "-":
        return sys.stdin.buffer.read()
    with open(file, "rb") as held:
        return held.read()


def main(arguments: Optional[List[str]] = None) -> int:
    """Shows what is asked for. The status is 1 if the batch is refused, 2 if there is none to show."""
    parser = _arguments()
    asked = parser.parse_args(arguments)
    if (asked.file is None) == (asked.load is None):
        parser.error("show takes a FILE, - or --load N")
    try:
        data = Batch.load(asked.load).bytes if asked.file is None else _data(asked.file)
        told = picture(data, asked.edge, asked.stronger)
    except (OSError, OverflowError) as fault:
        print(fault, file=sys.stderr)
        return 2
    # A terminal that lacks a character gets its number.
    sys.stdout.buffer.write(told.text.encode(sys.stdout.encoding or "utf-8", "backslashreplace"))
    return 1 if told.refusal else 0


if __name__ == "__main__":
    sys.exit(main())
