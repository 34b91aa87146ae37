"""Reads a script from standard input and prints its listing to standard output."""

import os
import sys
from collections.abc import Iterator

from book import Book
from listing import Outcome, listing
from script import LONGEST_SCRIPT, Fault, calls

USAGE = """\
usage: tukpasi.py < SCRIPT
       tukpasi.py --help

Reads a script from standard input and prints its listing to standard output."""


def outcomes(script: bytes) -> Iterator[Outcome]:
    book = Book()
    try:
        for call in calls(script):
            yield book.run(call.name, call.values)
    except Fault as fault:
        yield fault


def listing_of(script: bytes) -> bytes:
    return listing(outcomes(script))


def read_script() -> bytes:
    # One byte above the limit is enough to know that a script is too long. Buffered input would take more.
    script = b""
    while missing := LONGEST_SCRIPT + 1 - len(script):
        piece = os.read(0, missing)
        if not piece:
            break
        script += piece
    return script


def fail(message: str) -> int:
    print(f"tukpasi.py: {message}", file=sys.stderr)
    return 1


def main(arguments: list[str]) -> int:
    if arguments == ["--help"]:
        print(USAGE)
        return 0
    if arguments:
        return fail(f"cannot use the arguments {arguments}; try --help")
    try:
        printed = listing_of(read_script())
        # Closing here makes a failed write known while it can still be reported.
        with open(1, "wb", closefd=False) as output:
            output.write(printed)
    except (OSError, MemoryError) as error:
        return fail(str(error) or "out of memory")
    return 0


if __name__ == "__main__":
    sys.exit(main(sys.argv[1:]))
