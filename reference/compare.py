"""Compares a program with the second program: on kept and generated scripts, in its arguments and where writing fails."""

import argparse
import os
import subprocess
import sys
import tempfile
from collections.abc import Callable, Iterator
from dataclasses import dataclass
from functools import partial
from itertools import zip_longest
from pathlib import Path

from generate import add_options, scripts
from tukpasi import listing_of

KEPT_SCRIPTS = Path(__file__).resolve().parent.parent / "tests" / "scripts"
SECONDS = 20
SHOWN_BYTES = 60

# Argument, exit status, whether anything stands on standard output and a message on standard error (None: either way).
ARGUMENTS = (
    ("--help", 0, True, None),
    ("--no-such-argument", 1, False, True),
)


class Difference(Exception):
    """Why a check failed, in one line."""


@dataclass
class Check:
    name: str
    # Raises Difference, or the error of a file or process, if the check fails.
    run: Callable[[], None]
    script: bytes | None = None


def run(program: str, arguments: list[str], given: bytes) -> subprocess.CompletedProcess:
    return subprocess.run([program, *arguments], input=given, capture_output=True, timeout=SECONDS)


def need_status(done: subprocess.CompletedProcess, status: int) -> None:
    if done.returncode != status:
        raise Difference(f"exit status {done.returncode} instead of {status}")


def need_output(where: str, output: bytes, wanted: bool | None) -> None:
    if wanted is not None and bool(output) != wanted:
        raise Difference(f"{where} is {output[:SHOWN_BYTES]!r}")


def need_message(error: bytes) -> None:
    """One line: a failure is told, and told once."""
    if error.count(b"\n") != 1 or not error.endswith(b"\n"):
        raise Difference(f"standard error is {error[:SHOWN_BYTES]!r} instead of one line")


def need_same(who: str, printed: bytes, wanted: bytes) -> None:
    """Names the first line that differs. A line keeps its byte 10, so that a missing one shows."""
    pairs = zip_longest(printed.splitlines(keepends=True), wanted.splitlines(keepends=True), fillvalue=b"")
    for number, (line, due) in enumerate(pairs, start=1):
        if line != due:
            raise Difference(f"line {number} of {who} is {line[:SHOWN_BYTES]!r} instead of {due[:SHOWN_BYTES]!r}")


def second_listing(script: bytes) -> bytes:
    try:
        return listing_of(script)
    except Exception as error:
        raise Difference(f"the second program broke: {error!r}") from error


def check_listing(program: str, script: bytes, wanted: bytes) -> None:
    done = run(program, [], script)
    need_status(done, 0)
    need_output("standard error", done.stderr, False)
    need_same("the program", done.stdout, wanted)


def check_kept(program: str, script: bytes, listing: Path) -> None:
    wanted = listing.read_bytes()
    need_same("the second program", second_listing(script), wanted)
    check_listing(program, script, wanted)


def check_generated(program: str, script: bytes) -> None:
    check_listing(program, script, second_listing(script))


def check_argument(program: str, argument: str, status: int, output: bool | None, error: bool | None) -> None:
    done = run(program, [argument], b"")
    need_status(done, status)
    need_output("standard output", done.stdout, output)
    if error:
        need_message(done.stderr)
    else:
        need_output("standard error", done.stderr, error)


def check_failed_write(program: str) -> None:
    with open("/dev/full", "wb") as full:
        done = subprocess.run([program, "--help"], stdin=subprocess.DEVNULL, stdout=full, stderr=subprocess.PIPE, timeout=SECONDS)
    need_status(done, 1)
    need_message(done.stderr)


def checks(program: str, seed: int, count: int) -> Iterator[Check]:
    for path in sorted(path for path in KEPT_SCRIPTS.iterdir() if path.suffix == ".script"):
        script = path.read_bytes()
        yield Check(path.stem, partial(check_kept, program, script, path.with_suffix(".listing")), script)
    for name, script in scripts(seed, count):
        yield Check(name, partial(check_generated, program, script), script)
    for row in ARGUMENTS:
        yield Check(row[0], partial(check_argument, program, *row))
    yield Check("a write that fails", partial(check_failed_write, program))


def failure(check: Check) -> Exception | None:
    try:
        check.run()
    except (Difference, OSError, subprocess.TimeoutExpired) as why:
        return why
    return None


def keep(failed: list[Check]) -> None:
    kept = [check for check in failed if check.script is not None]
    if kept:
        folder = Path(tempfile.mkdtemp(prefix="tukpasi-"))
        for check in kept:
            (folder / f"{check.name}.script").write_bytes(check.script)
        print(f"the failing scripts are in {folder}")


def main() -> int:
    parser = argparse.ArgumentParser(description=__doc__)
    parser.add_argument("program", metavar="PROGRAM", type=os.path.abspath, help="the program to compare")
    add_options(parser)
    options = parser.parse_args()
    passed, failed = 0, []
    for check in checks(options.program, options.seed, options.count):
        why = failure(check)
        if why is None:
            passed += 1
        else:
            failed.append(check)
            print(f"{check.name}: {why}")
    keep(failed)
    print(f"{passed} passed, {len(failed)} failed")
    return int(bool(failed) or passed == 0)


if __name__ == "__main__":
    sys.exit(main())
