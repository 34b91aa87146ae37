"""A seeded generator of scripts, valid ones and damaged ones, for comparing two programs."""

import argparse
from collections.abc import Callable, Iterator
from functools import partial
from pathlib import Path
from random import Random

from script import CALLS, LARGEST_NUMBER, LONGEST_SCRIPT

Make = Callable[[Random], bytes]
Damage = Callable[[Random, bytes], bytes]
LinesEdit = Callable[[Random, list[bytes]], None]
LineEdit = Callable[[Random, bytes], bytes]

MOST_CALLS = 40
# Numbers whose lower bits, or whose neighbours, are securities.
HUGE_SECURITIES = (255, 256, 261, 65_535, 65_536, 65_541, 2**31 - 1, 2**31, LARGEST_NUMBER - 63, LARGEST_NUMBER)

PLANNED_NAMES = ("noquote", "quote", "state", "phase", "day", "enter", "replace", "cancel", "order")
LATER_NAMES = [name.encode() for name in PLANNED_NAMES if name not in CALLS]
NO_NAMES = (b"", b"lists", b"lis", b"LIST", b"List", b" list", b"list ", b"list=", b"open", b"\xff", b"list\0")
NO_NUMBERS = (b"0x5", b"5.0", b"1e1", b"1_0", b"1,0", b"B", b"market")
KEYS = (b"call", b"sec", b"bid", b"sub", b"to", b"", b"secs", b"se", b"sec ", b" sec", b"xsec")
# Bytes that matter to a reader come more often than chance would bring them.
TELLING_BYTES = b"\n\n==00159 +-celst\r\t\0\x7f\x80\xff"


# Valid scripts

def security(rng: Random) -> int:
    """Mostly 0 to 70. The narrow ranges bring repeats."""
    if rng.random() < 0.05:
        return rng.choice((*HUGE_SECURITIES, rng.randint(71, LARGEST_NUMBER)))
    return rng.randrange(rng.choice((4, 20, 71)))


VALUES: dict[str, Callable[[Random], object]] = {
    "sec": security,
}


def call(name: str, values: dict[str, object]) -> bytes:
    return "".join(f"{key}={value}\n" for key, value in {"call": name, **values}.items()).encode()


def any_call(rng: Random) -> bytes:
    name = rng.choice(list(CALLS))
    return call(name, {key: VALUES[key](rng) for key in CALLS[name]})


def valid(rng: Random) -> bytes:
    return b"".join(any_call(rng) for _ in range(rng.randint(1, MOST_CALLS)))


def every_security(rng: Random) -> bytes:
    """Every security and some numbers above, in any order, and then a few calls more."""
    numbers = rng.sample(range(71), 71)
    return b"".join(call("list", {"sec": number}) for number in numbers) + valid(rng)


# Damage to bytes

def any_byte(rng: Random) -> bytes:
    return bytes([rng.choice((rng.choice(TELLING_BYTES), rng.randrange(256)))])


def cut(rng: Random, script: bytes) -> bytes:
    return script[:rng.randrange(len(script))]


def change_byte(rng: Random, script: bytes) -> bytes:
    place = rng.randrange(len(script))
    return script[:place] + any_byte(rng) + script[place + 1:]


def insert_byte(rng: Random, text: bytes, choices: bytes) -> bytes:
    place = rng.randint(0, len(text))
    return text[:place] + bytes([rng.choice(choices)]) + text[place:]


def remove_byte(rng: Random, script: bytes) -> bytes:
    place = rng.randrange(len(script))
    return script[:place] + script[place + 1:]


# Damage to lines

def on_lines(edit: LinesEdit, rng: Random, script: bytes) -> bytes:
    lines = script.split(b"\n")[:-1]
    edit(rng, lines)
    return b"".join(line + b"\n" for line in lines)


def swap_lines(rng: Random, lines: list[bytes]) -> None:
    one, other = rng.sample(range(len(lines)), 2)
    lines[one], lines[other] = lines[other], lines[one]


def drop_line(rng: Random, lines: list[bytes]) -> None:
    del lines[rng.randrange(len(lines))]


def double_line(rng: Random, lines: list[bytes]) -> None:
    place = rng.randrange(len(lines))
    lines.insert(place, lines[place])


def cut_lines(rng: Random, lines: list[bytes]) -> None:
    del lines[rng.randrange(len(lines)):]


def insert_empty_line(rng: Random, lines: list[bytes]) -> None:
    lines.insert(rng.randint(0, len(lines)), b"")


# Damage to one line

def on_one_line(edit: LineEdit, fits: Callable[[bytes], bool], rng: Random, lines: list[bytes]) -> None:
    places = [place for place, line in enumerate(lines) if fits(line)]
    if places:
        place = rng.choice(places)
        lines[place] = edit(rng, lines[place])


def on_value(edit: LineEdit, rng: Random, line: bytes) -> bytes:
    key, equals, value = line.partition(b"=")
    return key + equals + edit(rng, value)


def wrong_key(rng: Random, line: bytes) -> bytes:
    key, equals, value = line.partition(b"=")
    return rng.choice([other for other in KEYS if other != key]) + equals + value


def upper_case_key(rng: Random, line: bytes) -> bytes:
    key, equals, value = line.partition(b"=")
    return key.upper() + equals + value


def digits(rng: Random, least: int, most: int) -> bytes:
    return b"%d" % rng.randint(1, 9) + bytes(rng.choices(b"0123456789", k=rng.randint(least, most) - 1))


def any_line(line: bytes) -> bool:
    return True


def call_line(line: bytes) -> bool:
    return line.startswith(b"call=")


def number_line(line: bytes) -> bool:
    return line.partition(b"=")[2].isdigit()


VALUE_DAMAGES: dict[str, tuple[Callable[[bytes], bool], LineEdit]] = {
    "later-call": (call_line, lambda rng, value: rng.choice(LATER_NAMES)),
    "unknown-call": (call_line, lambda rng, value: rng.choice(NO_NAMES)),
    "upper-case-name": (call_line, lambda rng, value: value.upper()),
    "largest-number": (number_line, lambda rng, value: b"%d" % LARGEST_NUMBER),
    "number-too-large": (number_line, lambda rng, value: b"%d" % (LARGEST_NUMBER + 1)),
    "ten-digits": (number_line, lambda rng, value: digits(rng, 10, 10)),
    "two-to-the-64": (number_line, lambda rng, value: b"%d" % 2**64),
    "past-32-bits": (number_line, lambda rng, value: b"%d" % (2**32 + int(value))),
    "past-64-bits": (number_line, lambda rng, value: b"%d" % (2**64 + int(value))),
    "hundreds-of-digits": (number_line, lambda rng, value: digits(rng, 100, 900)),
    "thousands-of-digits": (number_line, lambda rng, value: digits(rng, 5_000, 12_000)),
    "leading-zeros": (number_line, lambda rng, value: b"0" * rng.choice((1, 1, 2, 9, 300)) + value),
    "plus-sign": (number_line, lambda rng, value: b"+" + value),
    "minus-sign": (number_line, lambda rng, value: b"-" + value),
    "space-before": (number_line, lambda rng, value: b" " + value),
    "space-after": (number_line, lambda rng, value: value + b" "),
    "not-decimal": (number_line, lambda rng, value: rng.choice(NO_NUMBERS)),
    "non-ascii-digit": (number_line, lambda rng, value: value + "٥".encode()),
    "empty-value": (any_line, lambda rng, value: b""),
}

LINE_DAMAGES: dict[str, LineEdit] = {
    "wrong-key": wrong_key,
    "upper-case-key": upper_case_key,
    "no-equals-sign": lambda rng, line: line.replace(b"=", b"", 1),
    "two-equals-signs": lambda rng, line: line.replace(b"=", b"==", 1),
    "space-in-line": partial(insert_byte, choices=b" "),
    "non-ascii-byte": partial(insert_byte, choices=bytes(range(128, 256))),
    "nul-byte": partial(insert_byte, choices=b"\0"),
    "carriage-return": lambda rng, line: line + b"\r",
}

LINES_EDITS: dict[str, LinesEdit] = {
    "lines-swapped": swap_lines,
    "line-dropped": drop_line,
    "line-doubled": double_line,
    "lines-cut": cut_lines,
    "empty-line": insert_empty_line,
    **{name: partial(on_one_line, partial(on_value, edit), fits) for name, (fits, edit) in VALUE_DAMAGES.items()},
    **{name: partial(on_one_line, edit, any_line) for name, edit in LINE_DAMAGES.items()},
}

DAMAGES: dict[str, Damage] = {
    "cut": cut,
    "byte-changed": change_byte,
    "byte-inserted": lambda rng, script: insert_byte(rng, script, any_byte(rng)),
    "byte-removed": remove_byte,
    "last-line-unended": lambda rng, script: script[:-1],
    "carriage-returns": lambda rng, script: script.replace(b"\n", b"\r\n"),
    "garbage-behind": lambda rng, script: script + rng.randbytes(rng.randint(1, 200)),
    **{name: partial(on_lines, edit) for name, edit in LINES_EDITS.items()},
}


# Scripts made whole

def calls_of_length(rng: Random, length: int) -> bytes:
    """Only well-formed calls, with exactly this many bytes in all."""
    frame = len(call("list", {"sec": ""}))
    count = rng.randint(length // (frame + 2), length // (frame + 1))
    least, longer = divmod(length - frame * count, count)
    widths = [least + 1] * longer + [least] * (count - longer)
    rng.shuffle(widths)
    return b"".join(call("list", {"sec": number_of_width(rng, width)}) for width in widths)


def number_of_width(rng: Random, width: int) -> int:
    return rng.randint(10 ** (width - 1) if width > 1 else 0, 10**width - 1)


def calls_then_part(rng: Random, length: int) -> bytes:
    """Well-formed calls and then a part of one, with exactly this many bytes in all."""
    whole = call("list", {"sec": 5})
    part = whole[:rng.randint(1, len(whole) - 1)]
    return calls_of_length(rng, length - len(part)) + part


def filled(fill: Callable[[Random, int], bytes], length: int, rng: Random) -> bytes:
    return fill(rng, length)


def soup(rng: Random) -> bytes:
    """Pieces of scripts in any order."""
    pieces = (b"call=", b"list", b"sec=", b"call=list\n", b"sec=5\n", b"5", b"0", b"\n", b"=", b" ", b"\r\n", b"\xff")
    return b"".join(rng.choices(pieces, k=rng.randint(1, 60)))


# The last one is longer than a pipe holds.
LENGTHS = (LONGEST_SCRIPT - 1, LONGEST_SCRIPT, LONGEST_SCRIPT + 1, LONGEST_SCRIPT + 6, 150_000)
FILLINGS: dict[str, Callable[[Random, int], bytes]] = {
    "calls": calls_of_length,
    "calls-and-part": calls_then_part,
    "garbage": Random.randbytes,
    "newlines": lambda rng, length: b"\n" * length,
    "one-number": lambda rng, length: b"call=list\nsec=".ljust(length - 1, b"7") + b"\n",
}

WHOLES: dict[str, Make] = {
    "empty": lambda rng: b"",
    "only-newlines": lambda rng: b"\n" * rng.randint(1, 30),
    "random-bytes": lambda rng: rng.randbytes(rng.randint(1, 2_000)),
    "soup": soup,
    "every-security": every_security,
    **{f"{name}-{length}": partial(filled, fill, length) for name, fill in FILLINGS.items() for length in LENGTHS},
}


def damaged(damage: Damage, rng: Random) -> bytes:
    return damage(rng, valid(rng))


# Each kind with its weight beyond the one script that every kind gets.
KINDS: dict[str, tuple[float, Make]] = {
    "valid": (80, valid),
    **{name: (3, partial(damaged, damage)) for name, damage in DAMAGES.items()},
    **{name: (1, make) for name, make in WHOLES.items()},
}
assert len(KINDS) <= 100, "a hundred scripts are to hold every kind"


def scripts(seed: int, count: int) -> Iterator[tuple[str, bytes]]:
    """Each kind once, as far as the count allows, and then kinds by weight."""
    rng = Random(seed)
    names = rng.sample(list(KINDS), len(KINDS))
    weights = [weight for weight, _ in KINDS.values()]
    names += rng.choices(list(KINDS), weights, k=max(0, count - len(names)))
    for place, name in enumerate(names[:count], start=1):
        _, make = KINDS[name]
        yield f"{place:04}-{name}", make(rng)


def add_options(parser: argparse.ArgumentParser) -> None:
    parser.add_argument("--seed", type=int, default=2007, help="seed of the generated scripts (default %(default)s)")
    parser.add_argument("--count", type=int, default=400, help="how many scripts to generate (default %(default)s)")


def main() -> None:
    parser = argparse.ArgumentParser(description="Writes generated scripts into a folder.")
    parser.add_argument("folder", type=Path)
    add_options(parser)
    options = parser.parse_args()
    options.folder.mkdir(parents=True, exist_ok=True)
    for name, script in scripts(options.seed, options.count):
        (options.folder / f"{name}.script").write_bytes(script)


if __name__ == "__main__":
    main()
