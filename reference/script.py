"""The script reader: from a script to its calls, or to the fault that ends the reading."""

import re
from collections.abc import Callable, Iterator
from dataclasses import dataclass

LONGEST_SCRIPT = 16_384
LARGEST_NUMBER = 4_294_967_295
NUMBER = re.compile("0|[1-9][0-9]*")
MOST_DIGITS = len(str(LARGEST_NUMBER))

TOO_LONG = 40
WRONG_KEY_OR_NAME = 41
WRONG_VALUE = 42
STOPS_INSIDE = 43

# A kind gives the meaning of a value, or raises ValueError if the value is not of this kind.
Kind = Callable[[str], object]


@dataclass(eq=False)
class Fault(Exception):
    number: int
    line: int


@dataclass
class Call:
    name: str
    values: dict[str, object]


def number(value: str) -> int:
    # The digits are counted first because int() itself refuses very long strings.
    if not NUMBER.fullmatch(value) or len(value) > MOST_DIGITS or int(value) > LARGEST_NUMBER:
        raise ValueError
    return int(value)


def call_name(value: str) -> str:
    if value not in CALLS:
        raise ValueError
    return value


# The calls that run, each with its keys in their order and the kinds of their values.
CALLS: dict[str, dict[str, Kind]] = {
    "list": {"sec": number},
}


class Reader:
    def __init__(self, script: bytes) -> None:
        # Latin-1 makes each byte one character, so that no byte but 10 is special.
        self._rest = script.decode("latin-1")
        self._line = 0

    def calls(self) -> Iterator[Call]:
        while self._rest:
            name = self._value("call", call_name, WRONG_KEY_OR_NAME)
            yield Call(name, {key: self._value(key, kind, WRONG_VALUE) for key, kind in CALLS[name].items()})

    def _value(self, key: str, kind: Kind, fault: int) -> object:
        value = self._text(key)
        try:
            return kind(value)
        except ValueError:
            raise Fault(fault, self._line) from None

    def _text(self, key: str) -> str:
        """Reads the next line, in which this key is due, and gives what stands behind its `=`."""
        if not self._rest:
            raise Fault(STOPS_INSIDE, self._line)
        self._line += 1
        line, end, self._rest = self._rest.partition("\n")
        if not end:
            raise Fault(STOPS_INSIDE, self._line)
        begin = key + "="
        if not line.startswith(begin):
            raise Fault(WRONG_KEY_OR_NAME, self._line)
        return line.removeprefix(begin)


def calls(script: bytes) -> Iterator[Call]:
    """Gives the script's calls one by one, and raises Fault at the first faulty line."""
    if len(script) > LONGEST_SCRIPT:
        raise Fault(TOO_LONG, 0)
    yield from Reader(script).calls()
