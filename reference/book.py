"""The book: it runs calls, each accepted with an answer or refused."""

from dataclasses import dataclass

SECURITIES = 64

NOT_LISTABLE = 10

# What an accepted call prints behind its name: pairs of a key and a value.
Answer = list[tuple[str, object]]


@dataclass
class Accepted:
    name: str
    answer: Answer


@dataclass(eq=False)
class Refusal(Exception):
    number: int


class Book:
    """Each call is a method `call_NAME` that takes the values of the call's keys."""

    def __init__(self) -> None:
        self._listed: set[int] = set()

    def run(self, name: str, values: dict[str, object]) -> Accepted | Refusal:
        try:
            return Accepted(name, getattr(self, "call_" + name)(**values))
        except Refusal as refusal:
            return refusal

    def call_list(self, sec: int) -> Answer:
        if sec >= SECURITIES or sec in self._listed:
            raise Refusal(NOT_LISTABLE)
        self._listed.add(sec)
        return []
