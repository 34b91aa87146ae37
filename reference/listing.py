"""The listing: what a script's calls and its fault print."""

from collections.abc import Iterable

from book import Accepted, Refusal
from script import Fault

Outcome = Accepted | Refusal | Fault


def lines(outcome: Outcome) -> list[tuple[str, object]]:
    match outcome:
        case Accepted(name, answer):
            return [("ok", name), *answer]
        case Refusal(number):
            return [("refused", number)]
        case Fault(number, line):
            return [("fault", number), ("line", line)]


def listing(outcomes: Iterable[Outcome]) -> bytes:
    return "".join(f"{key}={value}\n" for outcome in outcomes for key, value in lines(outcome)).encode()
