"""What a planner asks, as a kind of cost and a sign of the weights; and lengths and weights as they are written."""

import re
from dataclasses import dataclass
from fractions import Fraction


class Refused(Exception):
    """What was asked can't be answered as it stands; the text says why, and what helps. Status 2."""


@dataclass(frozen=True)
class Question:
    """The word of the command, the kind of its cost, and the sign that it gives to weights: 0 where they have their own."""

    word: str
    kind: str
    sign: int
    title: str


QUESTIONS = {
    question.word: question
    for question in (
        Question("near", "sum", 1, "near people: the least sum of weight times distance"),
        Question("near-all", "max", 1, "near all: the greatest weight times distance as small as can be"),
        Question("far", "sum", -1, "far from people: the greatest sum of weight times distance"),
        Question("far-all", "max", -1, "far from all: the least weight times distance as great as can be"),
        Question("mixed", "sum", 0, "near some and far from others, by the sign of the weight"),
    )
}

LENGTH = re.compile(r"(\d+(?:\.\d+)?)(m|km)?")


def length(text: str) -> Fraction | None:
    """Metres, of a text such as 800, 800m or 2.5km; None where it isn't one."""
    match = LENGTH.fullmatch(text.strip())
    if match is None:
        return None
    return Fraction(match[1]) * (1000 if match[2] == "km" else 1)


def number(value: object) -> Fraction | None:
    """A whole number, a decimal or a fraction as it is written; of a double, the shortest decimal that
    reads back to it; None where it is missing or no number."""
    if value is None or value is True or value is False:
        return None
    try:
        return Fraction(str(value).strip().replace(" ", ""))
    except (ValueError, ZeroDivisionError):
        return None
