"""What a call returns."""

from typing import NamedTuple


class Answer(NamedTuple):
    """The number of a refusal, or the length of a text."""

    wrote: bool
    number: int
