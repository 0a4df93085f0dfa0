"""The stored inputs and outputs of the programs in `crates`."""

from itertools import zip_longest
from pathlib import Path

from .programs import PROGRAMS

CRATES = Path(__file__).resolve().parents[2] / "crates"


class NoModel(Exception):
    """A program that is asked for has no stored output, or one that has is unknown to the model."""


def names(asked=()):
    """The programs with a stored output, or those of them that are asked for, in the model's order."""
    stored = {path.parent.name for path in CRATES.glob("*/stdout")}
    unknown = sorted(stored - set(PROGRAMS))
    if unknown:
        raise NoModel(f"no model of {', '.join(unknown)}: its output in crates can't be checked")
    strange = [name for name in asked if name not in stored]
    if strange:
        raise NoModel(f"no program {', '.join(strange)} with a stored output; there are {', '.join(sorted(stored))}")
    return [name for name in PROGRAMS if name in (asked or stored)]


def given(name):
    """What a program is given: the words behind its name, a line each, or its standard input; nothing if neither is stored."""
    paths = [CRATES / name / file for file in ("args", "stdin")]
    return next((path.read_bytes() for path in paths if path.exists()), b"")


def output_path(name):
    return CRATES / name / "stdout"


def output(name):
    return output_path(name).read_bytes().splitlines(keepends=True)


def expected(name, make_model):
    """What a program prints, line by line, if its engine is this model."""
    return PROGRAMS[name](make_model, given(name))


def differences(expected_lines, found_lines):
    """Where two outputs differ: the number of the line, and the line of each, None past its end."""
    for number, (a, b) in enumerate(zip_longest(expected_lines, found_lines), 1):
        if a != b:
            yield number, a, b


def shown(line):
    """A line as it can be told in a message."""
    return "the end" if line is None else line.decode("latin-1").rstrip("\n") or "an empty line"
