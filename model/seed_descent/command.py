"""What commands share: the model or a wrong engine in its place, several processors, and how they end when somebody stops them or no
longer reads what they print."""

import argparse
import os
import signal
import sys
from concurrent.futures import ProcessPoolExecutor
from contextlib import contextmanager

from .program import Model
from .wrong import WRONG


def model_asked_for(command, words, takes_words=False):
    """The model, or the wrong engine that the command is asked to be, with the words behind it, if it takes any."""
    parser = argparse.ArgumentParser(prog=command, description=words)
    parser.add_argument("--wrong", metavar="NAME", help="be a wrong engine; model/mutants --list names them")
    if takes_words:
        parser.add_argument("word", nargs="*", help="what the program is given behind its name")
    asked = parser.parse_args()
    if asked.wrong and asked.wrong not in WRONG:
        parser.error(f"no wrong engine {asked.wrong}; model/mutants --list names them")
    model = WRONG[asked.wrong]() if asked.wrong else Model()
    return (model, [os.fsencode(word) for word in asked.word]) if takes_words else model


@contextmanager
def workers():
    """A process for each processor. What isn't begun when the work is left isn't begun any more."""
    pool = ProcessPoolExecutor(initializer=signal.signal, initargs=(signal.SIGINT, signal.SIG_IGN))
    try:
        yield pool
    finally:
        pool.shutdown(wait=False, cancel_futures=True)


def run(main):
    try:
        status = main()
        sys.stdout.flush()
    except KeyboardInterrupt:
        print("\nstopped", file=sys.stderr)
        status = 130
    except BrokenPipeError:
        os.dup2(os.open(os.devnull, os.O_WRONLY), sys.stdout.fileno())
        status = 1
    sys.exit(status)
