"""Reads what a name stands for, no more of it than decides, and writes what is made. A closed or full stream is told."""
import os
import sys

from formats import Wrong


def shown(name, standard="input"):
    return f"standard {standard}" if name == "-" else str(name)


def first(name, most):
    """The first bytes of a file, at most so many."""
    try:
        if name != "-":
            with open(name, "rb") as file:
                return file.read(most)
        if sys.stdin is None:
            raise Wrong("standard input is closed")
        return sys.stdin.buffer.read(most)
    except OSError as e:
        raise Wrong(f"{shown(name)}: {e.strerror}") from None


def say(words):
    if sys.stderr is not None:
        print(words, file=sys.stderr)


def write(name, data):
    try:
        if name != "-":
            with open(name, "wb") as file:
                file.write(data)
        elif sys.stdout is None:
            raise Wrong("standard output is closed")
        else:
            put(sys.stdout.fileno(), data)
    except OSError as e:
        raise Wrong(f"{shown(name, 'output')}: {e.strerror}") from None


def put(descriptor, data):
    """Without a buffer, which would be written once more, and fail once more, at the end."""
    at = 0
    while at < len(data):
        at += os.write(descriptor, data[at:])
