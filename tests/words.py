"""Numbers among the words of a command."""
from argparse import ArgumentTypeError


def from_0(text):
    if not text.isdecimal():
        raise ArgumentTypeError(f"'{text}' is no number from 0 on")
    return int(text)
