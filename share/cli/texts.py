"""Texts that the command line, files and standard input give: in UTF-8, or refused in words."""
import pathlib
import sys

from share.text.errors import Trouble

STANDARD_INPUT = "-"


def argument(word: str) -> str:
    """A word of the command line; bytes that are no UTF-8 can't be typed."""
    try:
        word.encode()
    except UnicodeEncodeError as why:
        raise Trouble("A word of the command line is no UTF-8.") from why
    return word


def argument_or_input(word: str) -> str:
    """The same, or what standard input has."""
    return text_of_file(word) if word == STANDARD_INPUT else argument(word)


def text_of_file(name: str) -> str:
    """The text of a file, or of standard input."""
    try:
        if name == STANDARD_INPUT:
            return utf_8_text("standard input", sys.stdin.buffer.read())
        return utf_8_text(name, pathlib.Path(name).read_bytes())
    except OSError as why:
        raise Trouble(f"{name} can't be read ({why.strerror}).") from why


def utf_8_text(name: str, data: bytes) -> str:
    """The text of some bytes."""
    try:
        return data.decode()
    except UnicodeDecodeError as why:
        raise Trouble(f"{name} is no UTF-8.") from why
