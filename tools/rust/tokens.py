"""Tokens of a source, in so far as taking parts out of it needs them."""
from __future__ import annotations

import re
from collections.abc import Sequence
from typing import NamedTuple

OPENING, CLOSING = "({[", ")}]"
TOKEN = re.compile(
    r"""(?P<space>\s+)|(?P<comment>//[^\n]*|/\*.*?\*/)|(?P<string>b?r(?P<hashes>\#*)".*?"(?P=hashes)|b?"(?:\\.|[^"\\])*")
    |(?P<char>b?'(?:\\[^u]|\\u\{\w+\}|[^'\\])')|(?P<lifetime>'\w+)|(?P<word>\w+)|(?P<mark>.)""",
    re.VERBOSE | re.DOTALL,
)


class Token(NamedTuple):
    """A token; `kind` is a group's name in TOKEN, or `attribute` or `visibility`, which are several of them in one."""

    kind: str
    text: str

    @property
    def is_blank(self) -> bool:
        return self.kind in ("space", "comment")


Tokens = list[Token]


class Unknown(Exception):
    """A form of the sources that the translation doesn't know."""


def tokens_of(text: str) -> Tokens:
    found = [Token(str(m.lastgroup if m.lastgroup != "hashes" else "string"), m[0]) for m in TOKEN.finditer(text)]
    return whole_visibilities(whole_attributes(found))


def text_of(tokens: Sequence[Token]) -> str:
    return "".join(it.text for it in tokens)


def past_blanks(tokens: Sequence[Token], at: int) -> int:
    """Past white space and comments."""
    while at < len(tokens) and tokens[at].is_blank:
        at += 1
    return at


def past_group(tokens: Sequence[Token], at: int) -> int:
    """Past the brackets that open here."""
    depth = 0
    while True:
        if tokens[at].kind == "mark":
            depth += (tokens[at].text in OPENING) - (tokens[at].text in CLOSING)
        at += 1
        if depth == 0:
            return at


def past_any(tokens: Sequence[Token], at: int) -> int:
    """Past one token, or the group that opens here."""
    is_open = tokens[at].kind == "mark" and tokens[at].text in OPENING
    return past_group(tokens, at) if is_open else at + 1


def reads(tokens: Sequence[Token], at: int, *words: str) -> bool:
    """Whether these words stand here, blanks aside."""
    for word in words:
        at = past_blanks(tokens, at)
        if at >= len(tokens) or tokens[at].text != word:
            return False
        at += 1
    return True


def whole_attributes(tokens: Tokens) -> Tokens:
    """The same tokens with each attribute as one."""
    found, at = [], 0
    while at < len(tokens):
        end = at + 1
        if tokens[at].text == "#":
            opens = end + reads(tokens, end, "!")
            if reads(tokens, opens, "["):
                end = past_group(tokens, opens)
        found.append(Token("attribute", text_of(tokens[at:end])) if end > at + 1 else tokens[at])
        at = end
    return found


def whole_visibilities(tokens: Tokens) -> Tokens:
    """The same tokens with each `pub` or `pub(..)` as one."""
    found, at = [], 0
    while at < len(tokens):
        end = at + 1
        if tokens[at] == Token("word", "pub"):
            if end < len(tokens) and tokens[end].text == "(":
                end = past_group(tokens, end)
            found.append(Token("visibility", text_of(tokens[at:end])))
        else:
            found.append(tokens[at])
        at = end
    return found
