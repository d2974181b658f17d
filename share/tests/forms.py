"""Of which form the notes are that tests make: VIALSHOAL_FORM says it, and what runs modules has some run over both."""
import os
import unittest
from collections.abc import Callable
from typing import Any, TypeVar

SECOND = "2"
# Why tests are left out over the second form that are of the first one by their nature.
FIRST_FORM_ALONE = "of the first form: "
# A test, or a class of them.
Tested = TypeVar("Tested", bound=Callable[..., Any])


def is_second_form() -> bool:
    """Whether the notes are of the second form."""
    return os.environ.get("VIALSHOAL_FORM") == SECOND


def of_second_form() -> None:
    """Has tests make notes of the second form from now on, in which a claim costs no search for zeros."""
    os.environ["VIALSHOAL_FORM"] = SECOND
    os.environ.setdefault("VIALSHOAL_ZERO_BITS", "0")


def link_begin(kind: str) -> str:
    """What links begin with, `s` of sealed notes and `p` of others."""
    return f"vialshoal:{'2' if is_second_form() else '1.1'}:{kind}:"


def of_first_form(why: str) -> Callable[[Tested], Tested]:
    """What is tested is of the first form by its nature, for this reason, and left out over the second one."""
    return unittest.skipIf(is_second_form(), f"{FIRST_FORM_ALONE}{why}")
