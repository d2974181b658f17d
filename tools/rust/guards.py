"""What becomes of the conditions that a function puts to its caller."""
from __future__ import annotations

import textwrap
from dataclasses import dataclass, field

from tools.rust.proofs import Clause, Function, Guard
from tools.rust.tokens import Unknown

WIDTH = 100
HAS_TAG = "tag < self.nodes.table.len() as u64"
NO_MEMBER = '"no member has this tag"'
# The public functions over unsafe code that ask something of their caller, each with what tests it.
ASSERTED = {
    ("piece_raw", "Ring::after"): f"assert!({HAS_TAG}, {NO_MEMBER});",
    ("piece_raw", "Ring::before"): f"assert!({HAS_TAG}, {NO_MEMBER});",
    ("piece_raw", "Ring::value_at"): f"assert!({HAS_TAG}, {NO_MEMBER});",
    ("piece_raw", "Ring::seek"): f"assert!({HAS_TAG}, {NO_MEMBER});",
    ("piece_raw", "Ring::from"): f"assert!(at.is_none_or(|tag| {HAS_TAG}), {NO_MEMBER});",
    ("piece_raw", "Ring::rest_after"): f"assert!(last.is_none_or(|tag| {HAS_TAG}), {NO_MEMBER});",
    ("piece_raw", "Ring::value"): 'assert!(self.cursor.is_some(), "the cursor is on the trailer");',
    ("piece_raw", "Ring::value_mut"): 'assert!(self.cursor.is_some(), "the cursor is on the trailer");',
}


# What may become of a condition, with what that means.
ASSERTS, IN_CRATE, UNSAFE, HARMLESS = "asserts", "pub(crate)", "unsafe fn", "not unsafe"
MEANINGS = {
    ASSERTS: "it is tested where the function is called, which panics",
    IN_CRATE: "only its own crate can call the function",
    UNSAFE: "the caller owes it, and says so by `unsafe`",
    HARMLESS: "no unsafe code rests on it: where it is broken, the function panics or answers wrongly",
}


@dataclass(frozen=True)
class Listed:
    """A function that asks something of its caller, and what that became: a public one, or one over unsafe code."""

    path: str
    clauses: list[Clause]
    became: str


def condition(clauses: list[Clause]) -> list[str]:
    """A function's conditions, as lines of its docs."""
    says = ", ".join(f"`{it.name}: {it.says}`" if it.name else f"`{it.says}`" for it in clauses)
    return textwrap.wrap(f"Asks of its caller: {says}.", WIDTH, break_long_words=False, break_on_hyphens=False)


@dataclass
class Guards:
    """The functions of a crate that ask something of their caller."""

    crate: str
    has_unsafe: bool
    listed: list[Listed] = field(default_factory=list)

    def guard(self, function: Function) -> Guard:
        """What becomes of a function's conditions."""
        if not function.is_public:
            if self.has_unsafe:
                self.listed.append(Listed(function.path, function.requires, IN_CRATE))
            return Guard([])
        statement = ASSERTED.get((self.crate, function.path), "")
        if self.has_unsafe and not statement:
            raise Unknown(f"{self.crate} has unsafe code, and nothing tests what {function.path} asks: guards.py")
        self.listed.append(Listed(function.path, function.requires, ASSERTS if statement else HARMLESS))
        return Guard(condition(function.requires), statement)
