"""Takes out of a source what is proof: contracts, ghost members, models, tactics, laws."""
from __future__ import annotations

import re
from collections.abc import Callable, Sequence
from dataclasses import dataclass, field

from tools.rust.tokens import Token, Tokens, Unknown, past_any, past_blanks, past_group, text_of

TACTIC = re.compile(r"#(!?)\[(?:tactic|cycle)\b")
CLAUSES = ("requires", "ensures")
INDENT = "    "
# How the names of laws begin that code calls.
LEMMA = "lemma_"
# What may stand between a visibility and `fn`.
BEFORE_FN = ("const", "unsafe", "extern", '"C"')
PUBLIC = "pub"


@dataclass(frozen=True)
class Clause:
    """A clause of a contract: its word, its own name if it has one, and what it says, in one line."""

    word: str
    name: str
    says: str


@dataclass(frozen=True)
class Function:
    """A function that asks something of its caller."""

    name: str
    # The type or trait whose member it is; empty for one of a module.
    owner: str
    is_public: bool
    requires: list[Clause]

    @property
    def path(self) -> str:
        return f"{self.owner}::{self.name}" if self.owner else self.name


@dataclass(frozen=True)
class Guard:
    """What becomes of a function's conditions: lines of its docs, and a statement in front of its body."""

    docs: list[str]
    statement: str = ""


Guarding = Callable[[Function], Guard]


@dataclass
class Stripped:
    """A source without proofs, and what was seen in it."""

    tokens: Tokens = field(default_factory=list)
    # The functions that only state a law, which are taken out.
    laws: list[str] = field(default_factory=list)


@dataclass(frozen=True)
class Header:
    """A function up to its body or its semicolon, at `end`, in which no clause is left."""

    tokens: Tokens
    clauses: list[Clause]
    end: int


def clause_at(tokens: Sequence[Token], at: int) -> tuple[Clause, int] | None:
    """The clause that stands here, and where it ends."""
    word = tokens[at].text
    if tokens[at].kind != "word" or word not in CLAUSES:
        return None
    at = past_blanks(tokens, at + 1)
    at = past_blanks(tokens, at + (tokens[at].text == "*"))
    name = ""
    if tokens[at].kind == "word":
        name, at = tokens[at].text, past_blanks(tokens, at + 1)
    if tokens[at].text != "{":
        return None
    end = past_group(tokens, at)
    says = " ".join(text_of([it for it in tokens[at + 1 : end - 1] if it.kind != "comment"]).split())
    return Clause(word, name, says), end


def without_blanks_behind(tokens: Tokens) -> Tokens:
    while tokens and tokens[-1].is_blank:
        tokens = tokens[:-1]
    return tokens


def without_bounds(tokens: Sequence[Token]) -> Tokens:
    """The same without bounds by `Drop`: in Rust every value may be dropped."""
    text = text_of(tokens)
    text = re.sub(r"\bDrop \+ |(?<=\w) \+ Drop\b|(?<=>) \+ Drop\b", "", text)
    text = re.sub(r"\n *[\w:]+: Drop,(?=\s|\Z)", "", text)
    text = re.sub(r"(\b[\w:]+): Drop\b,?(?= *[,>;])", r"\1", text)
    text = re.sub(r"\s+where(?=\s*$)", "", text)
    return [Token("code", text)]


def header_at(tokens: Sequence[Token], at: int) -> Header:
    """The function whose word `fn` stands here."""
    kept: Tokens = []
    clauses: list[Clause] = []
    while tokens[at].text not in ("{", ";"):
        found = clause_at(tokens, at)
        if found:
            clauses.append(found[0])
            at = found[1]
            kept = without_blanks_behind(kept)
        elif clauses and tokens[at].is_blank:
            at += 1
        else:
            end = past_any(tokens, at)
            kept += tokens[at:end]
            at = end
    kept = without_bounds(without_blanks_behind(kept) if clauses else kept)
    if clauses and tokens[at].text == "{":
        kept.append(Token("space", before_body(text_of(kept))))
    return Header(kept, clauses, at)


def before_body(header: str) -> str:
    """What parts a header from its body: a line's end after a `where`, else a blank."""
    bounds = re.search(r"\n( *)where\n", header)
    return f"\n{bounds[1]}" if bounds else " "


def past_ghost(tokens: Sequence[Token], at: int) -> int | None:
    """Past the ghost item, field or member that stands here."""
    if tokens[at].kind == "visibility":
        at = past_blanks(tokens, at + 1)
    if at >= len(tokens) or tokens[at] != Token("word", "ghost"):
        return None
    name = past_blanks(tokens, at + 1)
    if tokens[name].text != "use" and tokens[past_blanks(tokens, name + 1)].text not in ":=":
        raise Unknown(f"a ghost item: {text_of(tokens[at : at + 12])}")
    while tokens[at].text not in ",;":
        at = past_any(tokens, at)
    return at + 1


def past_model(tokens: Sequence[Token], at: int) -> int | None:
    """Past the `impl Model for ..` that stands here."""
    if tokens[at] != Token("word", "impl"):
        return None
    end = at
    while tokens[end].text not in ("{", ";"):
        end += 1
    return past_group(tokens, end) if re.search(r"\bModel\s+for\b", text_of(tokens[at:end])) else None


def is_blank_line(token: Token) -> bool:
    return token.kind == "space" and token.text.count("\n") > 1


def drop_what_leads(kept: Tokens) -> None:
    """Takes off what stands directly before an item: its docs, its attributes and its visibility."""
    while kept:
        last = kept[-1]
        if last.kind in ("attribute", "visibility") or (last.kind == "comment" and not last.text.startswith("//!")):
            kept.pop()
        elif (
            last.kind == "space"
            and not is_blank_line(last)
            and len(kept) > 1
            and kept[-2].kind in ("attribute", "visibility", "comment")
        ):
            if kept[-2].text.startswith(("//!", "#!")):
                return
            kept.pop()
        else:
            return


def visibility_before(kept: Sequence[Token]) -> str:
    """The visibility of a function whose `fn` comes next."""
    at = len(kept) - 1
    while at >= 0 and (kept[at].kind == "space" or kept[at].text in BEFORE_FN):
        at -= 1
    return kept[at].text if at >= 0 and kept[at].kind == "visibility" else ""


def add_docs(kept: Tokens, lines: Sequence[str]) -> None:
    """Adds lines to the docs of the item whose attributes and visibility are the last that was kept."""
    at = len(kept)
    while at and (
        kept[at - 1].kind in ("attribute", "visibility")
        or kept[at - 1].text in BEFORE_FN
        or kept[at - 1].kind == "space"
    ):
        at -= 1
    if not lines or at == len(kept):
        return
    gap = kept[at].text
    indent = gap.rpartition("\n")[2]
    has_docs = at > 0 and kept[at - 1].text.startswith("///")
    added = (["///"] if has_docs else []) + [f"/// {line}" for line in lines]
    if has_docs:
        kept[at:at] = [Token("comment", "".join(f"\n{indent}{line}" for line in added))]
    else:
        kept[at + 1 : at + 1] = [Token("comment", f"\n{indent}".join(added)), Token("space", f"\n{indent}")]


class Stripping:
    """Goes over a source's tokens once."""

    def __init__(self, tokens: Tokens, guarding: Guarding) -> None:
        self.tokens, self.at, self.made, self.guarding = tokens, 0, Stripped(), guarding
        # The types and traits in whose braces we are, each with the depth at which it ends, and whether it is a public trait.
        self.owners: list[tuple[str, int, bool]] = []
        self.depth = 0

    def strip(self) -> Stripped:
        while self.at < len(self.tokens):
            if not (self.pass_proof() or self.pass_function()):
                self.keep()
        return self.made

    def pass_proof(self) -> bool:
        """Leaves out a ghost or a model that stands here, with its docs."""
        if self.tokens[self.at].kind == "attribute" and (found := TACTIC.match(self.tokens[self.at].text)):
            self.at += 1 if found[1] else 2
            return True
        past = past_ghost(self.tokens, self.at) or past_model(self.tokens, self.at)
        if past is None:
            return False
        drop_what_leads(self.made.tokens)
        self.at = past
        return True

    def pass_function(self) -> bool:
        tokens, at = self.tokens, self.at
        if tokens[at] != Token("word", "fn") or tokens[past_blanks(tokens, at + 1)].kind != "word":
            return False
        header = header_at(tokens, at)
        name = tokens[past_blanks(tokens, at + 1)].text
        if self.is_law(header, name):
            self.made.laws.append(name)
            drop_what_leads(self.made.tokens)
            self.at = past_any(tokens, header.end)
            return True
        owner, _, in_trait = self.owners[-1] if self.owners else ("", 0, False)
        requires = [it for it in header.clauses if it.word == "requires"]
        is_public = visibility_before(self.made.tokens) == PUBLIC or in_trait
        self.at = header.end
        if requires:
            self.keep_guarded(header, Function(name, owner, is_public, requires))
        else:
            self.made.tokens += header.tokens
        return True

    def keep_guarded(self, header: Header, function: Function) -> None:
        """Keeps the header of a function that asks something of its caller, and what is left of that."""
        guard = self.guarding(function)
        add_docs(self.made.tokens, guard.docs)
        self.made.tokens += header.tokens
        if guard.statement:
            self.keep()
            self.made.tokens.append(Token("code", f"\n{INDENT * (self.depth)}{guard.statement}"))

    def is_law(self, header: Header, name: str) -> bool:
        """Whether a function states something and does nothing: it changes and answers nothing, and is empty or called a lemma."""
        text = text_of(header.tokens)
        if "->" in text or "&mut" in text:
            return False
        body = self.tokens[header.end : past_any(self.tokens, header.end)]
        return name.startswith(LEMMA) or bool(header.clauses) and len(body) > 1 and not text_of(body[1:-1]).strip()

    def keep(self) -> None:
        token = self.tokens[self.at]
        if token.kind == "word" and token.text in ("impl", "trait") and self.depth == 0:
            self.enter_owner()
            return
        if token.kind == "mark":
            self.depth += (token.text == "{") - (token.text == "}")
            if self.owners and token.text == "}" and self.depth == self.owners[-1][1]:
                self.owners.pop()
        self.made.tokens.append(token)
        self.at += 1

    def enter_owner(self) -> None:
        """Goes into the braces of an `impl` or of a trait."""
        end = self.at
        while self.tokens[end].text not in ("{", ";"):
            end += 1
        head = self.tokens[self.at : end]
        is_trait = head[0].text == "trait"
        in_trait = is_trait and visibility_before(self.made.tokens) == PUBLIC
        self.owners.append((owner_in(text_of(head)), self.depth, in_trait))
        self.made.tokens += without_bounds(head)
        self.at = end


def owner_in(head: str) -> str:
    """The name of the type or trait of an `impl ..` or `trait ..`."""
    found = re.match(r"trait\s+(\w+)", head) or re.match(r"impl(?:<.*>)?\s+(?:.*?\bfor\s+)?([\w:]+)", head, re.DOTALL)
    if found is None:
        raise Unknown(f"the head {head}")
    return found[1]


def strip(tokens: Tokens, guarding: Guarding) -> Stripped:
    return Stripping(tokens, guarding).strip()
