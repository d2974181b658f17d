"""The forms of code that Rust writes in another way, and the layout of what was taken out of."""
from __future__ import annotations

import re

from tools.rust.tokens import Token, Tokens, text_of
from tools.rust.uses import FALLIBLE

# Each form with what stands for it, in code outside comments and strings.
FORMS = (
    # Every value may be dropped.
    (r"\bDrop \+ | \+ Drop\b", ""),
    (r"(\b[\w:]+): Drop\b,?(?= *[,>;])", r"\1"),
    # A call of a law does nothing.
    (r"(?m)^[ \t]*[\w.:\[\]()]*\blemma_\w+\([^;]*\);\n", ""),
    # What is proved where it stands, is tested where it runs.
    (r"\bprove!", "assert!"),
    # A byte that is a signed number of eight bits, and back: Rust 1.85 has no word for it.
    (r"\b([\w.]+)\.cast_unsigned\(\)", r"\1 as u8"),
    (r"\b([\w.]+)\.cast_signed\(\)", r"\1 as i8"),
    # A list, or a text, made in memory that may be refused.
    (r"\.collect\(alloc\)", ".collect_in(alloc)"),
    (r"\bformat!\(in alloc;", f"{FALLIBLE}::format!(alloc,"),
)


def derive(attribute: str) -> str:
    """A derive without what Rust derives for nothing."""
    names = [it.strip() for it in attribute.removeprefix("#[derive(").removesuffix(")]").split(",")]
    left = [it for it in names if it != "Drop"]
    return f"#[derive({', '.join(left)})]" if left else ""


def with_forms(tokens: Tokens) -> str:
    """The text of these tokens in Rust's forms."""
    found: list[str] = []
    code: Tokens = []

    def flush() -> None:
        text = text_of(code)
        for form, instead in FORMS:
            text = re.sub(form, instead, text)
        found.append(text)
        code.clear()

    for at, token in enumerate(tokens):
        if token.kind == "attribute" and token.text.startswith("#[derive("):
            token = Token("attribute", derive(token.text))
        elif token.kind == "space" and at and tokens[at - 1].text == "#[derive(Drop)]":
            continue
        if token.kind in ("comment", "string"):
            flush()
            found.append(token.text)
        else:
            code.append(token)
    flush()
    return "".join(found)


def laid_out(text: str) -> str:
    """The same without the gaps that what was taken out has left."""
    text = re.sub(r"[ \t]+\n", "\n", text)
    text = re.sub(r"\n{3,}", "\n\n", text)
    text = re.sub(r"([{(\[]\n)\n+", r"\1", text)
    text = re.sub(r"\n\n+(?= *[})\]])", "\n", text)
    text = re.sub(r"\{\n\s*\}", "{}", text)
    return text.strip("\n") + "\n"
