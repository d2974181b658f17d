"""The `use` lines of a source, rewritten for what stands elsewhere in Rust."""
from __future__ import annotations

import re
from collections.abc import Iterator, Sequence

# The crate that stands for what differs in std.
FALLIBLE = "fallible"
# Where a name of the kit's std is to be had; None: it is of proofs alone. All others are Rust's own, at the same place.
ELSEWHERE: dict[str, str | None] = {
    "std::alloc::AllocError": f"{FALLIBLE}::AllocError",
    "std::alloc::AllocFailed": f"{FALLIBLE}::AllocFailed",
    "std::alloc::Allocator": f"{FALLIBLE}::Allocator",
    "std::alloc::Global": f"{FALLIBLE}::Global",
    "std::collections::BTreeMap": f"{FALLIBLE}::BTreeMap",
    "std::convert::AsStr": f"{FALLIBLE}::AsStr",
    "std::io::BufReader": f"{FALLIBLE}::BufReader",
    "std::io::BufWriter": f"{FALLIBLE}::BufWriter",
    "std::marker::Model": None,
    "std::mem::align_of": None,
    "std::mem::size_of": None,
}
# What each source of the kit has without a `use`, where Rust's own is another.
UNNAMED = ("Box", "String", "Vec")
USE = re.compile(r"^(?P<pub>pub(?:\([\w ]+\))? )?use (?P<tree>[^;]+);$", re.MULTILINE)
BLOCK = re.compile(r"(?:^use [^;]+;\n)+", re.MULTILINE)
# What stands in front of a source's first item.
HEAD = re.compile(r"\A(?:(?://!|// |#!\[)[^\n]*\n|\n)*")


def paths_of(tree: str, under: str = "") -> Iterator[str]:
    """The paths that a use tree brings in."""
    tree = " ".join(tree.split())
    opens = tree.find("{")
    if opens < 0:
        yield under + tree
        return
    prefix, inner = under + tree[:opens], tree[opens + 1 : tree.rindex("}")]
    depth, begin = 0, 0
    for at, letter in enumerate(inner + ","):
        depth += (letter == "{") - (letter == "}")
        if letter == "," and depth == 0:
            if inner[begin:at].strip():
                yield from paths_of(inner[begin:at].strip(), prefix)
            begin = at + 1


def in_order(name: str) -> tuple[bool, str]:
    return name != "self", name


def use_lines(paths: Sequence[str], lead: str = "") -> list[str]:
    """The lines that bring in these paths, one for each module."""
    modules: dict[str, list[str]] = {}
    for path in paths:
        module, _, name = path.rpartition("::")
        modules.setdefault(module, []).append(name)
    lines = []
    for module, names in modules.items():
        names = sorted(set(names), key=in_order)
        listed = names[0] if len(names) == 1 else "{" + ", ".join(names) + "}"
        if names == ["self"]:
            lines.append(f"{lead}use {module};")
        else:
            lines.append(f"{lead}use {module}::{listed};" if module else f"{lead}use {listed};")
    return lines


def line_order(line: str) -> tuple[int, str]:
    path = line.removeprefix("use ")
    first = path.partition("::")[0]
    return {"super": 0, "crate": 1}.get(first, 2), path.rstrip(";")


def here(paths: Sequence[str]) -> list[str]:
    """Where these names of the kit are to be had."""
    found = [ELSEWHERE.get(path, path) for path in paths]
    return [path for path in found if path]


def unnamed_in(code: str) -> list[str]:
    """The names that a source has of the kit without a `use`."""
    bare = re.sub(r"//[^\n]*", "", code)
    found = [
        f"{FALLIBLE}::{name}"
        for name in UNNAMED
        if re.search(rf"(?<![\w:.]){name}(?:<|::)|(?<!:)[(<&>,:] ?{name}\b(?!\()", bare)
    ]
    return found + [f"{FALLIBLE}::CollectIn"] * (".collect_in(" in bare)


def words_of(text: str) -> set[str]:
    """The words of a source outside comments and its private `use` lines."""
    return set(re.findall(r"\w+", BLOCK.sub("", re.sub(r"//[^\n]*", "", text))))


def lines_here(block: str, idle: set[str]) -> tuple[list[str], list[str]]:
    """A block's lines without idle names, and what is to come from `fallible`; lines in which nothing differs stay as they are."""
    lines: list[str] = []
    ours: list[str] = []
    for found in USE.finditer(block):
        paths = [*paths_of(found["tree"])]
        now = here([path for path in paths if path.rpartition("::")[2] not in idle])
        if now == paths:
            lines.append(found[0])
            continue
        ours += [path for path in now if path.startswith(FALLIBLE)]
        lines += use_lines([path for path in now if not path.startswith(FALLIBLE)])
    return lines, ours


def rewritten(text: str, source: str) -> str:
    """A source with its `use` lines rewritten; what comes from `fallible` stands in the last block of them. Names that only
    the proofs of the source used are left out."""
    blocks = [*BLOCK.finditer(text)]
    idle = words_of(source) - words_of(text)
    each = [lines_here(block[0], idle) for block in blocks] or [([], [])]
    spans = [block.span() for block in blocks] or [(HEAD.match(text).end(),) * 2]  # type: ignore[union-attr]
    ours = [name for _, names in each for name in names] + unnamed_in(BLOCK.sub("", text))
    each[-1][0].extend(use_lines(ours))
    for (lines, _), (begin, end) in reversed([*zip(each, spans)]):
        made = "".join(f"{line}\n" for line in sorted(set(lines), key=line_order))
        text = text[:begin] + made + ("" if blocks or not made else "\n") + text[end:]
    return text


def without_names(text: str, gone: Sequence[str]) -> str:
    """A source whose `pub use` lines don't bring in these names of modules of its own."""

    def kept(found: re.Match[str]) -> str:
        paths = [*paths_of(found["tree"])]
        left = [path for path in paths if path not in gone]
        if left == paths:
            return found[0]
        return "\n".join(use_lines(left, found["pub"] or ""))

    return USE.sub(kept, text)
