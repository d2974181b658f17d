"""The few places of the sources for which Rust has no counterpart: each is named here, with what stands for it."""
from __future__ import annotations

import hashlib
import re
from pathlib import Path

from tools.rust.tokens import Unknown

# The files that were written anew, each with the sum of the source, without proofs, that it was written from.
ANEW = Path(__file__).resolve().parent / "anew"
WRITTEN_ANEW = {
    "folder_shelf/src/host_folder.rs": "2ca3314a384cc5f3",
    "site_cli/src/main.rs": "890fa70ac056f6c0",
}
# What stands once in a file, and what stands for it.
INSTEAD: dict[str, list[tuple[str, str]]] = {
    # What is copied needs no memory, and Rust's `clone` answers no Result.
    "piece_raw/src/block.rs": [
        (
            "fn clone(&self) -> Result<NodePtr<V>, AllocError> {\n        Ok(*self)",
            "fn clone(&self) -> NodePtr<V> {\n        *self",
        ),
    ],
    # Rust's `drop` borrows what it ends, so both parts are taken out of it.
    "piece_raw/src/ring.rs": [
        (
            "    nodes: Nodes<T>,\n    spare: Vec<Spare<T>>,",
            "    nodes: ManuallyDrop<Nodes<T>>,\n    spare: ManuallyDrop<Vec<Spare<T>>>,",
        ),
        (
            "nodes: Nodes::new(alloc)?,\n            spare: Vec::new(alloc),",
            "nodes: ManuallyDrop::new(Nodes::new(alloc)?),\n" "            spare: ManuallyDrop::new(Vec::new(alloc)),",
        ),
        (
            "    fn drop(self) {\n        let Ring {\n            nodes,\n            spare,\n            cursor: _,\n        } = self;\n",
            "    fn drop(&mut self) {\n        // SAFETY: neither is used after this, nor dropped again.\n"
            "        let (nodes, spare) = unsafe {\n"
            "            (ManuallyDrop::take(&mut self.nodes), ManuallyDrop::take(&mut self.spare))\n        };\n",
        ),
        ("use looks::Refusal;\n", "use looks::Refusal;\nuse std::mem::ManuallyDrop;\n"),
    ],
    # Of a limit and a length that pass the sizes of 32 bits the one becomes the greatest size, the other is more than bytes can be.
    "op_log/src/lib.rs": [
        ("pub const MAX_OPS: usize = 1 << 32;", "pub const MAX_OPS: usize = (u32::MAX as usize).saturating_add(1);"),
    ],
    "piece_raw/src/lib.rs": [
        ("pub const MAX_TAGS: usize = 1 << 32;", "pub const MAX_TAGS: usize = (u32::MAX as usize).saturating_add(1);"),
    ],
    "packed/src/reading.rs": [
        ("stretch_at(more as usize + 2, rest)", "stretch_at(usize::try_from(more).ok()?.checked_add(2)?, rest)"),
    ],
    "folder_shelf/src/folder_shelf.rs": [
        ("pub type HostShelf<R> = FolderShelf<HostFolder<R>>;", "pub type HostShelf = FolderShelf<HostFolder>;"),
    ],
}
EXPORT = re.compile(r'^pub extern "C" fn (?P<name>\w+)\((?P<given>[^)]*)\) -> u32 \{', re.MULTILINE)
SAFETY = """///
/// # Safety
///
/// The caller owes what `vialshoal.h` says.
"""
SLICE = re.compile(r"&(mut )?\[(\w+)\]")


def passed(name: str, kind: str) -> tuple[str, str]:
    """What C passes for a parameter, and the statement that makes the parameter of it."""
    if kind == "Global":
        return "", f"let {name} = Global;"
    found = SLICE.fullmatch(kind)
    if found is None:
        return f"{name}: {kind}", ""
    pointer, make = ("*mut", "from_raw_parts_mut") if found[1] else ("*const", "from_raw_parts")
    statement = (
        "// SAFETY: the caller passes so many, that nothing else has meanwhile.\n"
        f"    let {name} = unsafe {{ {make}({name}_at, {name}_len) }};"
    )
    return f"{name}_at: {pointer} {found[2]}, {name}_len: usize", statement


def exported(found: re.Match[str]) -> str:
    """A function that C calls: a slice is a pointer and a length, and there is no allocator."""
    parts = [passed(*it.strip().split(": ")) for it in found["given"].split(",") if it.strip()]
    given = [it for it, _ in parts if it]
    line = ", ".join(given)
    if len(line) + len(found["name"]) > 70:
        line = "\n    " + ",\n    ".join(", ".join(given).split(", ")) + ",\n"
    first = "\n    ".join(it for _, it in parts if it)
    return f'pub unsafe extern "C" fn {found["name"]}({line}) -> u32 {{\n    {first}'


def exports_in(text: str) -> list[str]:
    """The functions that C calls."""
    return re.findall(r'^pub unsafe extern "C" fn (vialshoal_\w+)', text, re.MULTILINE)


def with_exports(text: str) -> str:
    made, count = EXPORT.subn(exported, text)
    if not count:
        return text
    made = made.replace("#[unsafe(no_mangle)]\npub unsafe", SAFETY + "#[unsafe(no_mangle)]\npub unsafe")
    wanted = sorted(set(re.findall(r"\bfrom_raw_parts(?:_mut)?\b", made)))
    names = wanted[0] if len(wanted) == 1 else "{" + ", ".join(wanted) + "}"
    return (
        re.sub(r"(?=^use texts::|\Z)", f"use std::slice::{names};\n", made, count=1, flags=re.MULTILINE)
        if wanted
        else made
    )


def sum_of(text: str) -> str:
    return hashlib.sha256(text.encode()).hexdigest()[:16]


def placed(file: str, text: str, source: str) -> str:
    """A file with what stands in it for places without counterpart; `source` is it as it was, without proofs."""
    if file in WRITTEN_ANEW:
        if WRITTEN_ANEW[file] != sum_of(source):
            raise Unknown(
                f"{file} was written anew from a source of another sum than {sum_of(source)}: is tools/rust/anew right?"
            )
        return (ANEW / file).read_text()
    for old, new in INSTEAD.get(file, []):
        if text.count(old) != 1:
            raise Unknown(f"{file} has this {text.count(old)} times: {old}")
        text = text.replace(old, new)
    return with_exports(text)
