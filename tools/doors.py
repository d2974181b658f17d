"""Checks that no code makes up refused memory. The prover lets no crate but looks write `Refusal::OutOfMemory`; here it is checked that

- no code makes an `AllocError` or an `AllocFailed`, of which `Refusal::OutOfMemory` is made: their names stand as types;
- no code but that of looks writes an `ErrorKind::OutOfMemory`, except script_rows, a program of tests;
- what else in looks gives `Refusal::OutOfMemory`, or its number, is used only in the files that are listed here, and a limit that stands
  for memory is tested only by the calls that are listed, word by word;
- how much memory a call asks for is made of lengths and of what its caller names: a number above 1, a constant, a product, a shift or
  a choice stands in such a call, or in what a name in it was bound to, only where the call is listed;
- in vialshoal_c, where the numbers of refusals are plain integers, no file but that of its constants writes a number
  above 1, or a character, except as the length of an array's type, and what a call was refused for is handed on as
  `u32::from(why.number())`, with nothing added: so a refusal's number is that of a `Refusal`, or a constant.

What another function returns isn't followed. Each fault is printed; the last line counts the files without and with faults.
"""
from __future__ import annotations

import re
from collections.abc import Iterator

from tools import TOP

CRATES = TOP / "crates"
HOME = "looks/src/refusal.rt"
PLAIN_NUMBERS = "vialshoal_c/"
CONSTANTS = "vialshoal_c/src/numbers.rt"

# What isn't code: comments, lines of imports, and the text of literals.
NO_CODE = re.compile(
    r"""//[^\n]*|^[ \t]*(?:ghost |pub )?use [^;]*;|'(?:\\.|[^'\\])'|"(?:\\.|[^"\\])*\"""", re.MULTILINE | re.DOTALL
)
AS_TYPE = re.compile(r",\s*AllocError\s*,?\s*>")
RENAMED = re.compile(
    r"\b(?:AllocError|AllocFailed|TryReserveError|ErrorKind) as\b|\bstd::(?:alloc|io)::\*|\buse [^;]*\bErrorKind::[^;]*;"
)
MADE = re.compile(r"\b(?:AllocError|AllocFailed|TryReserveError)\b")
# What of vialshoal_c may have any number: comments, and the type of an array of bytes, also of one that is cut off.
MAY_COUNT = re.compile(r"//[^\n]*|\[u8; \d+\]|_chunk::<\d+>", re.MULTILINE)
# A number of a `Refusal` that isn't handed on as it is.
CHANGED = re.compile(r"\bcolour\.number\(\)|(?:(?<=: )|(?<=> )|(?<=\w\())u32::from\(why\.number\(\)\)(?=[,)])|(\w*\.number\(\))")
ABOVE_1 = re.compile(r"\b(?![01]\b)\d\w*|'(?:\\[^'\n]+|[^'\\\n])'")

# Each word that gives refused memory, and the files that may write it beside looks.
GIVEN = {
    r"\bErrorKind::OutOfMemory\b": {"script_rows/src/playing.rt"},
    r"\bOUT_OF_MEMORY\b": {"script_sites/src/answers.rt", "vialshoal_c/src/feeding.rt"},
    r"\bof_error\b": {"script_io/src/input.rt", "folder_shelf/src/whole_files.rt", "folder_shelf/src/folder_shelf.rt"},
}

# The calls that give refused memory where a limit is passed, by file.
WITHIN = {
    # No message has a seq beyond 32 bits, which entries as a definition sees them may have.
    "note_admission/src/text_admission.rt": {"front as usize, u32::MAX as usize - 1"},
    "op_log/src/op_list.rt": {
        "self.len + 1, MAX_OPS",
        "self.len.saturating_add(len), MAX_OPS",
        "self.looks.len() + 1, MAX_LOOKS",
    },
    "piece_list/src/values.rt": {
        "self.looks.len().saturating_add(n), MAX_ENTRIES",
        "self.switches.len().saturating_add(1), MAX_ENTRIES",
        "self.relooks.len().saturating_add(1), MAX_ENTRIES",
    },
    "piece_raw/src/ring.rt": {"self.nodes.table.len().saturating_add(n), MAX_TAGS"},
}
# The calls that ask for memory by more than lengths, by file, each with what its names were bound to.
ASKED = {
    "piece_list/src/list/changing.rt": {"2 * ranges.len(); ranges = names.ranges()"},
    "piece_list/src/list/placing.rt": {"2"},
    "rank_index/src/chunk.rt": {"alloc, MOST"},
    "rank_index/src/index.rt": {"wanted; wanted = ((self.homes.len() + n) / HALF).min(self.chunks.len() + n)"},
    "script_io/src/input.rt": {"alloc, HELD, reader"},
    "script_runs/src/running.rt": {"alloc, MAX_LINE"},
    "script_sites/src/desks.rt": {"alloc, MAX_LINE"},
    "site_cli/src/main.rt": {"alloc, KEPT_BACK, io::writer(&rt); alloc = rt.alloc()"},
    "text_frames/src/frame.rt": {"alloc, MAX_ROWS"},
    "vialshoal_c/src/note_session.rt": {"alloc, TEXTS as usize"},
    "viewers/src/screen.rt": {"alloc, MAX_VIEWERS"},
}
WITHIN_CALL = re.compile(r"(?<!fn )\bwithin_memory\(")
ASKING = r"(?:try_)?(?:with_capacity|reserve|resize|repeat|allocate)\w*"
ASKING_CALL = re.compile(rf"(?<!fn )\b{ASKING}\(|\bvec!\[")
# A function that tests a limit or asks for memory, named without being called.
UNCALLED = re.compile(rf"(?<!fn )\b(?:within_memory|(?<=::){ASKING})\b(?![(<])")
# (Operators stand between blanks, by the layout that the gate asks for.)
BY_MORE_THAN_LENGTHS = re.compile(
    r"\b(?![01]\b)\d\w*|\b[A-Z][A-Z0-9_]+\b| (?:[*|^]|<<|>>)=? |(?<!\w)!|\b(?:if|match)\b|\b(?:wrapping|overflowing)_|(?:mul|pow|shl|max)\b"
)
NAME = re.compile(r"(?<![.\w])[a-z_]\w*\b(?![(:!])")


def call_end(code: str, begin: int) -> int:
    """Where the brackets end that were opened directly before."""
    depth = 1
    for at in range(begin, len(code)):
        depth += {"(": 1, "[": 1, ")": -1, "]": -1}.get(code[at], 0)
        if depth == 0:
            return at
    return len(code)


def arguments(code: str, call: re.Pattern[str]) -> Iterator[tuple[int, str]]:
    """Where each such call stands, and what is between its brackets, in one line."""
    for called in call.finditer(code):
        yield called.start(), " ".join(code[called.end() : call_end(code, called.end())].split())


def bound(code: str, at: int, words: str) -> str:
    """The words, and what the names in them were bound or set to by the function, up to this place."""
    before = code[code.rfind("fn ", 0, at) : at]
    found, pending, seen = words, [words], set[str]()
    while pending:
        for name in set(NAME.findall(pending.pop())) - seen:
            seen.add(name)
            for change, value in re.findall(rf"\b{name}(?:: [\w&<> ]+)? (<<|>>|[-+*/|^&])?= ([^;]+);", before):
                found += f"; {name} {change}= {' '.join(value.split())}"
                pending.append(value)
    return found


def unlisted(name: str, code: str) -> list[str]:
    """The calls that give refused memory, or ask for memory, by what isn't listed."""
    within = [words for _, words in arguments(code, WITHIN_CALL) if words not in WITHIN.get(name, ())]
    asked = [bound(code, at, words) for at, words in arguments(code, ASKING_CALL)]
    unusual = [words for words in asked if BY_MORE_THAN_LENGTHS.search(words) and words not in ASKED.get(name, ())]
    return within + UNCALLED.findall(code) + unusual


def faults(name: str, text: str) -> list[str]:
    """What a file of this name, below crates/, has that may make up refused memory."""
    if name == HOME:
        return []
    code = AS_TYPE.sub(">", NO_CODE.sub("", text))
    found = [m[0] for m in (*RENAMED.finditer(text), *MADE.finditer(code))]
    found += [m[0] for word, files in GIVEN.items() if name not in files for m in re.finditer(word, code)]
    found += unlisted(name, code)
    if name.startswith(PLAIN_NUMBERS) and name != CONSTANTS:
        found += ABOVE_1.findall(MAY_COUNT.sub("", text)) + [word for word in CHANGED.findall(code) if word]
    return found


def main() -> int:
    right = wrong = 0
    for path in sorted(CRATES.glob("*/src/**/*.rt")):
        name = path.relative_to(CRATES).as_posix()
        found = faults(name, path.read_text(encoding="utf-8"))
        for word in found:
            print(f"crates/{name}: refused memory may be made up by: {word}")
        right, wrong = (right, wrong + 1) if found else (right + 1, wrong)
    print(f"{right} passed, {wrong} failed")
    return 1 if wrong else 0
