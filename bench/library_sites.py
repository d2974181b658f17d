"""Makes the edits that bench/library hands over at one site, and takes their messages in at another, as library_sites.c does:
by the package, in bytes or code points, or by the program's pipe as share/ does."""
import pathlib
import sys
import time
from collections.abc import Callable

TOP = pathlib.Path(__file__).resolve().parent.parent
PASTE = 4000
READINGS = 10
REPEATED = "read", "pasted", "since", "loaded"
LAST = 10
KEYS = 10_000
# How many messages the program is given at once.
TOLD = 1000


class PackageSite:
    """A text of the package."""

    process: int | str = "self"

    def __init__(self, site: int, units: str):
        self.site, self.units, self.in_code_points = site, units, units == "code points"
        self.begin()

    def begin(self) -> None:
        """Begins with an empty text, perhaps again."""
        from vialshoal import Text
        self.text = Text(1, site=self.site, units=self.units)

    def insert(self, pos: int, data: bytes) -> list[bytes]:
        messages: list[bytes] = self.text.insert(pos, data.decode() if self.in_code_points else data)
        return messages

    def delete(self, beg: int, end: int) -> list[bytes]:
        messages: list[bytes] = self.text.delete(beg, end)
        return messages

    def take(self, messages: list[bytes]) -> None:
        for message in messages:
            self.text.take(message)

    def shown(self) -> bytes:
        return bytes(self.text)

    def paste(self, data: bytes) -> list[bytes]:
        self.begin()
        chunks: list[bytes] = self.text.paste(0, data.decode() if self.in_code_points else data)
        return chunks

    def load(self, file: bytes) -> None:
        from vialshoal import Text
        self.text = Text.load(file, units=self.text.units)


class PipeSite:
    """A process of the program."""

    def __init__(self, site: int):
        sys.path.insert(0, str(TOP))
        from share.program.process import Program, escaped
        self.program, self.escaped = Program(site), escaped
        self.process: int | str = self.program.process.pid

    def edited(self, event: bytes) -> list[bytes]:
        [answer] = self.program.ask([event])
        return [bytes.fromhex(line.rpartition(b" ")[2].decode()) for line in answer[:-1]]

    def insert(self, pos: int, data: bytes) -> list[bytes]:
        return self.edited(self.program.event("type", pos, self.escaped(data)))

    def delete(self, beg: int, end: int) -> list[bytes]:
        return self.edited(self.program.event("cut", beg, end))

    def take(self, messages: list[bytes]) -> None:
        for at in range(0, len(messages), TOLD):
            self.program.ask([self.program.event("take", message.hex().encode()) for message in messages[at:at + TOLD]])

    def shown(self) -> bytes:
        return self.program.text()


AnySite = PackageSite | PipeSite
Edit = tuple[int, int]


def site_of(kind: str, site: int) -> AnySite:
    return PipeSite(site) if kind == "pipe" else PackageSite(site, kind)


def peak(sites: list[AnySite]) -> int:
    """The most bytes that were resident in the sites' processes."""
    found = 0
    for process in {site.process for site in sites}:
        lines = pathlib.Path(f"/proc/{process}/status").read_text(encoding="ascii").splitlines()
        found += next(int(line.split()[1]) for line in lines if line.startswith("VmHWM")) * 1024
    return found


def make(site: AnySite, edit: Edit) -> list[bytes]:
    pos, letter = edit
    return site.insert(pos, bytes([letter])) if letter else site.delete(pos, pos + 1)


def typed(a: AnySite, b: AnySite, edits: list[Edit]) -> None:
    for edit in edits:
        b.take(make(a, edit))


def made(site: AnySite, edits: list[Edit]) -> None:
    for edit in edits:
        make(site, edit)


def pasted(site: AnySite, edits: list[Edit]) -> None:
    for at in range(0, len(edits), PASTE):
        site.insert(at, bytes(letter for _, letter in edits[at:at + PASTE]))


def busy(sites: list[AnySite]) -> float:
    """The seconds of processors that went into the sites."""
    others = {site.process for site in sites} - {"self"}
    told = [pathlib.Path(f"/proc/{process}/schedstat").read_text(encoding="ascii") for process in others]
    return time.process_time() + sum(int(one.split()[0]) for one in told) / 1e9


def timed(work: Callable[[], object], sites: list[AnySite]) -> tuple[float, float]:
    """The seconds of the clock, and those of the processors."""
    begin, worked = time.perf_counter(), busy(sites)
    work()
    return time.perf_counter() - begin, busy(sites) - worked


def prepared(mode: str, a: AnySite, b: AnySite, edits: list[Edit]) -> Callable[[], object]:
    """Does what comes before what is timed, and answers that."""
    if mode == "joined":
        messages = [message for edit in edits for message in make(a, edit)]
        return lambda: b.take(messages)
    if mode == "read":
        pasted(b, edits)
        return b.shown
    if mode == "made":
        return lambda: made(b, edits)
    if mode == "typed":
        return lambda: typed(a, b, edits)
    assert isinstance(a, PackageSite) and isinstance(b, PackageSite)
    return prepared_alone(mode, a, b, edits)


def prepared_alone(mode: str, a: PackageSite, b: PackageSite, edits: list[Edit]) -> Callable[[], object]:
    """The same of what the program doesn't do."""
    letters = bytes(letter for _, letter in edits)
    if mode == "pasted":
        return lambda: b.paste(letters)
    if mode == "far":
        b.paste(letters[:-KEYS])
        return lambda: made(b, edits[-KEYS:])
    if mode == "since":
        made(b, edits[:-LAST])
        fronts = b.text.fronts()
        made(b, edits[-LAST:])
        return lambda: b.text.pack(fronts)
    made(a, edits)
    file = a.text.store(packed=True)
    return lambda: b.load(file)


def main() -> None:
    kind, mode = sys.argv[1:]
    a, b = site_of(kind, 1), site_of(kind, 2)
    edits = [(int(pos), int(letter)) for pos, letter in map(str.split, sys.stdin)]
    work = prepared(mode, a, b, edits)
    before = peak([a, b])
    seconds = min(timed(work, [a, b]) for _ in range(READINGS if mode in REPEATED else 1))
    print(f"{seconds[0]:.9f} {seconds[1]:.9f} {peak([a, b]) - before}\n{b.shown().decode()}")


if __name__ == "__main__":
    main()
