"""The page that a relay serves: the front page, and where the core is here the page of a note's text, whose editor is that of a local
engine's page. Each file is under an address that has the hash of what is in it. Files name each other by these addresses, so the digest of
the first one stands for all."""
import hashlib
import os
import pathlib
import re
from typing import NamedTuple

from share.text.errors import Trouble

OWN_FOLDER = pathlib.Path(__file__).absolute().parents[1]
PAGE_FOLDER, FRONT_FILE, FRONT_ADDRESS = OWN_FOLDER / "relay" / "site", "index.html", "/"
DIGESTS_FILE, HEADERS_FILE = "digests", "headers"
PAGE_TYPES = {".html": "text/html", ".js": "text/javascript", ".css": "text/css", ".wasm": "application/wasm"}
# How a file names another one, of its own folder, of a local engine's page or of the library; and the digits of a hash in an address.
NAMED_FILE = re.compile(rb"""(?<=["'])((?:\./|\.\./\.\./editors/web/|\.\./\.\./\.\./library/node/)[a-z]+\.(?:js|css|html|wasm))(?=["'])""")
HASH_DIGITS = 32
# Where the page says which relay is its own, where that isn't the server that it comes from; and which page shows texts, if one does.
OWN_RELAY = b'<meta name="relay" content="">'
TEXT_PAGE = b'<meta name="text" content="./note.html">'
# Lines that are comments, of which a browser needs none. No text of these programs goes over lines.
COMMENTS = re.compile(rb"^[ \t]*(?://[^\n]*|/\*(?:[^*]|\*(?!/))*\*/[ \t]*)\n", re.MULTILINE)
# What a page has of another one, whose elements are its own.
BODY_OF = re.compile(rb"<!-- the body of (\S+) -->")
BODY = re.compile(rb"<body>\n(.*)</body>", re.DOTALL)
# The core as WebAssembly, as bin/library has made it; another one can be named, or none.
CORE_VARIABLE, CORE_FILE = "VIALSHOAL_CORE", "vialshoal.wasm"
CORE = OWN_FOLDER.parent / "library" / "out" / "node" / CORE_FILE
CODEMIRROR = pathlib.Path("/usr/share/javascript/codemirror")
# What is Debian's, by the names that files of the page have for it.
EDITOR_FILES = {**{one.name: one for one in (CODEMIRROR / "lib/codemirror.js", CODEMIRROR / "lib/codemirror.css",
                                             CODEMIRROR / "addon/search/searchcursor.js")},
                "markdownit.js": pathlib.Path("/usr/share/javascript/markdown-it/markdown-it.js")}


class PageFile(NamedTuple):
    """A file of the page: its media type, and what is in it."""

    type: str
    data: bytes

    def digest(self) -> str:
        """By what it is known, in hexadecimal digits."""
        return hashlib.sha256(self.data).hexdigest()

    def media_type(self) -> str:
        """Its type as a server says it."""
        return f"{self.type}; charset=utf-8" if self.type.startswith("text/") else self.type


def core_path() -> pathlib.Path | None:
    """Where the core is that pages run."""
    path = pathlib.Path(os.environ.get(CORE_VARIABLE, CORE))
    return path if path.is_file() else None


def missing_for_texts() -> str:
    """What isn't here without which no text is shown, in words."""
    if not core_path():
        return "the core as WebAssembly (bin/library --wasm)"
    return "" if all(path.is_file() for path in EDITOR_FILES.values()) else "Debian's libjs-codemirror or libjs-markdown-it"


class PageFiles:
    """The page's files, by their addresses."""

    def __init__(self, folder: pathlib.Path = PAGE_FOLDER, relay: str = ""):
        self._folder, self._relay, self._addresses = folder, relay, dict[pathlib.Path, str]()
        self._elsewhere: dict[str, pathlib.Path] = {**EDITOR_FILES, CORE_FILE: core_path() or folder / CORE_FILE}
        self.shows_texts = not missing_for_texts()
        self.files = dict[str, PageFile]()
        self._address(folder / FRONT_FILE, ())

    def digests(self) -> str:
        """Which digest each file has, as sha256sum writes and checks it."""
        return "".join(f"{one.digest()}  {file_name(address)}\n" for address, one in sorted(self.files.items()))

    def write(self, folder: pathlib.Path, headers: str) -> None:
        """Writes the files, the list of their digests, and what is to be said of each, into a new folder, for another server."""
        try:
            folder.mkdir()
            for address, one in self.files.items():
                (folder / file_name(address)).write_bytes(one.data)
            (folder / DIGESTS_FILE).write_text(self.digests())
            (folder / HEADERS_FILE).write_text(headers)
        except OSError as why:
            raise Trouble(f"{folder}: {why.strerror}.") from why

    def _address(self, path: pathlib.Path, named_by: tuple[pathlib.Path, ...]) -> str:
        """The address of a file; those that it names have theirs first."""
        if path in named_by:
            raise Trouble(f"{path.name} of the page names itself by way of {named_by[-1].name}.")
        if path not in self._addresses:
            one = PageFile(PAGE_TYPES[path.suffix], self._data(path, named_by))
            is_front = path == self._folder / FRONT_FILE
            address = FRONT_ADDRESS if is_front else f"/{path.stem.replace('-', '')}.{one.digest()[:HASH_DIGITS]}{path.suffix}"
            self._addresses[path], self.files[address] = address, one
        return self._addresses[path]

    def _data(self, path: pathlib.Path, named_by: tuple[pathlib.Path, ...]) -> bytes:
        data = _file_bytes(path)
        if path.suffix == ".wasm" or path in EDITOR_FILES.values():
            return data
        if path.suffix == ".js":
            data = COMMENTS.sub(b"", data)
        data = BODY_OF.sub(lambda found: _body_of(path.parent / found[1].decode()), data)
        data = data.replace(OWN_RELAY, OWN_RELAY.replace(b'""', f'"{self._relay}"'.encode()))
        if not self.shows_texts:
            data = data.replace(TEXT_PAGE, TEXT_PAGE.replace(b"./note.html", b""))
        return NAMED_FILE.sub(lambda found: b"." + self._named(path, found[1].decode(), named_by).encode(), data)

    def _named(self, path: pathlib.Path, name: str, named_by: tuple[pathlib.Path, ...]) -> str:
        """The address of what a file names so."""
        found = pathlib.Path(os.path.normpath(path.parent / name))
        return self._address(self._elsewhere.get(found.name, found), (*named_by, path))


def _file_bytes(path: pathlib.Path) -> bytes:
    try:
        return path.read_bytes()
    except OSError as why:
        raise Trouble(f"The page needs {path} ({why.strerror}).") from why


def _body_of(path: pathlib.Path) -> bytes:
    """What stands in the body of a page."""
    found = BODY.search(_file_bytes(path))
    if not found:
        raise Trouble(f"{path} has no body.")
    return found[1]


def file_name(address: str) -> str:
    """What a file is called where it is written."""
    return FRONT_FILE if address == FRONT_ADDRESS else address[1:]
