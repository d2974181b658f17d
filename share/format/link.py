"""A note's link: all that a person needs to join it, but the log's password. Who has the link of a sealed note has
its key.

It is spelled `vialshoal:1.1:s:SECRET@URL`, with a `p` in place of the `s` for a plain note. SECRET is base64url of
the secret and of a checksum of all of the link, so that one that was cut short or mistyped is told. The 1 is the form of the note, and
.1 the spelling of its link: a later form of notes begins at 2.
"""
import base64
import binascii
import hashlib
import os
import re
from typing import Literal, NamedTuple
from urllib.parse import urlsplit

from share.text.errors import Gone, Trouble

FormName = Literal["plain", "sealed"]
FORMS: dict[str, FormName] = {"p": "plain", "s": "sealed"}
# A sealed note's secret is its key, a plain note's its identity.
SECRET_BYTES: dict[FormName, int] = {"plain": 16, "sealed": 32}
CHECK_BYTES = 4
SPELLING = "1.1"
LINK = re.compile(r"vialshoal:1\.1:([ps]):([A-Za-z0-9_-]+)@(.+)")
# One of a later form, also as a page's address has it; and one by an unreleased version.
LATER_LINK = re.compile(r"(https://[^/]+/#)?vialshoal:(?!1:|1\.1:)[0-9.]+:.+")
GONE_LINK = re.compile(r"vialshoal:1:.+")
# What is meant as a link, in whatever form, or as a page's address, and how it is refused where it stands in place of a name.
ANY_LINK = re.compile(r"(https?://.*#)?vialshoal:[0-9.]+:.*", re.DOTALL)
NO_ARGUMENT = ("That is a link, which every account of this machine sees in a command. Run bin/note NAME, with a name for the note that "
               "you choose, and paste the link where it is asked for.")
SERVER = re.compile(r"([A-Za-z0-9.-]+|\[[0-9A-Fa-f:.]+\]):([0-9]{1,5})/?")
# What a server's URL looks like where something of it was left out, so that no file is made by a slip.
NEARLY = re.compile(r"(rediss?|unix|file|https?):.*|[A-Za-z0-9.-]+:[0-9]{1,5}", re.IGNORECASE)
# A relay, or what else has a place in browsers; and the ports that these leave out.
WEB_HOST = re.compile(r"([a-z0-9.-]+|\[[0-9a-f:.]+\])(?::([0-9]{1,5}))?/?")
WEB_PORTS = {"https": 443, "http": 80}
# Without TLS a relay is on this machine.
LOOPBACK = ("localhost", "127.0.0.1", "[::1]")
GREATEST_PORT = 65_535
MISTAKEN = "That link has a mistake in it, or was cut short. Copy it whole, in one line."
UNSEALED = "That link has a plain note on a server, and nothing goes to a server unsealed. Ask who sent it for another one."
SCHEMES = "It is https://HOST of a relay, redis://HOST:PORT, rediss://HOST:PORT with TLS, unix:///PATH, or the path of a file."
OF_SECOND_FORM_ALONE = "A relay takes notes of the second form alone."


class Link(NamedTuple):
    """What a link says: the form of the note's entries, its secret, and the log's URL or path."""

    form: FormName
    secret: bytes
    url: str

    @property
    def form_number(self) -> int:
        """The form of the note."""
        return 1

    def __repr__(self) -> str:
        # Where it is printed by mistake, the secret isn't.
        return f"Link({self.form!r}, url={self.url!r})"

    def spelled(self) -> str:
        """The link as text."""
        checked = base64.urlsafe_b64encode(self.secret + _check(self.form, self.secret, self.url))
        return f"vialshoal:{SPELLING}:{self.form[0]}:{checked.rstrip(b'=').decode()}@{self.url}"


def read_link(text: str) -> Link:
    """The link that is spelled so, with space around it or none."""
    if LATER_LINK.fullmatch(text.strip()):
        raise Trouble("That link was made by a later version of vialshoal, which its note needs.")
    if GONE_LINK.fullmatch(text.strip()):
        raise Gone
    found = LINK.fullmatch(text.strip())
    if not found:
        raise Trouble("That isn't a note's link, which begins with vialshoal:1.1: and ends with its log's URL. "
                      "Copy it whole, in one line.")
    form = FORMS[found[1]]
    secret = _secret(form, found[2], found[3])
    link = Link(form, secret, url_of(found[3]))
    if form == "plain" and is_network(link.url):
        raise Trouble(UNSEALED)
    if is_relay(link.url):
        raise Trouble(f"That link's note is of the first form. {OF_SECOND_FORM_ALONE} Ask who sent it for the link of a renewed one.")
    if link.spelled() != text.strip():
        raise Trouble("That link isn't spelled as bin/note link prints it. Copy it whole, in one line.")
    return link


def is_link(given: str) -> bool:
    """Whether this is meant as a link, whose secret isn't to be repeated."""
    return bool(ANY_LINK.fullmatch(given.strip()))


def url_of(given: str) -> str:
    """The URL of a log that was given on the command line, or the absolute path of its file."""
    if not given or not given.isprintable():
        raise Trouble(f"A log's URL or path can't be empty, or have control characters in it. {SCHEMES}")
    scheme, parted, rest = given.partition("://")
    if not parted and NEARLY.fullmatch(given):
        _refuse_passwords(given)
        raise Trouble(f"{given!r} isn't the URL of a log. {SCHEMES} A file of that name is ./{given}.")
    if not parted:
        return _file(given)
    if scheme.lower() == "unix":
        return _socket(rest)
    if scheme.lower() in ("redis", "rediss"):
        return f"{scheme.lower()}://{_server(rest)}"
    if scheme.lower() in WEB_PORTS:
        return _origin(scheme.lower(), rest)
    raise Trouble(f"{scheme}:// can't be a log. {SCHEMES}")


def _file(path: str) -> str:
    try:
        return os.path.abspath(path)
    except OSError as why:
        raise Trouble(f"The folder that {path!r} is in can't be found ({why.strerror}). Give the path from / "
                      "on.") from why


def _server(rest: str) -> str:
    _refuse_passwords(rest)
    found = SERVER.fullmatch(rest)
    if not found or not 1 <= int(found[2]) <= GREATEST_PORT:
        raise Trouble(f"That URL of a log isn't spelled right. {SCHEMES}")
    return f"{found[1].lower()}:{int(found[2])}"


def _origin(scheme: str, rest: str) -> str:
    """Where a relay is, as browsers spell it: in small letters, and without the port that is meant then."""
    _refuse_passwords(rest)
    found = WEB_HOST.fullmatch(rest.lower())
    port = int(found[2] or WEB_PORTS[scheme]) if found else 0
    if not found or not 1 <= port <= GREATEST_PORT:
        raise Trouble(f"That URL of a log isn't spelled right. {SCHEMES}")
    if scheme == "http" and found[1] not in LOOPBACK:
        raise Trouble(f"http:// is for a relay on this machine, as http://localhost:{port}. {SCHEMES}")
    return f"{scheme}://{found[1]}" + (f":{port}" if port != WEB_PORTS[scheme] else "")


def _socket(rest: str) -> str:
    if rest.startswith("/") and not set(rest) & set("?#"):
        return f"unix://{os.path.normpath(rest)}"
    _refuse_passwords(rest)
    raise Trouble(f"That URL of a log isn't spelled right. {SCHEMES}")


def _refuse_passwords(rest: str) -> None:
    """The password isn't repeated: what is told here may stand in a log of its own."""
    if "@" in rest:
        raise Trouble("A log's URL has no user or password in it, since every account of this machine can see "
                      "it. Give the URL without, and the password in a file that --password-file names, or in "
                      "VIALSHOAL_PASSWORD.")


def _secret(form: FormName, spelled: str, url: str) -> bytes:
    size = SECRET_BYTES[form]
    try:
        data = base64.urlsafe_b64decode(spelled + "=" * (-len(spelled) % 4))
    except binascii.Error:
        data = b""
    if len(data) != size + CHECK_BYTES or data[size:] != _check(form, data[:size], url):
        raise Trouble(MISTAKEN)
    return data[:size]


def _check(form: FormName, secret: bytes, url: str) -> bytes:
    """The checksum of a link: of what it has after its form, as it is spelled."""
    return hashlib.blake2b(secret + url.encode(), digest_size=CHECK_BYTES,
                           person=f"vialshoal {form[0]} {SPELLING}".encode()).digest()


def is_network(url: str) -> bool:
    """Whether a log's URL is that of a server, to which nothing goes unsealed."""
    return urlsplit(url).scheme in ("redis", "rediss", "unix", *WEB_PORTS)


def is_relay(url: str) -> bool:
    """Whether a log's URL is that of a relay."""
    return urlsplit(url).scheme in WEB_PORTS
