"""A link of a note of the second form: its key, with which whoever has it reads and writes, and where its log is.

It is spelled `vialshoal:2:s:SECRET@URL`, with a `p` in place of the `s` for a plain note. SECRET is base64url of the key and of a
checksum of all of the link. A page's is `https://HOST/#vialshoal:2:s:SECRET`, with the checksum of the link to `https://HOST`: what
comes after # goes to no server. At a page of another server than the relay all of the link is after the #.
"""
import base64
import binascii
import hashlib
import re
from typing import NamedTuple

from share.format.link import CHECK_BYTES, FORMS, MISTAKEN, UNSEALED, FormName, Link, is_network, read_link, url_of
from share.format.second.keys import NOTE_KEY_BYTES
from share.text.errors import Trouble

KEY_LINK = re.compile(r"vialshoal:2:([ps]):([A-Za-z0-9_-]{48})@(.+)")
# An address of a page, to which a service by which it was sent may have added words of its own; and what its link lacks before the URL.
PAGE_ADDRESS = re.compile(r"(https?://[^/#@?]+)/(?:\?[^#]*)?#(vialshoal:2:s:.*)")
WITHOUT_URL = re.compile(r"vialshoal:2:s:[A-Za-z0-9_-]{48}")
# What such a link, or such an address, begins with.
OF_SECOND_FORM = re.compile(r"(https?://[^/]+/(\?[^#]*)?#)?vialshoal:2:")


class KeyLink(NamedTuple):
    """What a link says: the form of the note's records, its key, and its log's URL or path, or the origin of a relay."""

    form: FormName
    key: bytes
    url: str

    @property
    def form_number(self) -> int:
        """The form of the note."""
        return 2

    @property
    def secret(self) -> bytes:
        """The note's key."""
        return self.key

    def __repr__(self) -> str:
        # Where it is printed by mistake, the key isn't.
        return f"KeyLink({self.form!r}, url={self.url!r})"

    def spelled(self) -> str:
        """The link as text."""
        return f"vialshoal:2:{self.form[0]}:{self._checked()}@{self.url}"

    def page(self) -> str:
        """The address of the note's page, where its log is at a server of pages."""
        return f"{self.url}/#vialshoal:2:{self.form[0]}:{self._checked()}"

    def _checked(self) -> str:
        """The key and the checksum."""
        check = hashlib.sha256(b"vialshoal 2 link " + self.form[0].encode() + self.key + self.url.encode()).digest()[:CHECK_BYTES]
        return base64.urlsafe_b64encode(self.key + check).decode()


# The link of a note of either form.
AnyLink = Link | KeyLink


def link_of(text: str) -> AnyLink:
    """The link of a note of either form that is spelled so, with space around it or none."""
    return read_key_link(text) if OF_SECOND_FORM.match(text.strip()) else read_link(text)


def read_key_link(text: str) -> KeyLink:
    """The link that is spelled so, or a page's address, with space around it or none."""
    text = text.strip()
    if page := PAGE_ADDRESS.fullmatch(text):
        text = page[2] + (f"@{page[1]}" if WITHOUT_URL.fullmatch(page[2]) else "")
    found = KEY_LINK.fullmatch(text)
    if not found:
        raise Trouble("That isn't a note's link, which begins with vialshoal:2: and ends with its log's URL. Copy it whole, in one line.")
    form, secret, url = found.groups()
    try:
        link = KeyLink(FORMS[form], base64.urlsafe_b64decode(secret)[:NOTE_KEY_BYTES], url)
    except binascii.Error as why:
        raise Trouble(MISTAKEN) from why
    # Also what is right but for its spelling has another checksum.
    if text != link.spelled():
        raise Trouble(MISTAKEN)
    if url_of(url) != url:
        raise Trouble("That link isn't spelled as bin/note link prints it. Copy it whole, in one line.")
    if form == "p" and is_network(url):
        raise Trouble(UNSEALED)
    return link
