"""bin/note relay: carries others' notes, which it can't read."""
import argparse
import asyncio
import pathlib
from collections.abc import Sequence

from share.cli import access
from share.cli.output import report
from share.format.link import is_network, url_of
from share.format.second.signature import check_library
from share.relay.limits import Limits
from share.relay.options import DEFAULT_LISTEN, RelayOptions, web_origin
from share.relay.page_files import PageFiles, missing_for_texts
from share.relay.page_rules import listed_headers
from share.relay.shelf import shelf_at
from share.store import notes
from share.text.errors import Trouble

RELAY_VERB = "relay"
ABOUT_RELAY = """\
Carries notes of the second form by HTTP and WebSocket, on one port: keeps their entries, and passes on who is on.
It has no key and can't read them. Only who has a note's link appends to it.
"""
RELAY_STATUSES = """\
Without --certificate a reverse proxy has TLS, or nobody else reaches it. docs/RELAY.md says more.
Ends with 0 as it is told to; with 2 and a sentence where it can't begin.
"""


def relay_parser() -> argparse.ArgumentParser:
    """The words of the verb."""
    default, parser = Limits(), argparse.ArgumentParser(f"bin/note {RELAY_VERB}", description=ABOUT_RELAY, epilog=RELAY_STATUSES,
                                                        formatter_class=argparse.RawDescriptionHelpFormatter)
    parser.add_argument("--listen", metavar="HOST:PORT", default=DEFAULT_LISTEN, help="where it listens; without it %(default)s")
    parser.add_argument("--url", metavar="URL", action="append", default=[],
                        help="as what it is reached, https://HOST, as links name it; may be given again")
    parser.add_argument("--log", metavar="URL",
                        help="the folder in which it keeps notes, or a Redis server; without it relay in the data folder")
    parser.add_argument("--password-file", metavar="FILE", help="a file that has the Redis server's password")
    parser.add_argument("--certificate", metavar="FILE", help="a certificate, with those that follow it, as PEM")
    parser.add_argument("--key", metavar="FILE", help="its key, where that is in another file")
    parser.add_argument("--origin", metavar="URL", action="append", default=[],
                        help="a page elsewhere, https://HOST, whose browsers may come; may be given again")
    parser.add_argument("--digests", action="store_true", help="only print which digest each file of the page has")
    parser.add_argument("--write-page", metavar="FOLDER",
                        help="only write the page's files into a new folder, for another server, and the headers that it has to send")
    parser.add_argument("--forwarded", action="store_true", help="the reverse proxy says who comes from where, by X-Forwarded-For")
    parser.add_argument("--note-bytes", metavar="N", type=_limit, default=default.note_bytes, help="how large a note may get; %(default)s")
    parser.add_argument("--entries-a-second", metavar="N", type=_limit, default=default.entries_a_second,
                        help="how many entries of a note it takes a second; %(default)s")
    parser.add_argument("--new-notes-an-hour", metavar="N", type=_limit, default=default.new_notes_an_hour,
                        help="how many new notes it takes from an address an hour; %(default)s")
    parser.add_argument("--connections", metavar="N", type=_limit, default=default.connections,
                        help="how many may be connected; %(default)s")
    return parser


def run_relay(words: Sequence[str]) -> int:
    """Serves until it is ended; the status."""
    given = relay_parser().parse_args(words[1:])
    if given.digests or given.write_page:
        return _hand_out_page(given.write_page, given.url)
    limits = Limits(given.note_bytes, given.entries_a_second, given.new_notes_an_hour, given.connections)
    options = RelayOptions(given.listen, given.url, given.origin, given.certificate, given.key, given.forwarded, limits)
    try:
        from share.relay.door import Door
        from share.relay.server import serve_relay
    except ModuleNotFoundError as why:
        raise Trouble(f"A relay needs Debian's python3-aiohttp ({why}).") from why
    check_library()
    url = url_of(given.log) if given.log else str(pathlib.Path(notes.data_folder()).absolute() / RELAY_VERB)
    host, port = options.host_and_port()
    with shelf_at(url, access.given_password(given) if is_network(url) else None) as shelf, Door(host, port, limits.connections) as door:
        missing = missing_for_texts()
        texts = f" Its page shows no texts: {missing} is missing." if missing else ""
        said = f"and keeps notes in {url}.{texts}\nCtrl-C ends it."
        asyncio.run(serve_relay(options, shelf, door, lambda relay: print(f"A relay is at {', '.join(relay.origins)}, {said}", flush=True),
                                lambda words: report([words])))
    return 0


def _hand_out_page(folder: str | None, urls: Sequence[str]) -> int:
    """Prints the digests of the page's files, and writes them where a folder is named, as the page of the relay at a URL."""
    if folder and len(urls) != 1:
        raise Trouble("The page is written for one relay: name it by --url https://HOST.")
    relays = [web_origin(url) for url in urls] if folder else []
    files = PageFiles(relay="".join(relays))
    if folder:
        files.write(pathlib.Path(folder), listed_headers(files, relays))
    print(files.digests(), end="")
    return 0


def _limit(given: str) -> int:
    if given.isascii() and given.isdigit() and 0 < (number := int(given)) <= 10**15:
        return number
    raise argparse.ArgumentTypeError(f"{given!r} is no limit, which is a number above 0")
