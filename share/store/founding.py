"""How a note begins: with which entries, of messages that were made elsewhere or of none, and the first number of who makes it."""
import secrets
from collections.abc import Callable, Iterable, Iterator, Mapping, Sequence
from itertools import chain
from typing import NamedTuple

from share.admission.ledger import Row
from share.format.chunk import packed_in_parts
from share.format.entry import GREATEST_SITE, NO_HASH, NOTE_BYTES, Author, Form
from share.format.link import OF_SECOND_FORM_ALONE, is_network, is_relay
from share.format.operation import Operation
from share.format.second.form import PlainRecords, RecordForm, SealedRecords
from share.format.second.keys import NOTE_KEY_BYTES, Founding
from share.format.second.record import Record
from share.store.note_file import FIRST, SECOND, About
from share.store.own import Client
from share.text.errors import Trouble

# Messages of each text and site, in their order.
ByText = Mapping[int, Mapping[int, Sequence[Operation]]]


class Begun(NamedTuple):
    """A note that begins: which it is, its entries, and the numbers of who makes it."""

    about: About
    rows: list[Row]
    clients: list[Client]


def begun(url: str | None, messages: Iterable[Operation] = (), form_number: int = FIRST) -> Begun:
    """A new note of a form that has these messages, sealed where its log is on a server."""
    if form_number == FIRST and is_relay(url or ""):
        raise Trouble(f"{OF_SECOND_FORM_ALONE} Leave out --form 1, or name another log.")
    return BEGINS[form_number](url or "", by_text(messages))


def by_text(messages: Iterable[Operation]) -> ByText:
    """Messages of each text and site, in their order."""
    found: dict[int, dict[int, list[Operation]]] = {}
    for message in messages:
        found.setdefault(message.text, {}).setdefault(message.site, []).append(message)
    return {text: {site: sorted(found[text][site], key=lambda one: one.seq) for site in sorted(found[text])} for text in sorted(found)}


def _claim_and_entries(form: Form, messages: Sequence[Operation], client: Client) -> Iterator[Row]:
    """A claim, and entries of messages."""
    last = form.claim(client.site, client.author)
    yield Row(0, last, False)
    for part in packed_in_parts(messages):
        last = form.entry(last, part, client.author)
        yield Row(0, last, False)


def free_number(taken: Iterable[int]) -> int | None:
    """A number that isn't taken, if there is one."""
    taken_ones = frozenset(taken)
    free = [number for number in range(1, GREATEST_SITE + 1) if number not in taken_ones]
    return secrets.choice(free) if free else None


def _first_form(url: str, messages: ByText) -> Begun:
    # Loaded where it is needed, since it needs a module that Python doesn't bring.
    from share.format.sealed import new_key
    about = About(True, new_key(), url) if is_network(url) else About(False, secrets.token_bytes(NOTE_BYTES), url)
    form, of_sites = about.form(), {site: ones for sites in messages.values() for site, ones in sites.items()}
    # Nobody else has this note yet, so its first number can be typed under at once.
    number = free_number(of_sites)
    clients = [Client(number, form.new_author(), stood=True)] if number else []
    # Who has the link could claim a copied number, too. With its key what was written under it can be made anew then.
    copied = [Client(site, form.new_author(), retired=True, copied=True) for site in of_sites]
    rows = [row for one in copied for row in _claim_and_entries(form, of_sites[one.site], one)]
    return Begun(about, rows + [Row(0, form.claim(one.site, one.author), True) for one in clients], clients + copied)


def _second_form(url: str, messages: ByText) -> Begun:
    is_sealed = is_network(url)
    author: Author = (SealedRecords if is_sealed else PlainRecords).author_of_any_note()
    secret, number = secrets.token_bytes(NOTE_KEY_BYTES), free_number(chain.from_iterable(messages.values())) or 0
    root, found = NO_HASH, Founding(secret, NO_HASH, author.name, number)
    for root in found.links(NO_HASH, chain.from_iterable(of_site for sites in messages.values() for of_site in sites.values())):
        pass
    found = found._replace(root=root)
    about = About(is_sealed, found.key(), url, SECOND)
    form = about.form()
    assert isinstance(form, RecordForm)
    rows = [Row(0, form.opening(found), True), *(Row(0, one, True) for one in _base(form, found, messages))]
    return Begun(about, rows, [Client(number, author, stood=True)] if number else [])


def _base(form: RecordForm, founding: Founding, messages: ByText) -> Iterator[Record]:
    """The records of a base."""
    link = NO_HASH
    for sites in messages.values():
        for of_site in sites.values():
            for part in packed_in_parts(of_site):
                yield form.base(part, link)
                *_, link = founding.links(link, part.operations)


BEGINS: dict[int, Callable[[str, ByText], Begun]] = {FIRST: _first_form, SECOND: _second_form}
