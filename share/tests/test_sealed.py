"""Sealed entries open for who has the note's key and as they were made, and for nobody else; links say what a note
is, and no passwords."""
import contextlib
import os
import random
import unittest
from unittest import mock

import share.format.sealed
from share.format import link
from share.format.chunk import MOST_CHUNK
from share.format.entry import HEAD, MOST_BYTES, Author, Bad, Entry, Form, Plain
from share.format.link import Link, url_of
from share.format.operation import DELETE, Operation
from share.format.presence import MOST_PRESENCE
from share.format.sealed import KEY_BYTES, SIGNATURE_BYTES, Sealed, identity_of, new_key
from share.tests.naive import about, entry_of, in_entries, spelled
from share.text.errors import Gone, Trouble

KEY = bytes(range(KEY_BYTES))


def deletion(site: int, seq: int, at: int = 0, ranges: int = 1) -> Operation:
    """A message of a site that deletes some names."""
    return about(DELETE, site, seq, seq, [(1, at + 2 * number, 1) for number in range(ranges)])


def chain(form: Form, author: Author, site: int = 7, entries: int = 3) -> list[Entry]:
    """A claim, and entries of a message each."""
    made = [form.claim(site, author)]
    for seq in range(1, entries + 1):
        made.append(entry_of(form, made[-1], [deletion(site, seq)], author))
    return made


class Opened(unittest.TestCase):
    """What was made is opened, as it was, and at nobody else."""

    def setUp(self) -> None:
        self.form = Sealed(KEY)
        self.author = self.form.new_author()
        self.made = chain(self.form, self.author)

    def refuses(self, raw: bytes, why: str) -> None:
        """That bytes are no entry, and for this reason."""
        with self.assertRaisesRegex(Bad, why):
            self.form.open(raw)

    def test_what_was_made_is_opened(self) -> None:
        for form in (self.form, Plain(bytes(16))):
            author = form.new_author()
            made = chain(form, author)
            for entry in *made, form.made_anew(made[-1], author):
                self.assertEqual(form.open(entry.raw), entry)

    def test_the_longest_entry_fits(self) -> None:
        messages = [deletion(7, seq, ranges=100) for seq in range(1, 100)]
        part = in_entries(messages)[0]
        entry = entry_of(self.form, self.made[0], part, self.author)
        self.assertGreater(len(entry.raw), MOST_CHUNK - 1100)
        self.assertLess(HEAD.size + 32 + 24 + MOST_CHUNK + 16 + 64, MOST_BYTES)
        self.assertEqual(self.form.open(entry.raw).messages, tuple(part))

    def test_the_same_entry_is_made_twice_with_the_same_bytes(self) -> None:
        self.assertEqual([one.raw for one in chain(Sealed(KEY), self.author)], [one.raw for one in self.made])
        anew = [form.made_anew(self.made[-1], self.author).raw for form in (self.form, Sealed(KEY))]
        self.assertEqual(*anew)

    def test_other_messages_for_the_same_place_have_another_nonce(self) -> None:
        other = entry_of(self.form, self.made[0], [deletion(7, 1, at=5)], self.author)
        begin = HEAD.size + 32
        self.assertEqual(other.raw[:begin], self.made[1].raw[:begin])
        self.assertNotEqual(other.raw[begin:begin + 24], self.made[1].raw[begin:begin + 24])

    def test_nothing_of_the_messages_can_be_seen(self) -> None:
        """The same message under two keys has nothing in common after the head, and its bytes aren't there."""
        other = chain(Sealed(new_key()), self.author)[1].raw
        raw, data = self.made[1].raw, spelled(self.made[1].messages[0])
        self.assertNotIn(data, raw)
        self.assertNotIn(self.made[1].chunk, raw)
        self.assertNotEqual(raw[-SIGNATURE_BYTES:], other[-SIGNATURE_BYTES:])

    def test_each_flipped_bit_is_noticed(self) -> None:
        raw = self.made[1].raw
        for at in range(len(raw)):
            changed = bytearray(raw)
            changed[at] ^= 1 << at % 8
            with self.assertRaises(Bad, msg=f"byte {at}"):
                self.form.open(bytes(changed))

    def test_each_cut_is_noticed(self) -> None:
        raw = self.made[1].raw
        for cut in range(len(raw)):
            with self.assertRaises(Bad):
                self.form.open(raw[:cut])
        self.refuses(raw + b"x", "sealed with this note's key")
        self.refuses(bytes(MOST_BYTES + 1), "bytes, more than")

    def test_another_key_opens_nothing(self) -> None:
        other = Sealed(new_key())
        with self.assertRaisesRegex(Bad, "is of another note"):
            other.open(self.made[1].raw)
        # Even where the identity is the same one.
        other.note = self.form.note
        with self.assertRaisesRegex(Bad, "isn't sealed with this note's key"):
            other.open(self.made[1].raw)

    def test_who_has_the_key_can_not_write_as_another(self) -> None:
        """Who has the link, and not the author's secret, signs with their own, or moves a signature."""
        other = self.form.new_author()
        forged = entry_of(self.form, self.made[0], [deletion(7, 1, at=9)], Author(self.author.name, other.secret))
        self.refuses(forged.raw, "isn't signed by its author")
        moved = forged.raw[:-SIGNATURE_BYTES] + self.made[1].raw[-SIGNATURE_BYTES:]
        self.refuses(moved, "isn't signed by its author")

    def test_a_head_stays_with_its_messages(self) -> None:
        """A peer with the operator's help can't give an author's sealed messages another place."""
        one, two = self.made[1].raw, self.made[2].raw
        self.refuses(two[:HEAD.size + 32] + one[HEAD.size + 32:], "isn't sealed with this note's key")

    def test_a_nonce_is_the_entrys_own(self) -> None:
        """A client that chooses nonces as it likes isn't let through."""
        with mock.patch.object(Sealed, "_nonce", lambda form, head, body: bytes(24)):
            made = chain(self.form, self.author)
        self.refuses(made[1].raw, "isn't sealed with this note's key")

    def test_random_bytes_are_refused(self) -> None:
        chance = random.Random(5)
        head = self.made[1].raw[:HEAD.size + 32]
        for _ in range(300):
            noise = chance.randbytes(chance.randrange(300))
            for raw in (noise, head + noise):
                with self.assertRaises(Bad):
                    self.form.open(raw)

    def test_many_are_opened_as_one_is(self) -> None:
        author = self.form.new_author()
        raws = [entry.raw for entry in chain(self.form, author, entries=900)]
        raws[450] = raws[450][:-1] + bytes([raws[450][-1] ^ 1])
        opened = self.form.open_many(raws)
        self.assertEqual(str(opened[450]), "isn't signed by its author")
        self.assertIsInstance(opened[450], Bad)
        for number, (raw, entry) in enumerate(zip(raws, opened, strict=True)):
            if number != 450:
                self.assertEqual(self.form.open(raw), entry)

    def test_the_identity_is_the_keys(self) -> None:
        self.assertEqual(self.form.note, identity_of(KEY))
        self.assertEqual(len(self.form.note), 16)
        self.assertNotEqual(self.form.note, identity_of(new_key()))
        self.assertNotIn(self.form.note, KEY)

    def test_without_nacl_it_is_told_how_to_have_it(self) -> None:
        share.format.sealed.HAS_NACL = False
        try:
            with self.assertRaisesRegex(Trouble, "apt-get install python3-nacl"):
                Sealed(KEY)
        finally:
            share.format.sealed.HAS_NACL = True


class Presence(unittest.TestCase):
    """What editors say of themselves is sealed, too."""

    def test_it_is_read_with_the_key_alone(self) -> None:
        form = Sealed(KEY)
        raw = form.presence(b"site 7")
        self.assertEqual(form.present(raw), b"site 7")
        self.assertNotEqual(form.presence(b"site 7"), raw)
        self.assertNotIn(b"site", raw)
        self.assertIsNone(Sealed(new_key()).present(raw))
        for wrong in (b"", raw[:-1], raw + b"x", bytes(len(raw)), bytes(MOST_PRESENCE)):
            self.assertIsNone(form.present(wrong))
        self.assertIsNone(form.present(form.presence(bytes(MOST_PRESENCE))))

    def test_an_entry_is_no_presence(self) -> None:
        form = Sealed(KEY)
        raw = form.claim(7, form.new_author()).raw
        self.assertIsNone(form.present(raw[HEAD.size + 32:-SIGNATURE_BYTES]))

    def test_plain_passes_through(self) -> None:
        form = Plain(bytes(16))
        self.assertEqual(form.present(form.presence(b"site 7")), b"site 7")
        self.assertIsNone(form.present(bytes(MOST_PRESENCE + 1)))


class Links(unittest.TestCase):
    """A link is read as it was spelled, and each mistake in it is noticed."""

    def setUp(self) -> None:
        self.sealed = Link("sealed", KEY, "redis://127.0.0.1:7000")

    def test_what_is_spelled_is_read(self) -> None:
        for one in (self.sealed, Link("plain", bytes(16), "/home/a b/it's.db"),
                    Link("sealed", new_key(), "unix:///run/redis.sock"),
                    Link("sealed", new_key(), "rediss://[::1]:7000"), Link("sealed", new_key(), "/x@y.db")):
            self.assertEqual(link.read_link(one.spelled()), one)
            self.assertEqual(link.read_link(f" \n{one.spelled()}\r\n"), one)

    def test_the_spelling_lasts(self) -> None:
        self.assertEqual(self.sealed.spelled(),
                         "vialshoal:1.1:s:AAECAwQFBgcICQoLDA0ODxAREhMUFRYXGBkaGxwdHh9dlOS5@redis://127.0.0.1:7000")

    def test_a_mistyped_letter_is_noticed(self) -> None:
        for one in (self.sealed, Link("plain", bytes(range(16)), "/x.db")):
            text = one.spelled()
            for at in range(len(text)):
                wrong = text[:at] + ("B" if text[at] != "B" else "C") + text[at + 1:]
                with self.assertRaises(Trouble):
                    link.read_link(wrong)
            for end in range(len(text)):
                with self.assertRaises(Trouble, msg=text[:end]):
                    link.read_link(text[:end])
                with self.assertRaises(Trouble):
                    link.read_link(text + text[end])

    def test_a_link_of_a_later_form_is_refused_in_words(self) -> None:
        for number in "1.2", "2", "2.1", "13":
            with self.assertRaisesRegex(Trouble, "made by a later version of vialshoal"):
                link.read_link(self.sealed.spelled().replace("1.1", number, 1))

    def test_a_link_of_an_unreleased_version_is_refused_in_words(self) -> None:
        # Its checksum is of the secret alone.
        with self.assertRaisesRegex(Gone, "^This note was made by an unreleased version of vialshoal and can't be opened.$"):
            link.read_link("vialshoal:1:s:AAECAwQFBgcICQoLDA0ODxAREhMUFRYXGBkaGxwdHh_9wj7X@redis://127.0.0.1:7000")

    def test_what_is_no_link_is_refused(self) -> None:
        text = self.sealed.spelled()
        plain = Link("plain", bytes(16), "redis://127.0.0.1:7000").spelled()
        for wrong in ("", "picnic", "redis://127.0.0.1:7000", text[:-22], text.replace(":s:", ":p:"), text[1:],
                      text.replace("@", "=@"), text + "\nx", text.replace("127", "u:p@127"), plain,
                      text.replace("redis://127.0.0.1:7000", "x.db"), text.replace("redis", "http")):
            with self.assertRaises(Trouble, msg=wrong):
                link.read_link(wrong)

    def test_urls_have_one_spelling(self) -> None:
        for given, url in {"redis://Host.example:07000/": "redis://host.example:7000",
                           "REDISS://h:1": "rediss://h:1", "unix:///a/../b.sock": "unix:///b.sock",
                           "/a//b.db": "/a/b.db", "redis://[::1]:7": "redis://[::1]:7", "HTTPS://Host.example:443/": "https://host.example",
                           "https://h:0444": "https://h:444", "http://localhost:7007": "http://localhost:7007",
                           "http://127.0.0.1:80": "http://127.0.0.1"}.items():
            self.assertEqual(url_of(given), url)
            self.assertEqual(url_of(url), url)
        self.assertEqual(url_of("b.db"), os.path.join(os.getcwd(), "b.db"))

    def test_no_password_is_let_through_or_repeated(self) -> None:
        for wrong in ("redis://:hush@h:1", "redis://u@h:1", "rediss://u:hush@h:1", "unix://u:hush@/a.sock",
                      "redis://:hush", "http://u:hush@h", "redis:u:hush@h:1", "https://u:hush@h"):
            with self.assertRaises(Trouble) as told:
                url_of(wrong)
            self.assertNotIn("hush", str(told.exception))

    def test_other_urls_are_refused(self) -> None:
        for wrong in ("", "http://h:1", "file:///x", "redis://h", "redis://h:0", "redis://h:65536", "redis://h:1/2",
                      "redis://h:1?ssl_cert_reqs=none", "redis://:1", "redis://h:1#x", "unix://a.sock",
                      "unix:///a?db=1", "redis://h:1\n", "a\x1b[2Jb", "redis://", "https://", "https://h:0", "https://h:65536",
                      "https://h/x",
                      "https://h?x", "https://h#x", "http://10.0.0.1", "http://localhost.example"):
            with self.assertRaises(Trouble, msg=wrong):
                url_of(wrong)

    def test_a_slip_makes_no_file(self) -> None:
        for wrong in ("redis:h:1", "redis:/h:1", "127.0.0.1:7000", "server:7000", "unix:/a.sock", "HTTP:x"):
            with self.assertRaisesRegex(Trouble, "isn't the URL of a log", msg=wrong):
                url_of(wrong)
        self.assertEqual(url_of("./server:7000"), os.path.join(os.getcwd(), "server:7000"))

    def test_a_link_is_not_printed_by_mistake(self) -> None:
        self.assertNotIn(repr(KEY)[2:-1], repr(self.sealed))

    def test_a_folder_that_is_gone_is_told(self) -> None:
        here = os.getcwd()
        gone = f"/tmp/gone-{os.getpid()}"
        os.mkdir(gone)
        with contextlib.ExitStack() as back:
            back.callback(os.chdir, here)
            os.chdir(gone)
            os.rmdir(gone)
            with self.assertRaises(Trouble):
                url_of("x.db")


if __name__ == "__main__":
    unittest.main()
