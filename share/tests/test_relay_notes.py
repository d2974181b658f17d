"""Notes at a relay as people have them: made, joined by the link, typed into, with TLS, while the relay is killed, full, or of no use to a
note of the first form."""
import contextlib
import os
import pathlib
import subprocess
import unittest
from unittest import mock

from share.format.second.key_link import KeyLink, link_of
from share.log.base import Unreachable
from share.log.opening import opener_of
from share.relay.limits import Limits
from share.store import notes, read_only
from share.tests.editors import Engines
from share.tests.relays import RelayHere, RelayProcess, form_of
from share.tests.servers import certificate
from share.tests.terminals import Answering
from share.tests.support import Case, type_at_the_end, wait_for, written
from share.tests.waiting import PATIENCE
from share.text.errors import Trouble


class AtRelay(Case):
    """People, and a relay; new notes are of the first form, where nothing else is said."""

    def setUp(self) -> None:
        super().setUp()
        patches = contextlib.ExitStack()
        self.addCleanup(patches.close)
        patches.enter_context(mock.patch.dict(os.environ, VIALSHOAL_FORM="1", VIALSHOAL_ZERO_BITS="0"))
        patches.enter_context(mock.patch("share.relay.room.LOOK_AT_LOG_SECONDS", 0.3))
        patches.enter_context(mock.patch("share.log.relay_line.FULL_SECONDS", 0.3))
        # A busy machine's relay isn't one that is gone.
        patches.enter_context(mock.patch("share.log.relay_line.REPLY_SECONDS", PATIENCE))

    def here(self, **limits: int) -> RelayHere:
        """A relay in this process."""
        relay = RelayHere(self.folder / "kept", Limits(**limits))
        self.addCleanup(relay.close)
        return relay

    def process(self, *words: str, url: str = "", **environment: str) -> RelayProcess:
        """A relay by the real command."""
        relay = RelayProcess(self.folder / "kept", *words, url=url, **environment)
        self.addCleanup(relay.close)
        return relay


class People(AtRelay, Engines):
    """Who share a note by a relay."""

    def test_two_engines_show_the_same(self) -> None:
        relay = self.process()
        ann, bob = self.others("ann", "bob", url=relay.url)
        ann.type("one ")
        bob.shows("one ")
        bob.type("two ")
        self.assertEqual(self.alike(ann, bob), "one two ")
        link = self.person("ann").link()
        self.assertEqual(link_of(link)[::2], ("sealed", relay.url))
        for editor in ann, bob:
            editor.wait_for(lambda editor=editor: editor.state.get("on") == 2 and not editor.state.get("unsent"), "all to be sent")
        self.assertEqual(self.note("cat", "note", VIALSHOAL_DATA=str(self.folder / "cat"), VIALSHOAL_LINK=link).stdout, "one two ")

    def test_killed_again_and_again_while_both_type(self) -> None:
        relay = self.process()
        ann, bob = self.together(relay.url, "ann", "bob")
        words = list[str]()
        for turn in range(4):
            for name, note in ("ann", ann), ("bob", bob):
                words.append(f"{name}{turn}on")
                type_at_the_end(note, f"{words[-1]} ")
            relay.kill()
            for name, note in ("ann", ann), ("bob", bob):
                words.append(f"{name}{turn}off")
                type_at_the_end(note, f"{words[-1]} ")
            relay.start()
        self.assertEqual(sorted(self.assert_meet(ann, bob).decode().split()), sorted(words))
        for note in ann, bob:
            note.session.close()
        self.assertEqual(self.opened(self.person("carl"), link=self.person("ann").link()).session.text(), bytes(ann.text))

    def test_a_full_note_keeps_what_is_typed_and_sends_it_later(self) -> None:
        relay = self.here(note_bytes=70_000)
        ann, bob = self.together(relay.url, "ann", "bob")
        number = 0
        while not (ann.session.status().offline or "").count("--note-bytes"):
            type_at_the_end(ann, f"{number} " + "x" * 2_000)
            ann.take_in()
            number += 1
            self.assertLess(number, 500)
        self.assertIn("The note is full at this relay, which keeps 70,000 bytes of one (--note-bytes)", ann.session.status().offline or "")
        self.assertGreater(ann.session.status().unsent, 0)
        # Bob sends more than the note may have, so that is refused whatever of Ann's fits: he is told, too, and reads on.
        type_at_the_end(bob, "bob " + "y" * 80_000)
        wait_for(lambda: "--note-bytes" in (bob.session.status().offline or ""), "Bob to be told")
        text = self.person("ann").text()
        self.assertIn(b"0 x", text)
        relay.stop()
        relay._options = relay._options.__class__(relay._options.listen, limits=Limits())
        relay.start()
        self.assertIn(b"bob yyy", self.assert_meet(ann, bob))

    def test_a_full_note_is_told_to_who_only_reads(self) -> None:
        relay = self.here(note_bytes=70_000)
        ann, bob = self.together(relay.url, "ann", "bob")
        number = 0
        while not (ann.session.status().offline or "").count("--note-bytes"):
            type_at_the_end(ann, f"{number} " + "x" * 2_000)
            ann.take_in()
            number += 1
        wait_for(lambda: (bob.take_in(), any("--note-bytes" in words for words in bob.told))[1], "Bob to be told")
        # Who comes later is told, too.
        carl = self.opened(self.person("carl"), link=self.person("ann").link())
        wait_for(lambda: (carl.take_in(), any("--note-bytes" in words for words in carl.told))[1], "Carl to be told")

    def test_a_relay_that_loses_all_is_filled_again(self) -> None:
        relay = self.here()
        ann, bob = self.together(relay.url, "ann", "bob")
        written(ann, "one ")
        self.assert_meet(ann, bob)
        relay.stop()
        for path in (self.folder / "kept").glob("*.log*"):
            path.unlink()
        relay.start()
        type_at_the_end(bob, "two ")
        self.assertEqual(self.assert_meet(ann, bob), b"one two ")
        self.assertEqual(self.opened(self.person("carl"), link=self.person("ann").link()).session.text(), b"one two ")

    def test_sync_and_renew(self) -> None:
        relay = self.here()
        ann = {"VIALSHOAL_DATA": str(self.folder / "ann")}
        self.assertEqual(self.note("append", "note", "one", "--new", **ann).returncode, 0)
        run = self.note("renew", "note", "--log", relay.url, **ann)
        self.assertEqual((run.returncode, run.stderr), (0, ""))
        link = self.note("link", "note", **ann).stdout.strip()
        self.assertEqual(self.note("cat", "note", VIALSHOAL_LINK=link, VIALSHOAL_DATA=str(self.folder / "bob")).stdout, "one\n")
        relay.stop()
        self.assertEqual(self.note("append", "note", "two", **ann).returncode, 0)
        self.assertEqual(self.note("sync", **ann).returncode, 3)
        relay.start()
        self.assertEqual(self.note("sync", **ann).returncode, 0)
        self.assertEqual(self.note("cat", "note", VIALSHOAL_LINK=link, VIALSHOAL_DATA=str(self.folder / "carl")).stdout, "one\ntwo\n")

    def test_notes_of_the_first_form_are_refused_and_renew_is_named(self) -> None:
        relay = self.here()
        note = self.person("ann").open(url=self.redis().url)
        written(note, "one ")
        note.session.close()
        ann = {"VIALSHOAL_DATA": str(self.folder / "ann")}
        self.assert_says(self.note("append", "note", "x", "--log", relay.url, **ann), f"bin/note renew note --log {relay.url}")
        self.assert_says(self.note("append", "new", "x", "--new", "--form", "1", "--log", relay.url, **ann), "the second form alone")
        with self.assertRaisesRegex(Trouble, f"second form alone. bin/note renew note --log {relay.url}"):
            self.person("ann").open(url=relay.url)
        plain = self.person("bob").open()
        plain.session.close()
        with self.assertRaisesRegex(Trouble, f"isn't sealed.* bin/note renew note --log {relay.url}"):
            self.person("bob").open(url=relay.url)
        self.assertEqual(list((self.folder / "kept").glob("*.log")), [])
        # A new one is of the second form by itself.
        self.assertEqual(self.note("append", "new", "x", "--new", "--log", relay.url, **ann).returncode, 0)
        self.assertEqual(read_only.about(self.person("ann").path("new")).form_number, 2)

    def test_a_link_that_names_a_relay(self) -> None:
        link = KeyLink("sealed", bytes(range(32)), "https://notes.example")
        for spelled in self.spellings(link):
            self.assertEqual(link_of(spelled), link)
        with self.person("ann").here():
            notes.open_note("note", None, link).close()
        self.assertEqual(read_only.about(self.person("ann").path()).url, "https://notes.example")

    @staticmethod
    def spellings(link: KeyLink) -> list[str]:
        """A link as people are sent it: for editors, of its relay's page, with what a service has added, and of a page elsewhere."""
        return [link.spelled(), link.page(), link.page().replace("/#", "/?fbclid=x#"), f"https://page.example/#{link.spelled()}"]

    def test_what_was_sent_is_pasted_where_a_terminal_asks_for_it(self) -> None:
        relay = self.process()
        self.assertEqual(self.note("append", "note", "shared", "--new", "--log", relay.url,
                                   VIALSHOAL_DATA=str(self.person("ann").data)).returncode, 0)
        link = link_of(self.person("ann").link())
        assert isinstance(link, KeyLink)
        for number, spelled in enumerate(self.spellings(link)):
            data = self.folder / f"joins{number}"
            with Answering(data, "open", "picnic") as run:
                run.sees("Link: ")
                run.type(f"{spelled}\n")
                run.sees("shared", "picnic")
                run.type("\x11")
                self.assertEqual(run.status(), 0)
            self.assertNotIn(link.spelled()[14:40], run.shown)
            self.assertEqual(self.note("cat", "picnic", VIALSHOAL_DATA=str(data)).stdout, "shared\n")

    def test_a_link_as_an_argument_is_refused_and_not_repeated(self) -> None:
        link = KeyLink("sealed", bytes(range(32)), "https://notes.example")
        others = "vialshoal:1.1:s:AAECAwQFBgcICQoL@redis://h:7", "https://notes.example/#vialshoal:2:s:AAECAwQFBgcICQoL"
        for spelled in [*self.spellings(link), *others]:
            for verb in "", "open", "join", "web", "note", "cat", "link", "sync":
                run = self.note(*verb.split(), spelled)
                self.assertEqual((run.returncode, run.stdout), (2, ""), verb)
                self.assertNotIn("AAECAwQF", run.stderr)
                self.assertIn("paste the link where it is asked for", run.stderr, verb)
        self.assertFalse((self.folder / "data").exists())


class Tls(AtRelay):
    """A relay with a certificate of its own."""

    def made(self, hosts: str) -> tuple[pathlib.Path, pathlib.Path]:
        """An authority, which signs a certificate for some hosts; the authority's, and what a relay is given, with its key in it."""
        folder = self.folder / hosts.replace(":", "-")
        folder.mkdir()
        authority, its_key = certificate(folder, "DNS:authority")
        key, asked, signed = folder / "relay.key", folder / "relay.csr", folder / "relay.crt"
        (folder / "names").write_text(f"subjectAltName={hosts}\n")
        for words in (["req", "-newkey", "rsa:2048", "-nodes", "-subj", "/CN=relay", "-keyout", key, "-out", asked],
                      ["x509", "-req", "-in", asked, "-CA", authority, "-CAkey", its_key, "-days", "2", "-extfile", folder / "names",
                       "-out", signed]):
            subprocess.run(["openssl", *map(str, words)], check=True, capture_output=True)
        return authority, signed

    def relay(self, hosts: str) -> tuple[RelayProcess, pathlib.Path]:
        """A relay with a certificate for hosts, and the authority that signed it."""
        authority, signed = self.made(hosts)
        return self.process("--certificate", str(signed), "--key", str(signed.with_suffix(".key")), url="https://localhost:PORT"), authority

    def test_a_note_goes_by_tls(self) -> None:
        relay, authority = self.relay("DNS:localhost")
        with mock.patch.dict(os.environ, SSL_CERT_FILE=str(authority)):
            ann, bob = self.together(relay.url, "ann", "bob")
            written(ann, "one ")
            self.assert_comes_to(bob, b"one ")
            type_at_the_end(bob, "two ")
            self.assertEqual(self.assert_meet(ann, bob), b"one two ")
        self.assertEqual(relay.url[:8], "https://")

    def test_a_certificate_that_is_not_right_is_told(self) -> None:
        relay, authority = self.relay("DNS:localhost")
        with self.assertRaisesRegex(Unreachable, "certificate that isn't trusted"):
            opener_of(relay.url, form_of())()
        relay.close()
        relay, authority = self.relay("DNS:other.example")
        with mock.patch.dict(os.environ, SSL_CERT_FILE=str(authority)):
            with self.assertRaisesRegex(Unreachable, "certificate that isn't trusted"):
                opener_of(relay.url, form_of())()
        # By http, where it speaks TLS.
        with self.assertRaises((Unreachable, Trouble)):
            opener_of(relay.url.replace("https", "http"), form_of())()


class Command(AtRelay):
    """bin/note relay."""

    def test_what_is_not_right_is_said(self) -> None:
        folder, here = ["--log", str(self.folder / "kept")], ["--listen", "127.0.0.1:0"]
        taken = self.process()
        for words, said in (([*folder, "--listen", "nowhere:x"], "isn't where a relay can listen"),
                            (["--listen", "0.0.0.0:0", "--log", str(self.folder / "a")], "--url https://HOST"),
                            ([*here, "--log", str(self.folder / "a"), "--origin", "page"], "isn't where a relay or a page is"),
                            ([*here, "--log", str(self.folder / "a"), "--certificate", "/dev/null"], "can't be used"),
                            ([*here, "--log", "https://other.example"], "not at another relay"),
                            ([*here, "--log", "/dev/null/x"], "Name another folder"),
                            (["--listen", f"127.0.0.1:{taken.port}", "--log", str(self.folder / "b")], "ddress already in use"),
                            (folder, "Another relay has the folder")):
            with self.subTest(words):
                self.assert_says(self.note("relay", *words), said)
        self.assertEqual(self.note("relay", "--note-bytes", "0").returncode, 2)
        self.assertIn("--entries-a-second", self.note("relay", "--help").stdout)

    def test_it_ends_as_it_is_told_to(self) -> None:
        relay = self.process()
        self.assertIn(relay.url, relay.said)
        with contextlib.closing(opener_of(relay.url, form_of())()) as log:
            self.assertEqual((relay.end(), relay.process.returncode), ("", 0))
            with self.assertRaises(Unreachable):
                log.size()


if __name__ == "__main__":
    unittest.main()
