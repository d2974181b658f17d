"""The wire to a server: passwords, sockets and TLS, and servers that answer as they like."""
import contextlib
import os
import pathlib
import random
import tracemalloc
import unittest
from collections.abc import Callable
from contextlib import closing
from unittest import mock

from share.format.entry import MOST_BYTES
from share.log.base import START, InLog, Log, LogLost, Unreachable
from share.log.bell import Bell
from share.log.opening import open_log
from share.tests.servers import Hostile, RedisServer, SocketServer, TlsServer
from share.tests.test_logs import NOTE, Case, raw, raws
from share.text.errors import Trouble


class Ways(Case):
    """The ways to a server: with a password, by a socket, with TLS."""

    def at(self, server: RedisServer, password: str | None = None) -> None:
        """That a log is carried there, and presence by its channel."""
        with closing(open_log(server.url, NOTE, password)) as log:
            log.append([raw(1)])
            self.assertEqual(raws(log), [raw(1)])
            channel = log.channel()
            assert channel
            channel.say(b"here")
            with closing(channel), closing(Bell()) as bell:
                self.assertEqual([channel.hear(60, bell), channel.hear(0, bell)], [[b"here"], []])

    def server(self, kind: type[RedisServer], *words: str) -> RedisServer:
        """A server as long as the test runs."""
        server = kind(self.folder / kind.__name__, *words)
        self.addCleanup(server.close)
        return server

    def test_passwords(self) -> None:
        word = "open sesame, \u00e9"
        locked, free = self.server(RedisServer, "--requirepass", word), self.server(SocketServer)
        self.at(locked, word)
        with self.assertRaisesRegex(Trouble, "asks for a password.*--password-file"):
            self.at(locked)
        for wrong in ("", "open", "a\r\nPING"):
            with self.assertRaisesRegex(Trouble, "takes another password") as told:
                self.at(locked, wrong)
            self.assertNotIn(word, str(told.exception))
        with self.assertRaisesRegex(Trouble, "has no password"):
            self.at(free, word)

    def test_a_password_is_given_again(self) -> None:
        locked = self.server(RedisServer, "--requirepass", "hush")
        with closing(open_log(locked.url, NOTE, "hush")) as log:
            locked.kill()
            locked.start()
            with contextlib.suppress(Unreachable):
                log.size()
            log.append([raw(1)])
            locked.cli("-a", "hush", "--no-auth-warning", "CONFIG", "SET", "requirepass", "changed")
            locked.cli("-a", "changed", "--no-auth-warning", "CLIENT", "KILL", "TYPE", "normal")
            for wrong in (Unreachable, Trouble, Trouble):
                with self.assertRaises(wrong):
                    log.size()

    def test_a_socket(self) -> None:
        self.at(self.server(SocketServer))
        with self.assertRaises(Unreachable):
            open_log(f"unix://{self.folder}/none.sock", NOTE)
        with self.assertRaises(Unreachable):
            open_log(f"unix:///{'x' * 200}", NOTE)

    def trusting(self, certificate: pathlib.Path | None) -> None:
        """Trusts this certificate alone."""
        environment = {"SSL_CERT_FILE": str(certificate), "SSL_CERT_DIR": str(self.folder)}
        if certificate is None:
            environment["SSL_CERT_FILE"] = str(self.folder / "nothing")
        trusting = mock.patch.dict(os.environ, environment)
        trusting.start()
        self.addCleanup(trusting.stop)

    def test_a_certificate_is_looked_at(self) -> None:
        server = TlsServer(self.folder / "tls", "IP:127.0.0.1")
        self.addCleanup(server.close)
        self.trusting(None)
        with self.assertRaisesRegex(Unreachable, "isn't trusted for it: .*self-signed"):
            self.at(server)
        self.trusting(server.certificate)
        self.at(server)

    def test_the_hosts_name_is_looked_at(self) -> None:
        server = TlsServer(self.folder / "tls", "DNS:elsewhere.example,IP:127.0.0.2")
        self.addCleanup(server.close)
        self.trusting(server.certificate)
        with self.assertRaisesRegex(Unreachable, "isn't trusted for it: .*127.0.0.1"):
            self.at(server)

    def test_tls_and_none_are_told_apart(self) -> None:
        plain = self.server(RedisServer)
        with mock.patch("share.log.resp.CONNECT_SECONDS", 1), self.assertRaises(Unreachable):
            open_log(plain.url.replace("redis://", "rediss://"), NOTE)


class HostileServers(Case):
    """Whatever a server answers, a call ends in words, soon, and with little memory."""

    def answering(self, answer: bytes) -> Log:
        """A log at a server that is one until it was opened, and gives this answer from then on."""
        hostile = Hostile(lambda asked: b"+PONG\r\n" if b"PING" in asked else answer)
        self.addCleanup(hostile.close)
        log = open_log(hostile.url, NOTE)
        self.addCleanup(log.close)
        return log

    def calls(self, log: Log) -> list[Callable[[], object]]:
        """One of each call."""
        return [lambda: log.append([raw(1)]), lambda: log.read(START), lambda: log.read("7-1/3"), log.size,
                lambda: log.watch(START, 0.01), lambda: log.meet(b"x", b"y"), lambda: log.leave(b"x"),
                lambda: log.claimed(1, 18), log.met]

    def ends_in_words(self, answer: bytes, *which: int) -> None:
        """That each call gives something of its type, or what is told, and those of these numbers the latter."""
        log = self.answering(answer)
        with mock.patch("share.log.resp.REPLY_SECONDS", 0.05):
            for number, call in enumerate(self.calls(log)):
                told = self.told(number, call)
                if number in which:
                    self.assertTrue(told, (number, answer[:80]))

    def told(self, number: int, call: Callable[[], object]) -> str:
        """What a call tells, nothing where its value is of its type."""
        try:
            self.assert_is_right(number, call())
        except (Unreachable, Trouble, LogLost) as why:
            told = str(why)
            self.assertTrue(told.isprintable(), told)
            self.assertLess(len(told), 500)
            return told
        return ""

    def assert_is_right(self, number: int, value: object) -> None:
        """That a call's value is of its type."""
        if number in (1, 2):
            assert isinstance(value, list)
            for one in value:
                self.assertTrue(one.raw is None or len(one.raw) <= MOST_BYTES)
        elif number == 3:
            self.assertIsInstance(value, int)
        elif number == 5:
            assert isinstance(value, list)
            self.assertTrue(all(isinstance(one, bytes) for one in value))
        elif number == 7:
            self.assertIsInstance(value, set)
        elif number == 8:
            assert isinstance(value, list)
            self.assertTrue(all(isinstance(one, bytes) for one in value))

    def test_what_is_no_answer(self) -> None:
        for answer in (b"HTTP/1.1 400 Bad Request\r\n\r\n", b"\0\r\n", b"$x\r\n", b":1.5\r\n", b"*\r\n",
                       b"$3\r\nabcde\r\n", b"*1\r\n" * 50, b"+OK\r\n+OK\r\n", b"$99999999999999999999\r\n",
                       b"$2000000000\r\n" + b"x" * 100, b"*2000000000\r\n:1\r\n", b"+" + b"x" * (2 * 2**20),
                       b"-ERR \x1b[2J\x07 cleared" + b"x" * 5000 + b"\r\n", b"*1\r\n-ERR within\r\n",
                       b"-LOADING Redis is loading the dataset in memory\r\n", b"", b"\r\n"):
            # A watch ends where too much comes.
            self.ends_in_words(answer, 0, 1, 2, 3, 5, 6, 7)

    def test_answers_of_other_types(self) -> None:
        for answer in (b"$5\r\nhello\r\n", b"*0\r\n", b"*-1\r\n", b"$-1\r\n", b"+OK\r\n", b"*1\r\n:7\r\n"):
            self.ends_in_words(answer, 1, 2, 3, 7)

    def reading(self, size: int, *entries: tuple[bytes, bytes | None], taken_out: int = 0, at_end: int = 1) -> bytes:
        """The answer to a reading."""
        found = b"".join(b"$%d\r\n%b\r\n" % (len(one), one) if one is not None else b"$-1\r\n"
                         for entry in entries for one in entry)
        return b"*4\r\n:%d\r\n:%d\r\n:%d\r\n*%d\r\n" % (size, taken_out, at_end, 2 * len(entries)) + found

    def test_places_that_do_not_rise(self) -> None:
        right = self.reading(2, (b"1-1", b"x"), (b"1-2", None))
        self.assertEqual(self.answering(right).read(START), [InLog("1-1/1", b"x"), InLog("1-2/2", None)])
        for entries in (((b"1-2", b"x"), (b"1-1", b"x")), ((b"1-1", b"x"), (b"1-1", b"x")), ((b"0-0", b"x"),) * 2,
                        ((b"-1-1", b"x"),) * 2, ((b"\xff-1", b"x"),) * 2, ((b"", b"x"),) * 2,
                        ((b"1", b"x"), (b"2", b"x"))):
            self.ends_in_words(self.reading(2, *entries), 1, 2)
        self.ends_in_words(self.reading(1, (b"7-1", b"x")), 2)

    def test_sizes_that_can_not_be(self) -> None:
        for size in (-1, 0, 2, 10**18):
            self.ends_in_words(self.reading(size, (b"1-1", b"x")), 1, 2)
        log = self.answering(self.reading(1, (b"1-1", bytes(MOST_BYTES + 1))))
        self.assertEqual(log.read(START), [InLog("1-1/1", None)])

    def test_a_slow_answer_has_an_end(self) -> None:
        log = self.answering(b"*")
        with mock.patch("share.log.resp.REPLY_SECONDS", 0.2):
            with self.assertRaisesRegex(Unreachable, "in time"):
                log.append([raw(1)])

    def test_a_large_answer_takes_little_memory(self) -> None:
        log = self.answering(b"*4\r\n:1\r\n:0\r\n:1\r\n*2000\r\n" + b"$16384\r\n" + bytes(2**25))
        tracemalloc.start()
        try:
            for call in self.calls(log):
                with self.assertRaises((Trouble, Unreachable, AssertionError)):
                    call()
                    raise AssertionError
            peak = tracemalloc.get_traced_memory()[1]
        finally:
            tracemalloc.stop()
        # The answer is made in this process, too, and not counted: it was there before.
        self.assertLess(peak, 2**23)

    def test_random_answers(self) -> None:
        chance = random.Random(9)
        right = [self.reading(2, (b"1-1", b"x"), (b"1-2", None)), b"*1\r\n$3\r\nabc\r\n", b":7\r\n"]
        for _ in range(60):
            answer = bytearray(chance.choice(right))
            for _ in range(chance.randint(1, 3)):
                answer[chance.randrange(len(answer))] = chance.choice(b"*$:+-0123456789\r\n\0\xffx")
            self.ends_in_words(bytes(answer))


if __name__ == "__main__":
    unittest.main()
