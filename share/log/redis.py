"""A log in a stream of a Redis server, for all machines that reach it.

The server, and everyone who reaches it, can write under its keys whatever they like. So scripts leave out what
can't be an entry before it is sent, and each answer is looked at.
"""
import hashlib
import re
from collections.abc import Sequence

from share.format.entry import MOST_BYTES
from share.format.presence import MOST_PRESENCE
from share.log.base import MOST_ON, ON_SECONDS, READ_AT_ONCE, START, InLog, Log, LogLost
from share.log.bell import Bell
from share.log.channel import Ear, RedisChannel
from share.log.page_size import MOST_ROOM, PageSize, batches
from share.log.resp import Answer, TooLong, Wire
from share.text.errors import Trouble

# The most bytes of an append, and what an entry costs beside its own bytes.
MOST_APPENDED = 2**17
ENTRY_OVERHEAD = 64
MOST_READ = MOST_ROOM + 20 * (MOST_BYTES + ENTRY_OVERHEAD) + READ_AT_ONCE * ENTRY_OVERHEAD
# What a watch lets through: a longer entry is known by its size alone.
MOST_WATCHED = MOST_BYTES + 1_024
# How many entries are looked through for claims at once, and how often at most.
CLAIMS_AT_ONCE, MOST_CLAIM_READINGS = 5_000, 1_000
# An entry has one field alone. The server hashes the bytes, so nobody can have another entry stand for one
# that isn't there. One that was trimmed, or stands otherwise, is added anew.
ENTRY_FIELD = "e"
APPEND_SCRIPT = """
    for _, raw in ipairs(ARGV) do
        local hash = redis.sha1hex(raw)
        local place = redis.call('HGET', KEYS[2], hash)
        local held = place and redis.pcall('XRANGE', KEYS[1], place, place)
        local fields = held and held[1] and held[1][2]
        if not (fields and #fields == 2 and fields[1] == 'e' and fields[2] == raw) then
            redis.call('HSET', KEYS[2], hash, redis.call('XADD', KEYS[1], '*', 'e', raw))
        end
    end
    return 0
"""
# Takes out entries, by hashes of their bytes, where their fold is there; a key has how many were taken out in all. The last one stays,
# since somebody may have read up to it.
TAKE_OUT_SCRIPT = """
    local fold = redis.call('HGET', KEYS[2], ARGV[1])
    local held = fold and redis.pcall('XRANGE', KEYS[1], fold, fold)
    if not (held and held[1]) then return 0 end
    local last, many = redis.call('XREVRANGE', KEYS[1], '+', '-', 'COUNT', 1)[1][1], 0
    for number = 2, #ARGV do
        local place = redis.call('HGET', KEYS[2], ARGV[number])
        local gone = place and place ~= last and redis.pcall('XDEL', KEYS[1], place)
        if type(gone) == 'number' then
            many = many + gone
            redis.call('HDEL', KEYS[2], ARGV[number])
        end
    end
    if many > 0 then redis.call('INCRBY', KEYS[3], many) end
    return many
"""
# Gives how many entries there are, how many were taken out, whether the last one was read, and ids and bytes in turn; nothing where the
# entry after which is read doesn't stand any more, and none was taken out since. It takes a few at a time, since some may be large.
READ_SCRIPT = """
    local after, field, page, most = ARGV[1], ARGV[2], tonumber(ARGV[3]), tonumber(ARGV[4])
    local room = tonumber(ARGV[5])
    local taken = tonumber(redis.call('GET', KEYS[2]) or 0)
    if after ~= '0-0' and taken == tonumber(ARGV[6]) and #redis.call('XRANGE', KEYS[1], after, after) == 0 then return 0 end
    local found, at_end = {}, 0
    while #found < 2 * page and room > 0 and at_end == 0 do
        local few = math.min(20, page - #found / 2)
        local some = redis.call('XREAD', 'COUNT', few, 'STREAMS', KEYS[1], after)
        some = some and some[1][2] or {}
        for _, one in ipairs(some) do
            local id, fields = one[1], one[2]
            local raw = #fields == 2 and fields[1] == field and #fields[2] <= most and fields[2]
            found[#found + 1], found[#found + 2] = id, raw
            room = room - (raw and #raw or 0)
            after = id
        end
        if #some < few then at_end = 1 end
    end
    return {redis.call('XLEN', KEYS[1]), taken, at_end, found}
"""
# Gives how many entries there are, how many were taken out, and the id of the last one.
END_SCRIPT = """
    local last = redis.call('XREVRANGE', KEYS[1], '+', '-', 'COUNT', 1)
    local taken = tonumber(redis.call('GET', KEYS[2]) or 0)
    return {redis.call('XLEN', KEYS[1]), taken, last[1] and last[1][1] or ''}
"""
# Gives the id of the last entry of a part of the stream, and of each claim in it the two bytes of its site.
CLAIMED_SCRIPT = """
    local after, most, at = ARGV[1], tonumber(ARGV[5]), tonumber(ARGV[6]) + 1
    local some = redis.call('XREAD', 'COUNT', tonumber(ARGV[3]), 'STREAMS', KEYS[1], after)
    local found = {}
    for _, entry in ipairs(some and some[1][2] or {}) do
        local id, fields = entry[1], entry[2]
        local raw = #fields == 2 and fields[1] == ARGV[2] and #fields[2] <= most and fields[2]
        if raw and string.byte(raw, 2) == tonumber(ARGV[4]) then found[#found + 1] = string.sub(raw, at, at + 1) end
        after = id
    end
    return {after, found}
"""
# The time is the server's, since those of machines differ.
MEET_SCRIPT = """
    local now, on, most = tonumber(redis.call('TIME')[1]), tonumber(ARGV[3]), tonumber(ARGV[4])
    redis.call('ZADD', KEYS[1], now, ARGV[1])
    redis.call('HSET', KEYS[2], ARGV[1], ARGV[2])
    for _, range in ipairs({{'-inf', now - on - 1}, {now + 1, '+inf'}}) do
        for _, token in ipairs(redis.call('ZRANGEBYSCORE', KEYS[1], range[1], range[2], 'LIMIT', 0, 1000)) do
            redis.call('ZREM', KEYS[1], token)
            redis.call('HDEL', KEYS[2], token)
        end
    end
    local said = {}
    for _, token in ipairs(redis.call('ZREVRANGE', KEYS[1], 0, tonumber(ARGV[5]) - 1)) do
        if redis.call('HSTRLEN', KEYS[2], token) <= most then
            said[#said + 1] = redis.call('HGET', KEYS[2], token)
        end
    end
    redis.call('EXPIRE', KEYS[1], 4 * on)
    redis.call('EXPIRE', KEYS[2], 4 * on)
    return said
"""
MET_SCRIPT = """
    local now, on, most = tonumber(redis.call('TIME')[1]), tonumber(ARGV[1]), tonumber(ARGV[2])
    local said = {}
    for _, token in ipairs(redis.call('ZRANGEBYSCORE', KEYS[1], now - on, now, 'LIMIT', 0, tonumber(ARGV[3]))) do
        if redis.call('HSTRLEN', KEYS[2], token) <= most then
            said[#said + 1] = redis.call('HGET', KEYS[2], token)
        end
    end
    return said
"""
LEAVE_SCRIPT = """
    redis.call('ZREM', KEYS[1], ARGV[1])
    redis.call('HDEL', KEYS[2], ARGV[1])
    return 0
"""
ID = re.compile(rb"([0-9]{1,20})-([0-9]{1,20})")
STREAM_PLACE = re.compile(r"([0-9]{1,20}-[0-9]{1,20})/([0-9]{1,18})")


class Stream:
    """A stream whose entries have one field alone. A place in it has the entry's id and how many there are up to it, all that were
    taken out among them, so that a stream that lost entries is seen."""

    def __init__(self, wire: Wire, key: str, taken_out_key: str):
        self._wire, self._key = wire, key
        self._keys = (key, taken_out_key)
        self._size = PageSize()
        # How many were taken out, by the last answer, and as the reading began or came to the end last.
        self.taken_out = self._taken_out_before = 0
        # Whether the last reading came to the end.
        self.at_end = False

    def read(self, after: str, most: int = MOST_ROOM) -> list[InLog]:
        """The entries after a place, PAGE at most, and of no more than these bytes but for some."""
        last, count = _stream_place(after)
        words = last, ENTRY_FIELD, READ_AT_ONCE, MOST_BYTES, min(self._size.room, most), self.taken_out
        with self._size.timed():
            answer = self._wire.run(READ_SCRIPT, self._keys, words, MOST_READ)
        if answer == 0:
            raise self._lost()
        page, size = self._page(answer, last)
        if after == START:
            # What was taken out by now isn't met.
            count = self._taken_out_before = self.taken_out
        missing = 0 if size is None else size - count - len(page)
        # They can't be more, but for those that were taken out before they were met: the server tells how many there are in one breath with
        # the last ones.
        if not 0 <= missing <= self.taken_out - self._taken_out_before:
            raise self._lost() if after != START else self._wire.strange()
        self.at_end = size is not None
        if self.at_end:
            self._taken_out_before = self.taken_out
        return [InLog(f"{one.place}/{number}", one.raw) for number, one in enumerate(page, count + missing + 1)]

    def claimed(self, kind: int, at: int) -> set[int]:
        """The sites that entries of this kind claim, each of which is at a place of their bytes, as far as the server says so: it looks
        through them, and sends the sites alone."""
        sites, after = set[int](), b"0-0"
        for _ in range(MOST_CLAIM_READINGS):
            words = (after, ENTRY_FIELD, CLAIMS_AT_ONCE, kind, MOST_BYTES, at)
            match self._wire.run(CLAIMED_SCRIPT, (self._key,), words):
                case [bytes(last), list(found)] if len(found) <= CLAIMS_AT_ONCE and _numbers(last):
                    sites |= {int.from_bytes(site, "big") for site in found if isinstance(site, bytes) and len(site) == 2}
                case _:
                    raise self._wire.strange()
            if last == after:
                break
            after = last
        return sites

    def watch(self, after: str, seconds: float, bell: Bell | None) -> None:
        """Returns when there is an entry after a place, when the time is over, or the bell rings."""
        last, _ = _stream_place(after)
        milliseconds = max(1, int(seconds * 1000))
        if bell and bell.waits(0):
            return
        try:
            self._wire.ask("XREAD", "COUNT", 1, "BLOCK", milliseconds, "STREAMS", self._key, last, waits=seconds,
                           most=MOST_WATCHED, bell=bell)
        except TooLong:
            # Something is there, and the script that reads says what.
            return

    def end(self) -> tuple[str, int, int]:
        """The place of the last entry, how many there are, those that were taken out among them, and how many these are."""
        match self._wire.run(END_SCRIPT, self._keys, ()):
            case [0, int(taken_out), b""]:
                return START, self._saw(taken_out), taken_out
            case [int(size), int(taken_out), bytes(last)] if place := _numbers(last):
                size += self._saw(taken_out)
                return f"{place[0]}-{place[1]}/{size}", size, taken_out
        raise self._wire.strange()

    def _saw(self, taken_out: int) -> int:
        """How many were taken out, as an answer says."""
        if taken_out < 0:
            raise self._wire.strange()
        return taken_out

    def _lost(self) -> LogLost:
        return LogLost(f"{self._wire.url} has lost entries.")

    def _page(self, answer: Answer, last: str) -> tuple[list[InLog], int | None]:
        """What a reading gives, by ids, and how many entries there are, where it came to their end."""
        match answer:
            case [int(size), int(taken_out), int(at_end), list(found)] if len(found) <= 2 * READ_AT_ONCE and not len(found) % 2:
                self.taken_out = self._saw(taken_out)
            case _:
                raise self._wire.strange()
        page, before = [], _numbers(last.encode())
        for one, raw in zip(found[::2], found[1::2]):
            place = _numbers(one)
            if not (before and place and before < place):
                raise self._wire.strange()
            before = place
            entry = raw if isinstance(raw, bytes) and len(raw) <= MOST_BYTES else None
            page.append(InLog(f"{place[0]}-{place[1]}", entry))
        return page, size + self.taken_out if at_end else None


class RedisLog(Log):
    """A log in a stream of a note's own. What was lost is seen at once as something is appended, and else at the end of a watch."""

    watch_seconds, can_take_out = 5.0, True

    def __init__(self, url: str, note: bytes, password: str | None = None):
        self._wire, self._ear = Wire(url, password), Ear(url, password)
        # In braces, so that a cluster of servers keeps all keys of a note together.
        self._entries, self._places, self._times, self._said, self._on, self._taken_out = (
            f"vialshoal:note:{{{note.hex()}}}:{part}" for part in ("entries", "places", "times", "said", "on", "taken"))
        self._stream = Stream(self._wire, self._entries, self._taken_out)
        try:
            self._wire.ask("PING")
        except BaseException:
            self.close()
            raise

    def append(self, raws: Sequence[bytes]) -> None:
        for part in batches(raws, MOST_APPENDED, ENTRY_OVERHEAD):
            self._wire.run(APPEND_SCRIPT, (self._entries, self._places), part)

    def take_out(self, fold: bytes, folded: Sequence[bytes]) -> None:
        of, *others = (hashlib.sha1(raw, usedforsecurity=False).hexdigest().encode() for raw in (fold, *folded))
        try:
            for part in batches(others, MOST_APPENDED, ENTRY_OVERHEAD):
                self._wire.run(TAKE_OUT_SCRIPT, (self._entries, self._places, self._taken_out), (of, *part))
        except Trouble:
            # Whoever keeps the server may let nobody take anything out of it.
            self.can_take_out = False

    def read(self, after: str) -> list[InLog]:
        page = self._stream.read(after, self.most_read)
        self.at_end, self.taken_out = self._stream.at_end, self._stream.taken_out
        return page

    def watch(self, after: str, seconds: float, bell: Bell | None = None) -> None:
        self._stream.watch(after, seconds, bell)

    def size(self) -> int:
        _, size, self.taken_out = self._stream.end()
        return size

    def size_to(self, after: str) -> int:
        # The reading that came to this place has seen that they are there.
        return _stream_place(after)[1]

    def claimed(self, kind: int, at: int) -> set[int] | None:
        return self._stream.claimed(kind, at)

    def end(self) -> tuple[str, int]:
        place, size, self.taken_out = self._stream.end()
        return place, size - self.taken_out

    def bytes_kept(self) -> int:
        return sum(size for key in (self._entries, self._places) if isinstance(size := self._wire.ask("MEMORY", "USAGE", key), int))

    def meet(self, token: bytes, presence: bytes) -> list[bytes]:
        return self._all_said(self._wire.run(MEET_SCRIPT, (self._times, self._said),
                                             (token, presence, ON_SECONDS, MOST_PRESENCE, MOST_ON)))

    def met(self) -> list[bytes]:
        if not self._wire.ask("EXISTS", self._times):
            return []
        return self._all_said(self._wire.run(MET_SCRIPT, (self._times, self._said), (ON_SECONDS, MOST_PRESENCE, MOST_ON)))

    def channel(self) -> RedisChannel:
        return RedisChannel(self._wire, self._ear, self._on)

    def leave(self, token: bytes) -> None:
        self._wire.run(LEAVE_SCRIPT, (self._times, self._said), (token,))

    def close(self) -> None:
        self._wire.close()
        self._ear.close()

    def _all_said(self, answer: Answer) -> list[bytes]:
        """What all said who are on, as a script gives it."""
        if not isinstance(answer, list):
            raise self._wire.strange()
        return [said for said in answer[:MOST_ON] if isinstance(said, bytes) and len(said) <= MOST_PRESENCE]


def _numbers(one: Answer) -> tuple[int, int] | None:
    """The numbers of an id, by which ids rise; None where it is none."""
    found = ID.fullmatch(one) if isinstance(one, bytes) else None
    return (int(found[1]), int(found[2])) if found else None


def _stream_place(after: str) -> tuple[str, int]:
    """The id of a place, and how many entries there were up to it."""
    if after == START:
        return "0-0", 0
    if not (found := STREAM_PLACE.fullmatch(after)):
        raise LogLost("The place after which was to be read is another log's.")
    return found[1], int(found[2])
