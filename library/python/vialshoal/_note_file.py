"""The file of a note that is open (docs/FORMATS.md, "Files of open notes"). The package for Node has the same."""
from __future__ import annotations

import hashlib
import os
import struct
import zlib
from collections.abc import Iterable, Iterator, Sequence
from itertools import islice
from typing import Optional

from ._answers import Damaged
from ._journal import LockedFile

_TAG = b"OTN1"
_HEAD, _SUM, _BATCH = struct.Struct(">4s32s"), struct.Struct(">I"), struct.Struct(">II")
_BEGIN = _HEAD.size + _SUM.size
_NUMBER, _LENGTH = struct.Struct(">H"), struct.Struct(">I")
# How a record begins in its batch, and at how many places where one may begin a whole batch is looked for behind one that isn't.
_FIRST, _MOST_TRIED = struct.Struct(">HB"), 1 << 12
CLAIM, ENTRY = 1, 2


def beginning(key: bytes, founder: bytes, number: int, base_key: bytes, root: bytes, base: Sequence[bytes]) -> bytes:
    """What stands for all that a note begins with: for another note it is another one."""
    chunks = b"".join(_NUMBER.pack(len(chunk)) + chunk for chunk in base)
    return hashlib.blake2b(key + founder + _NUMBER.pack(number) + base_key + root + chunks, digest_size=32).digest()


def _head(begins: bytes) -> bytes:
    head = _HEAD.pack(_TAG, begins)
    return head + _SUM.pack(zlib.crc32(head))


def _check(batch: bytes) -> int:
    return zlib.crc32(batch, zlib.crc32(_LENGTH.pack(len(batch))))


def _digest(record: bytes) -> bytes:
    return hashlib.blake2b(record, digest_size=16).digest()


def _batch(data: bytes, at: int) -> Optional[bytes]:
    """The records of the batch that begins here, if a whole one does."""
    if len(data) < at + _BATCH.size:
        return None
    length, check = _BATCH.unpack_from(data, at)
    batch = data[at + _BATCH.size:at + _BATCH.size + length]
    return batch if 0 < length == len(batch) and check == _check(batch) else None


def _may_begin(data: bytes, at: int) -> bool:
    """Whether a batch may begin here, but for its check, since to sum up many takes long."""
    begin = at + _BATCH.size
    if len(data) < begin + _FIRST.size:
        return False
    length, _ = _BATCH.unpack_from(data, at)
    size, kind = _FIRST.unpack_from(data, begin)
    return kind in (CLAIM, ENTRY) and _NUMBER.size + size <= length <= len(data) - begin


class NoteFile(LockedFile):
    """What came to a note, record by record, each once. What is kept at once is a batch: it is there as a whole, or not at all."""

    def __init__(self, path: str, begins: bytes) -> None:
        super().__init__(path, may_be_made=True)
        self._end = 0
        # What the file has, by digests, and what it is to have.
        self._has = set[bytes]()
        self._gathered = dict[bytes, bytes]()
        try:
            self._begin(_head(begins))
            self._has.update(map(_digest, self.records()))
        except BaseException:
            self.close()
            raise

    def _begin(self, head: bytes) -> None:
        """Sees that it is this note's file, which is begun where nothing is there, or not all of the head."""
        # (a program that was killed may have written some and not waited for the disk)
        os.fdatasync(self._file)
        data = self._data()
        if len(data) < _BEGIN and head.startswith(data):
            self._write(0, head)
        elif len(data) < _BEGIN or data[:_BEGIN] != _head(data[len(_TAG):_HEAD.size]):
            raise Damaged(f"{self._path} isn't the file of a note, or its head was changed")
        elif not data.startswith(head):
            raise ValueError(f"{self._path} is of another note")

    def records(self) -> Iterator[bytes]:
        """All that it has."""
        data, at = self._data(), _BEGIN
        while (batch := _batch(data, at)) is not None:
            yield from self._records(batch)
            at += _BATCH.size + len(batch)
        torn = data[at:]
        length, _ = _BATCH.unpack_from(torn.ljust(_BATCH.size, b"\0"))
        is_longer = 0 < length < len(torn) - _BATCH.size
        places = islice((place for place in range(1, len(torn)) if _may_begin(torn, place)), _MOST_TRIED)
        if is_longer or any(_batch(torn, place) is not None for place in places):
            raise Damaged(f"{self._path} was changed at byte {at} or behind it, and has more after that")
        # (what is behind the end the next batch cuts off)
        if self._end not in (0, at):
            raise Damaged(f"{self._path} was changed while it was open")
        self._end = at

    def _records(self, batch: bytes) -> Iterator[bytes]:
        at = 0
        while at < len(batch):
            size = int.from_bytes(batch[at:at + _NUMBER.size], "big")
            at += _NUMBER.size + size
            if not size or at > len(batch):
                raise Damaged(f"{self._path} has something that isn't made of records")
            yield batch[at - size:at]

    def gather(self, record: bytes) -> None:
        """Has a record be kept with the next batch, where it isn't there."""
        digest = _digest(record)
        if digest not in self._has:
            self._gathered[digest] = record

    def keep(self, records: Iterable[bytes]) -> None:
        """Has the disk have all that was gathered, and these. Where this raises an error the file has what it had."""
        new = self._gathered | {digest: record for record in records if (digest := _digest(record)) not in self._has}
        if not new:
            return
        batch = b"".join(_NUMBER.pack(len(record)) + record for record in new.values())
        self._write(self._end, _BATCH.pack(len(batch), _check(batch)) + batch)
        self._end += _BATCH.size + len(batch)
        self._has.update(new)
        self._gathered = {}
