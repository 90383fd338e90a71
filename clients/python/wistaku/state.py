"""The file in which a client remembers, for each queue, its number, what is under way, and what it has not handed out.

Each record is a line of JSON with a checksum before it. A line is written and synced before what it tells of is sent,
so a last line that is torn tells of nothing that was sent, and is left out.
"""

from __future__ import annotations

import fcntl
import json
import os
import zlib
from typing import Any

Record = dict[str, Any]
# How long the file grows before it is written anew, with one record for each queue.
LONGEST = 1 << 20


class BadState(Exception):
    """The file is no state, is of another client, is damaged, or another process uses it."""


def summed(text: bytes) -> bytes:
    return b"%08x %s\n" % (zlib.crc32(text), text)


def line_of(record: Record) -> bytes:
    return summed(json.dumps(record, separators=(",", ":")).encode())


def record_of(line: bytes) -> Record | None:
    """What a line says; None if it is torn."""
    text = line[9:-1]
    return json.loads(text) if summed(text) == line else None


class State:
    """The file of one client, which one process uses at a time (`PATH.lock`)."""

    def __init__(self, path: str, client: int) -> None:
        self.path, self.client = path, client
        self.records: dict[str, Record] = {}
        self.failed = False
        self.lock = os.open(path + ".lock", os.O_RDWR | os.O_CREAT, 0o600)
        try:
            fcntl.flock(self.lock, fcntl.LOCK_EX | fcntl.LOCK_NB)
            self.read()
            self.file = self.begun()
        except BlockingIOError:
            os.close(self.lock)
            raise BadState(f"{path}: another process uses it") from None
        except BaseException:
            os.close(self.lock)
            raise

    def read(self) -> None:
        if not os.path.exists(self.path):
            return
        with open(self.path, "rb") as file:
            lines = file.read().splitlines(keepends=True)
        for at, line in enumerate(lines):
            record = record_of(line)
            if record is None and at + 1 < len(lines) or record is None and at == 0:
                raise BadState(f"{self.path}: line {at + 1} is damaged")
            if at == 0 and record != {"client": self.client}:
                raise BadState(f"{self.path}: it is not of client {self.client}")
            if at > 0 and record is not None:
                self.remember(record)

    def remember(self, record: Record) -> None:
        """`more` are items behind those of the record before, and `items` all of them."""
        record = dict(record)
        if "more" in record:
            record["items"] = self.records[record["queue"]]["items"] + record.pop("more")
        self.records[record["queue"]] = record

    def begun(self) -> int:
        """The file, written anew with one record for each queue, under its name once it is synced."""
        new = self.path + ".new"
        file = os.open(new, os.O_RDWR | os.O_CREAT | os.O_TRUNC, 0o600)
        data = b"".join(map(line_of, [{"client": self.client}, *self.records.values()]))
        self.size = self.whole = len(data)
        with open(file, "wb", closefd=False) as out:
            out.write(data)
        os.fsync(file)
        os.rename(new, self.path)
        folder = os.open(os.path.dirname(os.path.abspath(self.path)), os.O_RDONLY)
        os.fsync(folder)
        os.close(folder)
        return file

    def write(self, record: Record, syncs: bool = True) -> None:
        """Notes a record, and syncs it. Where that failed once nothing is known of the file, and nothing is sent."""
        if self.failed:
            raise OSError(f"{self.path} could not be written before")
        self.failed = True
        self.remember(record)
        if self.size > max(LONGEST, 4 * self.whole):
            old, self.file = self.file, self.begun()
            os.close(old)
        else:
            data = line_of(record)
            if os.pwrite(self.file, data, self.size) != len(data):
                raise OSError(f"{self.path} is full")
            if syncs:
                os.fdatasync(self.file)
            self.size += len(data)
        self.failed = False

    def close(self) -> None:
        os.close(self.file)
        os.close(self.lock)
