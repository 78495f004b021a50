#!/usr/bin/env python3
"""Runs the worked rows through the shared library, by ctypes.

    check.py LIBRARY

The key of an accepted row is held against the SHA-256 of the canonical bytes that the row gives; the names of the reasons, in the
library and in the header, against docs/REFUSALS.md and docs/PREPARING.md; and the version against the command's. The last line is
'N passed, M failed'.
"""

import ctypes
import hashlib
import pathlib
import re
import sys

from rows import TOP, prepared, reports, rows

DONE, NO, TOO_SMALL = 0, 64, 65
size_t = ctypes.c_size_t


class Outcome(ctypes.Structure):
    _fields_ = [
        ("status", ctypes.c_uint32),
        ("file", ctypes.c_uint32),
        ("at", ctypes.c_uint64),
        ("length", ctypes.c_uint64),
    ]


class Limits(ctypes.Structure):
    _fields_ = [("elements", ctypes.c_uint64), ("weight", ctypes.c_uint64), ("input", ctypes.c_uint64)]


class Preparation(ctypes.Structure):
    _fields_ = [
        ("properties", ctypes.c_uint64),
        ("property_names", ctypes.c_uint64),
        ("layer_names", ctypes.c_uint64),
        ("extensions", ctypes.c_uint64),
        ("extension_names", ctypes.c_uint64),
        ("in_block", ctypes.c_uint64),
        ("within", ctypes.c_uint64),
    ]


STANDARD = Limits(1 << 24, 1 << 28, 1 << 36)


class Library:
    """The shared library."""

    def __init__(self, path):
        self.lib = ctypes.CDLL(path)
        for name in ("canonicalize", "list", "keys", "info", "key", "check", "same", "diff", "prepare"):
            getattr(self.lib, f"oascanon_{name}").restype = Outcome
        self.lib.oascanon_status_name.restype = ctypes.c_char_p
        self.lib.oascanon_status_name.argtypes = [ctypes.c_uint32]
        self.lib.oascanon_version.restype = ctypes.c_char_p

    def put(self, name, files, *more, drop=None):
        """The outcome of a call that puts an output, and that output: asked for its length first."""
        call = getattr(self.lib, f"oascanon_{name}")
        words = [word for data in files for word in (data, size_t(len(data)))]
        words += [ctypes.byref(STANDARD)] if drop is None else [ctypes.c_uint32(drop), ctypes.byref(STANDARD)]
        outcome = call(*words, None, size_t(0), *more)
        if outcome.status != TOO_SMALL:
            return outcome, b""
        room = ctypes.create_string_buffer(outcome.length)
        return call(*words, room, size_t(len(room)), *more), room.raw

    def prepare(self, data, drop):
        """The same of preparing, and what it says beside the outcome."""
        said = Preparation()
        return *self.put("prepare", [data], ctypes.byref(said), drop=drop), [getattr(said, name) for name, _ in said._fields_]

    def key(self, data):
        digest = ctypes.create_string_buffer(32)
        outcome = self.lib.oascanon_key(data, size_t(len(data)), ctypes.byref(STANDARD), digest)
        return outcome, digest.raw

    def check(self, data):
        return self.lib.oascanon_check(data, size_t(len(data)), ctypes.byref(STANDARD)).status

    def same(self, one, other):
        return self.lib.oascanon_same(one, size_t(len(one)), other, size_t(len(other)), ctypes.byref(STANDARD)).status

    def name(self, status):
        return self.lib.oascanon_status_name(status).decode()


class Counts:
    passed = failed = 0

    def expect(self, holds, name, what):
        if holds:
            self.passed += 1
        else:
            self.failed += 1
            print(f"{name}: {what}")


def text_of(path):
    return pathlib.Path(TOP, path).read_text(encoding="utf-8")


def reasons():
    """The reasons' names by their numbers, as the two documents have them."""
    pages = text_of("docs/REFUSALS.md") + text_of("docs/PREPARING.md")
    return {int(n): name for n, name in re.findall(r"^\| (\d+) \| (\w+) \|", pages, re.M)}


def files(library, expect):
    """The rows of `canon`."""
    last = None
    for name, data, answer in rows():
        outcome, canonical = library.put("canonicalize", [data])
        keyed, digest = library.key(data)
        if isinstance(answer, tuple):
            expect((outcome.status, outcome.at) == answer, name, "is refused")
            expect((keyed.status, keyed.at) == answer, name, "has no key")
            expect(library.check(data) == answer[0], name, "isn't judged")
            continue
        expect(outcome.status == DONE and canonical == answer, name, "has that canonical file")
        expect(keyed.status == DONE and digest == hashlib.sha256(answer).digest(), name, "has its SHA-256 as its key")
        expect(library.check(data) == (DONE if data == answer else NO), name, "is judged")
        if last is not None:
            wanted = DONE if last == answer else NO
            expect(library.same(last, data) == wanted, name, "is compared with the row before it")
        last = answer


def texts(library, expect):
    """The rows of the calls that put a report, and of preparing."""
    for name, call, data, answer in reports():
        outcome, text = library.put(call, data)
        if isinstance(answer, tuple):
            expect((outcome.status, outcome.file, outcome.at) == answer[:3], name, "is refused")
        else:
            wanted = NO if call == "diff" and answer else DONE
            expect((outcome.status, outcome.length, text) == (wanted, len(answer), answer), name, "has that report")
    for name, drop, data, answer in prepared():
        outcome, canonical, said = library.prepare(data, drop)
        if len(answer) == 2:
            expect((outcome.status, canonical, said) == (DONE, answer[0], [*answer[1], 0, 0]), name, "is prepared")
        else:
            number, file, at, within = answer
            place = [0, 0] if within is None else [1, within]
            expect((outcome.status, outcome.file, outcome.at, said) == (number, file, at, [0] * 5 + place), name, "isn't prepared")


def names(library, expect):
    """The names of the reasons, and the version."""
    header = text_of("include/oascanon.h")
    found = reasons()
    expect(list(found) == [*range(1, 35), *range(101, 114)], "names", "the documents number the reasons")
    for number in range(256):
        if number in found or not 64 <= number <= 68:
            wanted = found.get(number, "Done" if number == 0 else "Unknown")
            expect(library.name(number) == wanted, "names", f"{number} is {wanted}")
    constants = {int(n): name for name, n in re.findall(r"^    OASCANON_REASON_(\w+) = (\d+),?$", header, re.M)}
    wanted = {number: re.sub(r"(?<=[a-z])(?=[A-Z])", "_", name).upper() for number, name in found.items()}
    expect(constants == wanted, "names", "the header has a constant for each reason")
    version = re.search(r'^const VERSION: &str = "(\S+) ', text_of("crates/oas_request/src/usage.rt"), re.M)[1]
    expect(f'#define OASCANON_VERSION "{version}"\n' in header, "version", "the header has the command's")
    expect(library.lib.oascanon_version().decode() == version, "version", "the library has the command's")


def main():
    library = Library(sys.argv[1])
    counts = Counts()
    for part in (files, texts, names):
        part(library, counts.expect)
    print(f"{counts.passed} passed, {counts.failed} failed")
    return counts.failed != 0


if __name__ == "__main__":
    sys.exit(main())
