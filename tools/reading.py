"""Reads the data files of a directory as the program reads them. Nothing here writes."""

import dataclasses
import os
import re

NEVER = 2**64 - 1

# A byte that opens a gate, and the version that is known.
OPEN, VERSION = 1, 1

# The first bytes of items, and how many bytes each has before its key and its value.
END, PUT, REMOVAL = 0, 1, 2
HEADS = {END: 9, PUT: 23, REMOVAL: 11}

# The first numbers that are too great: of sequence numbers and expiries, of moments, and of the offsets of items.
NUMBERS_END, MOMENTS_END, PLACES_END = 2**62, 2**61, 2**32

LONGEST_KEY, LONGEST_VALUE = 1024, 65536

LOG_TEXT = re.compile(r"s0-([0-9]{10})\.log", re.ASCII)
LAST_FILE = 2**32 - 2


@dataclasses.dataclass(frozen=True)
class Damage:
    """The first damage of a file: where it is, and its kind."""

    offset: int
    kind: str


class Damaged(Exception):
    """What is read is damaged."""

    def __init__(self, offset, kind):
        super().__init__(f"{kind} at {offset}")
        self.damage = Damage(offset, kind)


@dataclasses.dataclass(frozen=True)
class Gate:
    offset: int
    byte: int

    @property
    def is_open(self):
        return self.byte == OPEN


@dataclasses.dataclass(frozen=True)
class Version:
    offset: int


@dataclasses.dataclass(frozen=True)
class Record:
    """A put, or a removal, whose value is None."""

    offset: int
    size: int
    sequence: int
    key: bytes
    value: bytes | None = None
    until: int = NEVER

    def value_at(self, moment):
        """The value that is visible at a moment, None where none is."""
        return self.value if self.until == NEVER or moment < self.until else None


@dataclasses.dataclass(frozen=True)
class End:
    offset: int
    size: int
    moment: int


def item_at(data, at):
    """The item at an offset. What is wrong is looked for in the order in which the program does."""
    if at >= PLACES_END:
        raise Damaged(at, "place")
    if at >= len(data):
        raise Damaged(at, "cut")
    tag = data[at]
    if tag not in HEADS:
        raise Damaged(at, "tag")
    if len(data) - at < HEADS[tag]:
        raise Damaged(at, "cut")
    return end_at(data, at) if tag == END else record_at(data, at, tag)


def number_at(data, at, count):
    return int.from_bytes(data[at : at + count], "big")


def end_at(data, at):
    moment = number_at(data, at + 1, 8)
    if moment >= MOMENTS_END:
        raise Damaged(at, "moment")
    return End(at, HEADS[END], moment)


def record_at(data, at, tag):
    """The put or the removal at an offset, whose head isn't cut."""
    sequence, behind = number_at(data, at + 1, 8), at + 9
    until, value_length = NEVER, 0
    if tag == PUT:
        until, behind = number_at(data, behind, 8), behind + 8
        value_length = number_at(data, behind + 2, 4)
    key_length = number_at(data, behind, 2)
    check_numbers(at, sequence, until)
    check_lengths(at, key_length, value_length)
    key_from = at + HEADS[tag]
    value_from = key_from + key_length
    behind = value_from + value_length
    if behind > len(data):
        raise Damaged(at, "cut")
    value = data[value_from:behind] if tag == PUT else None
    return Record(at, behind - at, sequence, data[key_from:value_from], value, until)


def check_numbers(at, sequence, until):
    if sequence >= NUMBERS_END:
        raise Damaged(at, "sequence")
    if NUMBERS_END <= until < NEVER:
        raise Damaged(at, "until")


def check_lengths(at, key_length, value_length):
    if not 0 < key_length <= LONGEST_KEY:
        raise Damaged(at, "key")
    if value_length > LONGEST_VALUE:
        raise Damaged(at, "value")


def frame_at(data, at):
    """The items of the frame at an offset, one after another up to its end."""
    item = None
    while not isinstance(item, End):
        item = item_at(data, at)
        yield item
        at += item.size


def gate_at(data, at):
    """The gate at an offset, behind the end of a frame."""
    if at == len(data):
        raise Damaged(at, "cut")
    return Gate(at, data[at])


def parts_of(data):
    """All that is looked at in a file, from its front: gates, the version and items."""
    if not data:
        return
    gate = gate_at(data, 0)
    yield gate
    if not gate.is_open or len(data) == 1:
        return
    if data[1] != VERSION:
        raise Damaged(1, "version")
    yield Version(1)
    at = 2
    while gate.is_open:
        for item in frame_at(data, at):
            yield item
            at = item.offset + item.size
        gate = gate_at(data, at)
        yield gate
        at += 1


@dataclasses.dataclass(frozen=True)
class DataFile:
    """A data file as it is read: what was looked at, and the first damage, which ends it."""

    size: int
    parts: list
    damage: Damage | None

    @property
    def records(self):
        """The records that count."""
        return [part for part in self.parts if isinstance(part, Record)]

    @property
    def moments(self):
        """The moments of the frames that count."""
        return [part.moment for part in self.parts if isinstance(part, End)]


def read_file(data):
    """Reads the bytes of a data file."""
    parts = []
    try:
        for part in parts_of(data):
            parts.append(part)
    except Damaged as found:
        return DataFile(len(data), parts, found.damage)
    return DataFile(len(data), parts, None)


def items_behind(data, at):
    """The items that can be read from an offset on, as far as they can. They need not count."""
    try:
        yield from frame_at(data, at)
    except Damaged:
        return


@dataclasses.dataclass(frozen=True)
class Newest:
    """The newest record of a key, and the number of its file."""

    number: int
    record: Record

    @property
    def rank(self):
        return self.record.sequence, self.number, self.record.offset


@dataclasses.dataclass(frozen=True)
class Folder:
    """The data files of a directory's main store by their numbers, in ascending order."""

    files: dict

    def damage(self):
        """The number of the first file that is damaged and its damage, None where none is."""
        found = ((number, file.damage) for number, file in self.files.items() if file.damage)
        return next(found, None)

    def mark(self):
        """The greatest moment of a frame that counts, 0 where none counts."""
        return max((moment for file in self.files.values() for moment in file.moments), default=0)

    def newest(self):
        """The newest record under each key: by sequence number, then by file, then by offset."""
        found = {}
        for number, file in self.files.items():
            for record in file.records:
                one = Newest(number, record)
                if record.key not in found or found[record.key].rank < one.rank:
                    found[record.key] = one
        return found


def log_number(name):
    """The number of the data file with this name, None where it is no data file of the main store."""
    match = LOG_TEXT.fullmatch(name)
    number = int(match[1]) if match else 0
    return number if 0 < number <= LAST_FILE else None


def log_name(number):
    return f"s0-{number:010}.log"


def read_folder(path):
    """Reads the data files of a directory."""
    numbers = sorted(filter(None, map(log_number, os.listdir(path))))
    files = {}
    for number in numbers:
        with open(os.path.join(path, log_name(number)), "rb") as file:
            files[number] = read_file(file.read())
    return Folder(files)
