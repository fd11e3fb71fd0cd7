"""Plans lists of descriptors of Intel's Data Streaming Accelerator: bytes in, bytes or an exception out.

    from dsa_planner import Settings, move, plan_list

    settings = Settings(greatest_batch=4, greatest_transfer=4096, lone=10, batch=14, fence=3, staging=0x10000)
    print(plan_list(settings, move(0x1000, 0x2000, 64, 0x8000) + move(0x3000, 0x4000, 64, 0x8020)).cost)

The calls are those of the C library (dsa_planner.h says what each promises, and docs/FORMATS.md explains the bytes);
a call that refuses raises `Refusal`. Calls may run on several threads at once, and other threads of Python run meanwhile.

The library is libdsa_planner.so.1: the file that the variable DSA_PLANNER_LIBRARY names, else the one of the prefix that
this module is installed in, else the one that the system's loader finds. If none can be used, importing this module
raises `ImportError`, which says what to do."""

from __future__ import annotations

import ctypes
import os
from dataclasses import dataclass
from pathlib import Path
from typing import Callable, Dict, FrozenSet, Iterable, List, NamedTuple, Optional, Sequence, Tuple, Union

from dsa_descriptors import (
    _whole, apply_delta, compare, compare_pattern, copy_crc, crc, dualcast, fill, move,
)

__all__ = [
    "BARRIER", "BEGINS", "BLOCK_ON_FAULT", "CAUSES", "FENCED", "MOST_PIECES", "Certificate", "Group", "Planned",
    "Prepared", "Refusal", "Resumed", "Retired", "Settings", "Submitted", "Summary", "Tracker", "apply_delta",
    "check", "check_list", "compare", "compare_pattern", "copy_crc", "count_pieces", "crc", "dualcast", "fill",
    "groups", "judge", "library_version", "move", "plan_list", "plan_list_certified", "prepare", "resume",
]

MOST_PIECES = 65_536
"""The most pieces of a planned list. An operation longer than `greatest_transfer` is several pieces."""
BEGINS = 1
"""The mark of a piece that begins a group: a batch, or a descriptor by itself."""
FENCED = 2
"""The mark of a piece that carries the fence; it is added to `BEGINS`."""
BARRIER = 0x0001
"""The flag of an operation that begins after a barrier."""
BLOCK_ON_FAULT = 0x0002
"""The flag that has the device wait for pages that are absent, if its queue allows that."""

Bytes = Union[bytes, bytearray, memoryview]
Pair = Optional[Tuple[int, int]]

# The library that this module was written for: its major version, and the least minor version.
_MAJOR, _MINOR = 1, 0
_SONAME = f"libdsa_planner.so.{_MAJOR}"
_NONE = 2**32 - 1


class _Settings(ctypes.Structure):
    _fields_ = [
        (name, ctypes.c_uint64)
        for name in ("version", "greatest_batch", "greatest_transfer", "lone", "batch", "fence", "staging")
    ]


class _Planned(ctypes.Structure):
    _fields_ = [(name, ctypes.c_uint64) for name in ("cost", "pieces", "portal_len", "staging_len")]


class _Resumed(ctypes.Structure):
    _fields_ = [(name, ctypes.c_uint64) for name in ("rest_len", "left_out", "stopped_by")]


class _Refusal(ctypes.Structure):
    _fields_ = [
        ("number", ctypes.c_uint32),
        ("inner", ctypes.c_uint32),
        ("first", ctypes.c_uint64),
        ("second", ctypes.c_uint64),
    ]


class _Pair(ctypes.Structure):
    _fields_ = [("first", ctypes.c_uint32), ("second", ctypes.c_uint32)]


class _Region(ctypes.Structure):
    _fields_ = [("first", ctypes.c_uint64), ("len", ctypes.c_uint64)]


class _Span(ctypes.Structure):
    _fields_ = [("first", ctypes.c_uint64), ("len", ctypes.c_uint64)]


class _Row(ctypes.Structure):
    _fields_ = [("words", ctypes.c_uint64 * 10)]


class _Info(ctypes.Structure):
    _fields_ = [(name, ctypes.c_uint64) for name in ("cost", "pieces", "rows", "portal_len", "staging_len")]


# ---- the library


def _places(soname: str, variable: str) -> List[str]:
    """Where a library may be, best first."""
    named = os.environ.get(variable)
    if named:
        return [named]
    folder = Path(__file__).resolve().parent
    is_installed = folder.parts[-3:] == ("share", "dsa-planner", "python")
    own = folder.parent.parent.parent / "lib" / soname
    return [str(own), soname] if is_installed and own.exists() else [soname]


def _load(module: str, soname: str, variable: str, declare: Callable[[ctypes.CDLL, str], None]) -> ctypes.CDLL:
    """The library of a module, with its version looked at and its calls declared."""
    fault: Optional[OSError] = None
    for place in _places(soname, variable):
        try:
            library = ctypes.CDLL(place)
        except OSError as error:
            fault = fault or error
            continue
        try:
            declare(library, place)
        except AttributeError as error:
            raise ImportError(f"{module}: {place} lacks a call of dsa-planner ({error})") from None
        return library
    named = os.environ.get(variable)
    wanted = f"{named}, which {variable} names" if named else soname
    what_to_do = f"Install the package dsa-planner, or set {variable} to the file."
    raise ImportError(f"{module}: cannot load {wanted} ({fault}). {what_to_do}")


def _need_version(library: ctypes.CDLL, place: str) -> None:
    """Raises ImportError if the library is none, or too old, or of another major version."""
    try:
        number = library.dsa_planner_version
    except AttributeError:
        raise ImportError(f"dsa_planner: {place} is no library of dsa-planner {_MAJOR}.{_MINOR} or later") from None
    number.restype, number.argtypes = ctypes.c_uint32, []
    major, minor = number() // 10_000, number() // 100 % 100
    if major != _MAJOR or minor < _MINOR:
        raise ImportError(
            f"dsa_planner: {place} has version {major}.{minor}, and this module needs {_MAJOR}.{_MINOR} or a later "
            f"{_MAJOR}.x: install the package dsa-planner anew"
        )


def _declare(library: ctypes.CDLL, place: str) -> None:
    """Declares the calls as dsa_planner.h does, of a library of the right version."""
    _need_version(library, place)
    byte, word = ctypes.POINTER(ctypes.c_uint8), ctypes.POINTER(ctypes.c_uint64)
    size, pairs = ctypes.c_size_t, ctypes.POINTER(_Pair)
    listed = [ctypes.POINTER(_Settings), word, size, byte, size]
    planned, refusal = ctypes.POINTER(_Planned), ctypes.POINTER(_Refusal)
    regions, rows, info = ctypes.POINTER(_Region), ctypes.POINTER(_Row), ctypes.POINTER(_Info)
    rooms = [byte, size, byte, size]
    slot, words, spans = ctypes.POINTER(ctypes.c_uint32), [word, size], [ctypes.POINTER(_Span), size] * 2
    number, kept = ctypes.c_uint32, [regions, size, rows, size]
    certificate = [word, size, pairs, size]
    calls = {
        "dsa_refusal_text": (ctypes.c_uint64, [refusal, ctypes.c_char_p, size]),
        "dsa_count_pieces": (ctypes.c_uint64, listed),
        "dsa_plan_list": (number, [*listed, *rooms, planned, refusal]),
        "dsa_plan_list_certified": (number, [*listed, *rooms, *certificate, byte, size, planned, refusal]),
        "dsa_check": (ctypes.c_uint32, [*listed, byte, size, ctypes.c_uint64, *certificate, word, refusal]),
        "dsa_check_list": (number, [*listed, *[byte, size] * 2, ctypes.c_uint64, *certificate, word, refusal]),
        "dsa_resume": (number, [*listed, *[byte, size] * 2, number, byte, size, ctypes.POINTER(_Resumed), refusal]),
        "dsa_judge": (number, [*listed, byte, size, word, refusal]),
        "dsa_prepare": (number, [*listed, *kept, info, refusal]),
        "dsa_fill": (ctypes.c_uint32, [rows, size, word, size, ctypes.c_uint64, *rooms, refusal]),
        "dsa_track_begin": (number, [*words, number, number, number, number, refusal]),
        "dsa_track_list": (number, [*words, *listed, *[ctypes.c_uint64] * 3, slot, word, refusal]),
        "dsa_track_spans": (number, [*words, *spans, ctypes.c_uint64, slot, word, refusal]),
        "dsa_track_groups": (number, [*words, *listed, byte, size, ctypes.c_uint64, slot, size, refusal]),
        "dsa_track_ask": (number, [*words, *spans, word, refusal]),
        "dsa_track_waits": (number, [*words, number, word, refusal]),
        "dsa_track_complete": (number, [*words, number, word, word, refusal]),
        "dsa_track_withdraw": (number, [*words, number, word, word, refusal]),
    }
    for name, (result, arguments) in calls.items():
        call = getattr(library, name)
        call.restype, call.argtypes = result, arguments


_library = _load("dsa_planner", _SONAME, "DSA_PLANNER_LIBRARY", _declare)


def library_version() -> Tuple[int, int, int]:
    """The version of the library that is used: major, minor and patch."""
    number = int(_library.dsa_planner_version())
    return number // 10_000, number // 100 % 100, number % 100


# ---- what goes in and out


@dataclass(frozen=True)
class Settings:
    """The limits of the device, and what submissions cost, in a unit of the caller's choice."""

    greatest_batch: int
    """The most pieces of a batch, 2 to 1,024."""
    greatest_transfer: int
    """The most bytes of a piece, 8 to 2^31, a multiple of 8."""
    lone: int
    """The price of a descriptor by itself, at most 1,000,000,000."""
    batch: Union[int, Sequence[int]]
    """The price of a batch without its fences, or the prices of batches of 2, 3, .. `greatest_batch` pieces."""
    fence: int
    """The price of each fence."""
    staging: int
    """The address of the staging area, a multiple of 64, at most 2^63."""

    @property
    def version(self) -> int:
        """1, or 2 if prices are by size; a certificate has the version of the settings that it was written for."""
        return 1 if isinstance(self.batch, int) else 2

    def _raw(self) -> Tuple[_Settings, "ctypes.Array[ctypes.c_uint64]", int]:
        """The settings as C lays them out, and the table of prices with its length."""
        prices = [] if isinstance(self.batch, int) else list(self.batch)
        flat = self.batch if isinstance(self.batch, int) else 0
        numbers = {
            "version": self.version, "greatest_batch": self.greatest_batch, "greatest_transfer": self.greatest_transfer,
            "lone": self.lone, "batch": flat, "fence": self.fence, "staging": self.staging,
        }
        raw = _Settings(**{name: _whole(name, value) for name, value in numbers.items()})
        return raw, _words([_whole("a price of a batch", price) for price in prices]), len(prices)


class Summary(NamedTuple):
    """What `plan_list` answers."""

    cost: int
    """What the plan costs. No legal plan of these pieces costs less."""
    pieces: int
    """The number of pieces."""
    portal: bytes
    """The bytes for the work queue's portal, 64 for each group."""
    staging: bytes
    """The bytes for the staging area."""


class Resumed(NamedTuple):
    """What `resume` answers."""

    rest: bytes
    """The list of the pieces that may be done, with the flag `BARRIER` after each barrier between them."""
    left_out: int
    """How many pieces after a barrier are left out, because one before it will not succeed."""
    stopped_by: Optional[int]
    """The first piece that will not, if some are left out: a failed check, or one that is given up."""


@dataclass(frozen=True)
class Certificate:
    """What shows that no legal plan costs less than a plan does."""

    version: int
    """The version of the settings that it was written for."""
    prices: List[int]
    """The least cost of the first 0, 1, .. pieces."""
    pairs: List[Pair]
    """For each piece the pair of conflicting pieces that its chain goes on with, if any."""


@dataclass(frozen=True)
class Planned:
    """What `plan_list_certified` answers: what the plan costs, which no legal plan of these pieces undercuts; the bytes
    for the portal, 64 for each group, and for the staging area; the mark of each piece (`BEGINS`, `FENCED` or their
    sum); and the certificate."""

    cost: int
    portal: bytes
    staging: bytes
    marks: bytes
    certificate: Certificate


CAUSES: Dict[int, str] = {
    1: "Length",
    2: "Opcode",
    3: "FlagBits",
    4: "Reserved",
    5: "SizeZero",
    6: "Wrap",
    7: "RecordAlign",
    8: "DualcastBits",
    9: "Overlap",
    10: "Delta",
    11: "Expected",
    12: "MixedPasid",
    13: "RecordMeetsData",
    30: "DeltaTooLong",
    31: "ExpectedSplit",
    32: "TooManyPieces",
    33: "StagingMeets",
    34: "RowMeetsData",
    35: "RowWrap",
    37: "OverTransfer",
    40: "Count",
    41: "GroupSize",
    42: "FirstFence",
    43: "Unfenced",
    44: "PortalLength",
    45: "BatchFields",
    46: "StagingLength",
    47: "Entry",
    48: "EntryFence",
    49: "RecordBytes",
    60: "Plan",
    61: "Lengths",
    62: "Pair",
    63: "Price",
    64: "Total",
    65: "Version",
    66: "OtherPiece",
    73: "Memory",
    83: "Settings",
    90: "NoRoom",
    91: "NoRoomForCertificate",
    92: "NoRoomForRows",
    93: "NoRoomForList",
    94: "NoRoomForReasons",
    95: "NoRoomForWarnings",
    100: "RegionWrap",
    101: "RegionOrder",
    102: "Outside",
    103: "Bases",
    104: "Room",
    105: "BaseWrap",
    106: "Misaligned",
    107: "BaseDualcastBits",
    108: "RegionsMeet",
    109: "BaseStagingMeets",
    110: "Staging",
    111: "NotPrepared",
    112: "Records",
    113: "SharedRecord",
    114: "NotFailed",
    115: "PassedBarrier",
    120: "NoSlot",
    121: "TooManySpans",
    122: "NotOutstanding",
    123: "Held",
    124: "SpanWrap",
    125: "OtherOwner",
    126: "NotATracker",
    127: "OtherPlan",
    128: "FewSlots",
}
"""The name of each cause, by its number."""


class Refusal(Exception):
    """Why a call refuses: its cause, and the places that the cause names."""

    number: int
    """The number of the cause; `CAUSES` has its name."""
    inner: int
    """The number of the cause within, of a plan or a piece that is refused in its turn, else 0."""
    first: int
    """The first index that the cause names, else 0; of 83 the number of the setting, of 90 the bytes that
    portal needs, of 91 the number of pieces, of 92 that of rows, of 121 that of spans, of 122 and 123 the slot,
    of 126 the measure of a tracker."""
    second: int
    """The second index, else 0; of 90 the bytes that staging needs."""

    def __init__(self, number: int, inner: int = 0, first: int = 0, second: int = 0) -> None:
        super().__init__(number, inner, first, second)
        self.number, self.inner, self.first, self.second = number, inner, first, second

    @property
    def name(self) -> str:
        """The name of the cause, as Unfenced."""
        return CAUSES.get(self.number, "Unknown")

    def __str__(self) -> str:
        named = ((number, CAUSES.get(number, "Unknown")) for number in (self.number, self.inner) if number)
        said = (f"{number} {name}: {_sentence(number, self.first, self.second)}" for number, name in named)
        return "refused " + ": ".join(said)


def _sentence(number: int, first: int, second: int) -> str:
    """What the cause of a number means, with the numbers that it names, as the library says it."""
    text = ctypes.create_string_buffer(512)
    length = _library.dsa_refusal_text(ctypes.byref(_Refusal(number, 0, first, second)), text, len(text))
    return text.raw[:length].decode() or "a cause of a later version of the library"


# ---- plans


class Group(NamedTuple):
    """What one entry of the portal submits: a batch, or a descriptor by itself."""

    pieces: range
    """The indices of its pieces."""
    fenced: List[int]
    """Those of its pieces that begin after a fence."""


def groups(marks: Bytes) -> List[Group]:
    """The groups of a plan, by the marks of its pieces. The first piece begins a group, whatever its mark."""
    begins = [k for k, mark in enumerate(marks) if k == 0 or mark & BEGINS]
    ranges = [range(first, end) for first, end in zip(begins, [*begins[1:], len(marks)])]
    return [Group(pieces, [k for k in pieces if marks[k] & FENCED]) for pieces in ranges]


# ---- the calls


def _words(values: Sequence[int]) -> "ctypes.Array[ctypes.c_uint64]":
    """An array of the values, of one item at the least, so that it has an address."""
    return (ctypes.c_uint64 * max(1, len(values)))(*values)


def _room(size: int) -> "ctypes.Array[ctypes.c_uint8]":
    return (ctypes.c_uint8 * max(1, size))()


def _given(name: str, data: Bytes) -> Tuple["ctypes.Array[ctypes.c_uint8]", int]:
    """A copy of bytes of the caller's, and how many they are."""
    if not isinstance(data, (bytes, bytearray, memoryview)):
        raise TypeError(f"{name} is of type {type(data).__name__}, and has to be bytes")
    held = bytes(data)
    return (ctypes.c_uint8 * max(1, len(held))).from_buffer_copy(held or b"\0"), len(held)


def _answered(code: int, refusal: _Refusal) -> None:
    if code != 0:
        raise Refusal(refusal.number, refusal.inner, refusal.first, refusal.second)


def count_pieces(settings: Settings, operations: Bytes) -> int:
    """How many pieces a list has: 65,537 for more than may be planned, and 0 for settings that are refused."""
    raw, table, entries = settings._raw()
    listed, size = _given("operations", operations)
    return int(_library.dsa_count_pieces(raw, table, entries, listed, size))


def plan_list(settings: Settings, operations: Bytes) -> Summary:
    """Plans a list: 64 bytes for each operation, in their order. Raises `Refusal`.

    If all operations succeed, the final memory is that of the list in order. Nothing is promised of what another
    thread, an interrupt or the device's other queues see in between, nor that a later operation waits for an earlier
    one to succeed, if no barrier is between them.

    An operation with the flag `BARRIER` begins after a barrier. If each entry is awaited, and none is submitted after
    one that failed, the device starts nothing of it, nor of what comes after it, before all operations before it have
    ended with status 1. No plan that keeps each barrier costs less.

    Of a list with a checksum (`crc`, `copy_crc`) no operation is split: one that is longer than the greatest transfer
    is refused (37)."""
    raw, table, entries = settings._raw()
    listed, size = _given("operations", operations)
    pieces = min(int(_library.dsa_count_pieces(raw, table, entries, listed, size)), MOST_PIECES)
    portal, staging = _room(64 * pieces), _room(80 * pieces)
    planned, refusal = _Planned(), _Refusal()
    rooms = portal, 64 * pieces, staging, 80 * pieces
    _answered(_library.dsa_plan_list(raw, table, entries, listed, size, *rooms, planned, refusal), refusal)
    to_portal, to_staging = bytes(portal)[: planned.portal_len], bytes(staging)[: planned.staging_len]
    return Summary(planned.cost, planned.pieces, to_portal, to_staging)


def plan_list_certified(settings: Settings, operations: Bytes) -> Planned:
    """The same, with the marks of its pieces and the certificate of the plan, for `check_list`, and without barriers
    for `check`, too. Raises `Refusal`."""
    raw, table, entries = settings._raw()
    listed, size = _given("operations", operations)
    pieces = min(int(_library.dsa_count_pieces(raw, table, entries, listed, size)), MOST_PIECES)
    portal, staging, marks = _room(64 * pieces), _room(80 * pieces), _room(pieces)
    prices, pairs = _words([0] * (pieces + 1)), (_Pair * max(1, pieces))()
    planned, refusal = _Planned(), _Refusal()
    rooms = portal, 64 * pieces, staging, 80 * pieces
    certified = prices, pieces + 1, pairs, pieces, marks, pieces
    code = _library.dsa_plan_list_certified(raw, table, entries, listed, size, *rooms, *certified, planned, refusal)
    _answered(code, refusal)
    count = planned.pieces
    couples = [(pair.first, pair.second) for pair in pairs[:count]]
    found: List[Pair] = [None if couple == (_NONE, _NONE) else couple for couple in couples]
    certificate = Certificate(settings.version, list(prices[: count + 1]), found)
    to_portal, to_staging = bytes(portal)[: planned.portal_len], bytes(staging)[: planned.staging_len]
    return Planned(planned.cost, to_portal, to_staging, bytes(marks)[:count], certificate)


def check(settings: Settings, portal: Bytes, staging: Bytes, certificate: Certificate) -> int:
    """What the bytes of a portal and a staging area cost, if each conflict within a batch has its fence and the
    certificate proves that no legal plan of their pieces costs less. Raises `Refusal`. It needs 256 KiB of stack."""
    return _checked(_library.dsa_check, settings, [_given("portal", portal), _given("staging", staging)], certificate)


def check_list(settings: Settings, operations: Bytes, portal: Bytes, staging: Bytes, certificate: Certificate) -> int:
    """The same for a list, which says where the barriers are: the bytes submit the pieces of the list, the plan keeps
    each barrier, and the certificate proves that no legal plan that does costs less."""
    given = [_given("operations", operations), _given("portal", portal), _given("staging", staging)]
    return _checked(_library.dsa_check_list, settings, given, certificate)


def _checked(call, settings: Settings, given: Sequence, certificate: Certificate) -> int:
    """The cost that a call answers of these bytes and the certificate."""
    raw, table, entries = settings._raw()
    prices = _words([_whole("a price", price) for price in certificate.prices])
    pairs = (_Pair * max(1, len(certificate.pairs)))()
    for at, pair in enumerate(certificate.pairs):
        first, second = pair or (_NONE, _NONE)
        pairs[at] = _Pair(_whole("a pair's index", first, 2**32), _whole("a pair's index", second, 2**32))
    cost, refusal = ctypes.c_uint64(), _Refusal()
    version = _whole("the version", certificate.version)
    certified = version, prices, len(certificate.prices), pairs, len(certificate.pairs)
    arrays = [part for array in given for part in array]
    _answered(call(raw, table, entries, *arrays, *certified, cost, refusal), refusal)
    return cost.value


def resume(
    settings: Settings, operations: Bytes, records: Bytes, given_up: Iterable[int] = (), failed_first: bool = False
) -> Resumed:
    """What is left to submit of a list that was planned with these settings, once a submission has stopped: the pieces
    that have not finished, by their completion records, 32 bytes for each in their order (first byte 0: it waits; 1, 2:
    it has finished). Those of a move to a higher address within its own range run from the end, and so do its records.
    Clear the records of what is left, and plan it: docs/USING.md says when that is right. Raises `Refusal`.

    A piece that failed is not done again if `given_up` has its number (that of the piece, not of the operation). If
    such a piece, or one with status 2, is before a barrier, all pieces after that are left out, and a later call
    does not count them. A list with a piece that writes into another's record is refused (113): resume from the
    first entry on whose status is not 1 if only groups that completed by their batches' records share records. So
    are records by which a piece has begun though another has not succeeded and a barrier is between them (115)."""
    raw, table, entries = settings._raw()
    listed, size = _given("operations", operations)
    pieces = min(int(_library.dsa_count_pieces(raw, table, entries, listed, size)), MOST_PIECES)
    rest, resumed, refusal = _room(64 * pieces), _Resumed(), _Refusal()
    marks = bytearray()
    if isinstance(given_up, (bytes, bytearray, memoryview)):
        raise TypeError("given_up has the numbers of pieces, not a byte for each")
    for piece in given_up:
        place = _whole("a piece", piece, MOST_PIECES)
        marks.extend(bytes(max(0, place + 1 - len(marks))))
        marks[place] = 1
    given = *_given("records", records), *_given("given_up", marks), int(failed_first), rest, 64 * pieces
    _answered(_library.dsa_resume(raw, table, entries, listed, size, *given, resumed, refusal), refusal)
    stopped_by = resumed.stopped_by if resumed.left_out else None
    return Resumed(bytes(rest)[: resumed.rest_len], resumed.left_out, stopped_by)


def judge(settings: Settings, operations: Bytes, marks: Bytes) -> int:
    """What a plan of the caller's costs, a mark for each descriptor of the list, if it is within the limits, each
    conflict within a batch has its fence, and each barrier is kept. No descriptor is split. Raises `Refusal`. It needs
    256 KiB of stack."""
    raw, table, entries = settings._raw()
    cost, refusal = ctypes.c_uint64(), _Refusal()
    listed, marked = _given("operations", operations), _given("marks", marks)
    _answered(_library.dsa_judge(raw, table, entries, *listed, *marked, cost, refusal), refusal)
    return cost.value


class Prepared:
    """A planned list that `fill` writes for other buffers, without planning it anew. `prepare` makes one; `bytes(prepared)`
    is the same as bytes, of which `Prepared(bytes)` is one again."""

    def __init__(self, rows: Bytes) -> None:
        held = bytes(rows)
        if len(held) % ctypes.sizeof(_Row):
            raise Refusal(111)
        self._count = len(held) // ctypes.sizeof(_Row)
        self._rows = (_Row * max(1, self._count))()
        ctypes.memmove(self._rows, held, len(held))
        self._lengths = [int(word) for word in self._rows[0].words] if self._count else [0] * 10

    def __bytes__(self) -> bytes:
        return bytes(self._rows)[: self._count * ctypes.sizeof(_Row)]

    def fill(self, bases: Sequence[int], staging: int) -> Tuple[bytes, bytes]:
        """The bytes for the portal and for the staging area, if the regions begin at these bases and the staging area is at
        this address. Raises `Refusal`."""
        numbers = _words([_whole("a base", base) for base in bases])
        portal_len, staging_len = (min(size, 80 * MOST_PIECES) for size in self._sizes())
        portal, area, refusal = _room(portal_len), _room(staging_len), _Refusal()
        rooms = portal, portal_len, area, staging_len
        address = _whole("the staging address", staging)
        code = _library.dsa_fill(self._rows, self._count, numbers, len(bases), address, *rooms, refusal)
        _answered(code, refusal)
        return bytes(portal)[:portal_len], bytes(area)[:staging_len]

    def _sizes(self) -> Tuple[int, int]:
        """How many bytes there are to fill, by the header."""
        return 64 * self._lengths[3], 64 * self._lengths[4] + 32 * self._lengths[5]


def prepare(settings: Settings, operations: Bytes, regions: Sequence[Tuple[int, int]]) -> Prepared:
    """Plans a list once, for buffers at any addresses: the regions, each its first address and its length, are those
    with which the list was made, in the order of their addresses; the seed of a checksum lies in one of them, too. What
    is filled keeps its barriers. Raises `Refusal`."""
    raw, table, entries = settings._raw()
    listed, size = _given("operations", operations)
    pieces = min(int(_library.dsa_count_pieces(raw, table, entries, listed, size)), MOST_PIECES)
    spans = (_Region * max(1, len(regions)))()
    for at, (first, length) in enumerate(regions):
        spans[at] = _Region(_whole("a region's address", first), _whole("a region's length", length))
    room = 1 + len(regions) + 3 * pieces
    rows, info, refusal = (_Row * room)(), _Info(), _Refusal()
    given = listed, size, spans, len(regions), rows, room
    code = _library.dsa_prepare(raw, table, entries, *given, info, refusal)
    _answered(code, refusal)
    return Prepared(bytes(rows)[: info.rows * ctypes.sizeof(_Row)])


# ---- submissions in flight

Spans = Sequence[Tuple[int, int]]


class Submitted(NamedTuple):
    """A submission that a tracker has taken."""

    slot: int
    """Its slot."""
    waits: FrozenSet[int]
    """The slots of those that it waits for; with none it is ready."""


class Retired(NamedTuple):
    """What follows from taking a submission off."""

    waited: FrozenSet[int]
    """The slots of those that waited for it."""
    ready: FrozenSet[int]
    """Those of them that wait for none any more."""


def _slots(word: int) -> FrozenSet[int]:
    return frozenset(slot for slot in range(64) if word >> slot & 1)


def _word(slots: Iterable[int]) -> int:
    return sum({1 << _whole("a slot", slot, 64) for slot in slots})


def _spans(name: str, spans: Spans) -> Tuple["ctypes.Array[_Span]", int]:
    """The spans, each its first address and its length, and how many they are."""
    laid = (_Span * max(1, len(spans)))()
    for at, (first, length) in enumerate(spans):
        laid[at] = _Span(_whole(f"an address of {name}", first), _whole(f"a length of {name}", length))
    return laid, len(spans)


class Tracker:
    """Says which submissions in flight a further one has to wait for: those of which one writes what the other
    reads or writes. A submission has a slot until it is taken off. Calls on one tracker are made by one thread
    at a time.

    Its caller rings a submission once and only when it is ready, completes only what was rung and has ended, and
    withdraws only what was not rung. It fills a list's staging area and clears its records only when it is ready, too,
    and reads its records and results before it completes it: another may be rung over them then. Then what it rings
    leaves what it leaves one after another. Each call may raise `Refusal`, and has changed nothing then."""

    def __init__(self, slots: int, spans: int, log2_rows: int = 13, log2_unit: int = 12) -> None:
        """At most 64 slots, for submissions that read at most so many spans and write at most so many; a list of n
        pieces takes 3 * n + 1. The other two change no answer: there are 2^log2_rows rows for a first look, and
        addresses are looked up in units of 2^log2_unit bytes, best near the length of an operation."""
        measures = {"slots": slots, "spans": spans, "log2_rows": log2_rows, "log2_unit": log2_unit}
        numbers = [_whole(name, value, 2**32) for name, value in measures.items()]
        is_large = slots > 64 or log2_rows > 32  # no array is made for a call that refuses these
        size = 0 if is_large else 16 + slots * (3 + 4 * spans) + (2 << log2_rows)
        try:
            self._words, refusal = ((ctypes.c_uint64 * size)(), size), _Refusal()
        except MemoryError:
            raise Refusal(73) from None
        _answered(_library.dsa_track_begin(*self._words, *numbers, refusal), refusal)

    def submit(self, settings: Settings, operations: Bytes, staging: Tuple[int, int],
               also: Iterable[int] = ()) -> Submitted:
        """Takes a list as a submission: the pieces into which these settings split it, and
        the staging area, its address and its length, which counts as written; that of the settings does not. It waits
        for the outstanding ones that conflict with it, and for those of `also` that are outstanding."""
        raw, table, entries = settings._raw()
        slot, waits, refusal = ctypes.c_uint32(), ctypes.c_uint64(), _Refusal()
        first, length = (_whole("the staging area", value) for value in staging)
        given = raw, table, entries, *_given("operations", operations), first, length, _word(also)
        _answered(_library.dsa_track_list(*self._words, *given, slot, waits, refusal), refusal)
        return Submitted(slot.value, _slots(waits.value))

    def submit_spans(self, reads: Spans, writes: Spans, also: Iterable[int] = ()) -> Submitted:
        """The same of a submission that reads and writes these spans, each its first address and its length."""
        slot, waits, refusal = ctypes.c_uint32(), ctypes.c_uint64(), _Refusal()
        given = *_spans("reads", reads), *_spans("writes", writes), _word(also)
        _answered(_library.dsa_track_spans(*self._words, *given, slot, waits, refusal), refusal)
        return Submitted(slot.value, _slots(waits.value))

    def submit_groups(self, settings: Settings, portal: Bytes, staging: Bytes,
                      also: Iterable[int] = ()) -> List[int]:
        """Takes each entry of a portal as a submission of its own, in their order, and answers their slots: groups of
        one plan that do not conflict need not wait for each other. The bytes are those that planning or filling
        answered, under these settings. An entry's submission has its pieces and, as written, what the entry names of
        the staging area. It waits for the outstanding ones that conflict with it, those of earlier entries among
        them, and for those of `also` that are outstanding by then: `range(64)` keeps the plan's own stop point. A
        group of n pieces takes 3 * n + 2 spans."""
        raw, table, entries = settings._raw()
        to_portal, to_staging, refusal = _given("portal", portal), _given("staging", staging), _Refusal()
        count = to_portal[1] // 64
        slots = (ctypes.c_uint32 * max(1, count))()
        given = raw, table, entries, *to_portal, *to_staging, _word(also)
        _answered(_library.dsa_track_groups(*self._words, *given, slots, count, refusal), refusal)
        return list(slots)[:count]

    def ask(self, reads: Spans, writes: Spans) -> FrozenSet[int]:
        """The outstanding submissions that conflict with accesses to these spans: with none, do them at once."""
        waits, refusal = ctypes.c_uint64(), _Refusal()
        given = *_spans("reads", reads), *_spans("writes", writes)
        _answered(_library.dsa_track_ask(*self._words, *given, waits, refusal), refusal)
        return _slots(waits.value)

    def waits(self, slot: int) -> FrozenSet[int]:
        """The slots that the submission of this slot still waits for: with none it is ready."""
        waits, refusal = ctypes.c_uint64(), _Refusal()
        _answered(_library.dsa_track_waits(*self._words, _whole("the slot", slot, 2**32), waits, refusal), refusal)
        return _slots(waits.value)

    def complete(self, slot: int) -> Retired:
        """Takes the submission of this slot off, which was ready and has ended."""
        return self._retired(_library.dsa_track_complete, slot)

    def withdraw(self, slot: int) -> Retired:
        """Takes the submission of this slot off, which was not rung."""
        return self._retired(_library.dsa_track_withdraw, slot)

    def _retired(self, call: "ctypes._NamedFuncPointer", slot: int) -> Retired:
        waited, ready, refusal = ctypes.c_uint64(), ctypes.c_uint64(), _Refusal()
        _answered(call(*self._words, _whole("the slot", slot, 2**32), waited, ready, refusal), refusal)
        return Retired(_slots(waited.value), _slots(ready.value))
