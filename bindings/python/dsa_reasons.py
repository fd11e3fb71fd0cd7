"""Says why the plan of a list has its fences and its groups, and what is worth a warning about it.

    from dsa_planner import Settings, move
    from dsa_reasons import explain_list, warn_list

    settings = Settings(greatest_batch=4, greatest_transfer=4096, lone=10, batch=14, fence=3, staging=0x10000)
    for reason in explain_list(settings, move(0x1000, 0x2000, 64, 0x8000) + move(0x2000, 0x3000, 64, 0x8020)):
        print(reason.piece, reason)
    for warning in warn_list(settings, move(0x1000, 0x1020, 64, 0x8000)):
        print(warning)

It uses the library that dsa_planner has loaded; dsa_planner.h says what the calls promise."""

from __future__ import annotations

import ctypes
from typing import List, NamedTuple, Optional

import dsa_planner
from dsa_planner import BEGINS, FENCED, MOST_PIECES, Bytes, Settings

__all__ = [
    "HAZARDS", "OVERLAP", "SHARED_RECORD", "UNCHECKED", "UNGUARDED", "Conflict", "ListWarning", "Reason",
    "explain_list", "warn_list",
]

HAZARDS = {1: "read after write", 2: "write after read", 3: "write after write"}
"""The name of each hazard, by its number."""

SHARED_RECORD, UNCHECKED, UNGUARDED, OVERLAP = 1, 2, 3, 4
"""The kinds of warnings: one of a piece and an earlier one writes into the completion record of the other; a compare
without check is before a barrier; what comes after a compare with check may begin before it has ended; a
move's source and destination overlap."""

_TEXT_ROOM = 256


class _Reason(ctypes.Structure):
    _fields_ = [
        (name, ctypes.c_uint64) for name in ("piece", "group", "earlier", "later", "address", "more")
    ] + [(name, ctypes.c_uint32) for name in ("mark", "barrier", "hazard", "in_record")]


class _Warning(ctypes.Structure):
    _fields_ = [(name, ctypes.c_uint64) for name in ("kind", "piece", "other")]


def _declare(library: ctypes.CDLL) -> None:
    """Declares the calls as dsa_planner.h does."""
    byte, word, size = ctypes.POINTER(ctypes.c_uint8), ctypes.POINTER(ctypes.c_uint64), ctypes.c_size_t
    listed = [ctypes.POINTER(dsa_planner._Settings), word, size, byte, size]
    refusal = ctypes.POINTER(dsa_planner._Refusal)
    calls = (_Reason, "dsa_explain_list", "dsa_reason_text"), (_Warning, "dsa_warn_list", "dsa_warning_text")
    for found, call, text in calls:
        try:
            of_list, of_one = getattr(library, call), getattr(library, text)
        except AttributeError as error:
            raise ImportError(f"dsa_reasons: the library lacks a call of dsa-planner ({error})") from None
        of_list.restype, of_list.argtypes = ctypes.c_uint32, [*listed, ctypes.POINTER(found), size, word, refusal]
        of_one.restype, of_one.argtypes = ctypes.c_uint64, [ctypes.POINTER(found), ctypes.c_char_p, size]


_library = dsa_planner._library
_declare(_library)


def _said(call: "ctypes._NamedFuncPointer", raw: ctypes.Structure) -> str:
    """The sentence that a call writes."""
    text = ctypes.create_string_buffer(_TEXT_ROOM)
    length = call(ctypes.byref(raw), text, len(text))
    if length == 0:
        raise MemoryError
    return text.raw[:length].decode()


class Conflict(NamedTuple):
    """Two conflicting pieces, by their numbers."""

    earlier: int
    """The earlier piece."""
    later: int
    """The later piece, which waits."""
    hazard: str
    """Why it does, one of `HAZARDS`."""
    address: int
    """An address where the two conflict."""
    record_of: Optional[int]
    """The piece in whose completion record the address is, if it is in one; the earlier one if it is in both."""


class Reason(NamedTuple):
    """Why a piece carries a fence, or begins a group. `str` of it is the sentence that `dsa_text explain` has for the
    fence."""

    piece: int
    """The piece."""
    group: int
    """The number of its group."""
    is_fence: bool
    """Whether the piece is fenced; else a group begins with it."""
    is_barrier: bool
    """Whether a barrier is before the piece."""
    conflict: Optional[Conflict]
    """Of the conflicts that this fence or beginning alone separates, the one with the least later piece, and for that
    the greatest earlier piece; without one a barrier asks for a fence, and for a beginning that or the limit of a batch
    or the prices."""
    more: int
    """How many more conflicts it alone separates."""

    def __str__(self) -> str:
        return _said(_library.dsa_reason_text, _raw_of(self))


def _raw_of(reason: Reason) -> _Reason:
    """The reason as C lays it out."""
    mark = FENCED if reason.is_fence else BEGINS
    raw = _Reason(piece=reason.piece, group=reason.group, more=reason.more, mark=mark, barrier=reason.is_barrier)
    if reason.conflict is not None:
        raw.earlier, raw.later, hazard, raw.address, record_of = reason.conflict
        raw.hazard = next(number for number, name in HAZARDS.items() if name == hazard)
        raw.in_record = 0 if record_of is None else 1 if record_of == raw.earlier else 2
    return raw


def _reason_of(raw: _Reason) -> Reason:
    """The reason that the library wrote."""
    conflict = None
    if raw.hazard:
        record_of = {1: raw.earlier, 2: raw.later}.get(raw.in_record)
        conflict = Conflict(raw.earlier, raw.later, HAZARDS[raw.hazard], raw.address, record_of)
    return Reason(raw.piece, raw.group, bool(raw.mark & FENCED), bool(raw.barrier), conflict, raw.more)


class ListWarning(NamedTuple):
    """What is worth a warning about a piece. `str` of it is its sentence."""

    kind: int
    """`SHARED_RECORD`, `UNCHECKED`, `UNGUARDED` or `OVERLAP`."""
    piece: int
    """The piece."""
    other: Optional[int]
    """Of `SHARED_RECORD` the earlier piece, the last one if there are several."""

    def __str__(self) -> str:
        return _said(_library.dsa_warning_text, _Warning(self.kind, self.piece, self.other or 0))


def explain_list(settings: Settings, operations: Bytes) -> List[Reason]:
    """Why the plan of a list, that of `plan_list`, has its fences and its groups: a reason for each fenced piece and
    for each that a group after the first begins with, in the order of the pieces. Raises `Refusal`."""
    return [_reason_of(reason) for reason in _listed(_library.dsa_explain_list, _Reason, 1, settings, operations)]


def warn_list(settings: Settings, operations: Bytes) -> List[ListWarning]:
    """What is worth a warning about the pieces of a list and their plan, that of `plan_list`, in the order of the
    pieces. Raises `Refusal`."""
    found = _listed(_library.dsa_warn_list, _Warning, 2, settings, operations)
    return [ListWarning(it.kind, it.piece, it.other if it.kind == SHARED_RECORD else None) for it in found]


def _listed(call: "ctypes._NamedFuncPointer", of: type, most: int, settings: Settings, operations: Bytes) -> list:
    """What a call answers of a list, at most so many for each piece."""
    raw, table, entries = settings._raw()
    listed, size = dsa_planner._given("operations", operations)
    room = most * min(int(_library.dsa_count_pieces(raw, table, entries, listed, size)), MOST_PIECES)
    found, count, refusal = (of * max(1, room))(), ctypes.c_uint64(), dsa_planner._Refusal()
    dsa_planner._answered(call(raw, table, entries, listed, size, found, room, count, refusal), refusal)
    return found[: count.value]
