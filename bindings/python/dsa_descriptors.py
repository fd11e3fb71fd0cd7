"""Descriptors for lists: 64 bytes each, with a completion record at `record`, a multiple of 32; a list is several of
them in a row. Nothing is checked here but that numbers fit their places: `dsa_planner.plan_list` refuses what a list
may not have, and says why. `dsa_planner` has all of them, too."""

from __future__ import annotations

from typing import Optional, Tuple

__all__ = ["apply_delta", "compare", "compare_pattern", "copy_crc", "crc", "dualcast", "fill", "move"]


def _whole(name: str, value: int, limit: int = 2**64) -> int:
    """The value, if it is a whole number from 0 to below the limit."""
    if isinstance(value, bool) or not isinstance(value, int):
        raise TypeError(f"{name} is {value!r}, and has to be a whole number")
    if not 0 <= value < limit:
        raise ValueError(f"{name} is {value}, and has to be from 0 to {limit - 1}")
    return value


def _descriptor(code: int, size: int, record: int, first: int, second: int, own: bytes, flags: int,
                owner: int) -> bytes:
    """The 64 bytes of a descriptor with a completion record, which is requested."""
    word = code << 24 | 0x0C | _whole("flags", flags, 1 << 24)
    fields = [("record", record), ("an address or a pattern", first), ("an address or a pattern", second)]
    numbers = [_whole(name, value).to_bytes(8, "little") for name, value in fields]
    head = owner.to_bytes(4, "little") + word.to_bytes(4, "little") + b"".join(numbers)
    return (head + _whole("size", size, 1 << 32).to_bytes(4, "little") + bytes(4) + own).ljust(64, b"\0")


def _owner(pasid: int, privileged: bool) -> int:
    return _whole("pasid", pasid, 1 << 20) | (1 << 31 if privileged else 0)


def _seeded(seed: int, seed_at: Optional[int]) -> Tuple[int, bytes]:
    """The flag that the seed is in memory, if it is, and the seed or its place."""
    if seed_at is None:
        return 0, _whole("seed", seed, 1 << 32).to_bytes(4, "little")
    if seed:
        raise ValueError("a seed is given or read, not both")
    return 0x010000, bytes(8) + _whole("seed_at", seed_at).to_bytes(8, "little")


def _expecting(expected: Optional[int]) -> Tuple[int, bytes]:
    """The flag check result and the expected result, if one is expected."""
    return (0, b"") if expected is None else (0x0080, bytes([_whole("expected", expected, 2)]))


def move(source: int, target: int, size: int, record: int, *, flags: int = 0, pasid: int = 0,
         privileged: bool = False) -> bytes:
    """The descriptor of a move of `size` bytes, with its completion record at `record`. A list is several of them in a
    row. `flags` are further ones, as `dsa_planner.BLOCK_ON_FAULT`; `pasid` stays 0 if the queue supplies it."""
    return _descriptor(0x03, size, record, source, target, b"", flags, _owner(pasid, privileged))


def fill(target: int, size: int, pattern: int, record: int, *, flags: int = 0, pasid: int = 0,
         privileged: bool = False) -> bytes:
    """That of a fill with the 8 bytes of `pattern`, the lowest first."""
    return _descriptor(0x04, size, record, pattern, target, b"", flags, _owner(pasid, privileged))


def compare(first: int, second: int, size: int, record: int, *, expected: Optional[int] = None, flags: int = 0,
            pasid: int = 0, privileged: bool = False) -> bytes:
    """That of a compare of two ranges. With `expected`, 0 for equal and 1 for different, it fails (status 2) if the
    result is the other."""
    check_result, own = _expecting(expected)
    return _descriptor(0x05, size, record, first, second, own, flags | check_result, _owner(pasid, privileged))


def compare_pattern(source: int, size: int, pattern: int, record: int, *, expected: Optional[int] = None,
                    flags: int = 0, pasid: int = 0, privileged: bool = False) -> bytes:
    """That of a compare of a range with the 8 bytes of `pattern`, over and over; `expected` as of `compare`."""
    check_result, own = _expecting(expected)
    return _descriptor(0x06, size, record, source, pattern, own, flags | check_result, _owner(pasid, privileged))


def apply_delta(delta: int, delta_size: int, target: int, size: int, record: int, *, flags: int = 0, pasid: int = 0,
                privileged: bool = False) -> bytes:
    """That of an apply delta: the record of `delta_size` bytes at `delta` is applied to `size` bytes at `target`."""
    own = _whole("delta_size", delta_size, 1 << 32).to_bytes(4, "little")
    return _descriptor(0x08, size, record, delta, target, own, flags, _owner(pasid, privileged))


def dualcast(source: int, first: int, second: int, size: int, record: int, *, flags: int = 0, pasid: int = 0,
             privileged: bool = False) -> bytes:
    """That of a dualcast: a move to `first` and to `second`, whose low 12 bits are equal."""
    own = _whole("second", second).to_bytes(8, "little")
    return _descriptor(0x09, size, record, source, first, own, flags, _owner(pasid, privileged))


def crc(source: int, size: int, record: int, *, seed: int = 0, seed_at: Optional[int] = None, flags: int = 0,
        pasid: int = 0, privileged: bool = False) -> bytes:
    """That of a checksum (CRC-32C) of a range, the number in bytes 16 to 19 of the record: as one checksum of what
    `seed` is that of and of the range. With `seed_at` the seed is read from the four bytes there when it is made; at
    `record + 16` of an earlier checksum, the two make one checksum of both ranges."""
    in_memory, own = _seeded(seed, seed_at)
    return _descriptor(0x10, size, record, source, 0, own, flags | in_memory, _owner(pasid, privileged))


def copy_crc(source: int, target: int, size: int, record: int, *, seed: int = 0, seed_at: Optional[int] = None,
             flags: int = 0, pasid: int = 0, privileged: bool = False) -> bytes:
    """That of a checksum of a range, which is moved to `target`, too, and may not meet it; `seed` and `seed_at` as of
    `crc`."""
    in_memory, own = _seeded(seed, seed_at)
    return _descriptor(0x11, size, record, source, target, own, flags | in_memory, _owner(pasid, privileged))
