"""Runs lists of operations on a work queue of Intel's Data Streaming Accelerator. Experimental: it is not proved, no
device has run it yet, and it may change in any version.

    from dsa_queue import Queue

    a, b, c = bytearray(b"x" * 4096), bytearray(4096), bytearray(4096)
    with Queue(or_software=True) as queue, queue.list() as operations:
        operations.move(a, b)
        operations.move(b, c)   # it waits for the first: nobody has to say so
        operations.check(c, a)  # equal, or nothing that comes later is begun
        operations.run()

What the calls promise is in dsa_queue.h (`man dsa_queue`). A list that does not succeed raises an exception with a
sentence that says what happened and what to do: `Failed`, `Refused`, `LeftOut` or `Lost`.

Buffers are anything with the buffer protocol, as bytearray, memoryview (a slice of one is a part of a buffer), mmap or
an array of numpy. A list holds those of its operations until it is cleared or closed: they can't be resized or freed
until then. If the queue does not answer in time, the device may still use them, and they are held for ever. Nobody
keeps the program from reading and writing them while a list is in flight, so don't.

Threads may share a queue, and other threads of Python run while a list is waited for. A list that is collected as
garbage is given back when the queue gives a list, or is closed; `with` does it at once.

The library is libdsa_queue.so.0, of the package of dsa_planner: the file that the variable DSA_QUEUE_LIBRARY names, or
else found as libdsa_planner is."""

from __future__ import annotations

import ctypes
import os
import threading
import weakref
from collections import deque
from typing import Any, Deque, Dict, Iterable, NamedTuple, Optional, Tuple, Union

import dsa_planner  # its library has to be loaded first: the queue's makes calls of it

__all__ = ["Failed", "Fault", "LeftOut", "List", "Lost", "Queue", "QueueError", "Refused", "Result"]

_SONAME = "libdsa_queue.so.0"
_WHY_ROOM = 1024
_FLAGS = {"keep_faults": 1, "block_on_fault": 2, "or_software": 4, "software": 8, "in_flight": 16}
_DONE, _FAILED, _REFUSED, _LOST, _LEFT_OUT, _RUNNING = range(6)


class _Options(ctypes.Structure):
    _fields_ = [(name, ctypes.c_uint32) for name in ("flags", "lists", "pieces", "wait_ms")] + [
        (name, ctypes.c_uint64) for name in ("lone", "batch", "fence")
    ]


class _Result(ctypes.Structure):
    _fields_ = [
        *((name, ctypes.c_uint8) for name in ("status", "is_write", "result", "has_checksum")),
        ("checksum", ctypes.c_uint32),
        *((name, ctypes.c_uint64) for name in ("offset", "fault")),
    ]


class _View(ctypes.Structure):
    """Py_buffer: what an object exports of its bytes. The address of the object is a number, so that ctypes does not
    count it as a reference."""

    _fields_ = [
        ("buf", ctypes.c_void_p), ("obj", ctypes.c_void_p), ("len", ctypes.c_ssize_t), ("itemsize", ctypes.c_ssize_t),
        ("readonly", ctypes.c_int), ("ndim", ctypes.c_int), ("format", ctypes.c_void_p), ("shape", ctypes.c_void_p),
        ("strides", ctypes.c_void_p), ("suboffsets", ctypes.c_void_p), ("internal", ctypes.c_void_p),
    ]


def _declare(library: ctypes.CDLL, _place: str) -> None:
    """Declares the calls as dsa_queue.h does."""
    at, number, text = ctypes.c_void_p, ctypes.c_int, ctypes.c_char_p
    calls = {
        "dsa_queue_open": (at, [text, ctypes.POINTER(_Options), text]),
        "dsa_queue_close": (None, [at]),
        "dsa_queue_name": (text, [at]),
        "dsa_queue_poll": (at, [at]),
        "dsa_list_get": (at, [at]),
        "dsa_list_drop": (None, [at]),
        "dsa_list_clear": (None, [at]),
        "dsa_list_add": (number, [at, text, ctypes.c_uint64]),
        "dsa_list_barrier": (None, [at]),
        "dsa_list_run": (number, [at]),
        "dsa_list_start": (number, [at]),
        "dsa_list_after": (None, [at, at]),
        "dsa_list_test": (number, [at]),
        "dsa_list_wait": (number, [at]),
        "dsa_list_result": (_Result, [at, number]),
        "dsa_list_failed": (number, [at]),
        "dsa_list_why": (text, [at, text]),
    }
    for name, (result, arguments) in calls.items():
        call = getattr(library, name)
        call.restype, call.argtypes = result, arguments


_library = dsa_planner._load("dsa_queue", _SONAME, "DSA_QUEUE_LIBRARY", _declare)
_get_buffer = ctypes.PYFUNCTYPE(ctypes.c_int, ctypes.py_object, ctypes.POINTER(_View), ctypes.c_int)(
    ("PyObject_GetBuffer", ctypes.pythonapi)
)
_release_buffer = ctypes.PYFUNCTYPE(None, ctypes.POINTER(_View))(("PyBuffer_Release", ctypes.pythonapi))


# ---- what a list answers


class Fault(NamedTuple):
    """Where an operation has met a page fault."""

    address: int
    is_write: bool


class Result(NamedTuple):
    """The result of an operation."""

    status: int
    """As in linux/idxd.h, without bit 7: 1 for success; 0: not begun, or not known."""
    difference: Optional[int]
    """Of a compare that finds a difference: the offset of the first one."""
    fault: Optional[Fault]
    """Of a page fault (status 3 or 4)."""
    checksum: Optional[int] = None
    """Of a checksum that has succeeded."""


class QueueError(Exception):
    """A sentence that says what happened, and what to do."""


class Failed(QueueError):
    """An operation has failed, and nothing after the next barrier was begun."""

    operation: Optional[int]
    """The number of the operation, the first one if there are several; None if the queue itself has failed."""
    result: Optional[Result]
    """Its result."""

    def __init__(self, why: str, operation: Optional[int], result: Optional[Result]) -> None:
        super().__init__(why)
        self.operation, self.result = operation, result


class Refused(QueueError):
    """Nothing was begun."""


class LeftOut(QueueError):
    """Nothing was begun: a list that it comes after has not succeeded, or is lost."""


class Lost(QueueError):
    """The queue has not answered in time. The device may still read and write the buffers, which are held for ever."""


# ---- queues and lists


class _Held:
    """The bytes of an object, which it can't resize or free until they are released."""

    def __init__(self, name: str, of: Any, is_written: bool) -> None:
        self._view = _View()
        _get_buffer(of, self._view, 0)  # raises TypeError or BufferError
        self.name, self.address, self.size = name, self._view.buf or 0, self._view.len
        if is_written and self._view.readonly:
            self.release()
            raise TypeError(f"{name} is read-only, and the device writes to it")

    def release(self) -> None:
        _release_buffer(self._view)


def _size_of(held: list[_Held]) -> int:
    """The size of all of them, but of a delta."""
    sizes = {one.size for one in held if one.name != "delta"}
    if len(sizes) > 1:
        said = ", ".join(f"{one.name} {one.size}" for one in held)
        raise ValueError(f"the buffers have several sizes ({said} bytes); give them one")
    [size] = sizes
    return size


class Queue:
    """A work queue, by its file, as /dev/dsa/wq0.0, or without one the first that is enabled, is of type user, and can
    be opened. Raises `QueueError`.

    `keep_faults`: a page fault fails its operation, and no page is made present. `block_on_fault`: the device waits for
    absent pages itself, if the queue allows that. `or_software`: without a device the processor does the lists, and
    `missing` says why; a queue that is named and can't be opened is an error if there is a device. `software`: it does
    them even if there is a device. `in_flight`: lists may be started, and several be in flight; then all lists are
    ordered. There are at most `lists` at a time, at most 64 (0: 16), each of at most `pieces` pieces (0: 64). After
    `wait_ms` milliseconds (0: 10,000) an entry counts as lost. `prices` are those of a lone descriptor, a batch and a
    fence (all 0: 10, 14, 3; else only that of a fence may be 0)."""

    def __init__(self, file: Union[str, "os.PathLike[str]", None] = None, *, keep_faults: bool = False,
                 block_on_fault: bool = False, or_software: bool = False, software: bool = False,
                 in_flight: bool = False, lists: int = 0, pieces: int = 0, wait_ms: int = 0,
                 prices: Tuple[int, int, int] = (0, 0, 0)) -> None:
        self._at: Optional[int] = None
        self._lock = threading.RLock()  # taken before those of lists
        self._lists: "weakref.WeakValueDictionary[int, List]" = weakref.WeakValueDictionary()
        self._left: Deque[_Operations] = deque()  # of lists that are garbage
        chosen = (keep_faults, block_on_fault, or_software, software, in_flight)
        flags = sum(flag for flag, is_set in zip(_FLAGS.values(), chosen) if is_set)
        small = {"lists": lists, "pieces": pieces, "wait_ms": wait_ms}
        whole = [dsa_planner._whole(name, value, 2**32) for name, value in small.items()]
        lone, batch, fence = prices  # a forgotten one would be 0
        options = _Options(flags, *whole, *(dsa_planner._whole("a price", price) for price in (lone, batch, fence)))
        why = ctypes.create_string_buffer(_WHY_ROOM)
        self._at = _library.dsa_queue_open(None if file is None else os.fsencode(file), options, why)
        said = why.value.decode(errors="replace")
        if self._at is None:
            raise QueueError(said)
        self.missing = said
        """Why the processor does the lists in the place of a device; empty otherwise."""

    def _open(self) -> int:
        if self._at is None:
            raise QueueError("the queue is closed")
        return self._at

    @property
    def name(self) -> str:
        """The name of the queue's file, or "software"."""
        with self._lock:
            return os.fsdecode(_library.dsa_queue_name(self._open()))

    def list(self) -> List:
        """An empty list. Raises `QueueError` if all are in use."""
        with self._lock:
            opened = self._open()
            self._reap()
            at = _library.dsa_list_get(opened)
            if at is None:
                raise QueueError("all lists of the queue are in use; close one, or open the queue with more")
            found = self._lists[at] = List(self, at)
            return found

    def poll(self) -> Optional[List]:
        """Moves all lists in flight on, and answers one that has ended, whoever started it, and that no call has
        answered; None if there is none. `List.test` says how it has ended."""
        with self._lock:
            found = None
            while found is None:
                at = _library.dsa_queue_poll(self._open())
                if at is None:
                    break
                found = self._lists.get(at)  # none of a list that is garbage
            return found

    def _reap(self) -> None:
        """Gives lists back that are garbage."""
        while self._left:
            self._left.popleft().drop()

    def close(self) -> None:
        """Waits for the lists, closes them, and then the queue."""
        with self._lock:
            if self._at is None:
                return
            for one in list(self._lists.values()):
                one.close()
            self._reap()
            at, self._at = self._at, None
            _library.dsa_queue_close(at)

    def __enter__(self) -> Queue:
        return self

    def __exit__(self, *_: Any) -> None:
        self.close()

    def __del__(self) -> None:
        if getattr(self, "_at", None) is not None:
            self.close()


class _Operations:
    """A list of the library, and the buffers of its operations."""

    def __init__(self, at: int) -> None:
        self.at = at
        self.held: list[_Held] = []
        self.is_in_flight = False  # it was begun, and nobody has seen how it has ended, also after an interrupt

    def ended(self, end: int) -> None:
        """Raises how the list has ended, if not by success."""
        if end == _LOST:
            self.held.clear()  # and nobody releases them
        self.is_in_flight = False
        if end == _DONE:
            return
        room = ctypes.create_string_buffer(_WHY_ROOM)
        why = _library.dsa_list_why(self.at, room).decode(errors="replace")
        if end == _FAILED:
            failed = _library.dsa_list_failed(self.at)
            raise Failed(why, *((None, None) if failed < 0 else (failed, self.result(failed))))
        raise {_LOST: Lost, _LEFT_OUT: LeftOut}.get(end, Refused)(why)

    def settle(self) -> None:
        """Waits for a list that is in flight. How it has ended is nobody's concern any more, but for its buffers: the
        library would forget that it was lost."""
        try:
            if self.is_in_flight:
                self.ended(_library.dsa_list_wait(self.at))
        except QueueError:
            pass

    def release(self, count: Optional[int] = None) -> None:
        """Releases all buffers, or the last ones; those of a list in flight are kept for ever."""
        for _ in range(len(self.held) if count is None else count):
            one = self.held.pop()
            if not self.is_in_flight:
                one.release()

    def clear(self) -> None:
        self.settle()
        _library.dsa_list_clear(self.at)
        self.release()

    def drop(self) -> None:
        self.clear()
        _library.dsa_list_drop(self.at)

    def result(self, operation: int) -> Result:
        if self.is_in_flight or not 0 <= operation < 2**31:
            return Result(0, None, None)
        said = _library.dsa_list_result(self.at, operation)
        fault = Fault(said.fault, bool(said.is_write)) if said.status in (3, 4) else None
        checksum = said.checksum if said.has_checksum else None
        return Result(said.status, said.offset if said.result else None, fault, checksum)


class List:
    """Operations, and their results. Each method that adds returns the number of the operation, from 0. Sources come
    before targets, and all have one size. A list that is in flight is waited for before it is changed or run.
    `Queue.list` makes one."""

    def __init__(self, queue: Queue, at: int) -> None:
        self._queue, self._lock, self._made = queue, threading.RLock(), _Operations(at)
        self._is_open = True

    def _opened(self) -> _Operations:
        if not self._is_open:
            raise QueueError("the list is closed")
        return self._made

    def add(self, descriptor: bytes, size: Optional[int] = None) -> int:
        """Adds an operation by its descriptor (`dsa_planner.move` and the like), whose record counts for nothing. The
        addresses are the caller's, who keeps the memory until the list has ended, and for ever if it is lost."""
        if len(descriptor) != 64:
            raise ValueError(f"the descriptor has {len(descriptor)} bytes, and has to have 64")
        size = int.from_bytes(descriptor[32:36], "little") if size is None else size
        with self._lock:
            made = self._opened()
            made.settle()
            number = int(_library.dsa_list_add(made.at, bytes(descriptor), dsa_planner._whole("size", size)))
            if number < 0:  # a list with such an operation is refused, and says why; nothing is begun
                made.ended(_library.dsa_list_run(made.at))
            return number

    def _add(self, make: Any, buffers: Dict[str, Any], written: Iterable[str] = (), **more: int) -> int:
        """Adds what `make` answers for the addresses of these buffers, and holds them."""
        held: list[_Held] = []
        with self._lock:
            made = self._opened()
            made.settle()
            try:
                for name, buffer in buffers.items():
                    held.append(_Held(name, buffer, name in written))
                size = _size_of(held)
                more |= {"delta_size": one.size for one in held if one.name == "delta"}
                descriptor = make(**{one.name: one.address for one in held}, size=size, record=0, **more)
            except BaseException:
                for one in held:
                    one.release()
                raise
            made.held += held  # before the operation is there, in case of an interrupt
            try:
                return self.add(descriptor)
            except QueueError:
                made.release(len(held))
                raise

    def move(self, source: Any, target: Any) -> int:
        """Moves bytes. They may overlap if the device can do that."""
        return self._add(dsa_planner.move, {"source": source, "target": target}, ["target"])

    def fill(self, target: Any, pattern: int) -> int:
        """Fills with the 8 bytes of the pattern, the lowest first, over and over."""
        return self._add(dsa_planner.fill, {"target": target}, ["target"], pattern=pattern)

    def compare(self, first: Any, second: Any) -> int:
        """Compares: `Result.difference`."""
        return self._add(dsa_planner.compare, {"first": first, "second": second})

    def compare_pattern(self, source: Any, pattern: int) -> int:
        """Compares with the 8 bytes of the pattern, over and over."""
        return self._add(dsa_planner.compare_pattern, {"source": source}, pattern=pattern)

    def dualcast(self, source: Any, first: Any, second: Any) -> int:
        """Moves bytes to two places, whose addresses have equal low 12 bits."""
        buffers = {"source": source, "first": first, "second": second}
        return self._add(dsa_planner.dualcast, buffers, ["first", "second"])

    def crc(self, source: Any, seed: int = 0) -> int:
        """The checksum (CRC-32C) of bytes, `Result.checksum`: as one checksum of what `seed` is that of and of them; 0
        for that of them alone. A list with a checksum is planned as it is, so none of its operations may be longer than
        the queue's greatest transfer."""
        return self._add(dsa_planner.crc, {"source": source}, seed=seed)

    def copy_crc(self, source: Any, target: Any, seed: int = 0) -> int:
        """The same, and the bytes are moved to `target`, which may not meet them."""
        return self._add(dsa_planner.copy_crc, {"source": source, "target": target}, ["target"], seed=seed)

    def apply_delta(self, delta: Any, target: Any) -> int:
        """Applies a delta record, which has a size of its own, to a target."""
        return self._add(dsa_planner.apply_delta, {"delta": delta, "target": target}, ["target"])

    def check(self, first: Any, second: Any) -> int:
        """The two have to be equal, else the list fails and nothing that is added later is begun: a compare that checks
        its result, and a barrier after it."""
        with self._lock:
            number = self._add(dsa_planner.compare, {"first": first, "second": second}, expected=0)
            self.barrier()
            return number

    def barrier(self) -> None:
        """What is added next begins only if all before it has succeeded."""
        with self._lock:
            made = self._opened()
            made.settle()
            _library.dsa_list_barrier(made.at)

    def clear(self) -> None:
        """Takes all operations off, and releases their buffers."""
        with self._lock:
            self._opened().clear()

    def run(self) -> None:
        """Plans the list, submits it, and waits until it has ended; raises how, if not by success. A list may be run
        again; if nothing was added since, it is not planned again."""
        with self._lock:
            made = self._opened()
            made.settle()
            made.is_in_flight = True
            made.ended(_library.dsa_list_run(made.at))

    def start(self, after: Iterable[List] = ()) -> None:
        """Starts the list, on a queue with `in_flight`; `test` and `wait` say how it has ended. It comes after the
        others, as they were started last: it is left out unless they succeed. Raises `Refused`; then the next start
        comes after them, too."""
        others = list(after)
        if any(other._queue is not self._queue or not other._is_open for other in others):
            raise ValueError("a list can come after open lists of its own queue alone")
        with self._lock:
            made = self._opened()
            made.settle()
            for other in others:
                _library.dsa_list_after(made.at, other._made.at)
            made.is_in_flight = True
            end = _library.dsa_list_start(made.at)
            if end != _RUNNING:
                made.ended(end)

    def test(self) -> bool:
        """Moves all lists on, and answers whether this one has ended; raises how, if not by success."""
        with self._lock:
            made = self._opened()
            end = _library.dsa_list_test(made.at)
            if end != _RUNNING:
                made.ended(end)
            return bool(end != _RUNNING)

    def wait(self) -> None:
        """Waits until the list has ended; raises how, if not by success."""
        with self._lock:
            made = self._opened()
            made.ended(_library.dsa_list_wait(made.at))

    def result(self, operation: int) -> Result:
        """The result of an operation, by its number; status 0 if the list has not ended, or has no such operation."""
        with self._lock:
            return self._opened().result(operation)

    def close(self) -> None:
        """Gives the list back, and releases the buffers; it is waited for if it is in flight."""
        with self._queue._lock, self._lock:  # nobody else gets it from the library in between
            if self._is_open:
                self._is_open = False
                self._made.drop()
                self._queue._lists.pop(self._made.at, None)

    def __enter__(self) -> List:
        return self

    def __exit__(self, *_: Any) -> None:
        self.close()

    def __del__(self) -> None:
        """Garbage may be collected during any call, so nothing is waited for here."""
        if not getattr(self, "_is_open", False):
            return
        if self._queue._at is not None:
            self._queue._left.append(self._made)
        else:
            self._made.release()
