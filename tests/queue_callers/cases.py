"""Cases of the Python module of the queue. What is right was typed by hand.
    cases.py lists | lost     ends with 0 if all is right, and says what is not

lists: on a device or in software. lost: under `dsa_trace --delay 1000000`, so that the device answers too late."""

import gc
import mmap
import sys
import threading
import time

import dsa_planner
from dsa_planner import copy_crc, crc
from dsa_queue import Failed, Fault, LeftOut, Lost, Queue, QueueError, Refused, Result

SUCCESS = Result(1, None, None)
NONE = Result(0, None, None)
PATTERN = 0x0807060504030201
wrong = 0


def expect(right, what):
    global wrong
    if not right:
        wrong += 1
        print(f"not {what}", flush=True)


def raised(kind, words, call, *arguments, **more):
    """The call raises just this kind, whose text has these words; answers it."""
    try:
        call(*arguments, **more)
    except Exception as error:
        expect(type(error) is kind and words in str(error), f"{kind.__name__} {words!r}, but {error!r}")
        return error
    expect(False, f"{kind.__name__} {words!r}, but nothing is raised")
    return None


def is_locked(array):
    """Whether something holds the bytes of an array."""
    try:
        array.append(0)
    except BufferError:
        return True
    array.pop()
    return False


def opened(**options):
    return Queue(or_software=True, **{"pieces": 8, "lists": 4, **options})


def operations():
    """Each operation, its result, and what it leaves."""
    a, b, wide = bytearray(range(64)), bytearray(64), mmap.mmap(-1, 3 * 4096)
    places = memoryview(wide)
    nines = b"\1\0" + 8 * b"\x09"  # at offset 8
    with opened() as queue, queue.list() as it:
        of_a, of_b = memoryview(a), memoryview(b)
        numbers = [it.move(of_a[8:24], of_b[:16]), it.fill(of_b[16:28], PATTERN), it.compare(of_a[8:40], of_b[:32]),
                   it.compare_pattern(of_b[16:24], PATTERN), it.dualcast(bytes(a), places[:64], places[4096:4160]),
                   it.apply_delta(nines, places[8192:8208]), it.compare(b"aaaa", b"aaaa")]
        expect(numbers == list(range(7)), f"numbers from 0: {numbers}")
        expect(it.result(0) == NONE, "no result before the list is run")
        it.run()
        expect(b == bytes(range(8, 24)) + bytes([1, 2, 3, 4, 5, 6, 7, 8, 1, 2, 3, 4]) + bytes(36), f"b is {b.hex()}")
        expect(places[:64] == places[4096:4160] == a, "a dualcast")
        expect(places[8192:8208] == bytes(8) + 8 * b"\x09", "a delta")
        results = [it.result(number) for number in range(-1, 8)]
        differs = Result(1, 16, None)  # 24 is not 1
        expect(results == [NONE, SUCCESS, SUCCESS, differs, *4 * [SUCCESS], NONE], f"results {results}")
        a[8] = 77
        it.run()  # again, with other bytes
        expect(b[0] == 77, "what runs again is the list with the bytes as they are")
        places.release()
        raised(BufferError, "exported pointers", wide.close)
    wide.close()


def checksums():
    """Those of "123456789", in one and in two parts, with a copy; and a seed that is read."""
    seeded = bytes(4) + b"\x0c\0\1\x11" + b"\0\x80".ljust(8, b"\0") + b"\0\x10".ljust(8, b"\0")
    seeded += b"\0\x20".ljust(8, b"\0") + b"\x40".ljust(16, b"\0") + b"\x30\x80".ljust(16, b"\0")
    expect(copy_crc(0x1000, 0x2000, 64, 0x8000, seed_at=0x8030) == seeded, "a checksum that goes on from memory")
    raised(ValueError, "a seed is given or read", crc, 0x1000, 64, 0x8000, seed=1, seed_at=0x8030)
    text, copied = b"123456789", bytearray(4)
    with opened() as queue, queue.list() as it:
        it.crc(text)
        it.copy_crc(text[:4], copied)
        it.run()
        whole, begun = it.result(0).checksum, it.result(1).checksum
        expect(whole == 0xE3069283 and copied == b"1234", f"a checksum {whole}, and a copy {copied}")
        it.clear()
        expect(it.result(0).checksum is None, "no checksum of a list that was cleared")
        it.crc(text[4:], seed=begun)
        it.move(text[:4], copied)
        it.run()
        expect((it.result(0).checksum, it.result(1).checksum) == (0xE3069283, None), "a checksum from another on")


def checks():
    """A check that fails stops what comes later, and no more than that; without it all is done."""
    first, second, flag = bytearray(b"a" * 64), bytearray(b"a" * 63 + b"b"), bytearray(8)
    why = "operation 1: the check failed, the first difference is at byte 63; nothing after the next barrier was begun"
    with opened(in_flight=True) as queue, queue.list() as it, queue.list() as after:
        it.check(first[:8], second[:8])
        it.check(first, second)
        it.fill(flag, 2**64 - 1)
        error = raised(Failed, why, it.run)
        expect((str(error), error.operation, error.result) == (why, 1, Result(2, 63, None)), f"{error.result}")
        expect(flag == bytes(8) and it.result(2) == NONE, "nothing after the check")
        it.start()
        after.fill(flag, PATTERN)
        after.start(after=[it])
        raised(LeftOut, "a list that this one comes after has not succeeded", after.wait)
        raised(Failed, why, it.wait)
        second[63] = ord("a")
        it.start()
        after.start(after=(it,))
        it.wait()
        after.wait()
        expect(flag == bytes(range(1, 9)), "both are done once the check succeeds")
        it.clear()
        it.move(first, second)
        it.barrier()
        it.compare_pattern(second, 0)
        it.run()
        expect(it.result(1).difference == 0, "a compare that does not check only says what differs")


def refusals():
    """What a list can't have, and calls in the wrong order."""
    a, fixed = bytearray(64), bytes(64)
    queue = opened(lists=1)
    it = queue.list()
    raised(QueueError, "all lists of the queue are in use", queue.list)
    raised(Refused, "the list is empty; add an operation", it.run)
    raised(TypeError, "target is read-only, and the device writes to it", it.move, a, fixed)
    raised(TypeError, "second is read-only", it.dualcast, a, a, memoryview(a).toreadonly())
    raised(TypeError, "bytes-like", it.move, "text", a)
    raised(BufferError, "contiguous", it.fill, memoryview(a)[::2], 0)
    raised(ValueError, "several sizes (source 63, target 64 bytes)", it.move, fixed[:63], a)
    raised(ValueError, "a pattern is -1", it.fill, a, -1)
    raised(ValueError, "the descriptor has 63 bytes", it.add, bytes(63))
    raised(Refused, "not opened for lists in flight", lambda: (it.fill(a, 0), it.start()))
    expect(is_locked(a), "an array of a list can't be resized")
    it.clear()
    expect(not is_locked(a), "an array that was refused, or of a list that was cleared, is free")
    for _ in range(8):
        it.fill(a, 0)
    full = "operation 8: a list of this queue has at most 8 pieces; open the queue with more"
    expect(str(raised(Refused, full, it.fill, bytearray(8), 0)) == full, "a sentence")
    raised(Refused, full, it.run)
    with opened() as other, other.list() as theirs:
        raised(ValueError, "of its own queue alone", it.start, after=[theirs])
    raised(ValueError, "of its own queue alone", it.start, after=[theirs])
    queue.close()
    queue.close()
    it.close()
    expect(not is_locked(a), "a closed queue holds nothing")
    for call, words in ((it.run, "the list is closed"), (queue.list, "the queue is closed"), (queue.poll, "is closed"),
                        (lambda: it.fill(a, 0), "the list is closed"), (lambda: queue.name, "the queue is closed")):
        raised(QueueError, words, call)
    expect(not is_locked(a), "a closed list takes nothing")
    raised(QueueError, "wq9.9: /sys/bus/dsa/devices has no such queue of DSA", Queue, "/dev/dsa/wq9.9")
    raised(QueueError, "a queue has at most 64 lists", Queue, lists=65, software=True)
    raised(TypeError, "lists is 1.5", Queue, lists=1.5)
    raised(ValueError, "wait_ms is -1", Queue, wait_ms=-1)
    raised(ValueError, "not enough values", Queue, prices=(5, 6))


def addresses():
    """A descriptor of the caller's, on memory that no object exports."""
    area = mmap.mmap(-1, 4096)
    with opened() as queue, queue.list() as it:
        held = memoryview(area)
        probe = dsa_planner.fill(address_of(area), 64, PATTERN, 0)
        expect(it.add(probe) == 0, "an operation by its descriptor")
        it.run()
        expect(held[:8] == PATTERN.to_bytes(8, "little"), "a fill by its descriptor")
        raised(Refused, "operation 1 has 4294967296 bytes", it.add, probe, 2**32)
        held.release()


def address_of(area):
    import ctypes

    first = ctypes.c_char.from_buffer(area)
    return ctypes.addressof(first)


def in_flight():
    """Lists in flight: what they hold, polling, lists that are dropped, and threads."""
    arrays = [bytearray(64) for _ in range(4)]
    with opened(in_flight=True) as queue:
        lists = [queue.list() for _ in arrays]
        for number, (it, array) in enumerate(zip(lists, arrays)):
            it.fill(array, 0x0101010101010101 * (number + 1))
            it.start()
            expect(it.result(0) == NONE, "no result in flight")
        ended = set()
        while len(ended) < 4:
            found = queue.poll()
            ended |= {found} - {None}
        expect(ended == set(lists) and queue.poll() is None, "each list is polled once")
        expect(all(it.test() for it in lists), "all have ended")
        expect([array[63] for array in arrays] == [1, 2, 3, 4], f"{arrays}")
        lists[0].start()
        lists[0].clear()  # waits for it
        expect(not is_locked(arrays[0]) and is_locked(arrays[1]), "what is cleared is free")
        lists[1].start()
        it = found = None
        ended.clear()
        del lists[1]  # in flight, and garbage now
        gc.collect()
        expect(is_locked(arrays[1]), "a list in flight holds its arrays, though nobody has it")
        again = queue.list()
        expect(not is_locked(arrays[1]), "it was given back")
        again.fill(arrays[1], PATTERN)
        again.start()
    expect(arrays[1][:8] == PATTERN.to_bytes(8, "little"), "a queue that is closed waits for its lists")
    expect(not any(map(is_locked, arrays)), "a queue that is closed holds nothing")


def polled():
    """What has ended and is garbage is not what a poll answers: the next one is."""
    with opened(in_flight=True) as queue:
        lists = [queue.list() for _ in range(3)]
        for it in lists:
            it.fill(bytearray(64), PATTERN)
        for it in lists[:2]:
            it.start()
        it = lists[0] = None
        gc.collect()
        lists[2].run()  # moves all on
        while (found := queue.poll()) is None:
            pass
        expect(found is lists[1], "a list that has ended is polled, though one before it is garbage")


def threads():
    """Four threads with a list each, and one that closes the queue while they run."""
    queue, arrays, ended = opened(in_flight=True), [bytearray(4096) for _ in range(4)], []

    def work(number):
        try:
            with queue.list() as it:
                it.fill(arrays[number], 0x0101010101010101 * (number + 1))
                while True:
                    it.run()
        except QueueError as error:
            ended.append(str(error))

    workers = [threading.Thread(target=work, args=(number,)) for number in range(4)]
    for worker in workers:
        worker.start()
    while not all(array[4095] for array in arrays):
        time.sleep(0.001)
    queue.close()
    for worker in workers:
        worker.join()
    expect(ended == 4 * ["the list is closed"], f"threads end with {ended}")
    expect([array[0] for array in arrays] == [1, 2, 3, 4], "each thread has its own list")


def faults():
    """Of a page that nothing maps a device says so; software would end the program, as memcpy does."""
    with opened() as queue, queue.list() as it:
        if queue.name == "software":
            return
        hole = mmap.mmap(-1, 4096)
        address = address_of(hole)
        hole.close()
        it.add(dsa_planner.move(address, address_of(bytearray(64)), 64, 0))
        error = raised(Failed, "page fault", it.run)
        expect(error.operation == 0 and error.result == Result(3, None, Fault(address, False)), f"{error.result}")


def lost():
    """A device that answers too late: the arrays are held for ever, and written after all."""
    words = "has not answered for 100 ms; it is enabled; leave the buffers as they are"
    arrays = [bytearray(b"x" * 64) for _ in range(6)]
    arrays[1][:] = bytes(64)
    queue = Queue(wait_ms=100, in_flight=True, lists=3)
    it, started, garbage = queue.list(), queue.list(), queue.list()
    it.move(arrays[0], arrays[1])
    raised(Lost, words, it.run)
    raised(Refused, "the device has not answered what was submitted of this list before", it.run)
    started.fill(arrays[2], 0)
    started.start()
    started.clear()  # waits, and does not say how it has ended
    garbage.fill(arrays[3], 0)
    garbage.start()
    del garbage
    gc.collect()
    raised(QueueError, "all lists of the queue are in use", queue.list)
    started.fill(arrays[4], 0)
    raised(Refused, "the device has not answered", started.run)
    queue.close()
    expect(list(map(is_locked, arrays)) == [True, True, True, True, False, False], "arrays are held if they are lost")
    until = time.monotonic() + 30
    written = [b"x" * 64, bytes(64), bytes(64)]
    while arrays[1:4] != written and time.monotonic() < until:
        time.sleep(0.1)
    expect(arrays[1:4] == written, "the device writes after all")
    expect(all(map(is_locked, arrays[:4])), "arrays are held for ever")


if __name__ == "__main__":
    cases = [operations, checksums, checks, refusals, addresses, in_flight, polled, threads, faults]
    for case in cases if sys.argv[1] == "lists" else [lost]:
        case()
    print(f"{wrong} wrong")
    sys.exit(wrong > 0)
