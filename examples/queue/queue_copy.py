"""A page is filled and copied in one list, which checks the copy; a second list checks bytes that differ, and what
comes after its check is not begun.

    python3 queue_copy.py
    dsa_trace -- python3 queue_copy.py

It runs on a device, and in software without one."""

from dsa_queue import Failed, Queue

page, copy, other = bytearray(4096), bytearray(4096), bytearray([9] * 64)
with Queue(or_software=True) as queue, queue.list() as operations:
    operations.fill(page, 0x0807060504030201)
    operations.move(page, copy)  # after the fill: it reads what that writes
    operations.check(memoryview(copy)[:64], memoryview(page)[:64])
    operations.run()
    print("copied", list(copy[:8]))

    operations.clear()
    operations.check(memoryview(copy)[:64], other)
    operations.fill(other, 0)  # only if the check succeeds
    try:
        operations.run()
    except Failed as error:
        print("failed:", error)
    print("not begun:", list(other[:8]))
