"""Prints descriptors as the module makes them, and the groups of marks; then what it refuses."""

from dsa_planner import BLOCK_ON_FAULT, apply_delta, compare, compare_pattern, dualcast, fill, groups, move


def show(name, bytes_of):
    words = [bytes_of[k : k + 8].hex() for k in range(0, 48, 8)]
    rest = [f"byte {k} is {bytes_of[k]:02x}" for k in range(48, len(bytes_of)) if bytes_of[k]]
    print(name, *words, *rest, *(["of another length"] if len(bytes_of) != 64 else []))


show("move", move(0x1000, 0x2000, 4096, 0x8000, flags=BLOCK_ON_FAULT))
show("fill", fill(0x2000, 64, 0x0102030405060708, 0x8020, pasid=5, privileged=True))
show("compare", compare(0x1000, 0x2000, 64, 0x8040, expected=1))
show("compare pattern", compare_pattern(0x1000, 7, 0xFF, 0x8060, expected=0))
show("apply delta", apply_delta(0x3000, 20, 0x2000, 64, 0x8080))
show("dualcast", dualcast(0x1000, 0x2000, 0x5000, 64, 0x80A0))
found = []
for pieces, fenced in groups(b"\0\0\2\1\3"):
    found.append(f"{pieces.start}..{pieces.stop}" + "".join(f" fenced {k}" for k in fenced))
print("groups", ", ".join(found))
for wrong in ({"size": 1 << 32}, {"source": -1}, {"pasid": 1 << 20}, {"flags": 1 << 24}, {"record": 1.5}):
    try:
        move(**({"source": 0, "target": 0, "size": 8, "record": 0} | wrong))
        print("taken", wrong)
    except (ValueError, TypeError):
        pass
