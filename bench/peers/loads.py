"""The loads of the peers, from those of `bench --save`: 20,000 edits of a full graph, then all undone, then all redone.

  loads.py DIR      reads DIR/0.load and DIR/5.load, writes make, nothing, edits, undone and redone .load beside them
"""

import struct
import sys


def read(path):
    """The ten numbers of a load, its start image, rows and calls."""
    data = open(path, "rb").read()
    numbers = list(struct.unpack("<10Q", data[:80]))
    at = 80
    start = struct.unpack(f"<{numbers[0]}I", data[at : at + 4 * numbers[0]])
    at += 4 * numbers[0]
    rows = struct.unpack(f"<{numbers[1]}Q", data[at : at + 8 * numbers[1]])
    at += 8 * numbers[1]
    calls = struct.unpack(f"<{numbers[2]}I", data[at : at + 4 * numbers[2]])
    return numbers, start, rows, list(calls)


def write(path, load, calls):
    numbers, start, rows, _ = load
    numbers = list(numbers)
    numbers[2], numbers[6] = len(calls), 2 * (len(calls) // 5)
    with open(path, "wb") as file:
        file.write(struct.pack("<10Q", *numbers))
        file.write(struct.pack(f"<{len(start)}I", *start))
        file.write(struct.pack(f"<{len(rows)}Q", *rows))
        file.write(struct.pack(f"<{len(calls)}I", *calls))


if __name__ == "__main__":
    out = sys.argv[1]
    edits, made = read(f"{out}/0.load"), read(f"{out}/5.load")
    count = len(edits[3]) // 5
    undos, redos = [19, 0, 0, 0, 0] * count, [20, 0, 0, 0, 0] * count
    write(f"{out}/make.load", made, made[3])
    write(f"{out}/nothing.load", edits, [])
    write(f"{out}/edits.load", edits, edits[3])
    write(f"{out}/undone.load", edits, edits[3] + undos)
    write(f"{out}/redone.load", edits, edits[3] + undos + redos)
