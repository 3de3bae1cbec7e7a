#!/usr/bin/env python3
"""Makes a copy of an image in which one file is large, so that the rate of reading can be measured.

    large_file.py IMAGE COPY ID BYTES

ID is the inode number of a file of one extent, of a volume without snapshots; BYTES is a whole number of blocks. The extent is put into the longest
run of blocks that IMAGE leaves out, and filled. Nothing else is changed: neither the extent references nor the bitmaps, so the copy isn't well-formed,
and is no image of the tests.
"""
import os
import struct
import subprocess
import sys

BLOCK = 4096
INODE, EXTENT, SIZES = 3, 8, 8


def sum_of(block):
    """The sum of an object: Fletcher's, over the words after it."""
    low = high = 0
    for word in struct.unpack(f"<{len(block) // 4 - 2}I", block[8:]):
        low = (low + word) % 0xFFFFFFFF
        high = (high + low) % 0xFFFFFFFF
    first = 0xFFFFFFFF - (low + high) % 0xFFFFFFFF
    return first | (0xFFFFFFFF - (low + first) % 0xFFFFFFFF) << 32


def runs_of(file):
    """The runs of bytes that are there, as start and end."""
    end = os.fstat(file).st_size
    at = 0
    while at < end:
        try:
            first = os.lseek(file, at, os.SEEK_DATA)
        except OSError:
            return
        at = os.lseek(file, first, os.SEEK_HOLE)
        yield first, at


def entries_of(node):
    """Kind and id of each key of a leaf with keys and values of their own lengths, and where the value stands."""
    flags, level, count = struct.unpack_from("<HHI", node, 32)
    table_at, table_len = struct.unpack_from("<HH", node, 40)
    keys = 56 + table_at + table_len
    values = BLOCK - (40 if flags & 1 else 0)
    for i in range(count if level == 0 and not flags & 4 else 0):
        key, _, value, _ = struct.unpack_from("<4H", node, 56 + table_at + 8 * i)
        (word,) = struct.unpack_from("<Q", node, keys + key)
        yield word >> 60, word & (1 << 60) - 1, values - value


def grow_stream(node, at, size):
    """Puts the sizes of an inode's stream."""
    (fields,) = struct.unpack_from("<H", node, at + 92)
    data = at + 96 + 4 * fields
    for i in range(fields):
        kind, _, length = struct.unpack_from("<BBH", node, at + 96 + 4 * i)
        if kind == SIZES:
            struct.pack_into("<QQ", node, data, size, size)
        data += (length + 7) // 8 * 8


def grow(node, file, block, size):
    """Changes what a node says of a file, and answers whether it said anything."""
    changed = False
    for kind, id, value in entries_of(node) if struct.unpack_from("<H", node, 24)[0] in (2, 3) and node[28] == 0xE else ():
        if id == file and kind == INODE:
            grow_stream(node, value, size)
            changed = True
        elif id == file and kind == EXTENT:
            struct.pack_into("<QQ", node, value, size, block)
            changed = True
    return changed


def main():
    image, copy, file, size = sys.argv[1], sys.argv[2], int(sys.argv[3]), int(sys.argv[4])
    subprocess.run(["cp", "--sparse=always", image, copy], check=True)
    with open(copy, "r+b") as out:
        runs = list(runs_of(out.fileno()))
        _, block = max((after[0] - before[1], -(-before[1] // BLOCK)) for before, after in zip(runs, runs[1:]))
        changed = 0
        for first, end in runs:
            for number in range(first // BLOCK, end // BLOCK):
                out.seek(number * BLOCK)
                node = bytearray(out.read(BLOCK))
                if grow(node, file, block, size):
                    struct.pack_into("<Q", node, 0, sum_of(node))
                    out.seek(number * BLOCK)
                    out.write(node)
                    changed += 1
        out.seek(block * BLOCK)
        with open("/dev/urandom", "rb") as noise:
            piece = noise.read(1 << 20)
        for at in range(0, size, len(piece)):
            out.write(piece[: min(len(piece), size - at)])
    print(f"{changed} nodes changed, {size} bytes from block {block} on")


if __name__ == "__main__":
    main()
