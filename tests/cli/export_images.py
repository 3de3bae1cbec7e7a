#!/usr/bin/env python3
"""Writes small containers whose names a folder has to take with care, and a damaged one for `apfs-rescue`.

    export_images.py names IMAGE    names of dots, of control characters, with a backslash, and a link
    export_images.py long IMAGE     the folder `a` with a file, then a name of 255 bytes, then one that is written with 258, then the file `z`
    export_images.py deep IMAGE     twenty folders, each in the one before, whose names have 200 bytes, and in the last one the names of 73 and of 74 bytes; then the file `z`
    export_images.py chain IMAGE    2,000 folders `d`, each in the one before, with a file `f` in each
    export_images.py rescue IMAGE   six files that can be read, and beside them an entry without an inode, a folder below itself, an extent outside the container, a name with a slash, one name twice, and one that is too long
    export_images.py sealed IMAGE   two volumes, each with the file `f`, of which the second says that it is sealed

They are written by ../bench/container.py, which shares no code with the program. Each file holds its own name and a line's end.
"""
import collections
import os
import struct
import sys

sys.dont_write_bytecode = True
sys.path.insert(0, os.path.join(os.path.dirname(os.path.dirname(os.path.abspath(__file__))), "bench"))
from container import BLOCK, FILE, FOLDER, Container, Volume, entry, extent, folders, inode, stream_id, sum_of

# A container's files: the name, the id of its folder, and whether it is one itself. The first has the id 16.
NAMES = [("..", 2, True), ("..", 16, False), (".", 16, False), (".", 2, False), ("...", 2, False), ("\x1b]0;x\x07", 2, False), ("a\\x2e", 2, False), ("b\x7f\n", 2, False)]
LONG = [("a", 2, True), ("f", 16, False), ("l" * 255, 2, False), ("m" * 254 + "\x01", 2, False), ("z", 2, False)]


def chain(name, count):
    """Folders of one name, each in the one before."""
    return [(name, 15 + i if i else 2, True) for i in range(count)]


DEEP = [*chain("d" * 200, 20), ("f" * 73, 35, False), ("g" * 74, 35, False), ("z", 2, False)]
CHAIN = [*chain("d", 2000), *(("f", 16 + i, False) for i in range(2000))]
RESCUE = [("loop", 2, True), ("stop", 2, True), ("to", 2, True), ("in", 16, False), ("c", 17, False), ("a", 18, False), ("-n", 2, False), ("*", 2, False)]
RESCUE += [("twice", 2, False), ("twice", 2, False), ("w/slash", 2, False), ("m" * 254 + "\x01", 2, False), ("z", 18, False)]
# Records beside those of files: the folder `loop` is below itself, the entry `b` of the folder `stop` leads to no inode, and the only extent of the file `out` leaves the container.
OUT = [entry(18, "out", 64, FILE), inode(64, 18, FILE, 1, 5), stream_id(64), extent(64, 0, BLOCK, 2**40)]
ODD = {"rescue": [entry(16, "again", 16, FOLDER), entry(17, "b", 99, FILE), *OUT]}


def records_of(files, container):
    """The records of files, and the ranges of their data."""
    children = collections.Counter(folder for _, folder, _ in files)
    records, ranges = folders(children[2]), []
    for id, (name, folder, is_folder) in enumerate(files, 16):
        records.append(entry(folder, name, id, FOLDER if is_folder else FILE))
        if is_folder:
            records.append(inode(id, folder, FOLDER, children[id]))
            continue
        data, block = name.encode() + b"\n", container.take()
        container.blocks[block] = data.ljust(BLOCK, b"\0")
        records += [inode(id, folder, FILE, 1, len(data)), stream_id(id), extent(id, 0, BLOCK, block)]
        ranges.append((block, 1, id, 1))
    return records, ranges


def seal(container):
    """Sets the incompatible features of the volume that was put last: case insensitive, and sealed."""
    at = max(block for block, data in container.blocks.items() if data[32:36] == b"APSB")
    data = container.blocks[at][:56] + struct.pack("<Q", 0x21) + container.blocks[at][64:]
    container.blocks[at] = struct.pack("<Q", sum_of(data)) + data[8:]


def main():
    container = Container()
    if sys.argv[1] == "sealed":
        for _ in range(2):
            volume = Volume(container)
            volume.finish(volume.files(records_of([("f", 2, False)], container)[0]))
        seal(container)
        container.finish(sys.argv[2])
        return
    volume = Volume(container)
    records, ranges = records_of({"names": NAMES, "long": LONG, "deep": DEEP, "chain": CHAIN, "rescue": RESCUE}[sys.argv[1]], container)
    volume.finish(volume.files(records + ODD.get(sys.argv[1], [])), ranges)
    container.finish(sys.argv[2])


if __name__ == "__main__":
    main()
