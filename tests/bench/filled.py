#!/usr/bin/env python3
"""Writes containers of files with contents, so that the time of `export` can be measured.

    filled.py files N IMAGE        N files of 1 to 4,096 bytes, 500 in a folder
    filled.py large BYTES IMAGE    one file of so many bytes of noise in one extent; a whole number of MiB
    filled.py hole BYTES IMAGE     one file that begins with a hole of so many bytes, a whole number of blocks, and ends with five more

They are written by container.py, which shares no code with the program, and `check` finds nothing in them. Told are the bytes of all files together.
"""
import os
import sys

sys.dont_write_bytecode = True
from container import BLOCK, FILE, FOLDER, Container, Volume, entry, extent, folders, inode, stream_id

PER_FOLDER = 500


def file_of(id, folder, name, size, extents):
    """The records of a file; extents are its logical bytes, their length, and their first block, 0 for a hole."""
    return [entry(folder, name, id, FILE), inode(id, folder, FILE, 1, size), stream_id(id), *(extent(id, *it) for it in extents)]


def finished(container, records, ranges, path):
    volume = Volume(container)
    volume.finish(volume.files(records), ranges)
    container.finish(path)


def files(count, path):
    container = Container()
    first, parents = container.take(count), -(-count // PER_FOLDER)
    records, ranges, total = folders(parents), [], 0
    # (few different blocks, each kept once)
    contents = [bytes([97 + i]) * BLOCK for i in range(26)]
    for parent in range(parents):
        held = min(PER_FOLDER, count - parent * PER_FOLDER)
        records += [entry(2, f"folder-{parent:04}", 16 + parent, FOLDER), inode(16 + parent, 2, FOLDER, held)]
    for i in range(count):
        size, id = i * 37 % BLOCK + 1, 16 + parents + i
        records += file_of(id, 16 + i // PER_FOLDER, f"file-{i:07}", size, [(0, BLOCK, first + i)])
        ranges.append((first + i, 1, id, 1))
        container.blocks[first + i] = contents[i % len(contents)]
        total += size
    finished(container, records, ranges, path)
    return total


def large(size, path):
    container = Container()
    first = container.take(size // BLOCK)
    finished(container, folders(1) + file_of(16, 2, "large", size, [(0, size, first)]), [(first, size // BLOCK, 16, 1)], path)
    with open(path, "r+b") as file:
        file.seek(first * BLOCK)
        for _ in range(size >> 20):
            file.write(os.urandom(1 << 20))
    return size


def hole(size, path):
    container = Container()
    block = container.take()
    container.blocks[block] = b"hello".ljust(BLOCK, b"\0")
    finished(container, folders(1) + file_of(16, 2, "hole", size + 5, [(0, size, 0), (size, BLOCK, block)]), [(block, 1, 16, 1)], path)
    return size + 5


if __name__ == "__main__":
    print({"files": files, "large": large, "hole": hole}[sys.argv[1]](int(sys.argv[2]), sys.argv[3]))
