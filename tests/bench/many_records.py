#!/usr/bin/env python3
"""Makes a copy of an empty image whose volume has many records, so that the time of a check can be measured.

    many_records.py IMAGE COPY RECORDS

IMAGE is as `mkapfs` writes it: blocks of 4,096 bytes, one chunk of them that has a bitmap, one volume without files, whose names are hashed. The copy's
volume has RECORDS records, or one less: its own, and those of folders of 1,000 empty files each, an inode and an entry for each. Nodes are filled in the
order of their keys. The transaction stays as it is, and what the container had is changed in place: the root of the volume's tree, the root of its object
map, its superblock, the container's superblock, the space manager, the chunk's information and its bitmap. `apfsck` finds nothing in the copy.
"""
import os
import struct
import subprocess
import sys

sys.dont_write_bytecode = True
from large_file import BLOCK, sum_of

FILES = 1000
SUPER, NODE_ROOT, NODE = 1, 2, 3
IS_ROOT, IS_LEAF, IS_FIXED = 1, 2, 4
INODE, ENTRY, NAME = 3, 9, 4
ROOT_FOLDER, FIRST_ID = 2, 16
FOLDER, FILE = 4, 8
INFO = 40


def number(data, at, width):
    return int.from_bytes(data[at : at + width], "little")


def put(data, at, width, value):
    data[at : at + width] = value.to_bytes(width, "little")


def add(data, at, width, more):
    put(data, at, width, number(data, at, width) + more)


class Image:
    """Blocks of a file, whose objects are written with their sums."""

    def __init__(self, file):
        self.file = file

    def read(self, block, count=1):
        self.file.seek(block * BLOCK)
        return bytearray(self.file.read(count * BLOCK))

    def write(self, block, data):
        self.file.seek(block * BLOCK)
        self.file.write(data)

    def seal(self, block, data):
        put(data, 0, 8, sum_of(data))
        self.write(block, data)


# What the container has.


def newest(image):
    """The newest superblock, and the block in which it stands."""
    zero = image.read(0)
    found = []
    for block in range(number(zero, 112, 8), number(zero, 112, 8) + number(zero, 104, 4)):
        data = image.read(block)
        if data[32:36] == b"NXSB" and number(data, 24, 2) == SUPER and number(data, 0, 8) == sum_of(data):
            found.append((number(data, 16, 8), block, data))
    _, block, data = max(found)
    return block, data


def ephemeral(image, top, oid):
    """The first block of an ephemeral object and the number of its blocks, by the checkpoint's maps."""
    for i in range(number(top, 140, 4) - 1):
        block = image.read(number(top, 112, 8) + (number(top, 136, 4) + i) % number(top, 104, 4))
        for at in range(40, 40 + 40 * number(block, 36, 4), 40):
            if number(block, at + 24, 8) == oid:
                return number(block, at + 32, 8), number(block, at + 8, 4) // BLOCK
    sys.exit("the space manager isn't in the checkpoint")


def records_of(node):
    """Keys and values of a root that is a leaf."""
    flags, _, count, table_at, table_len = struct.unpack_from("<HHIHH", node, 32)
    if flags & (IS_ROOT | IS_LEAF) != IS_ROOT | IS_LEAF:
        sys.exit("a tree isn't that of an empty container")
    keys, values = 56 + table_at + table_len, BLOCK - INFO
    for i in range(count):
        if flags & IS_FIXED:
            (key, value), key_len, value_len = struct.unpack_from("<2H", node, 56 + table_at + 4 * i), 16, 16
        else:
            key, key_len, value, value_len = struct.unpack_from("<4H", node, 56 + table_at + 8 * i)
        yield bytes(node[keys + key :][:key_len]), bytes(node[values - value :][:value_len])


def looked_up(image, map_block, oid):
    """The block of a virtual object."""
    for key, value in records_of(image.read(number(image.read(map_block), 48, 8))):
        if number(key, 0, 8) == oid:
            return number(value, 8, 8)
    sys.exit("a virtual object isn't in its map")


# The records of a volume with files.


def table_of_crc():
    """The table of CRC32C by bytes."""
    for byte in range(256):
        for _ in range(8):
            byte = byte >> 1 ^ (0x82F63B78 if byte & 1 else 0)
        yield byte


CRC = list(table_of_crc())


def name_key(folder, name):
    """The key of an entry: its name's length and hash stand before the name, which is of ASCII characters in lower case, so that it is its own normal form."""
    crc = 0xFFFFFFFF
    for byte in name.encode("utf-32-le"):
        crc = crc >> 8 ^ CRC[(crc ^ byte) & 0xFF]
    text = name.encode() + b"\0"
    return struct.pack("<QI", folder | ENTRY << 60, (crc & 0x3FFFFF) << 10 | len(text)) + text


def inode_value(id, folder, count, mode, time, name):
    """An inode with its name as the one extended field; `count` is that of the children of a folder, or of the links of a file."""
    text = name.encode() + b"\0"
    text += bytes(-len(text) % 8)
    fixed = struct.pack("<QQ4QQIIIIIIHHQ", folder, id, time, time, time, time, 0x8000, count, 0, 0, 0, 0, 0, mode, 0, 0)
    return fixed + struct.pack("<HHBBH", 1, len(text), NAME, 2, len(name) + 1) + text


def records_with_files(old, count):
    """The records, as they were and with files, in the order of their keys; and how many folders and files there are more."""
    records = dict(old)
    more = (count - len(records)) // 2
    folders = -(-more // (FILES + 1))
    files = more - folders
    root = bytearray(records[struct.pack("<Q", ROOT_FOLDER | INODE << 60)])
    time = number(root, 16, 8)
    add(root, 56, 4, folders)
    records[struct.pack("<Q", ROOT_FOLDER | INODE << 60)] = bytes(root)

    def record(id, parent, name, kind, mode, count):
        records[struct.pack("<Q", id | INODE << 60)] = inode_value(id, parent, count, mode, time, name)
        records[name_key(parent, name)] = struct.pack("<QQH", id, time, kind)

    id = FIRST_ID
    for folder in range(folders):
        held = min(FILES, files - FILES * folder)
        record(id, ROOT_FOLDER, f"folder-{folder:05}", FOLDER, 0o040755, held)
        for file in range(held):
            record(id + 1 + file, id, f"file-{folder * FILES + file:07}", FILE, 0o100644, 1)
        id += 1 + held
    return sorted(records.items(), key=lambda record: order_of(record[0])), folders, files


def order_of(key):
    """The order of a key: id, kind, the number before the name, the name."""
    word = number(key, 0, 8)
    return word & (1 << 60) - 1, word >> 60, number(key, 8, 4), key[12:]


# Trees.


def table_room(count, level, fixed):
    """The bytes of the table of contents of a node with so many entries."""
    if fixed:
        return 576 if level else 448
    return -(-count // 8) * 64


def fits(count, held, level, fixed, info):
    """Whether so many entries, whose keys and values have so many bytes, fit a node."""
    room = table_room(count, level, fixed)
    return 56 + room + held + info <= BLOCK and (not fixed or 4 * count <= room)


def bytes_of(entries):
    return sum(len(key) + len(value) for key, value in entries)


def pieces_of(records, level, fixed):
    """The records of a level, by nodes that hold as many as fit."""
    piece, held = [], 0
    for key, value in records:
        more = len(key) + len(value)
        if not fits(len(piece) + 1, held + more, level, fixed, 0):
            yield piece
            piece, held = [], 0
        piece.append((key, value))
        held += more
    yield piece


def node(head, flags, level, entries, info=b""):
    """A node; `head` is oid, transaction, type and subtype."""
    fixed = flags & IS_FIXED
    table, keys, values = b"", b"", b""
    for key, value in entries:
        values = value + values
        if fixed:
            table += struct.pack("<HH", len(keys), len(values))
        else:
            table += struct.pack("<4H", len(keys), len(key), len(values), len(value))
        keys += key
    room = table_room(len(entries), level, fixed)
    free = BLOCK - 56 - room - len(keys) - len(values) - len(info)
    fields = struct.pack("<8H", 0, room, len(keys), free, 0xFFFF, 0, 0xFFFF, 0)
    data = struct.pack("<QQQII", 0, *head) + struct.pack("<HHI", flags, level, len(entries)) + fields
    return bytearray(data + table.ljust(room, b"\0") + keys + bytes(free) + values + info)


def tree(image, root_block, records, place):
    """Puts records into a tree whose root stays at its block, and answers its levels. Of each other node `place` gives the oid and the block."""
    old = image.read(root_block)
    root_oid, xid, root_kind, subtype = struct.unpack_from("<QQII", old, 8)
    fixed = struct.unpack_from("<H", old, 32)[0] & IS_FIXED
    info = bytearray(old[-INFO:])
    longest = [max(len(record[i]) for record in records) for i in range(2)]
    struct.pack_into("<IIQ", info, 16, *longest, len(records))
    level, nodes = 0, 1
    entries = records
    while not fits(len(entries), bytes_of(entries), level, fixed, INFO):
        above = []
        for piece in pieces_of(entries, level, fixed):
            oid, block = place()
            head = oid, xid, root_kind - NODE_ROOT + NODE, subtype
            image.seal(block, node(head, fixed | (0 if level else IS_LEAF), level, piece))
            above.append((piece[0][0], struct.pack("<Q", oid)))
        nodes += len(above)
        entries = above
        level += 1
    put(info, 32, 8, nodes)
    head = root_oid, xid, root_kind, subtype
    image.seal(root_block, node(head, IS_ROOT | fixed | (0 if level else IS_LEAF), level, entries, bytes(info)))
    return level + 1


# The whole.


class Chunk:
    """The container's one chunk, of which free blocks are taken from the first one on."""

    def __init__(self, image, top):
        self.image = image
        self.manager, blocks = ephemeral(image, top, number(top, 152, 8))
        self.space = image.read(self.manager, blocks)
        if number(self.space, 56, 8) != 1 or number(self.space, 68, 4) != 0:
            sys.exit("the container has more than one chunk")
        self.place = number(self.space, number(self.space, 80, 4), 8)
        self.information = image.read(self.place)
        self.bitmap = number(self.information, 64, 8)
        if self.bitmap == 0:
            sys.exit("the chunk has no bitmap")
        self.bits = image.read(self.bitmap)
        self.next = 0
        self.taken = 0

    def take(self):
        while self.next < number(self.information, 56, 4):
            block = self.next
            self.next += 1
            if not self.bits[block // 8] >> block % 8 & 1:
                self.bits[block // 8] |= 1 << block % 8
                self.taken += 1
                return block
        sys.exit("the chunk has too few free blocks")

    def close(self):
        add(self.information, 60, 4, -self.taken)
        add(self.space, 72, 8, -self.taken)
        self.image.write(self.bitmap, self.bits)
        self.image.seal(self.place, self.information)
        self.image.seal(self.manager, self.space)


def fill(image, count):
    """Puts the records of files into the one volume, and answers what was made."""
    block, top = newest(image)
    if number(top, 36, 4) != BLOCK or number(top, 192, 8) != 0:
        sys.exit("the container has other blocks than of 4,096 bytes, or more than one volume")
    volume_block = looked_up(image, number(top, 160, 8), number(top, 184, 8))
    volume = image.read(volume_block)
    if number(volume, 56, 8) & 9 == 0 or number(volume, 176, 8) != FIRST_ID:
        sys.exit("the volume has files, or names without a hash")
    map_block, root_oid = number(volume, 128, 8), number(volume, 136, 8)
    map_root = number(image.read(map_block), 48, 8)
    root_block = looked_up(image, map_block, root_oid)
    chunk = Chunk(image, top)
    mapped = dict(records_of(image.read(map_root)))
    first = number(top, 88, 8)

    def virtual():
        oid, place = first + len(mapped) - 1, chunk.take()
        mapped[struct.pack("<QQ", oid, number(top, 16, 8))] = struct.pack("<IIQ", 0, BLOCK, place)
        return oid, place

    def physical():
        place = chunk.take()
        return place, place

    records, folders, files = records_with_files(records_of(image.read(root_block)), count)
    levels = tree(image, root_block, records, virtual)
    in_order = sorted(mapped.items(), key=lambda record: struct.unpack("<QQ", record[0]))
    map_levels = tree(image, map_root, in_order, physical)
    chunk.close()
    for at, more in (88, chunk.taken), (176, folders + files), (184, files), (192, folders), (224, chunk.taken):
        add(volume, at, 8, more)
    image.seal(volume_block, volume)
    was = bytes(top)
    add(top, 88, 8, len(mapped) - 1)
    if image.read(0) == was:
        image.seal(0, top)
    image.seal(block, top)
    return (
        f"{len(records)} records in {len(mapped)} nodes of {levels} levels: {folders} folders, {files} files; "
        f"{len(mapped)} records of the object map in {chunk.taken - len(mapped) + 2} nodes of {map_levels} levels"
    )


def main():
    source, copy, count = sys.argv[1], sys.argv[2], int(sys.argv[3])
    subprocess.run(["cp", "--sparse=always", source, copy], check=True)
    try:
        with open(copy, "r+b") as file:
            print(fill(Image(file), count))
    except SystemExit:
        os.remove(copy)
        raise


if __name__ == "__main__":
    main()
