"""Writes containers of one volume from nothing, block by block, for measurements. It shares no code with the program.

`Container` hands out blocks and puts the whole together: the superblock with its copy, the checkpoint's map, the space manager with its chunks, the
container's map, and the volume. `Volume` takes records of files, versions of its tree by transactions, snapshots, and extents that own their blocks.
All blocks are of 4,096 bytes. What is written is sparse.
"""
import itertools
import os
import struct

BLOCK = 4096
TOP = 2**32 - 1
EPHEMERAL, PHYSICAL, VIRTUAL = 0x80000000, 0x40000000, 0
IS_ROOT, IS_LEAF, IS_FIXED = 1, 2, 4
PER_CHUNK = 8 * BLOCK
FOLDER, FILE = 4, 8


def sum_of(data):
    """The sum that stands in the first 8 bytes of an object."""
    words = struct.unpack(f"<{len(data) // 4 - 2}I", data[8:])
    plain = sum(words)
    weighted = sum(itertools.accumulate(words))
    low = TOP - (plain + weighted) % TOP
    return low | (TOP - (plain + low) % TOP) << 32


def sealed(oid, xid, kind, subtype, data):
    """An object of whole blocks: its header, and `data` after it."""
    data = struct.pack("<QQQII", 0, oid, xid, kind, subtype) + data
    data += bytes(-len(data) % BLOCK)
    return struct.pack("<Q", sum_of(data)) + data[8:]


def laid(size, fields):
    """Bytes after a header, with fields at their offsets from the header's begin."""
    data = bytearray(size)
    for at, form, value in fields:
        if form:
            struct.pack_into("<" + form, data, at, value)
        else:
            data[at : at + len(value)] = value
    return bytes(data[32:])


# Trees.


def fits(count, held, is_fixed, info):
    """Whether so many entries, whose keys and values have so many bytes, fit a node."""
    return 56 + count * (4 if is_fixed else 8) + held + info <= BLOCK


def pieces(entries, is_fixed):
    """The entries of a level, by nodes that hold as many as fit."""
    piece, held = [], 0
    for key, value in entries:
        more = len(key) + len(value)
        if not fits(len(piece) + 1, held + more, is_fixed, 0):
            yield piece
            piece, held = [], 0
        piece.append((key, value))
        held += more
    yield piece


def node(head, flags, level, entries, info=b""):
    """A node; `head` is oid, transaction, type and subtype."""
    table, keys, values = [], [], []
    at = back = 0
    for key, value in entries:
        back += len(value)
        table.append(struct.pack("<HH", at, back) if flags & IS_FIXED else struct.pack("<4H", at, len(key), back, len(value)))
        keys.append(key)
        values.append(value)
        at += len(key)
    table = b"".join(table)
    data = struct.pack("<HHIHH", flags, level, len(entries), 0, len(table)) + bytes(12) + table + b"".join(keys)
    data += bytes(BLOCK - 32 - len(data) - back - len(info)) + b"".join(reversed(values)) + info
    return sealed(*head, data)


def tree(put, xid, storage, subtype, is_fixed, entries):
    """Puts a tree, and answers the id of its root. `put` takes a function from an id to the object that has it, and answers the id."""
    fixed = IS_FIXED if is_fixed else 0
    count, nodes, level, held = len(entries), 1, 0, entries
    while not fits(len(held), sum(len(key) + len(value) for key, value in held), is_fixed, 40):
        above = []
        for piece in pieces(held, is_fixed):
            flags = fixed | (0 if level else IS_LEAF)
            oid = put(lambda oid, piece=piece, flags=flags, level=level: node((oid, xid, storage | 3, subtype), flags, level, piece))
            above.append((piece[0][0], struct.pack("<Q", oid)))
        nodes += len(above)
        held = above
        level += 1
    info = struct.pack("<IIIIIIQQ", 0, BLOCK, 0, 0, 0, 0, count, nodes)
    flags = IS_ROOT | fixed | (0 if level else IS_LEAF)
    return put(lambda oid: node((oid, xid, storage | 2, subtype), flags, level, held, info))


# Records of files.


def table_of_crc():
    """The table of CRC32C by bytes."""
    for byte in range(256):
        for _ in range(8):
            byte = byte >> 1 ^ (0x82F63B78 if byte & 1 else 0)
        yield byte


CRC = list(table_of_crc())


def name_hash(name):
    """The hash of a name of ASCII letters in lower case, digits and hyphens, which is its own normal form."""
    crc = TOP
    for byte in name.encode("utf-32-le"):
        crc = crc >> 8 ^ CRC[(crc ^ byte) & 0xFF]
    return crc & 0x3FFFFF


def entry(folder, name, file, kind, sibling=None):
    """The entry of a name in a folder."""
    text = name.encode() + b"\0"
    value = struct.pack("<QQH", file, 0, kind)
    if sibling is not None:
        value += struct.pack("<HHBBHQ", 1, 8, 1, 0, 8, sibling)
    return struct.pack("<QI", folder | 9 << 60, name_hash(name) << 10 | len(text)) + text, value


def inode(id, folder, kind, count, size=None):
    """An inode; `count` is that of a folder's children, or of a file's links."""
    mode = 0o040755 if kind == FOLDER else 0o100644
    fixed = struct.pack("<QQ4QQIIIIIIHHQ", folder, id, 0, 0, 0, 0, 0x8000, count, 0, 0, 0, 0, 0, mode, 0, 0)
    if size is not None:
        fixed += struct.pack("<HHBBH", 1, 40, 8, 0, 40) + struct.pack("<QQ", size, -(-size // BLOCK) * BLOCK) + bytes(24)
    return struct.pack("<Q", id | 3 << 60), fixed


def extent(id, at, length, block):
    """An extent of a file's stream, in bytes."""
    return struct.pack("<QQ", id | 8 << 60, at), struct.pack("<QQQ", length, block, 0)


def stream_id(id):
    """The record of a stream's references."""
    return struct.pack("<Q", id | 6 << 60), struct.pack("<I", 1)


def attribute(file, name, value):
    """An attribute whose value stands in its record; of one file in the order of their names."""
    text = name.encode() + b"\0"
    return struct.pack("<QH", file | 4 << 60, len(text)) + text, struct.pack("<HH", 2, len(value)) + value


def links(file, sibling, folder, name):
    """The link and the map of a sibling."""
    text = name.encode() + b"\0"
    yield struct.pack("<QQ", file | 5 << 60, sibling), struct.pack("<QH", folder, len(text)) + text
    yield struct.pack("<Q", sibling | 12 << 60), struct.pack("<Q", file)


def order_of(record):
    """The order of a record: id, kind, the number that follows, the name."""
    key = record[0]
    word = struct.unpack_from("<Q", key)[0]
    id, kind = word & (1 << 60) - 1, word >> 60
    if kind in (5, 8):
        return id, kind, struct.unpack_from("<Q", key, 8)[0], b""
    if kind == 9:
        word = struct.unpack_from("<I", key, 8)[0]
        return id, kind, word >> 10, key[12:]
    return id, kind, 0, b""


def folders(files=0):
    """The records of a volume whose root has so many entries."""
    return [entry(1, "root", 2, FOLDER), entry(1, "private-dir", 3, FOLDER), inode(2, 1, FOLDER, files), inode(3, 1, FOLDER, 0)]


# The whole.


class Container:
    """Blocks by their numbers, of which new ones are handed out from `first` on."""

    def __init__(self, xid=1, descriptors=8, data=16):
        self.xid, self.descriptors, self.data = xid, descriptors, data
        self.blocks = {}
        self.used = []
        self.next = 1 + descriptors + data
        self.mapped = {}
        self.next_oid = 1030
        self.volumes = []

    def take(self, count=1):
        at = self.next
        self.next += count
        self.used.append((at, count))
        return at

    def put_physical(self, made):
        at = self.take()
        self.blocks[at] = made(at)
        return at

    def object_map(self, records, snapshots=()):
        """An object map of records (oid, xid) with their blocks, and of the transactions of snapshots."""
        entries = [(struct.pack("<QQ", *key), struct.pack("<IIQ", 0, BLOCK, at)) for key, at in sorted(records.items())]
        root = tree(self.put_physical, self.xid, PHYSICAL, 0xB, True, entries)
        held = 0
        if snapshots:
            taken = [(struct.pack("<Q", xid), struct.pack("<QQ", 0, 0)) for xid in snapshots]
            held = tree(self.put_physical, self.xid, PHYSICAL, 0x13, True, taken)
        fields = [(36, "I", len(snapshots)), (40, "I", PHYSICAL | 2), (44, "I", PHYSICAL | 2), (48, "Q", root), (56, "Q", held)]
        return self.put_physical(lambda at: sealed(at, self.xid, PHYSICAL | 0xB, 0, laid(128, fields)))

    def superblock(self, blocks, **more):
        fields = dict(
            size=(36, "I", BLOCK), count=(40, "Q", blocks), features=(64, "Q", 2), uuid=(72, "", bytes(range(16))), next_oid=(88, "Q", self.next_oid),
            next_xid=(96, "Q", self.xid + 1), desc_blocks=(104, "I", self.descriptors), data_blocks=(108, "I", self.data), desc_base=(112, "Q", 1),
            data_base=(120, "Q", 1 + self.descriptors), desc_index=(136, "I", 0), desc_len=(140, "I", 2), data_len=(148, "I", 4), manager=(152, "Q", 1024),
            map=(160, "Q", self.map), reaper=(168, "Q", 1025),
        )  # fmt: skip
        fields = [(32, "", b"NXSB"), *(dict(fields, **more).values())]
        fields += [(184 + 8 * slot, "Q", oid) for slot, oid in enumerate(self.volumes)]
        return fields

    def finish(self, path, spare=16, bare=False):
        """Puts together what every container has, and writes it: with so many blocks that nothing has, and if it is bare without bitmaps for chunks of such blocks alone. Answers the bytes that are used."""
        self.map = self.object_map({(oid, self.xid): at for oid, at in self.mapped.items()})
        chunks = 1
        while True:
            pool = max(8, chunks + 1 + -(-chunks // 126))
            blocks = self.next + 16 + pool + spare
            if -(-blocks // PER_CHUNK) <= chunks:
                break
            chunks += 1
        ring, first = self.take(16), self.take(pool)
        infos = -(-chunks // 126)
        bits = bytearray(chunks * BLOCK)
        for at, count in [(0, 1 + self.descriptors + self.data), *self.used]:
            for block in range(at, at + count):
                bits[block >> 3] |= 1 << (block & 7)
        free, bitmaps = [], {}
        for chunk in range(chunks):
            part = bytes(bits[chunk * BLOCK : (chunk + 1) * BLOCK])
            held = min(PER_CHUNK, blocks - chunk * PER_CHUNK)
            free.append(held - bin(int.from_bytes(part, "little")).count("1"))
            if not bare or any(part):
                bitmaps[chunk] = first + infos + len(bitmaps)
                self.blocks[bitmaps[chunk]] = part
        for info in range(infos):
            rows = range(126 * info, min(chunks, 126 * (info + 1)))
            data = struct.pack("<II", info, len(rows))
            for chunk in rows:
                held = min(PER_CHUNK, blocks - chunk * PER_CHUNK)
                data += struct.pack("<QQIIQ", self.xid, chunk * PER_CHUNK, held, free[chunk], bitmaps.get(chunk, 0))
            self.blocks[first + info] = sealed(first + info, self.xid, PHYSICAL | 7, 0, data)
        in_pool = (1 << infos + len(bitmaps)) - 1
        self.blocks[ring] = in_pool.to_bytes(-(-pool // 8), "little").ljust(BLOCK, b"\0")
        at = 1 + self.descriptors
        manager = [
            (32, "I", BLOCK), (36, "I", PER_CHUNK), (40, "I", 126), (44, "I", 507), (48, "Q", blocks), (56, "Q", chunks), (64, "I", infos), (72, "Q", sum(free)),
            (80, "I", 2528), (152, "Q", pool), (160, "I", 1), (164, "I", 16), (168, "Q", ring), (176, "Q", first), (208, "Q", 1026), (248, "Q", 1027),
            (328, "I", 2520),
        ]  # fmt: skip
        manager += [(2528 + 8 * info, "Q", first + info) for info in range(infos)]
        empty = struct.pack("<HHIHH", 7, 0, 0, 0, 0) + bytes(BLOCK - 84) + struct.pack("<IIIIIIQQ", 0, BLOCK, 0, 0, 0, 0, 0, 1)
        held = [(1024, 5, 0, laid(BLOCK, manager)), (1025, 0x11, 0, bytes(BLOCK - 32)), (1026, 2, 9, empty), (1027, 2, 9, empty)]
        rows = []
        for i, (oid, kind, subtype, data) in enumerate(held):
            self.blocks[at + i] = sealed(oid, self.xid, EPHEMERAL | kind, subtype, data)
            rows.append(struct.pack("<IIIIQQQ", EPHEMERAL | kind, subtype, BLOCK, 0, 0, oid, at + i))
        self.blocks[1] = sealed(1, self.xid, PHYSICAL | 0xC, 0, struct.pack("<II", 0, len(rows)) + b"".join(rows))
        self.blocks[2] = self.blocks[0] = sealed(1, self.xid, EPHEMERAL | 1, 0, laid(BLOCK, self.superblock(blocks)))
        self.size = blocks
        return self.write(path)

    def write(self, path):
        with open(path, "wb") as file:
            for at, data in sorted(self.blocks.items()):
                file.seek(at * BLOCK)
                file.write(data)
            file.truncate(self.size * BLOCK)
        return len(self.blocks) * BLOCK


class Volume:
    """A volume, whose object map has a record for each id and transaction that was put."""

    def __init__(self, container):
        self.container = container
        self.map = {}
        self.snapshots = []

    def put(self, made, xid=1, oid=None):
        """Puts an object under an id at a transaction, a new id where none is given."""
        if oid is None:
            oid = self.container.next_oid
            self.container.next_oid += 1
        at = self.container.take()
        self.container.blocks[at] = made(oid)
        self.map[oid, xid] = at
        return oid

    def files(self, records, xid=1):
        """A file-system tree of records, and the id of its root."""
        return tree(lambda made: self.put(made, xid), xid, VIRTUAL, 0xE, False, sorted(records, key=order_of))

    def head(self, oid, xid, root, references, snapshots, taken, map):
        fields = [
            (32, "", b"APSB"), (56, "Q", 1), (116, "I", 2), (120, "I", PHYSICAL | 2), (124, "I", PHYSICAL | 2), (128, "Q", map), (136, "Q", root),
            (144, "Q", references), (152, "Q", snapshots), (216, "Q", taken), (240, "", bytes(range(16))), (264, "Q", 1), (704, "", b"Volume"),
        ]  # fmt: skip
        return sealed(oid, xid, 0xD, 0, laid(1100, fields))

    def snapshot(self, xid, root, references=()):
        """Takes a snapshot at a transaction, with the root that it has then and its own new ranges."""
        put = self.container.put_physical
        owned = tree(put, xid, PHYSICAL, 0xF, False, ranges(references))
        block = put(lambda at: self.head(at, xid, root, 0, 0, 0, 0))
        self.snapshots.append((xid, owned, block))

    def finish(self, root, references=()):
        """Puts the volume's own objects, with its live root and new ranges (block, length, owner, count)."""
        put, xid = self.container.put_physical, self.container.xid
        owned = tree(put, xid, PHYSICAL, 0xF, False, ranges(references))
        records = []
        for taken, its, block in self.snapshots:
            name = f"s{taken}".encode() + b"\0"
            records.append(((taken, 1), struct.pack("<Q", taken | 1 << 60), struct.pack("<QQQQQIIH", its, block, 0, 0, 0, PHYSICAL | 2, 0, len(name)) + name))
            key = struct.pack("<QH", (1 << 60) - 1 | 11 << 60, len(name)) + name
            records.append((((1 << 60) - 1, 11, name), key, struct.pack("<Q", taken)))
        records.sort(key=lambda it: it[0][:2])
        taken = tree(put, xid, PHYSICAL, 0x10, False, [(key, value) for _, key, value in records])
        map = self.container.object_map(self.map, [it[0] for it in self.snapshots])
        oid = self.container.next_oid
        self.container.next_oid += 1
        at = self.container.take()
        self.container.blocks[at] = self.head(oid, xid, root, owned, taken, len(self.snapshots), map)
        self.container.mapped[oid] = at
        self.container.volumes.append(oid)


def ranges(references):
    """Records of new ranges: a block, a number of blocks, an owner, and a count."""
    return [(struct.pack("<Q", at | 2 << 60), struct.pack("<QQi", length | 1 << 60, owner, count)) for at, length, owner, count in sorted(references)]
