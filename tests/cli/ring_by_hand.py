#!/usr/bin/env python3
"""What `apfs ring`, `info`, `volumes`, `space`, `snapshots` and `check` have to say of an image, worked out from its bytes by other means.

    ring_by_hand.py ring IMAGE              the lines, the line on standard error and the status of `apfs ring`
    ring_by_hand.py info IMAGE              the same for `apfs info`
    ring_by_hand.py volumes IMAGE           the same for `apfs volumes`, where the container's map has no other fault than
                                            that a volume isn't found
    ring_by_hand.py space IMAGE             the same for `apfs space`, where nothing is damaged but the number of free blocks
    ring_by_hand.py snapshots IMAGE [--volume N]
                                            the same for `apfs snapshots`, where nothing is wrong but a volume's or a snapshot's flags
                                            or the number of snapshots
    ring_by_hand.py check IMAGE [--strict]  the same for `apfs check`, where nothing is wrong but sums of objects and hashes of names
    ring_by_hand.py seal IMAGE BLOCK AT HEX..   the edits `AT HEX` that write these bytes at these places of the block and
                                            make its sum right, as lines for a file of cases

Nothing here comes from the program. Offsets are those of the Apple File System Reference, edition of 2020-06-22. A sum
is the closed formula on plain integers of any size, with no remainder taken on the way.
"""
import sys
import unicodedata
import uuid

TOP = 2**32 - 1
ACCEPTED = (4096, 8192, 16384, 32768, 65536)


def number(data, at, width):
    return int.from_bytes(data[at : at + width], "little")


def stored_sum(data):
    """The sum that has to stand in the first 8 bytes of an object."""
    words = [number(data, at, 4) for at in range(8, len(data), 4)]
    plain = sum(words)
    weighted = sum((len(words) - i) * word for i, word in enumerate(words))
    low = TOP - (plain + weighted) % TOP
    high = TOP - (plain + low) % TOP
    return high * 2**32 + low


def is_sound(data, kind, oid, most):
    """Whether an object passes the tests of its header; `most` is the greatest transaction, None for any."""
    flags = number(data, 24, 4)
    return (
        number(data, 0, 8) == stored_sum(data)
        and flags & 0x30000000 == 0
        and flags % 0x10000 == kind
        and number(data, 8, 8) == oid
        and (most is None or number(data, 16, 8) <= most)
    )


class Super:
    """The fields of a container superblock that are needed here."""

    def __init__(self, data):
        self.data = data
        self.xid = number(data, 16, 8)
        self.size = number(data, 36, 4)
        self.blocks = number(data, 40, 8)
        self.features = number(data, 64, 8)
        self.uuid = uuid.UUID(bytes=bytes(data[72:88]))
        self.areas = (number(data, 112, 8), number(data, 104, 4), number(data, 120, 8), number(data, 108, 4))
        self.desc_index = number(data, 136, 4)
        self.desc_len = number(data, 140, 4)
        self.is_resizing = number(data, 1248, 8) != 0 or number(data, 1256, 8) != 0

    def is_right(self):
        return self.data[32:36] == b"NXSB" and self.size in ACCEPTED and len(self.data) == self.size and is_sound(self.data, 1, 1, None)


class Ended(Exception):
    """A status and the line on standard error."""


class Image:
    def __init__(self, path):
        self.file = open(path, "rb")
        self.length = self.file.seek(0, 2)
        first = self.read(0, 4096)
        if len(first) < 4096 or first[32:36] != b"NXSB" or number(first, 36, 4) not in ACCEPTED:
            raise Ended(1, "fault: BlockZero")
        self.size = number(first, 36, 4)
        zero = Super(self.read(0, self.size))
        if not zero.is_right() or not all(self.is_area(*area, zero.blocks) for area in (zero.areas[:2], zero.areas[2:])):
            raise Ended(1, "fault: BlockZero")
        have = self.length // self.size
        if have < zero.blocks:
            raise Ended(1, f"fault: Truncated have {have} need {zero.blocks}")
        if (zero.areas[1] | zero.areas[3]) >= 2**31:
            raise Ended(6, "unsupported: NonContiguous block 0")
        self.zero = zero
        self.base, self.ring, self.data_base, self.data_blocks = zero.areas
        self.candidates = [(index, nx) for index, nx in enumerate(map(self.super_at, range(self.ring))) if self.is_candidate(nx)]

    def read(self, at, length):
        self.file.seek(at)
        return self.file.read(length)

    def block(self, number_of_block):
        return self.read(number_of_block * self.size, self.size)

    @staticmethod
    def is_area(base, blocks, count):
        blocks %= 2**31
        return blocks > 0 and base < 2**63 and base + blocks <= count

    def super_at(self, index):
        return Super(self.block(self.base + index))

    def is_candidate(self, nx):
        return nx.is_right() and nx.size == self.size and nx.areas == self.zero.areas and nx.blocks * nx.size <= self.length

    def mappings(self, index, nx):
        """The mappings of a valid checkpoint, each as oid and first block; None where it isn't valid."""
        if not 1 <= nx.desc_len <= self.ring or (nx.desc_index + nx.desc_len - 1) % self.ring != index:
            return None
        found, used = [], []
        for step in range(nx.desc_len - 1):
            block = self.base + (nx.desc_index + step) % self.ring
            data = self.block(block)
            count = number(data, 36, 4)
            if not is_sound(data, 0xC, block, nx.xid) or 40 + 40 * count > self.size:
                return None
            for at in range(40, 40 + 40 * count, 40):
                kind, length = number(data, at, 4) % 0x10000, number(data, at + 8, 4)
                oid, first = number(data, at + 24, 8), number(data, at + 32, 8)
                blocks = length // self.size
                if blocks == 0 or length % self.size or blocks > self.data_blocks:
                    return None
                if not self.data_base <= first < self.data_base + self.data_blocks:
                    return None
                places = [self.data_base + (first - self.data_base + i) % self.data_blocks for i in range(blocks)]
                if not is_sound(b"".join(map(self.block, places)), kind, oid, nx.xid):
                    return None
                found.append((oid, first))
                used += places
        if len({oid for oid, _ in found}) < len(found) or len(set(used)) < len(used):
            return None
        return found

    def ring_lines(self):
        return [f"{i} block {self.base + i} xid {nx.xid} from {nx.desc_index} length {nx.desc_len}" for i, nx in self.candidates]

    def newest(self):
        """The newest valid checkpoint: its transaction, its block, its superblock and its mappings."""
        valid = [(nx.xid, -i, nx, maps) for i, nx in self.candidates if (maps := self.mappings(i, nx)) is not None]
        if not valid:
            raise Ended(1, "fault: NoCheckpoint")
        xid, index, nx, maps = max(valid, key=lambda it: it[:2])
        block = self.base - index
        for name, is_there in (
            ("Fusion", nx.features & 0x100),
            ("Version", nx.features & 3 != 2),
            ("UnknownContainer", nx.features & ~0x103),
            ("Resizing", nx.is_resizing),
        ):
            if is_there:
                raise Ended(6, f"unsupported: {name} block {block}")
        return xid, block, nx, maps

    def info_lines(self):
        xid, block, nx, maps = self.newest()
        return [
            f"uuid {nx.uuid}",
            f"block size {nx.size}",
            f"blocks {nx.blocks}",
            f"checkpoint xid {xid} block {block}",
            f"maps {nx.desc_len - 1} objects {len(maps)}",
            f"skipped {sum(other.xid > xid for _, other in self.candidates)}",
        ]

    def records(self, block):
        """The records of an object map's tree: oid, transaction, flags, size and block."""
        node = self.block(block)
        begin = 56 + number(node, 40, 2)
        keys = begin + number(node, 42, 2)
        end = self.size - 40 * (number(node, 32, 2) & 1)
        for at in range(begin, begin + 4 * number(node, 36, 4), 4):
            key, value = keys + number(node, at, 2), end - number(node, at + 2, 2)
            if number(node, 34, 2):
                yield from self.records(number(node, value, 8))
            else:
                yield tuple(number(node, *it) for it in ((key, 8), (key + 8, 8), (value, 4), (value + 4, 4), (value + 8, 8)))

    def volumes(self):
        """The volumes by slot: the slot, the block of the superblock, and its bytes."""
        xid, _, nx, _ = self.newest()
        at = number(nx.data, 160, 8)
        if number(self.block(at), 36, 4):
            raise Ended(6, f"unsupported: ContainerSnapshots block {at}")
        records = list(self.records(number(self.block(at), 48, 8)))
        for slot in range(100):
            oid = number(nx.data, 184 + 8 * slot, 8)
            found = [record for record in records if record[0] == oid and record[1] <= xid]
            if oid == 0:
                continue
            if not found or max(found, key=lambda it: it[1])[2] & 1:
                raise Ended(1, f"fault: Unnamed container oid {oid} xid {xid}")
            block = max(found, key=lambda it: it[1])[4]
            data = self.block(block)
            if number(data, 0, 8) != stored_sum(data):
                raise Ended(1, f"fault: Unsound block {block} BadSum")
            if data[32:36] != b"APSB":
                raise Ended(1, f"fault: Unsound block {block} Magic")
            yield slot, block, data

    def volumes_lines(self):
        lines = []
        for slot, _, data in self.volumes():
            features = number(data, 56, 8)
            names = "folded" if features & 1 else "normal" if features & 8 else "exact"
            role, snapshots = number(data, 964, 2), number(data, 216, 8)
            name = shown(data[704:960].split(b"\0")[0])
            lines.append(f"{slot} {uuid.UUID(bytes=bytes(data[240:256]))} {role} {names} {snapshots} {name}")
        return lines

    def queued(self, objects, oid):
        """The lengths of the entries of a free queue's tree; an entry without a value has one block."""
        node = self.block(objects[oid])
        begin = 56 + number(node, 40, 2)
        end = self.size - 40 * (number(node, 32, 2) & 1)
        for at in range(begin, begin + 4 * number(node, 36, 4), 4):
            value = number(node, at + 2, 2)
            if number(node, 34, 2):
                yield from self.queued(objects, number(node, end - value, 8))
            else:
                yield 1 if value == 0xFFFF else number(node, end - value, 8)

    def space_lines(self):
        _, _, nx, maps = self.newest()
        objects = dict(maps)
        manager = self.block(objects[number(nx.data, 152, 8)])
        lines = [f"blocks {nx.blocks} free {number(manager, 72, 8)}"]
        addresses, count = number(manager, 80, 4), number(manager, 68, 4) or number(manager, 64, 4)
        blocks = [number(manager, addresses + 8 * i, 8) for i in range(count)]
        if number(manager, 68, 4):
            blocks = [number(self.block(cab), 40 + 8 * i, 8) for cab in blocks for i in range(number(self.block(cab), 36, 4))]
        total = 0
        for info in map(self.block, blocks):
            for at in range(40, 40 + 32 * number(info, 36, 4), 32):
                free, bitmap = number(info, at + 20, 4), number(info, at + 24, 8)
                lines.append(f"chunk {len(lines) - 1} blocks {number(info, at + 16, 4) % 2**20} free {free} bitmap {bitmap}")
                total += free
        if total != number(manager, 72, 8):
            raise Ended(1, "fault: Space FreeTotal")
        pool, ring, indexes = number(manager, 152, 8), number(manager, 168, 8), number(manager, 328, 4)
        bits = b"".join(self.block(ring + number(manager, indexes + 2 * i, 2)) for i in range(number(manager, 160, 4)))
        free = sum(bits[i // 8] >> i % 8 & 1 == 0 for i in range(pool))
        lines.append(f"pool blocks {pool} free {free}")
        for name, at in (("pool", 208), ("main", 248)):
            oid = number(manager, at, 8)
            lengths = list(self.queued(objects, oid)) if oid else []
            lines.append(f"queue {name} entries {len(lengths)} blocks {sum(lengths)}")
        return lines

    def metadata(self, block):
        """The records of a volume's snapshot metadata tree: key and value."""
        node = self.block(block)
        begin = 56 + number(node, 40, 2)
        keys = begin + number(node, 42, 2)
        end = self.size - 40 * (number(node, 32, 2) & 1)
        for at in range(begin, begin + 8 * number(node, 36, 4), 8):
            key = keys + number(node, at, 2)
            value = end - number(node, at + 4, 2)
            if number(node, 34, 2):
                yield from self.metadata(number(node, value, 8))
            else:
                yield node[key : key + number(node, at + 2, 2)], node[value : value + number(node, at + 6, 2)]

    def snapshots_lines(self, wanted=None):
        found = {slot: (block, data) for slot, block, data in self.volumes()}
        slot = min(found, default=0) if wanted is None else int(wanted)
        if slot not in found:
            raise Ended(7, "answer: NoVolume")
        block, data = found[slot]
        if not number(data, 264, 8) & 1:
            raise Ended(6, f"unsupported: Encrypted block {block}")
        lines, root = [], number(data, 152, 8)
        for key, value in self.metadata(root) if root else []:
            if key[7] >> 4 == 1:
                xid, created = number(key, 0, 8) % 2**60, number(value, 16, 8)
                marks, superblock = number(value, 44, 4), number(value, 8, 8)
                if marks & 3:
                    raise Ended(6, f"unsupported: {'Dataless' if marks & 1 else 'SnapshotState'} block {superblock}")
                lines.append(f"{xid} {created} {shown(value[50 : 49 + number(value, 48, 2)])}")
        if len(lines) != number(data, 216, 8):
            raise Ended(1, f"fault: Volume {slot} SnapCount")
        return lines


    # ---- check
    def object(self, block):
        """An object of one block, whose sum is right."""
        data = self.block(block)
        if number(data, 0, 8) != stored_sum(data):
            raise Ended(1, f"fault: Unsound block {block} BadSum")
        return data

    def items(self, node):
        """The entries of a node, in both layouts: key and value. Those of fixed sizes go on to the node's end; a value may be left out."""
        flags, begin = number(node, 32, 2), 56 + number(node, 40, 2)
        keys, end = begin + number(node, 42, 2), self.size - 40 * (number(node, 32, 2) & 1)
        for i in range(number(node, 36, 4)):
            if flags & 4:
                key, value = (number(node, begin + 4 * i + at, 2) for at in (0, 2))
                yield node[keys + key :], b"" if value == 0xFFFF else node[end - value :]
            else:
                key, key_length, value, length = (number(node, begin + 8 * i + at, 2) for at in (0, 2, 4, 6))
                yield node[keys + key : keys + key + key_length], b"" if value == 0xFFFF else node[end - value : end - value + length]

    def tree(self, oid, place):
        """The nodes of a tree, each with the place that its id leads to."""
        if oid == 0:
            return
        at = place(oid)
        node = self.object(at[-1])
        yield at, node
        if number(node, 34, 2):
            for _, value in self.items(node):
                yield from self.tree(number(value, 0, 8), place)

    def map_of(self, block):
        """The objects of an object map, and its records."""
        data = self.object(block)
        nodes = [*self.tree(number(data, 48, 8), physical), *self.tree(number(data, 56, 8), physical)]
        return [(block,), *(at for at, _ in nodes)], list(self.records(number(data, 48, 8)))

    def view(self, slot, xid, map_block, records, superblock, hashed):
        """Of a view: its objects, the number of its records, and its notes on hashes."""
        def place(oid):
            record = max((it for it in records if it[0] == oid and it[1] <= xid), key=lambda it: it[1])
            return (map_block, *record)
        nodes = list(self.tree(number(superblock, 136, 8), place))
        leaves = [item for _, node in nodes if number(node, 34, 2) == 0 for item in self.items(node)]
        objects = [at for at, _ in nodes]
        if number(superblock, 1000, 8):
            objects.append(place(number(superblock, 1000, 8)))
        notes = []
        for key, _ in leaves if hashed else []:
            if key[7] >> 4 == 9:
                name = key[12:-1]
                if max(name) > 0x7F and number(key, 8, 4) >> 10 != name_hash(name.decode(), hashed & 1):
                    notes.append(f"volume {slot} view {xid} id {number(key, 0, 8) % 2**60} name {shown(name)}")
        return objects, len(leaves), notes

    def check_lines(self, strict=False):
        xid, _, nx, maps = self.newest()
        ephemeral = dict(maps)
        mapped = lambda oid: ("ephemeral", oid, ephemeral[oid])
        objects, records, views, notes = {"newest"}, 0, 0, []
        # what the newest superblock names
        manager_oid, map_block, reaper = (number(nx.data, at, 8) for at in (152, 160, 168))
        manager = self.block(ephemeral[manager_oid])
        objects.add(mapped(manager_oid))
        for at in (208, 248):
            objects.update(at for at, _ in self.tree(number(manager, at, 8), mapped))
        while reaper:
            objects.add(mapped(reaper))
            reaper = number(self.block(ephemeral[reaper]), 48 if reaper == number(nx.data, 168, 8) else 32, 8)
        addresses, count = number(manager, 80, 4), number(manager, 68, 4) or number(manager, 64, 4)
        blocks = [number(manager, addresses + 8 * i, 8) for i in range(count)]
        objects.update((block,) for block in blocks)
        if number(manager, 68, 4):
            objects.update((number(self.object(cab), 40 + 8 * i, 8),) for cab in blocks for i in range(number(self.block(cab), 36, 4)))
        if number(nx.data, 1272, 8):
            objects.add((number(nx.data, 1272, 8),))
        map_objects, container = self.map_of(map_block)
        objects.update(map_objects)
        # the volumes
        found = list(self.volumes())
        for slot, block, data in found:
            objects.add((map_block, *next(it for it in container if it[4] == block)))
            volume_map = number(data, 128, 8)
            map_objects, mapping = self.map_of(volume_map)
            objects.update(map_objects)
            for root in (number(data, 144, 8), number(data, 152, 8)):
                objects.update(at for at, _ in self.tree(root, physical))
            superblocks = [(xid, data)]
            for key, value in self.metadata(number(data, 152, 8)) if number(data, 152, 8) else []:
                if key[7] >> 4 == 1:
                    superblock = number(value, 8, 8)
                    objects.add((superblock,))
                    objects.update(at for at, _ in self.tree(number(value, 0, 8), physical))
                    superblocks.append((number(key, 0, 8) % 2**60, self.object(superblock)))
            for view_xid, superblock in superblocks:
                of_view, count, more = self.view(slot, view_xid, volume_map, mapping, superblock, number(data, 56, 8) & 9)
                objects.update(of_view)
                records, views, notes = records + count, views + 1, notes + more
        if strict and notes:
            raise Ended(1, f"fault: NameHash {notes[0]}")
        free = number(manager, 72, 8)
        numbers = (("xid", xid), ("volumes", len(found)), ("views", views), ("objects", len(objects)), ("records", records))
        numbers += (("used", nx.blocks - free), ("free", free), ("notes", len(notes)))
        return ["clean", *(f"{word} {count}" for word, count in numbers), *(f"note hash {note}" for note in notes)]


def physical(oid):
    """The place of a physical object: its id is its block."""
    return (oid,)


def name_hash(name, folded):
    """The 22 bits of a name's hash: of its letters taken apart, and folded where case doesn't count."""
    name = unicodedata.normalize("NFD", name)
    if folded:
        name = unicodedata.normalize("NFD", name.casefold())
    crc = TOP
    for byte in name.encode("utf-32-le"):
        crc ^= byte
        for _ in range(8):
            crc = crc >> 1 ^ (0x82F63B78 if crc & 1 else 0)
    return crc % 2**22


def shown(name):
    """A name, each byte of it that isn't shown as it is by its number."""
    return b"".join(b"\\x%02x" % b if b < 0x20 or b in b"\x7f/\\" else bytes([b]) for b in name).decode()


def seal(path, block, edits):
    """The edits of one block of 4,096 bytes, and its sum after them."""
    with open(path, "rb") as file:
        file.seek(block * 4096)
        data = bytearray(file.read(4096))
    for at, text in edits:
        data[at : at + len(text) // 2] = bytes.fromhex(text)
    edits = [(0, stored_sum(data).to_bytes(8, "little").hex()), *edits]
    return [f"{block * 4096 + at} {text}" for at, text in edits]


def main(words):
    if len(words) >= 5 and words[0] == "seal" and len(words) % 2:
        print(*seal(words[1], int(words[2]), [(int(at), text) for at, text in zip(words[3::2], words[4::2])]), sep="\n")
        return 0
    if words[:1] == ["snapshots"] and len(words) == 4 and words[2] == "--volume":
        words, options = words[:2], words[3:]
    elif words[:1] == ["check"] and words[2:] == ["--strict"]:
        words, options = words[:2], [True]
    else:
        options = []
    if len(words) != 2 or words[0] not in ("ring", "info", "volumes", "space", "snapshots", "check"):
        print(__doc__, file=sys.stderr)
        return 2
    try:
        image = Image(words[1])
        lines = {"ring": image.ring_lines, "info": image.info_lines, "volumes": image.volumes_lines, "space": image.space_lines, "snapshots": image.snapshots_lines, "check": image.check_lines}
        for line in lines[words[0]](*options):
            print(line)
    except Ended as ended:
        status, line = ended.args
        print(f"apfs: {line}", file=sys.stderr)
        return status
    return 0


if __name__ == "__main__":
    sys.exit(main(sys.argv[1:]))
