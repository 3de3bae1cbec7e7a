#!/usr/bin/env python3
"""Makes containers whose shapes are hard for a checker, and tells how time and memory grow with them.

    hostile.py --list                   the shapes, a line each
    hostile.py --make SHAPE N IMAGE     writes one of them, and tells the bytes that are used
    hostile.py [SHAPE..]                makes each shape at n, 2n, 4n and 8n in a temporary folder, runs the commands on it, and tells time and memory

`APFS=PROGRAM` is the program; without it the one that is built in this repository. `SIZES=2` takes the first two sizes alone. `LIMIT=SECONDS` ends a run, 120 without it.
Told are the processor time and the greatest memory of the process by the kernel's count, how they grew from the size before, and both for each MiB of
the image that is used. The containers are written by container.py, which shares no code with the program.
"""
import bisect
import os
import random
import resource
import struct
import subprocess
import sys
import tempfile

sys.dont_write_bytecode = True
from container import BLOCK, EPHEMERAL, FILE, FOLDER, IS_LEAF, IS_ROOT, PHYSICAL, Container, Volume, attribute, entry, extent, folders, inode, laid, links, node, order_of, sealed, stream_id


def plain_files(count, folder=2, first=16):
    """The records of empty files in one folder."""
    for i in range(count):
        yield entry(folder, f"file-{i:07}", first + i, FILE)
        yield inode(first + i, folder, FILE, 1)


def one_volume(path, records, references=(), container=None):
    container = container or Container()
    volume = Volume(container)
    volume.finish(volume.files(records), references)
    return container.finish(path)


def shared_tree(count, path):
    """Snapshots that share one tree, of 20 files for each snapshot"""
    container = Container(xid=count + 1)
    volume = Volume(container)
    root = volume.files([*folders(20 * count), *plain_files(20 * count)])
    for xid in range(1, count + 1):
        volume.snapshot(xid, root)
    volume.finish(root)
    return container.finish(path)


def tiny_tree(count, path):
    """Snapshots that share one tree of twenty files"""
    container = Container(xid=count + 1)
    volume = Volume(container)
    root = volume.files([*folders(20), *plain_files(20)])
    for xid in range(1, count + 1):
        volume.snapshot(xid, root)
    volume.finish(root)
    return container.finish(path)


def other_roots(count, path):
    """Snapshots of which every second one has another root, over an empty tree"""
    container = Container(xid=count + 1)
    volume = Volume(container)
    root = volume.files([*folders(20 * count), *plain_files(20 * count)])
    other = volume.files(folders())
    for xid in range(1, count + 1):
        volume.snapshot(xid, other if xid % 2 else root)
    volume.finish(root)
    return container.finish(path)


def changing_leaves(count, files, changed, path):
    """Writes snapshots between which so many leaves of a tree of so many files change."""
    container = Container(xid=count + 1)
    volume = Volume(container)
    kept = volume.files([*folders(files), *plain_files(files)])
    made = {oid: container.blocks[at] for (oid, _), at in volume.map.items()}
    leaves = sorted(oid for oid, data in made.items() if data[34:36] == b"\0\0")
    first = [len(leaves) * (2 * i + 1) // (2 * changed) for i in range(changed)]
    for xid in range(1, count + 1):
        volume.snapshot(xid, kept)
        for at in first:
            oid = leaves[at]
            data = made[oid]
            volume.put(lambda oid, data=data, xid=xid: sealed(oid, xid + 1, *struct.unpack_from("<II", data, 24), data[32:]), xid + 1, oid)
    volume.finish(kept)
    return container.finish(path)


def own_leaf(count, path):
    """Snapshots between which one leaf of the tree changes"""
    return changing_leaves(count, 2 * count, 1, path)


def leaf_of_many(count, path):
    """Snapshots between which one leaf of a tree of 10,000 files changes"""
    return changing_leaves(count, 10000, 1, path)


def leaves_of_many(count, path):
    """Snapshots between which twenty leaves of a tree of 50,000 files change"""
    return changing_leaves(count, 50000, 20, path)


def million_in_snapshots(count, path):
    """Snapshots between which twenty leaves of a tree of 1,000,000 files change"""
    return changing_leaves(count, 1000000, 20, path)


class Growing:
    """A tree of three levels whose nodes are put again if their entries change; a leaf with too many records is split, and one without any goes."""

    def __init__(self, volume, records):
        self.volume, self.root, self.records = volume, None, len(records)
        self.lows, self.leaves = [], []
        for at in range(0, len(records), 28):
            self.lows.append(order_of(records[at]))
            self.leaves.append([None, records[at : at + 28]])
        self.above = [[None, self.leaves[at : at + 40]] for at in range(0, len(self.leaves), 40)]
        self.home = {id(leaf): above for above in self.above for leaf in above[1]}
        self.changed = [*self.leaves, *self.above]

    def leaf_of(self, record):
        return max(bisect.bisect_right(self.lows, order_of(record)) - 1, 0)

    def add(self, record):
        at = self.leaf_of(record)
        leaf = self.leaves[at]
        bisect.insort(leaf[1], record, key=order_of)
        self.records += 1
        if len(leaf[1]) > 36:
            other = [None, leaf[1][18:]]
            del leaf[1][18:]
            self.leaves.insert(at + 1, other)
            self.lows.insert(at + 1, order_of(other[1][0]))
            above = self.home[id(other)] = self.home[id(leaf)]
            above[1].insert(next(i for i, one in enumerate(above[1]) if one is leaf) + 1, other)
            self.changed.append(other)
        self.changed += [leaf, self.home[id(leaf)]]

    def remove(self, record):
        at = self.leaf_of(record)
        leaf = self.leaves[at]
        leaf[1].remove(record)
        self.records -= 1
        if not leaf[1]:
            del self.leaves[at], self.lows[at]
            above = self.home[id(leaf)]
            above[1] = [one for one in above[1] if one is not leaf]
        self.changed += [leaf, self.home[id(leaf)]]

    def put(self, xid):
        """Puts what has changed at a transaction, and answers the id of the root."""
        volume, seen = self.volume, set()
        for what in sorted(self.changed, key=lambda one: isinstance(one[1][0], list) if one[1] else False):
            if id(what) in seen or not what[1]:
                continue
            seen.add(id(what))
            is_leaf = not isinstance(what[1][0], list)
            entries = what[1] if is_leaf else [(leaf[1][0][0], struct.pack("<Q", leaf[0])) for leaf in what[1]]
            flags, level = (IS_LEAF, 0) if is_leaf else (0, 1)
            what[0] = volume.put(lambda oid, flags=flags, level=level, entries=entries: node((oid, xid, 3, 0xE), flags, level, entries), xid, what[0])
        self.changed = []
        top = [(above[1][0][1][0][0], struct.pack("<Q", above[0])) for above in self.above]
        info = struct.pack("<IIIIIIQQ", 0, BLOCK, 0, 0, 0, 0, self.records, 1 + len(self.above) + len(self.leaves))
        self.root = volume.put(lambda oid: node((oid, xid, 2, 0xE), IS_ROOT, 2, top, info), xid, self.root)
        return self.root


def files_come_and_go(count, path):
    """Snapshots between which five of 50,000 files go, and five come amid their ids"""
    chance = random.Random(count)
    container = Container(xid=count + 1)
    volume = Volume(container)
    files = {16 + 8 * i for i in range(50000)}
    record_pair = lambda file: (entry(2, f"file-{file:07}", file, FILE), inode(file, 2, FILE, 1))
    tree = Growing(volume, sorted([*folders(50000), *(record for file in files for record in record_pair(file))], key=order_of))
    kept = sorted(files)
    root = tree.put(1)
    for xid in range(1, count + 1):
        volume.snapshot(xid, root)
        for _ in range(5):
            gone = kept.pop(chance.randrange(len(kept)))
            files.remove(gone)
            come = 16 + chance.randrange(8 * 50000)
            while come in files:
                come += 1
            files.add(come)
            bisect.insort(kept, come)
            for record in record_pair(gone):
                tree.remove(record)
            for record in record_pair(come):
                tree.add(record)
        root = tree.put(xid + 1)
    volume.finish(root)
    return container.finish(path)


def extents_in_snapshots(count, path):
    """One file of 80 extents for each snapshot, in a tree that they share"""
    container = Container(xid=count + 1)
    volume = Volume(container)
    parts = 80 * count
    data = container.take(2 * parts)
    records = [*folders(1), entry(2, "file", 16, FILE), inode(16, 2, FILE, 1, parts * BLOCK), stream_id(16)]
    records += [extent(16, i * BLOCK, BLOCK, data + 2 * i) for i in range(parts)]
    root = volume.files(records)
    for xid in range(1, count + 1):
        volume.snapshot(xid, root)
    volume.finish(root, [(data, 2 * parts, 16, 1)])
    return container.finish(path)


def turns_of_extents(count, path):
    """Snapshots that take turns between two trees of 40 extents for each snapshot"""
    container = Container(xid=count + 1)
    volume = Volume(container)
    parts = 40 * count
    data = container.take(4 * parts)
    roots = []
    for first in (data, data + 2 * parts):
        records = [*folders(1), entry(2, "file", 16, FILE), inode(16, 2, FILE, 1, parts * BLOCK), stream_id(16)]
        records += [extent(16, i * BLOCK, BLOCK, first + 2 * i) for i in range(parts)]
        roots.append(volume.files(records))
    for xid in range(1, count + 1):
        volume.snapshot(xid, roots[xid % 2])
    volume.finish(roots[0], [(data, 4 * parts, 16, 1)])
    return container.finish(path)


def files_over(count, spans, ranges, container):
    """A volume of files with one extent each, `spans` their first blocks and lengths, and its new ranges."""
    volume = Volume(container)
    records = folders(count)
    for i, (at, length) in enumerate(spans):
        records += [entry(2, f"file-{i:07}", 16 + i, FILE), inode(16 + i, 2, FILE, 1, length * BLOCK), stream_id(16 + i), extent(16 + i, 0, length * BLOCK, at)]
    volume.finish(volume.files(records), ranges)


def ranges_under_all(count, path):
    """New ranges of a block each, under as many extents that each cover all of them"""
    container = Container()
    data = container.take(count)
    files_over(count, [(data, count)] * count, [(data + i, 1, 16, count) for i in range(count)], container)
    return container.finish(path)


def one_long(count, path):
    """One long extent, and short ones under it, each with a new range of its own"""
    container = Container()
    data = container.take(count)
    spans = [(data, count), *((data + i, 1) for i in range(1, count))]
    files_over(count, spans, [(data + i, 1, 16, 1 if i == 0 else 2) for i in range(count)], container)
    return container.finish(path)


def random_ids(count, path):
    """New ranges of a block each, under as many extents that begin one after the other in another order than their ids"""
    container = Container()
    data = container.take(2 * count)
    order = list(range(count))
    random.Random(1).shuffle(order)
    ranges = [(data, count, 16, count), *((data + count + i, 1, 16, count) for i in range(count))]
    files_over(count, [(data + i, 2 * count - i) for i in order], ranges, container)
    return container.finish(path)


def candidates(count, path):
    """Candidates for the newest checkpoint, which all map the same twice as many blocks, in a hundred objects of which the last is unsound; the oldest is valid"""
    objects = min(100, 2 * count)
    size = 2 * count // objects
    container = Container(xid=1, descriptors=2 + 2 * count, data=4 + objects * size)
    one_volume(path, folders(), container=container)
    first = 1 + container.descriptors + 4
    rows = []
    for i in range(objects):
        at = first + i * size
        data = sealed(5000 + i, 1, EPHEMERAL | 0x12, 0, bytes(size * BLOCK - 32))
        for part in range(size):
            container.blocks[at + part] = data[part * BLOCK : (part + 1) * BLOCK]
        rows.append(struct.pack("<IIIIQQQ", EPHEMERAL | 0x12, 0, size * BLOCK, 0, 0, 5000 + i, at))
    container.blocks[first + objects * size - 1] = b"unsound".ljust(BLOCK, b"\0")
    for i in range(count):
        at = 3 + 2 * i
        container.blocks[at] = sealed(at, 2 + i, PHYSICAL | 0xC, 0, struct.pack("<II", 1, objects) + b"".join(rows))
        fields = container.superblock(container.size, desc_index=(136, "I", at - 1))
        container.blocks[at + 1] = sealed(1, 2 + i, EPHEMERAL | 1, 0, laid(BLOCK, fields))
    return container.write(path)


def huge_mapping(count, path):
    """A container of many free blocks, and a newer candidate with one object that has nearly all of them"""
    data = 4096 * count
    container = Container(xid=1, descriptors=8, data=data)
    one_volume(path, folders(), container=container)
    at = 1 + container.descriptors + 4
    row = struct.pack("<IIIIQQQ", EPHEMERAL | 5, 0, (data - 5) * BLOCK & 0xFFFFFFFF, 0, 0, 1024, at)
    container.blocks[3] = sealed(3, 2, PHYSICAL | 0xC, 0, struct.pack("<II", 1, 1) + row)
    container.blocks[4] = sealed(1, 2, EPHEMERAL | 1, 0, laid(BLOCK, container.superblock(container.size, desc_index=(136, "I", 2))))
    container.blocks[at] = struct.pack("<QQQII", 0, 1024, 1, EPHEMERAL | 5, 0) + bytes(BLOCK - 32)
    return container.write(path)


def folder_chain(count, path):
    """A chain of folders, each in the one before"""
    records = folders(1)
    for i in range(count):
        inside = 1 if i + 1 < count else 0
        records += [entry(15 + i if i else 2, f"d{i}", 16 + i, FOLDER), inode(16 + i, 15 + i if i else 2, FOLDER, inside)]
    return one_volume(path, records)


def deep_files(count, path):
    """Folders of short names, each in the one before, with ten files of a block in each"""
    container = Container()
    data = container.take(10 * count)
    records, owned = folders(1), []
    for i in range(count):
        above = 15 + i if i else 2
        records += [entry(above, "d", 16 + i, FOLDER), inode(16 + i, above, FOLDER, 10 if i + 1 == count else 11)]
        for j in range(10):
            id, block = 16 + count + 10 * i + j, data + 10 * i + j
            container.blocks[block] = f"{i}-{j}\n".encode().ljust(BLOCK, b"\0")
            records += [entry(16 + i, f"f{j}", id, FILE), inode(id, 16 + i, FILE, 1, 1000), stream_id(id), extent(id, 0, BLOCK, block)]
            owned.append((block, 1, id, 1))
    volume = Volume(container)
    volume.finish(volume.files(records), owned)
    return container.finish(path)


def one_folder(count, path):
    """Empty files in one folder"""
    return one_volume(path, [*folders(count), *plain_files(count)])


def hard_links(count, path):
    """Names of one file in one folder"""
    records = [*folders(count), inode(16, 2, FILE, count)]
    for i in range(count):
        name = f"name-{i:07}"
        records += [entry(2, name, 16, FILE, 1000 + i), *links(16, 1000 + i, 2, name)]
    return one_volume(path, records)


def two_names(count, path):
    """Files with two names each, in one folder"""
    records = folders(2 * count)
    for i in range(count):
        records.append(inode(16 + i, 2, FILE, 2))
        for sibling, name in ((1 << 32 | 2 * i, f"one-{i:07}"), (1 << 32 | 2 * i + 1, f"two-{i:07}")):
            records += [entry(2, name, 16 + i, FILE, sibling), *links(16 + i, sibling, 2, name)]
    return one_volume(path, records)


def attributes(count, path):
    """Files with an attribute each, of a hundred bytes"""
    return one_volume(path, [*folders(count), *plain_files(count), *(attribute(16 + i, "user.note", bytes(100)) for i in range(count))])


def many_extents(count, path):
    """Extents of one file, a block each, under every second block of one new range"""
    container = Container()
    data = container.take(2 * count)
    records = [*folders(1), entry(2, "file", 16, FILE), inode(16, 2, FILE, 1, count * BLOCK), stream_id(16)]
    records += [extent(16, i * BLOCK, BLOCK, data + 2 * i) for i in range(count)]
    volume = Volume(container)
    volume.finish(volume.files(records), [(data, 2 * count, 16, 1)])
    return container.finish(path)


def many_volumes(count, path):
    """Volumes of a thousand empty files each, a hundred of them at most"""
    container = Container()
    for _ in range(min(count, 100)):
        volume = Volume(container)
        volume.finish(volume.files([*folders(1000), *plain_files(1000)]))
    return container.finish(path)


def free_blocks(count, path):
    """Blocks that nothing has"""
    container = Container()
    volume = Volume(container)
    volume.finish(volume.files(folders()))
    return container.finish(path, count)


def bare_chunks(count, path):
    """Blocks that nothing has, in chunks without bitmaps"""
    container = Container()
    volume = Volume(container)
    volume.finish(volume.files(folders()))
    return container.finish(path, count, bare=True)


def repeated_child(count, path):
    """Sixteen nodes, of which each but the last names the next one so often: as many leaves as n to the power of 15, for a walk that doesn't see that they are one"""
    container = Container()
    volume = Volume(container)
    key, value = entry(1, "root", 2, FOLDER)
    child = volume.put(lambda oid: node((oid, 1, 3, 0xE), IS_LEAF, 0, [(key, value)]))
    for level in range(1, 15):
        held = [(key, struct.pack("<Q", child))] * count
        child = volume.put(lambda oid, held=held, level=level: node((oid, 1, 3, 0xE), 0, level, held))
    info = struct.pack("<IIIIIIQQ", 0, BLOCK, 0, 0, 0, 0, 1, 16)
    volume.finish(volume.put(lambda oid: node((oid, 1, 2, 0xE), IS_ROOT, 15, [(key, struct.pack("<Q", child))] * count, info)))
    return container.finish(path)


# The function, its least n, and the commands that are run.
# The folder that `export` fills is made for each run.
CHECK, LS, TREE, CAT, SPACE, SNAPSHOTS, USAGE, EXPORT = ["check"], ["ls", "/"], ["tree", "/"], ["cat", "/file", "--quick"], ["space"], ["snapshots"], ["usage"], ["export"]
SHAPES = {
    "shared-tree": (shared_tree, 250, [CHECK, SNAPSHOTS]),
    "tiny-tree": (tiny_tree, 5000, [CHECK]),
    "other-roots": (other_roots, 250, [CHECK]),
    "own-leaf": (own_leaf, 125, [CHECK]),
    "leaf-of-many": (leaf_of_many, 8, [CHECK]),
    "leaves-of-many": (leaves_of_many, 38, [CHECK]),
    "million-in-snapshots": (million_in_snapshots, 4, [CHECK]),
    "files-come-and-go": (files_come_and_go, 38, [CHECK]),
    "extents-in-snapshots": (extents_in_snapshots, 125, [CHECK, CAT]),
    "turns-of-extents": (turns_of_extents, 50, [CHECK, USAGE]),
    "ranges-under-all": (ranges_under_all, 4000, [CHECK]),
    "one-long": (one_long, 4000, [CHECK]),
    "random-ids": (random_ids, 2000, [CHECK]),
    "candidates": (candidates, 250, [["info"], CHECK]),
    "huge-mapping": (huge_mapping, 32, [["info"], CHECK]),
    "folder-chain": (folder_chain, 5000, [CHECK, TREE, EXPORT]),
    "deep-files": (deep_files, 250, [CHECK, TREE, EXPORT]),
    "one-folder": (one_folder, 62500, [CHECK, LS, TREE]),
    "hard-links": (hard_links, 10000, [CHECK, TREE]),
    "two-names": (two_names, 25000, [CHECK]),
    "attributes": (attributes, 6250, [CHECK, TREE]),
    "many-extents": (many_extents, 125000, [CHECK]),
    "many-volumes": (many_volumes, 12, [CHECK]),
    "free-blocks": (free_blocks, 64000000, [CHECK, SPACE]),
    "bare-chunks": (bare_chunks, 100000000, [CHECK, SPACE]),
    "repeated-child": (repeated_child, 12, [CHECK]),
}


def measured(words, limit):
    """Runs a command with its output thrown away. Answers its status, its processor time in seconds, and its greatest memory in MiB."""
    with open(os.devnull, "w") as nothing:
        process = subprocess.Popen(words, stdin=subprocess.DEVNULL, stdout=nothing, stderr=nothing, preexec_fn=lambda: resource.setrlimit(resource.RLIMIT_CPU, (limit, limit)))
        _, status, used = os.wait4(process.pid, 0)
        process.returncode = os.waitstatus_to_exitcode(status)
    return process.returncode, used.ru_utime + used.ru_stime, used.ru_maxrss / 1024


def growth(now, before):
    return f"{now / before:5.1f}x" if before else "      "


def measure(name, program, room, sizes, limit):
    make, least, runs = SHAPES[name]
    print(f"{name}: {make.__doc__}")
    before = {}
    for double in range(sizes):
        count = least << double
        image = os.path.join(room, "image")
        # (a process of its own makes it: the kernel counts the memory of this one to that of the processes that it starts)
        used = int(subprocess.run([sys.executable, __file__, "--make", name, str(count), image], check=True, capture_output=True).stdout) / 2**20
        for words in runs:
            into = os.path.join(room, "into")
            os.mkdir(into)
            status, took, held = measured([program, words[0], image, *words[1:], *([into] if words is EXPORT else [])], limit)
            # (Python's own way goes no deeper than a thousand folders)
            subprocess.run(["rm", "-rf", into], check=True)
            then = before.get(words[0], (0, 0))
            print(
                f"  {words[0]:6} n {count:7}, {used:7.1f} MiB used: status {status}, {took:7.2f} s {growth(took, then[0])}, {held:7.1f} MiB {growth(held, then[1])}, "
                f"{took / used:6.3f} s and {held / used:5.1f} MiB for each",
                flush=True,
            )
            before[words[0]] = took, held
        os.remove(image)


def main():
    words = sys.argv[1:]
    if words[:1] == ["--list"]:
        for name, (make, least, _) in SHAPES.items():
            print(f"{name:22} from {least:6}: {make.__doc__}")
    elif words[:1] == ["--make"] and len(words) == 4 and words[1] in SHAPES:
        print(SHAPES[words[1]][0](int(words[2]), words[3]))
    elif all(word in SHAPES for word in words):
        top = os.path.dirname(os.path.dirname(os.path.dirname(os.path.abspath(__file__))))
        program = os.environ.get("APFS", f"{top}/crates/apfs/out/apfs")
        with tempfile.TemporaryDirectory() as room:
            for name in words or SHAPES:
                measure(name, program, room, int(os.environ.get("SIZES", "4")), int(os.environ.get("LIMIT", "120")))
    else:
        sys.exit(__doc__)


if __name__ == "__main__":
    main()
