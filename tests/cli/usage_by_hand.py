#!/usr/bin/env python3
"""usage_by_hand.py IMAGE [--volume N]: what each view of a volume keeps from being freed, worked out from the bytes of an image.

Nothing here comes from the program. The image is checked first as ring_by_hand.py does: where nothing is wrong but sums. For each view it makes
the set of the blocks that the view holds, as a set of Python: the blocks that the volume's object map gives for the nodes of the
view's files and for its extended metadata, those that its extents cover, the nodes of its extent reference tree, and a snapshot's
superblock. The lines are `live held H only O`, `XID NAME held H only O` for each snapshot by transaction, and `all T`.
"""
import sys

from ring_by_hand import Ended, Image, number, physical, shown


def blocks_of(image, xid, records, superblock, references):
    """The blocks that the view of a superblock holds, but for the superblock's own."""

    def place(oid):
        record = max((it for it in records if it[0] == oid and it[1] <= xid), key=lambda it: it[1])
        return (record[4],)

    nodes = list(image.tree(number(superblock, 136, 8), place))
    held = {at[0] for at, _ in nodes}
    if number(superblock, 1000, 8):
        held.add(place(number(superblock, 1000, 8))[0])
    for _, node in nodes:
        for key, value in image.items(node) if number(node, 34, 2) == 0 else []:
            length, first = number(value, 0, 7), number(value, 8, 8)
            if key[7] >> 4 == 8 and first:
                held.update(range(first, first - -length // image.size))
    held.update(at[0] for at, _ in image.tree(references, physical))
    return held


def views(image, wanted=None):
    """The views of a volume: what is shown of each, and the blocks that it holds."""
    found = {slot: data for slot, _, data in image.volumes()}
    slot = min(found, default=0) if wanted is None else int(wanted)
    if slot not in found:
        raise Ended(7, "answer: NoVolume")
    data = found[slot]
    _, records = image.map_of(number(data, 128, 8))
    yield "live", blocks_of(image, image.newest()[0], records, data, number(data, 144, 8))
    for key, value in image.metadata(number(data, 152, 8)) if number(data, 152, 8) else []:
        if key[7] >> 4 == 1:
            xid, block = number(key, 0, 8) % 2**60, number(value, 8, 8)
            held = blocks_of(image, xid, records, image.object(block), number(value, 0, 8))
            yield f"{xid} {shown(value[50 : 49 + number(value, 48, 2)])}", held | {block}


def lines(image, wanted=None):
    told = list(views(image, wanted))
    for i, (name, held) in enumerate(told):
        others = set().union(*(it for j, (_, it) in enumerate(told) if j != i))
        yield f"{name} held {len(held)} only {len(held - others)}"
    yield f"all {len(set().union(*(held for _, held in told)))}"


def main(words):
    if len(words) != 1 and (len(words) != 3 or words[1] != "--volume"):
        print(__doc__, file=sys.stderr)
        return 2
    try:
        image = Image(words[0])
        image.check_lines()
        for line in list(lines(image, *words[2:])):
            print(line)
    except Ended as ended:
        status, line = ended.args
        print(f"apfs: {line}", file=sys.stderr)
        return status
    return 0


if __name__ == "__main__":
    sys.exit(main(sys.argv[1:]))
