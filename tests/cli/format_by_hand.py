#!/usr/bin/env python3
"""format_by_hand.py BLOCKS NAME CONTAINER VOLUME: writes a new container to standard output. It shares no code with img_format."""
import struct, sys, uuid
B = 4096
M = 2**32 - 1

def seal(b):
    a = c = 0
    for (w,) in struct.iter_unpack('<I', bytes(b[8:])):
        a = (a + w) % M; c = (c + a) % M
    lo = M - (a + c) % M
    hi = M - (a + lo) % M
    b[:8] = struct.pack('<II', lo, hi)

def block(oid, kind, sub, fields):
    b = bytearray(B)
    struct.pack_into('<QQII', b, 8, oid, 1, kind, sub)
    for at, form, value in fields:
        if form: struct.pack_into('<' + form, b, at, value)
        else: b[at:at + len(value)] = value
    seal(b)
    return b

def root(oid, storage, sub, fixed, records):
    f = [(32, 'H', 3 | (4 if fixed else 0)), (36, 'I', len(records)), (42, 'H', len(records) * (4 if fixed else 8))]
    table, keys, back = [], b'', 0
    start = 56 + len(records) * (4 if fixed else 8)
    for i, (key, value) in enumerate(records):
        back += len(value)
        if fixed: f += [(56 + 4 * i, 'H', len(keys)), (58 + 4 * i, 'H', back)]
        else: f += [(56 + 8 * i, 'H', len(keys)), (58 + 8 * i, 'H', len(key)), (60 + 8 * i, 'H', back), (62 + 8 * i, 'H', len(value))]
        f += [(start + len(keys), '', key), (B - 40 - back, '', value)]
        keys += key
    f += [(B - 36, 'I', B), (B - 16, 'Q', len(records)), (B - 8, 'Q', 1)]
    return block(oid, storage | 2, sub, f)

def crc32c(data):
    c = M
    for x in data:
        c ^= x
        for _ in range(8): c = c >> 1 ^ (0x82f63b78 if c & 1 else 0)
    return c

def name_hash(name): return crc32c(name.casefold().encode('utf-32-le')) & 0x3fffff

def image(blocks, name, container, volume):
    free = blocks - 57
    E, P = 0x80000000, 0x40000000
    out = [bytearray(B) for _ in range(57)]
    out[0] = out[2] = block(1, E | 1, 0, [(32, '', b'NXSB'), (36, 'I', B), (40, 'Q', blocks), (64, 'Q', 2), (72, '', container), (88, 'Q', 1031), (96, 'Q', 2),
        (104, 'I', 8), (108, 'I', 16), (112, 'Q', 1), (120, 'Q', 9), (128, 'I', 2), (132, 'I', 4), (136, 'I', 0), (140, 'I', 2), (144, 'I', 0), (148, 'I', 4),
        (152, 'Q', 1024), (160, 'Q', 25), (168, 'Q', 1025), (184, 'Q', 1026)])
    maps = [(36, 'I', 4)]
    for i, (kind, sub, oid) in enumerate([(5, 0, 1024), (0x11, 0, 1025), (2, 9, 1029), (2, 9, 1030)]):
        at = 40 + 40 * i
        maps += [(at, 'I', E | kind), (at + 4, 'I', sub), (at + 8, 'I', B), (at + 24, 'Q', oid), (at + 32, 'Q', 9 + i)]
    out[1] = block(1, P | 0xc, 0, maps)
    out[9] = block(1024, E | 5, 0, [(32, 'I', B), (36, 'I', 32768), (40, 'I', 126), (44, 'I', 507), (48, 'Q', blocks), (56, 'Q', 1), (64, 'I', 1), (72, 'Q', free),
        (80, 'I', 2528), (152, 'Q', 8), (160, 'I', 1), (164, 'I', 16), (168, 'Q', 27), (176, 'Q', 43), (208, 'Q', 1029), (248, 'Q', 1030), (328, 'I', 2520), (2528, 'Q', 43)])
    out[10] = block(1025, E | 0x11, 0, [])
    out[11] = root(1029, E, 9, True, [])
    out[12] = root(1030, E, 9, True, [])
    for at, oid, to in (25, 1026, 51), (52, 1028, 54):
        out[at] = block(at, P | 0xb, 0, [(40, 'I', P | 2), (44, 'I', P | 2), (48, 'Q', at + 1)])
        out[at + 1] = root(at + 1, P, 0xb, True, [(struct.pack('<QQ', oid, 1), struct.pack('<IIQ', 0, B, to))])
    out[27][0] = 3
    out[43] = block(43, P | 7, 0, [(36, 'I', 1), (56, 'I', blocks), (60, 'I', free), (64, 'Q', 44)])
    out[44][:8] = ((1 << 57) - 1).to_bytes(8, 'little')
    out[51] = block(1026, 0xd, 0, [(32, '', b'APSB'), (56, 'Q', 1), (116, 'I', 2), (120, 'I', P | 2), (124, 'I', P | 2), (128, 'Q', 52), (136, 'Q', 1028),
        (144, 'Q', 55), (152, 'Q', 56), (240, '', volume), (264, 'Q', 1), (704, '', name)])
    def entry(text, file):
        stored = text.encode() + b'\0'
        return (struct.pack('<QI', 9 << 60 | 1, name_hash(text) << 10 | len(stored)) + stored, struct.pack('<QQH', file, 0, 4))
    def inode(i):
        v = bytearray(92); struct.pack_into('<QQ', v, 0, 1, i); struct.pack_into('<H', v, 80, 0o40755)
        return (struct.pack('<Q', 3 << 60 | i), bytes(v))
    both = sorted([('root', 2), ('private-dir', 3)], key=lambda e: name_hash(e[0]))
    out[54] = root(1028, 0, 0xe, False, [entry(*e) for e in both] + [inode(2), inode(3)])
    out[55] = root(55, P, 0xf, False, [])
    out[56] = root(56, P, 0x10, False, [])
    return b''.join(bytes(b) for b in out) + bytes(B * free)

if __name__ == '__main__':
    n, name, c, v = sys.argv[1:]
    sys.stdout.buffer.write(image(int(n), name.encode(), uuid.UUID(c).bytes, uuid.UUID(v).bytes))
