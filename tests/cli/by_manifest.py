#!/usr/bin/env python3
"""What `ls`, `tree`, `cat` and `xattr` have to say of an image, and what `export` has to make of it, by the listing that the kernel's driver gave of it when
it was made.

    by_manifest.py MANIFESTS WORDS..             what a line of words has to say, as tests/cli/run prints it
    by_manifest.py --all PROGRAM IMAGE MANIFESTS [COMMAND..]
                                                 runs the program for every path of every view, and names what differs
    by_manifest.py --export PROGRAM IMAGE MANIFESTS
                                                 exports every view into new folders, and names what differs in text, names, contents or rights
    by_manifest.py --start FOLDER WHOLE MANIFESTS
                                                 whether a folder holds a start of what the live view gives, which the folder WHOLE has, and how many entries
    by_manifest.py --rescued FOLDER MANIFESTS [SNAPSHOT]
                                                 whether each path of a view is in a folder of apfs-rescue as it should be, or among those that failed

MANIFESTS is a folder of tests/images/manifests. It knows nothing of the program under test, and reads no image.
"""
import glob
import hashlib
import os
import stat
import subprocess
import sys
import tempfile
import unicodedata
from urllib.parse import unquote_to_bytes

ROOT = 2
# The volumes on which upper and lower case differ, by the option of mkapfs with which they were made.
WITH_CASE = {"p-uni-cs"}
# What the kernel's driver puts before the name of each attribute; it isn't on the disk.
OF_MODULE = b"osx."


class File:
    """A file as one path reaches it."""

    def __init__(self, kind, path, fields, rest):
        self.kind, self.path = kind, path
        self.name = path.rsplit(b"/", 1)[1] or b"/"
        self.id, self.size = int(fields["ino"]), int(fields["size"])
        self.sum = rest[7:] if rest.startswith("sha256=") else None
        self.children, self.attributes = {}, {}

    def is_directory(self):
        return self.kind == "d"

    def listed(self):
        """Its children by the bytes of their names, or itself."""
        return [self.children[name] for name in sorted(self.children)] if self.is_directory() else [self]


def fields_of(words):
    return dict(word.split("=", 1) for word in words)


def read_view(path):
    """The files of a view by their paths."""
    files, last = {}, None
    for line in open(path, encoding="utf-8").read().split("\n"):
        if line.startswith("  x "):
            name, size, sum = line[4:].split(" ")
            last.attributes[unquote_to_bytes(name).removeprefix(OF_MODULE)] = (int(size[5:]), sum[7:])
        elif line:
            words = line.split(" ", 9)
            last = File(words[0], unquote_to_bytes(words[8]), fields_of(words[1:8]), words[9] if len(words) == 10 else "")
            files[last.path] = last
    for file in files.values():
        if file.path != b"/":
            files[file.path.rsplit(b"/", 1)[0] or b"/"].children[file.name] = file
    return files


def views_of(folder):
    """The views of an image's only volume by the names of their snapshots, the live one by None."""
    views = {None: read_view(f"{folder}/live.txt")}
    for path in glob.glob(f"{folder}/snap-*.txt"):
        views[os.path.basename(path)[5:-4]] = read_view(path)
    return views


def form_of(name, with_case):
    """The normal form of a name of ASCII characters; of other names only how characters are composed."""
    text = unicodedata.normalize("NFD", name.decode())
    return text.lower() if not with_case and text.isascii() else text


def find(files, path, with_case):
    """Where a path leads, or the answer."""
    at = files[b"/"]
    for name in filter(None, path.split(b"/")):
        if not at.is_directory():
            return "NotDirectory"
        alike = [one for one in at.children if form_of(one, with_case) == form_of(name, with_case)]
        if name not in at.children and not alike:
            return "NotFound"
        at = at.children[name if name in at.children else alike[0]]
    return at


def shown(name):
    return b"".join(b"\\x%02x" % byte if byte < 0x20 or byte in b"\x7f/\\" else bytes([byte]) for byte in name)


def row(file, path):
    return b"%s %d %d %s\n" % (file.kind.encode(), file.id, file.size, path)


def rows_under(file, before):
    for child in file.listed():
        path = before + shown(child.name)
        yield row(child, path)
        if child.is_directory():
            yield from rows_under(child, path + b"/")


def hash_of(data):
    return hashlib.sha256(data).hexdigest()


def said(files, with_case, command, path, name):
    """The status, the hash of standard output, the answer, and the text where it is no contents."""
    file = find(files, path, with_case)
    answer, text, sum = file if isinstance(file, str) else None, b"", hash_of(b"")
    if answer:
        pass
    elif command == "ls":
        text = b"".join(row(one, b"/" if one.name == b"/" else shown(one.name)) for one in file.listed())
    elif command == "tree":
        text = b"".join(rows_under(file, b"")) if file.is_directory() else row(file, shown(file.name))
    elif command == "cat":
        text, sum, answer = (None, file.sum, None) if file.kind == "-" else (b"", sum, "NotFile")
    elif name is None:
        text = b"".join(b"%d %s\n" % (file.attributes[one][0], shown(one)) for one in sorted(file.attributes))
    elif name in file.attributes:
        text, sum = None, file.attributes[name][1]
    else:
        text, answer = None, "NoAttribute"
    return (7 if answer else 0, sum if text is None else hash_of(text), answer, text)


def meant(folder, words):
    """What a line has to say; its words are COMMAND IMAGE PATH [NAME] [--volume N] [--snapshot NAME]."""
    options, places, words = {"--volume": "0", "--snapshot": None}, [], list(words)
    while words:
        word, equals, value = words.pop(0).partition("=")
        if word in options:
            options[word] = value if equals else words.pop(0)
        else:
            places.append(word + equals + value)
    name = places[3].encode() if len(places) > 3 else None
    views = views_of(folder)
    if options["--volume"] != "0" or options["--snapshot"] not in views:
        return (7, hash_of(b""), "NoSnapshot" if options["--volume"] == "0" else "NoVolume", None if name else b"")
    return said(views[options["--snapshot"]], os.path.basename(folder) in WITH_CASE, places[0], places[2].encode(), name)


def lines_of(file, with_case):
    """The lines that are run for a file: command, path and the name of an attribute."""
    yield from ((command, file.path, None) for command in ("ls", "tree", "cat", "xattr"))
    yield from (("xattr", file.path, name) for name in (*file.attributes, b"none"))
    yield "ls", file.path + b"/none", None
    text = file.path.decode()
    others = [unicodedata.normalize(form, text) for form in ("NFC", "NFD")]
    others += [] if with_case or not text.isascii() else [text.upper(), text.swapcase()]
    yield from (("ls", other.encode(), None) for other in others)


def compare(program, image, folder, commands):
    """Runs every line, and names each that says otherwise."""
    with_case, runs, wrong = os.path.basename(folder) in WITH_CASE, 0, 0
    for snapshot, files in views_of(folder).items():
        options = ["--snapshot", snapshot] if snapshot else []
        for file in files.values():
            for command, path, name in lines_of(file, with_case):
                if command not in commands:
                    continue
                status, sum, answer, _ = said(files, with_case, command, path, name)
                words = [command, image, path] + ([name] if name else []) + options
                ended = subprocess.run([program, *words], capture_output=True, check=False)
                err = f"apfs: answer: {answer}\n".encode() if answer else b""
                runs += 1
                if (ended.returncode, hash_of(ended.stdout), ended.stderr) != (status, sum, err):
                    wrong += 1
                    print(f"{command} {path!r} {name or b''!r} {snapshot or 'live'}: status {ended.returncode}, wanted {status}; {ended.stderr!r}")
    print(f"{os.path.basename(folder)}: {runs} lines, {wrong} wrong")
    return wrong == 0 and runs > 0


def entries_of(files):
    """What `tree` has of a view, in its order: paths as they are written, with the files."""

    def under(file, before):
        for child in file.listed():
            yield before + shown(child.name), child
            if child.is_directory():
                yield from under(child, before + shown(child.name) + b"/")

    return list(under(files[b"/"], b""))


def said_of_export(files):
    """The text of `export`: what is left out, and how much was put."""
    rows = entries_of(files)
    left = b"".join(b"skipped %s %s\n" % (file.kind.encode(), path) for path, file in rows if file.kind not in "d-")
    put = [file for _, file in rows if file.kind == "-"]
    folders = sum(file.is_directory() for _, file in rows)
    return left + b"exported %d directories %d files %d bytes\n" % (folders, len(put), sum(file.size for file in put))


def found_in(folder):
    """What stands below a folder, by paths: the rights, and of a file the bytes. Links aren't followed."""
    found = {}
    for at, names, others in os.walk(folder):
        for name in names + others:
            path = os.path.join(at, name)
            status = os.lstat(path)
            kind = "d" if stat.S_ISDIR(status.st_mode) else "-" if stat.S_ISREG(status.st_mode) else "?"
            data = open(path, "rb").read() if kind == "-" else None
            found[os.path.relpath(path, folder)] = kind, stat.S_IMODE(status.st_mode), data
    return found


def wrongs_of_export(program, image, files, options, mask):
    """Exports a view into a new folder, and answers what is wrong."""
    with tempfile.TemporaryDirectory() as room:
        folder = os.path.join(room, "folder").encode()
        os.mkdir(folder)
        ended = subprocess.run([program, "export", image, folder, *options], capture_output=True, check=False, preexec_fn=lambda: os.umask(mask))
        wrongs = []
        if (ended.returncode, ended.stdout, ended.stderr) != (0, said_of_export(files), b""):
            wrongs.append(f"status {ended.returncode}, {ended.stderr!r}, wanted {said_of_export(files)!r}, found {ended.stdout!r}")
        wanted = {path: file for path, file in entries_of(files) if file.kind in "d-"}
        found = found_in(folder)
        wrongs += [f"{path!r} is missing" for path in wanted if path not in found] + [f"{path!r} is too much" for path in found if path not in wanted]
        for path, file in wanted.items():
            kind, rights, data = found.get(path, (None, None, None))
            if kind is not None and (kind, rights) != (file.kind, (0o755 if file.is_directory() else 0o644) & ~mask):
                wrongs.append(f"{path!r}: {kind} with the rights {rights:o}")
            if kind == "-" and (len(data), hash_of(data)) != (file.size, file.sum):
                wrongs.append(f"{path!r}: {len(data)} bytes, which differ from the {file.size} wanted")
        if os.listdir(room) != ["folder"]:
            wrongs.append("something was made beside the folder")
        return wrongs


def compare_exports(program, image, folder):
    """Exports every view with several masks, and names what differs. Where nobody has a right, none but the superuser can fill a folder."""
    runs, wrong = 0, 0
    masks = (0o000, 0o022, 0o077, 0o777) if os.geteuid() == 0 else (0o000, 0o022, 0o077)
    for snapshot, files in views_of(folder).items():
        for mask in masks:
            runs += 1
            for it in wrongs_of_export(program, image, files, ["--snapshot", snapshot] if snapshot else [], mask):
                wrong += 1
                print(f"export {snapshot or 'live'}, mask {mask:03o}: {it}")
    print(f"{os.path.basename(folder)}: {runs} exports, {wrong} wrong")
    return wrong == 0


def tell_start(folder, whole, manifests):
    """Tells whether a folder holds a start of what the live view gives, which stands in the folder `whole`: whole entries in order, and a start of the last one's bytes. Answers
    `whole` or `part` and how many entries are there, or `wrong`."""
    found, full = found_in(folder.encode()), found_in(whole.encode())
    wanted = [path for path, file in entries_of(read_view(f"{manifests}/live.txt")) if file.kind in "d-"]
    first = wanted[: len(found)]
    if sorted(first) != sorted(found) or any(found[path] != full[path] for path in first[:-1]):
        return f"wrong: {sorted(found)}"
    if not first or found[first[-1]] == full[first[-1]]:
        return f"{'whole' if len(first) == len(wanted) else 'part'} {len(first)}"
    (kind, rights, data), all_of_it = found[first[-1]], full[first[-1]]
    return f"part {len(first)}" if (kind, rights) == all_of_it[:2] and kind == "-" and all_of_it[2].startswith(data) else f"wrong: {first[-1]}"


def tell_rescued(folder, manifests, snapshot=None):
    """Tells whether a folder of apfs-rescue has each file of a view with its bytes, but for those that its list names, or that are below a directory that it names; whether the list names all that is
    neither a file nor a directory; and that nothing else is there. Answers how many files there are and how many paths the list has, or `wrong` and a path."""
    found, rows = found_in(os.path.join(folder, "files").encode()), dict(entries_of(views_of(manifests)[snapshot]))
    lines = open(os.path.join(folder, "failed"), "rb").read().split(b"\n")[:-1]
    listed = {line.split(b": ")[0][1:] for line in lines}
    if len(listed) != len(lines) or sorted(os.listdir(folder)) != ["failed", "files"]:
        return f"wrong: {len(lines)} lines, {sorted(os.listdir(folder))}"
    for path in {*rows, *found, *listed} - {b""}:
        parts, file, (kind, _, data) = path.split(b"/"), rows.get(path), found.get(path, (None, None, None))
        is_below = any(b"/".join(parts[:n]) in listed for n in range(len(parts)))
        is_missing = file is not None and kind is None and (path in listed) != is_below
        is_folder = file is not None and file.is_directory() and kind == "d" and not is_below
        is_file = file is not None and file.kind == kind == "-" and hash_of(data) == file.sum and not is_below and path not in listed
        if not (is_missing or is_folder or is_file):
            return f"wrong: {path!r}"
    return f"{sum(kind == '-' for kind, _, _ in found.values())} files, {len(lines)} failed"


if sys.argv[1] == "--rescued":
    print(tell_rescued(*sys.argv[2:5]))
    sys.exit(0)
if sys.argv[1] == "--export":
    sys.exit(0 if compare_exports(*sys.argv[2:5]) else 1)
if sys.argv[1] == "--start":
    print(tell_start(*sys.argv[2:5]))
    sys.exit(0)
if sys.argv[1] == "--all":
    program, image, folder = sys.argv[2:5]
    sys.exit(0 if compare(program, image, folder, sys.argv[5:] or ["ls", "tree", "cat", "xattr"]) else 1)
status, sum, answer, text = meant(sys.argv[1], sys.argv[2:])
print(f"status {status}", flush=True)
if sys.argv[2] == "cat" or text is None:
    print(f"sha256 {sum}")
else:
    sys.stdout.buffer.write(b"".join(b"out " + line + b"\n" for line in text.split(b"\n")[:-1]))
    sys.stdout.flush()
if answer:
    print(f"err apfs: answer: {answer}")
