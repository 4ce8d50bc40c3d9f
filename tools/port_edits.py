#!/usr/bin/env python3
"""Brings the must-fail edits to today's spelling. Run once, after the kit's port.py and tools/port_names.py, at the top.

usage: tools/port_edits.py COMMIT

COMMIT is the one that the edits fit. Each file of it that an edit changes is laid beside the file itself, as the edit leaves it, in a copy of COMMIT; port.py and
port_names.py turn the copy; and the difference between the two turned files is the edit's new text. Applied to the file as it is here it has to give just
that. What cannot be said so is listed and left as it is.
"""
import difflib
import pathlib
import shutil
import subprocess
import sys
import tempfile

TOP = pathlib.Path(__file__).resolve().parent.parent


def run(*words, where, **more):
    return subprocess.run(words, cwd=where, check=True, stdout=subprocess.PIPE, **more).stdout.decode()


def kit():
    return pathlib.Path(run("rt", "doc", where=TOP).strip()).parent


def read_edit(path):
    """The lines that no program reads, and for each file its pairs of an old and a new text."""
    said, files, file, old = [], [], None, None
    for line in path.read_text().split("\n"):
        if line.startswith("file: "):
            file = (line[6:].strip(), [])
            files.append(file)
        elif line.startswith("old: "):
            old = line[5:]
        elif line.startswith("new:"):
            file[1].append((old, line[5:]))
        elif line:
            said.append(line)
    return said, files


def variant(name, edit):
    path = pathlib.Path(name)
    return str(path.with_name(path.stem + "_of_edit_" + edit + path.suffix))


def apply(text, pairs):
    for old, new in pairs:
        if text.count(old) != 1:
            return None
        text = text.replace(old, new)
    return text


def by_lines(before, after):
    """Pairs of whole lines, less what is around a changed text, that make `after` of `before`."""
    a, b = before.split("\n"), after.split("\n")
    pairs = []
    for kind, i, j, k, l in difflib.SequenceMatcher(None, a, b, False).get_opcodes():
        if kind == "equal":
            continue
        if j - i != l - k:
            return None
        pairs += [(x.strip(), y.strip()) for x, y in zip(a[i:j], b[k:l]) if x != y]
    return pairs


def shortest(before, old, new):
    """The least of a line, by whole words, that stands once in the text."""
    a, b = old.split(" "), new.split(" ")
    n = 0
    while n < min(len(a), len(b)) and a[n] == b[n]:
        n += 1
    m = 0
    while m < min(len(a), len(b)) - n and a[len(a) - 1 - m] == b[len(b) - 1 - m]:
        m += 1
    for more in range(max(len(a), len(b)) + 1):
        i, j = max(0, n - more), min(len(a), len(a) - m + more)
        k = max(0, n - more)
        l = min(len(b), len(b) - m + more)
        x, y = " ".join(a[i:j]), " ".join(b[k:l])
        if more >= 2 and x and y and before.count(x) == 1:
            return x, y
    return old, new


def main():
    commit = sys.argv[1]
    room = pathlib.Path(tempfile.mkdtemp())
    run("git", "worktree", "add", "--detach", str(room / "old"), commit, where=TOP)
    top = room / "old"
    try:
        edits = sorted((top / "crates").glob("*/must-fail/*.edit"))
        parts = {}
        for path in edits:
            crate = path.parent.parent
            said, files = read_edit(path)
            parts[path] = said, files
            merged = {}
            for name, pairs in files:
                text = merged.get(name) or (crate / name).read_text()
                made = apply(text, pairs)
                assert made is not None, (path, name)
                merged[name] = made
            for name, made in merged.items():
                (crate / variant(name, path.stem)).write_text(made)
        shutil.copy(TOP / "tools/port_names.py", top / "tools/port_names.py")
        run("git", "add", "-A", where=top)
        run("git", "commit", "-qm", "edits laid beside", where=top)
        run("python3", str(kit() / "port/port.py"), where=top)
        run("python3", "tools/port_names.py", where=top)
        left, words, lines = [], 0, 0
        for path in edits:
            crate, here = path.parent.parent, TOP / path.relative_to(top)
            said, files = parts[path]
            out = list(said)
            names = list(dict.fromkeys(name for name, _ in files))
            whole = True
            for name in names:
                turned_name = name
                old = (TOP / crate.relative_to(top) / turned_name).read_text()
                new = (crate / variant(name, path.stem)).read_text()
                as_were = [pair for n, pairs in files if n == name for pair in pairs]
                if apply(old, as_were) == new:
                    pairs = as_were
                    words += 1
                else:
                    pairs = by_lines(old, new)
                    if pairs is not None:
                        short = [shortest(old, x, y) for x, y in pairs]
                        pairs = short if apply(old, short) == new else pairs
                    if pairs is None or apply(old, pairs) != new:
                        whole = False
                        left.append((here, name))
                        (room / (here.stem + "." + name.replace("/", "_") + ".diff")).write_text(
                            "\n".join(difflib.unified_diff(old.split("\n"), new.split("\n"), lineterm="", n=1))
                        )
                        continue
                    lines += 1
                out.append("file: " + name)
                for x, y in pairs:
                    out += ["old: " + x, "new: " + y]
            if whole:
                here.write_text("\n".join(out) + "\n")
        print(f"{len(edits)} edits: {words} files with the old text, {lines} with new text; left by hand: {len(left)}")
        for here, name in left:
            print("left:", here.relative_to(TOP), name, room / (here.stem + "." + name.replace("/", "_") + ".diff"))
    finally:
        run("git", "worktree", "remove", "--force", str(top), where=TOP)


main()
