#!/usr/bin/env python3
"""Spells the repository's own definitions and lemmas as today's Rattle does: words in snake case. Run once, after the kit's port.py, at the top.

usage: tools/port_names.py [--list]

A definition, a field or a lemma of specs/ or proofs/ in camel case or with dashes gets snake case. A lemma that would get the name of another definition
gets '_lem' behind it. Types, modules, functions of src/, exported names, strings, inputs and outputs keep their names. --list prints the names and writes nothing.
"""
import collections
import pathlib
import re
import sys

TOP = pathlib.Path(__file__).resolve().parent.parent
STOPS = r"\s(){}\[\],;.:`\"«»"
HEAD = re.compile(r"^( *)((?:(?:abbrev|unfoldable|pub|record|data) )*)([^\s(){}\[\],;.:]+)(?: *[({][^:]*:.*[)}])* :(?=\s|$)")
GENERATED = re.compile(r"^(invariant|decreases|needs|rules)-")


def antt_files():
    for path in sorted(TOP.glob("crates/*/*/**/*.antt")):
        parts = path.relative_to(TOP / "crates").parts
        if parts[1] in ("specs", "proofs"):
            yield path, parts[0], "place" if len(parts) > 3 else parts[1]


def spelled(name):
    name = re.sub(r"(?<=[a-z0-9])([A-Z])", lambda m: "_" + m[1].lower(), name.replace("getD", "get_or").replace("get_d_", "get_or_"))
    return name.replace("-", "_")


def definitions():
    """Each name that is not a type's, with where it is defined: 'specs', 'claims' (a field of a record of claims), 'proofs' or 'place' (a function's own proof)."""
    found = collections.defaultdict(set)
    imported = set()
    own = {p.name for p in (TOP / "crates").iterdir()}
    for path, crate, kind in antt_files():
        for line in path.read_text().split("\n"):
            use = re.match(r"^use ([^\s{]+)\.\{(.*)\}", line)
            if use and not (use[1].startswith("Rattle.") and use[1].split(".")[1] in own):
                imported.update(x.strip().split(" as ")[-1] for x in use[2].split(","))
            code = re.sub(r"--.*", "", line)
            alias = re.match(r"^use \S+ as (\S+)$", code.strip())
            several = re.match(r"^ +(?!pub )((?:[a-z][^\s(){}\[\],;.:]* ){2,}): [A-Z]\w*$", code)
            for name in ([alias[1]] if alias else []) + (several[1].split() if several else []):
                if kind != "place" and name[0].islower() and spelled(name) != name:
                    found[name].add("specs" if kind == "specs" else "proofs")
            head = HEAD.match(code)
            if head and not head[3][0].isupper() and "◌" not in head[3] and not (kind == "place" and GENERATED.match(head[3])):
                found[head[3]].add("claims" if path.name == "Claims.antt" and kind == "specs" else kind)
    for path in TOP.glob("crates/*/src/**/*.rt"):
        for line in re.findall(r"^ghost use .*;", path.read_text(), re.M):
            for alias in re.findall(r" as ([a-z]\w*)", line):
                found[alias].add("specs")
    return found, imported


def new_names():
    found, imported = definitions()
    alike = collections.defaultdict(set)
    for name in found:
        alike[spelled(name)].add(name)
    names = {}
    for name, kinds in found.items():
        new = spelled(name)
        others = set().union(*(found[o] for o in alike[new] if o != name), set())
        lemma = kinds <= {"proofs", "place"}
        if lemma and ("specs" in others or (new != name and new in imported)):
            new += "_lem"
        if new != name:
            names[name] = new
    back = collections.defaultdict(set)
    for name in found:
        back[names.get(name, name)].add(name)
    for new, olds in back.items():
        # a claim and the lemma that proves it may have one name: a field and a definition are never mixed up
        if len(olds) > 1 and sum(found[o] != {"claims"} for o in olds) > 1:
            sys.exit(f"{olds} would all be {new}")
    return names, found


def turned(text, names, marks=STOPS):
    return re.sub(rf"[^{marks}]+", lambda m: names.get(m[0], m[0]), text)


def main():
    names, found = new_names()
    if sys.argv[1:] == ["--list"]:
        for old, new in sorted(names.items()):
            print(old, new, ",".join(sorted(found[old])))
        return
    in_code = {o: n for o, n in names.items() if found[o] & {"specs", "claims"}}
    for path, _, _ in antt_files():
        path.write_text(turned(path.read_text(), names))
    for path in sorted(TOP.glob("crates/*/src/**/*.rt")):
        path.write_text(turned(path.read_text(), in_code, STOPS + "&!<>=+*/|^"))
    # the kit's script turned some names already, and no page: there an old spelling is known by the new one
    now = {names.get(name, name) for name in found}
    for path in [TOP / "README.md", *sorted(TOP.glob("docs/**/*.md"))]:
        in_page = lambda m: re.sub(rf"[^{STOPS}]+", lambda t: names.get(t[0], spelled(t[0]) if spelled(t[0]) in now else t[0]), m[0])
        path.write_text(re.sub(r"`[^`\n]+`", in_page, path.read_text()))


main()
