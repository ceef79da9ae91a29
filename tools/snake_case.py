#!/usr/bin/env python3
"""Writes the repository's own definitions and lemmas in snake case, as Rattle's library spells its
words.

    python3 tools/snake_case.py [--show]

It is run at the top of the repository, once, after /opt/rattle/port/port.py. A name counts as the
repository's own where a file of specs/, or one that lies in proofs/ itself, declares it. Names of
functions, types and modules stay, and so do words that a file takes from a library. It stops where
two names of one file would fall together.
"""

import collections
import os
import re
import sys

TOKEN = re.compile(r"[A-Za-z_][\w'′-]*")
WORD = r"[^\s:(){}.,;λ=→]+"
DECLARED = re.compile(rf"^\s*(?:(?:abbrev|unfoldable|pub)\s+)*((?:{WORD}\s+)*{WORD})\s*:(?:\s|$)")
HEADED = re.compile(r"^\s*(?:(?:abbrev|unfoldable|pub)\s+)*(?:data|record|module|mod|use)\s")
# Lemmas that port.py has turned, and that now have the name of a definition.
TURNED = ["value_in"]
# A definition whose signature stands over two lines, its name far from the colon.
SPLIT = ["standsAt"]
# Names that may meet in a file: a definition and a record's field, or a definition and the function
# that answers it.
MEETING = {"too_short", "is_below"}
QUOTED = re.compile(r"`[^`]*`")


def snake(name):
    name = name.replace("-", "_")
    if name[0].isupper():
        return name
    name = re.sub(r"(?<=[a-z0-9])(?=[A-Z])", "_", name)
    return name.lower()


def is_old(name):
    """Has a dash, or a capital after its first letter, and is no type or module."""
    return "-" in name or (name[0].islower() and re.search(r"[A-Z]", name))


def files():
    for folder, folders, names in os.walk("crates"):
        folders[:] = sorted(f for f in folders if f != "out")
        for name in sorted(names):
            if name.endswith((".antt", ".rt")):
                yield os.path.join(folder, name)


def read(path):
    with open(path, encoding="utf-8") as file:
        return file.read()


def own_names(texts):
    found = set(SPLIT)
    for path, text in texts.items():
        parts = path.split(os.sep)
        if not path.endswith(".antt") or (parts[2] == "proofs" and len(parts) > 4):
            continue
        for line in text.splitlines():
            if line.lstrip().startswith("--") or HEADED.match(line):
                continue
            match = DECLARED.match(line)
            if match:
                found.update(name for name in match.group(1).split() if TOKEN.fullmatch(name))
    return found


def new_names(own):
    """A lemma that would have the name of a definition gets _lem, as in Rattle's library."""
    definitions = {snake(name) for name in own if "-" not in name and name[0].islower()}
    names = {lemma: lemma + "_lem" for lemma in TURNED}
    for name in filter(is_old, own):
        names[name] = snake(name) + ("_lem" if "-" in name and snake(name) in definitions else "")
    return names


def imported(texts, crates):
    """Names that some file takes from a library: they are not the repository's to spell."""
    taken = collections.defaultdict(set)
    line_of = re.compile(r"^(?:ghost\s+)?use\s+([^\s{]+?)\.\{([^}]*)\}", re.M)
    for path, text in texts.items():
        for match in line_of.finditer(text):
            parts = match.group(1).split(".")
            if parts[0] != "Rattle" or parts[1] not in crates:
                words = match.group(2).split(",")
                taken[path].update(re.split(r"\s+as\s+", word.strip())[0] for word in words)
    return taken


def respelled(line, is_code, names):
    """The line with the new names; in a comment a dashed word is one only between backquotes."""

    def new(match):
        return names.get(match.group(), match.group())

    def undashed(match):
        return match.group() if "-" in match.group() else new(match)

    at = re.search(r"//" if is_code else r"(?:^|(?<=\s))--(?=\s|$)", line)
    text, comment = (line[:at.start()], line[at.start():]) if at else (line, "")
    comment = QUOTED.sub(lambda quoted: TOKEN.sub(new, quoted.group()), comment)
    return TOKEN.sub(new, text) + TOKEN.sub(undashed, comment)


def main(show):
    texts = {path: read(path) for path in files()}
    crates = set(os.listdir("crates"))
    own = own_names(texts)
    new_of = new_names(own)
    taken = imported(texts, crates)
    clashes = []
    for path, text in texts.items():
        here = collections.defaultdict(set)
        bare = re.sub(r"--.*", "", text) if path.endswith(".antt") else re.sub(r"//.*", "", text)
        for token in set(TOKEN.findall(bare)):
            here[token if token in taken[path] else new_of.get(token, token)].add(token)
        for name, old in here.items():
            if sum(name in own for name in old) > 1 and name not in MEETING:
                clashes.append(f"{path}: {' '.join(sorted(old))}")
    if show or clashes:
        for old, new in sorted(new_of.items()):
            print(f"{old} -> {new}")
        print("\n".join(clashes))
        return 1 if clashes else 0
    for path, text in texts.items():
        names = {old: new for old, new in new_of.items() if old not in taken[path]}
        folders = path.split(os.sep)[3:-1]
        names.update((f"{name.replace('_', '-')}-spec", f"{name}_spec") for name in folders)
        lines = text.splitlines(keepends=True)
        turned = "".join(respelled(line, path.endswith(".rt"), names) for line in lines)
        if turned != text:
            with open(path, "w", encoding="utf-8") as file:
                file.write(turned)
    print(f"{len(new_of)} names")
    return 0


if __name__ == "__main__":
    raise SystemExit(main(sys.argv[1:] == ["--show"]))
