#!/usr/bin/env python3
"""Respells the repository's own names in specs/, proofs/, clauses and must-fail edits: words in snake case, types in
camel case.

usage: python3 tools/respell.py [--list] [REPOSITORY]

A name is the repository's own if it stands with a dash in a file of specs/ or of proofs/ (lemmas, not the answers of a
function) and no other library declares it. Comments and strings keep their words; so do the names that Rattle makes. Run
once, right after port.py. It fails, and writes nothing, where two names would fall together.
"""
import collections
import os
import re
import sys

TOKEN = re.compile(r"[^\s(){}\[\];,.:=λ`\"⌜⌝→∥⊎]+")
NAME = re.compile(r"[A-Za-z][A-Za-z0-9_']*(?:-[A-Za-z0-9_']+)+$")
USE = re.compile(r"\buse\s+([\w.]+)\.\{([^}]*)\}", re.S)


def texts(root):
    for folder, dirs, files in os.walk(os.path.join(root, "crates")):
        dirs[:] = sorted(d for d in dirs if d != "out")
        for name in sorted(files):
            if name.endswith((".rt", ".antt", ".edit")):
                yield os.path.join(folder, name)


def plain(path, text):
    """The text with comments and strings blanked, of the same length."""
    mark = r"--(?= |$).*" if path.endswith(".antt") else r"//.*"
    wanted = mark + r'|"(?:\\.|[^"\\])*"'
    return re.sub(wanted, lambda m: " " * len(m[0]), text, flags=re.M)


def is_own_file(root, path):
    parts = os.path.relpath(path, root).split(os.sep)
    return path.endswith(".antt") and (parts[2] == "specs" or (parts[2] == "proofs" and len(parts) == 4))


def own_names(root):
    crates = set(os.listdir(os.path.join(root, "crates")))
    mine, other = collections.Counter(), set()
    for path in texts(root):
        with open(path, encoding="utf-8") as f:
            text = plain(path, f.read())
        for use in USE.finditer(text):
            steps = use[1].split(".")
            goals = len(steps) > 4 and steps[2] == "proofs"
            if steps[:1] != ["Rattle"] or steps[1] not in crates or goals:
                other.update(re.findall(r"[^\s,]+", re.sub(r"\bas\s+\S+", "", use[2])))
        if is_own_file(root, path):
            mine.update(t for t in TOKEN.findall(text) if NAME.match(t))
    return {name for name in mine if name not in other}


def respelled(name):
    parts = name.split("-")
    if name[0].isupper():
        return "".join(part[0].upper() + part[1:] for part in parts)
    return "_".join(parts)


def main():
    words = [w for w in sys.argv[1:] if w != "--list"]
    root = words[0] if words else "."
    names = {name: respelled(name) for name in own_names(root)}
    taken = collections.defaultdict(set)
    for path in texts(root):
        with open(path, encoding="utf-8") as f:
            if not path.endswith(".edit"):
                for token in TOKEN.findall(plain(path, f.read())):
                    taken[token].add(os.path.relpath(path, root))
    for name, new in sorted(names.items()):
        note = f"   also there: {' '.join(sorted(taken[new])[:4])}" if new in taken else ""
        if "--list" in sys.argv:
            print(f"{name} -> {new}{note}")
    twice = [n for n, k in collections.Counter(names.values()).items() if k > 1]
    if twice:
        sys.exit(f"these would fall together: {' '.join(twice)}")
    if "--list" in sys.argv:
        return
    for path in texts(root):
        with open(path, encoding="utf-8") as f:
            text = f.read()
        shown = text if path.endswith(".edit") else plain(path, text)
        out, at = [], 0
        for m in TOKEN.finditer(shown):
            if m[0] in names:
                out += [text[at : m.start()], names[m[0]]]
                at = m.end()
        new = "".join(out) + text[at:]
        if new != text:
            with open(path, "w", encoding="utf-8") as f:
                f.write(new)


if __name__ == "__main__":
    main()
