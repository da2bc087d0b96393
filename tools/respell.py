#!/usr/bin/env python3
"""Brings this repository's own names to the spelling that Rattle's library has: a definition, a lemma, a field and a variable in
snake case, types and modules in upper camel case. Run once, at the top, behind the kit's port.py and before anything else.

It goes by tokens. Own names are those that a file of specs/ or proofs/ declares; a name that a file takes from a library stays.
Names of Rust and of C, strings, and what programs read and write are left alone. With --map it prints the table and changes nothing.
"""

import collections
import os
import re
import subprocess
import sys

TOKEN = re.compile(r"[^\s(){}\[\];,:.\"`|⌜⌝]+")
TEXT = re.compile(r"(\"(?:[^\"\\]|\\.)*\")")
USE = re.compile(r"^\s*(?:ghost )?(?:pub )?use ([^\s{}]+?)(?:\.\{([^}]*)\})?;?\s*$")
HEAD = re.compile(r"^\s*(?:(?:pub|abbrev|unfoldable|record|data|constructor|infixl?|infixr) )*([^\s(){}\[\];,:.\"`|]+)(?: \([^()]*\)| \{[^{}]*\})* :(?:\s|$)")
CAMEL = re.compile(r"^_?[a-z][a-z0-9]*(?:[A-Z0-9][A-Za-z0-9]*)*[A-Za-z0-9_'-]*$")

# Where two names would fall together, the lemma gets `_lem`. These stand in the way of a definition of the same file.
APART = {
    "all_named": "all_rows_named",
    "link_row": "link_row_lem",
    "same_spot": "same_spot_lem",
    "step_row": "step_row_lem",
}


def snake(name):
    if name.startswith("◌") and name.endswith("◌"):
        return "◌" + snake(name[1:-1]) + "◌" if len(name) > 2 else name
    name = name.replace("getD", "get_or").replace("get_d", "get_or")
    if not re.match(r"^[a-z0-9_'₀₁₂₃-]", name) and not re.match(r"^[a-z]", name):
        return name
    if name[:1].isupper() or not re.search(r"[a-z]", name):
        return name
    # a type keeps its capital: a part that begins a name behind a dash
    parts = name.split("-")
    if any(p[:1].isupper() for p in parts):
        return name
    turned = [re.sub(r"(?<=[a-z0-9])([A-Z])", lambda m: "_" + m.group(1).lower(), p) for p in parts]
    return "_".join(turned)


def files(root, endings):
    for folder, inner, names in os.walk(os.path.join(root, "crates")):
        inner[:] = sorted(d for d in inner if d != "out")
        for name in sorted(names):
            if name.endswith(endings):
                yield os.path.join(folder, name)


def read(path):
    with open(path, encoding="utf-8") as f:
        return f.read()


def own_crates(root):
    return set(os.listdir(os.path.join(root, "crates")))


def imports(text, own):
    """The names that a text takes from libraries."""
    taken = set()
    for line in text.split("\n"):
        m = USE.match(line)
        if m and m.group(2):
            head = m.group(1).split(".")
            if not (head[0] == "Rattle" and len(head) > 1 and head[1] in own):
                taken |= {n.strip().split(" as ")[0].strip() for n in m.group(2).split(",")}
                taken |= {n.strip().split(" as ")[-1].strip() for n in m.group(2).split(",")}
    return taken


def is_hand(path):
    return os.path.basename(path) == "Proof.antt"


def code_of(line):
    i = line.find("--")
    while i > 0 and line[i - 1] not in " \t":
        i = line.find("--", i + 1)
    return (line, "") if i < 0 else (line[:i], line[i:])


def declared(root):
    own = own_crates(root)
    names = collections.defaultdict(set)
    for path in files(root, ".antt"):
        if is_hand(path):
            continue
        text = read(path)
        taken = imports(text, own)
        for line in text.split("\n"):
            code, _ = code_of(line)
            if USE.match(code):
                continue
            for token in TOKEN.findall(TEXT.sub(" ", code)):
                if token not in taken and snake(token) != token:
                    names[token].add(path)
    return names


def table(root):
    old = declared(root)
    stays = set()
    for path in files(root, ".antt"):
        if not is_hand(path):
            for line in read(path).split("\n"):
                m = HEAD.match(code_of(line)[0])
                if m and snake(m.group(1)) == m.group(1):
                    stays.add(m.group(1))
    defined = {snake(n) for n in old if "-" not in n} | stays
    names = {n: snake(n) + "_lem" if "-" in n and snake(n) in defined else snake(n) for n in old}
    return names | APART


def fields(root):
    """The fields of this repository's records."""
    names = set()
    for path in files(root, ".antt"):
        if is_hand(path):
            continue
        inside = None
        for line in read(path).split("\n"):
            code, _ = code_of(line)
            depth = len(code) - len(code.lstrip())
            if code.strip() and inside is not None and depth <= inside:
                inside = None
            if inside is not None:
                m = HEAD.match(code)
                if m:
                    names.add(m.group(1))
            if re.match(r"^\s*(pub )?record ", code):
                inside = depth
    return names


def turned(code, names, taken):
    def one(m):
        return names[m.group(0)] if m.group(0) in names and m.group(0) not in taken else m.group(0)

    return "".join(p if p.startswith('"') else TOKEN.sub(one, p) for p in TEXT.split(code))


def ticked(text, names):
    """A comment or a page: what stands in backticks."""
    return re.sub(r"`[^`\n]*`", lambda m: turned(m.group(0), names, ()), text)


def by_place(m, code, names, parts, taken):
    token = m.group(0)
    if m.start() > 0 and code[m.start() - 1] == ".":
        return parts.get(token, token)
    return names[token] if token in names and token not in taken else token


def main():
    root = "."
    own = own_crates(root)
    names = table(root)
    parts = {n: names[n] for n in fields(root) if n in names}
    if "--map" in sys.argv:
        for n in sorted(names):
            print(n, names[n])
        return
    for path in files(root, ".antt"):
        text = read(path)
        taken = imports(text, own)
        if is_hand(path):
            # what it declares itself is named after goals, which Rattle names
            declares = {m.group(1) for m in map(HEAD.match, text.split("\n")) if m}
            taken |= declares
        out = []
        for line in text.split("\n"):
            code, comment = code_of(line)
            if USE.match(code):
                m = USE.match(code)
                head = m.group(1).split(".")
                mine = head[0] == "Rattle" and len(head) > 1 and head[1] in own
                line = turned(code, names, ()) if mine else code
            else:
                if is_hand(path):
                    # what stands behind a dot is named by Rattle, but for the fields of this repository's records
                    line = TOKEN.sub(lambda m: by_place(m, code, names, parts, taken), code)
                else:
                    line = turned(code, names, taken)
            out.append(line + ticked(comment, names))
        with open(path, "w", encoding="utf-8") as f:
            f.write("\n".join(out))
    for path in files(root, (".rt", ".edit")):
        text = read(path)
        out = []
        for line in text.split("\n"):
            if line.startswith(("file:",)) or (path.endswith(".edit") and not line.startswith(("old:", "new:"))):
                out.append(line)
                continue
            i = line.find("//")
            code, comment = (line, "") if i < 0 else (line[:i], line[i:])
            out.append(turned(code, names, ()) + ticked(comment, names))
        with open(path, "w", encoding="utf-8") as f:
            f.write("\n".join(out))
    pages = subprocess.run(["git", "ls-files", "*.md"], cwd=root, capture_output=True, text=True).stdout.split()
    for path in pages:
        text = read(path)
        new = ticked(text, names)
        if new != text:
            with open(path, "w", encoding="utf-8") as f:
                f.write(new)


main()
