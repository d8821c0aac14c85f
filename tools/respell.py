#!/usr/bin/env python3
"""Spells the names of this repository's own definitions and lemmas as today's Rattle does, after the kit's port.py.

usage: tools/respell.py [--list]      at the top, once, over crates/, docs/, README.md, CONTRIBUTING.md and .ci/; --list prints the names and writes nothing

Words are in snake case: `shortFloat` becomes `short_float`. A dash joins the names of two definitions that the lemma's line
states, as in `length-put_entry`; a plain word of a lemma's name is joined by an underscore: `every-width` becomes `every_width`. A lemma that would then have the name of something else
gets `_lem`. Types, modules, functions of src/ and exported names stay. A name declared in a proof file of a function, Proof.antt, stays, but
for the theorem that the file exports, `f_spec`.
"""

import glob
import os
import re
import sys

TOKEN = re.compile(r"[^\s(){}.;,@\"«»\[\]`:]+")
DECLARED = re.compile(r"^(\s*)((?:(?:abbrev|unfoldable|pub|mutual)\s+)*)([^\s(){}.;,@\"«»:]+)(?: \{[^{}\n]*\})* :(?:\s|$)", re.M)
CLAUSE = re.compile(r"(?:requires|ensures|ghost)\*?(?: \w+:?)? \{(?:[^{}]|\{[^{}]*\})*\}")
IMPORT = re.compile(r"ghost use [^{;]*\{([^}]*)\}")
IMPORTED_AS = re.compile(r"([^\s(){}.;,@\"«»:]+) as ([^\s(){}.;,@\"«»:]+)(?=[,}])")
STD = set(
    "length take drop get_or set append map zip reverse sum fold add sub mul div mod le lt eq min max nil cons not and or floor root abs compare".split()
)


def texts():
    for top in ("crates",):
        for folder, dirs, files in os.walk(top):
            dirs[:] = sorted(d for d in dirs if d != "out")
            for f in sorted(files):
                if f.endswith((".rt", ".antt", ".edit")):
                    yield os.path.join(folder, f)


def documents():
    for pattern in ("*.md", "docs/*.md", "docs/changes/*.md", ".ci/*", "crates/*/*.py"):
        for path in sorted(glob.glob(pattern)):
            if os.path.isfile(path):
                yield path


def snake(word):
    return re.sub(r"(?<=[a-z0-9])([A-Z])(?=[a-z]|$|[^A-Za-z])", lambda m: "_" + m[1].lower(), word).replace("′", "'")


def is_definition(path, marks):
    name = os.path.basename(path)
    return "abbrev" in marks or "unfoldable" in marks or ("/specs/" in path and not name.endswith("Laws.antt"))


def bare(path, text):
    """The words that a file uses as names of its own: no path of an import, no field behind a dot, no field of a record that is made. Of Rust, those of clauses."""
    if path.endswith(".edit"):
        return set()
    if path.endswith(".rt"):
        for word, other in IMPORTED_AS.findall(text):
            text += f" requires {{ {word} {other} }}"
        text = " ".join(CLAUSE.findall(text)) + " ".join(IMPORT.findall(text))
    text = re.sub(r"--[^\n]*", "", text)
    text = re.sub(r"(?m)^use [^{}\n]*", "", text)
    text = re.sub(r"\.[^\s(){}.;,@\"«»\[\]`:]+", " ", text)
    text = re.sub(r"([{;]\s*)[^\s(){}.;,@\"«»\[\]`:]+ = ", r"\1", text)
    return set(TOKEN.findall(text))


def main():
    listing = "--list" in sys.argv[1:]
    held = {}
    for path in texts():
        with open(path, encoding="utf-8") as f:
            held[path] = f.read()
    declared, definitions, spec_names, fields, said = {}, set(STD), {}, set(), {}
    for path, text in held.items():
        for _, other in IMPORTED_AS.findall(text):
            if path.endswith((".rt", ".antt")) and re.search("[a-z0-9][A-Z]", other):
                declared.setdefault(other, set()).add(path)
                definitions.add(snake(other))
        if not path.endswith(".antt"):
            continue
        proof = os.path.basename(path) == "Proof.antt"
        for m in DECLARED.finditer(text):
            name, marks = m[3], m[2]
            if proof:
                if "pub" in marks and name.endswith("-spec"):
                    spec_names[path] = name
                continue
            declared.setdefault(name, set()).add(path)
            line = text[m.end() :].split("\n", 1)[0]
            said.setdefault(name, set()).update(TOKEN.findall(line))
            if m[1]:
                fields.add(name)
            if is_definition(path, marks) and "-" not in name:
                definitions.add(snake(name))
    tokens = {path: bare(path, text) for path, text in held.items()}
    users = {}
    for path, ts in tokens.items():
        for t in ts:
            users.setdefault(t, set()).add(path)
    new, told, values = {}, [], set()
    taken = set(declared)
    # definitions first, so that a lemma of the same words gives way
    for name in sorted(declared, key=lambda n: ("-" in n, n)):
        if name[0].isupper() and "-" not in name:
            continue
        if not re.match(r"[A-Za-z]", name) or any(c in name for c in "◌≡≤+*/") or name.startswith(("Rattle",)):
            continue
        parts = name.split("-")
        pieces = [p if p[:1].isupper() and not re.fullmatch(r"[0-9A-F]+", p) else snake(p) for p in parts]
        stated = [p in definitions and part in said.get(name, ()) for p, part in zip(pieces, parts)]
        to = pieces[0]
        for k in range(1, len(pieces)):
            to += ("-" if stated[k - 1] and stated[k] else "_") + pieces[k]
        if to == name:
            continue
        around = users.get(name, set())
        clash = lambda n: n in taken or n in values or bool(users.get(n, set()) & around)
        if clash(to):
            if clash(to + "_lem"):
                told.append(f"stays: {name} (not {to})")
                continue
            told.append(f"lem: {name} -> {to}_lem")
            to += "_lem"
        new[name] = to
        values.add(to)
    if listing:
        for a, b in sorted(new.items()):
            print(f"{a} -> {b}")
        print("\n".join(told))
        print(len(declared), "declared,", len(new), "respelled")
        return

    def turn(text):
        def one(m):
            behind_dot = m.start() > 0 and text[m.start() - 1] == "."
            if behind_dot and "-" in m[0] and m[0] not in fields:
                return m[0]
            return new.get(m[0], m[0])

        return TOKEN.sub(one, text)

    for path, text in held.items():
        out = turn(text)
        if path in spec_names:
            old = spec_names[path]
            out = re.sub(rf"(?<![^\s(]){re.escape(old)}(?![^\s)])", old[: -len("-spec")].replace("-", "_") + "_spec", out)
        if out != text:
            with open(path, "w", encoding="utf-8") as f:
                f.write(out)
    for path in documents():
        with open(path, encoding="utf-8") as f:
            text = f.read()
        if path.endswith(".md"):
            out = re.sub(r"^(```.*?^```)|(`[^`\n]+`)", lambda m: turn(m[0]), text, flags=re.M | re.S)
        else:
            out = TOKEN.sub(lambda m: new.get(m[0], m[0]) if "-" not in m[0] else m[0], text)
        if out != text:
            with open(path, "w", encoding="utf-8") as f:
                f.write(out)


main()
