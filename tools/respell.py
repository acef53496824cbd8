#!/usr/bin/env python3
"""Respells this repository's own definitions and lemmas as today's Rattle spells names: words in snake case (getLe: get_le), a plain word of
a lemma's name joined by an underscore (digits-next: digits_next), a dash kept where it joins the names of two definitions (splice-length).
Types and facts keep their capitals. Run once, at the top of the repository, after the kit's port.py; it prints each name that it turned."""

import glob
import os
import re
import sys

HEAD = re.compile(r"^\s*((?:abbrev |unfoldable |pub |data |record )*)([^\s:(){},;.◌]+)(?: [^:]*)? : ")
TOKEN = re.compile(r"[^\s(){};,.:=λ→∷×\[\]⊎@|`\"/─▶▲▼│┌└┐┘]+")
# Words of std that lemmas of this repository are about.
STD = {"length", "append", "drop", "take", "set", "get_or", "map", "replicate", "suc", "cons"}


def lines_of(path):
    with open(path, encoding="utf-8") as f:
        return f.read().split("\n")


def declared():
    """The names that files of definitions and lemmas declare, in order, and those of them that begin a proof by an equation."""
    names = {}
    for path in sorted(glob.glob("crates/*/specs/*.antt") + glob.glob("crates/*/proofs/**/*.antt", recursive=True)):
        for line in lines_of(path):
            m = HEAD.match(line)
            if m and not line.lstrip().startswith(("use ", "--")):
                names.setdefault(m.group(2), path)
    return names


def snake(word):
    if not re.search(r"[a-z0-9][A-Z]", word) or word[0].isupper():
        return word
    return re.sub(r"(?<=[a-z0-9])([A-Z])", lambda m: "_" + m.group(1), word).lower()


def turned(name, plain):
    parts = [snake(p) for p in name.split("-")]
    out = parts[0]
    for before, after in zip(parts, parts[1:]):
        out += ("-" if before in plain and after in plain else "_") + after
    return out


def table():
    """What each name becomes. A lemma whose turned name is a definition's gets _lem, as does a lemma in snake case that a definition
    comes to meet: those stand in the second table, by the file that declares them."""
    names = declared()
    plain = {snake(n) for n in names if "-" not in n} | STD
    words = {n: snake(n) for n in names if "-" not in n and snake(n) != n}
    moved = {}
    for t in words.values():
        if t in names:
            moved[t] = names[t]
    made = dict(words)
    taken = {n for n in names if "-" not in n} - words.keys() - moved.keys() | set(words.values())
    for n in names:
        if "-" not in n or not re.match(r"[a-z]", n):
            continue
        t = turned(n, plain)
        made[n] = t + "_lem" if t in taken else t
    return {n: t for n, t in made.items() if n != t}, moved, names


def move_lemmas(moved):
    """Renames each lemma of moved to NAME_lem where it is declared and in the files that import it from there."""
    for name, home in moved.items():
        crate, module = re.match(r"crates/(\w+)/specs/(\w+)\.antt$", home).groups()
        of = f"Rattle.{crate}.specs.{module}."
        bare = re.compile(r"(?<![\w.'-])" + name + r"(?![\w'-])")
        for path in texts():
            lines = lines_of(path)
            if path != home and not any(l.startswith("use " + of) and bare.search(l) for l in lines):
                continue
            new = [l if l.startswith("use ") and not l.startswith("use " + of) else bare.sub(name + "_lem", l) for l in lines]
            with open(path, "w", encoding="utf-8") as f:
                f.write("\n".join(new))


def texts():
    for pattern in ("crates/*/specs/*.antt", "crates/*/proofs/**/*.antt", "crates/*/src/*.rt", "crates/*/must-fail/*.edit"):
        yield from sorted(glob.glob(pattern, recursive=True))


def turn_text(text, made, dashed=True):
    return TOKEN.sub(lambda m: made[m.group(0)] if m.group(0) in made and (dashed or "-" not in m.group(0)) else m.group(0), text)


def clashes(made, moved, names):
    """Turned names that meet another name."""
    seen = {}
    for n, t in made.items():
        if t in names and t not in made and t not in moved:
            print(f"clash: {n} -> {t}, which stands in {names[t]}")
        if t in seen and seen[t] != n:
            print(f"clash: {n} and {seen[t]} -> {t}")
        seen[t] = n
    for path in texts():
        if path.endswith(".edit"):
            continue
        tokens = set(TOKEN.findall("\n".join(l for l in lines_of(path) if not l.lstrip().startswith(("--", "//")))))
        for n in tokens & made.keys():
            if made[n] in tokens:
                print(f"meets: {path}: {n} -> {made[n]}")


def main():
    made, moved, names = table()
    if "--clashes" in sys.argv:
        clashes(made, moved, names)
        return
    move_lemmas(moved)
    for path in texts():
        with open(path, encoding="utf-8") as f:
            old = f.read()
        # In a .rt file a dash between names is a minus, but in a `ghost use`.
        if path.endswith(".rt"):
            new = "\n".join(turn_text(l, made, dashed=l.lstrip().startswith("ghost use")) for l in old.split("\n"))
        else:
            new = turn_text(old, made)
        if new != old:
            with open(path, "w", encoding="utf-8") as f:
                f.write(new)
    # Pages name definitions between backticks.
    for path in ["README.md", *sorted(glob.glob("docs/*.md"))]:
        with open(path, encoding="utf-8") as f:
            old = f.read()
        new = re.sub(r"`[^`\n]*`", lambda m: turn_text(m.group(0), made), old)
        new = turn_text(new, made, dashed=False)
        if new != old:
            with open(path, "w", encoding="utf-8") as f:
                f.write(new)
    for n in sorted(moved):
        print(f"{n} {n}_lem")
    for n in sorted(made):
        print(f"{n} {made[n]}")


if __name__ == "__main__":
    main()
