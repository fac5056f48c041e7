#!/usr/bin/env python3
"""Spells this repository's own words in specs/, proofs/ and contracts in snake case, as the kit's style has it.

usage: python3 tools/spell_names.py            at the top, once, after the kit's port.py

A word is the repository's own where specs/ or a lemma file defines or binds it. Names that Rattle makes of the source, and those
of the kit's libraries, stay as they are. Comments, strings and code stay too; pages under docs/ follow between backticks.
"""
import os
import re
import sys

DASHED = re.compile(r"(?<![\w'◌-])[A-Za-z][\w']*(?:-[\w']+)+(?![\w'◌-])")
OWN_ROOT = re.compile(r"Rattle\.(\w+)\.")
USE = re.compile(r"^\s*(?:pub )?(?:ghost )?use ([\w.«»·]+)\.\{([^}]*)\}")


def walk(top, ends):
    for folder, dirs, files in os.walk(top):
        dirs[:] = sorted(d for d in dirs if d not in ("out", ".git"))
        for name in sorted(files):
            if name.endswith(ends):
                yield os.path.join(folder, name)


def parts(text, comment):
    """The text in pieces: (piece, whether it is code)."""
    out, at = [], 0
    pattern = re.compile(r'"(?:\\.|[^"\\\n])*"|(?:(?<=\s)|^)' + comment + r"[^\n]*", re.M)
    for m in pattern.finditer(text):
        out.append((text[at : m.start()], True))
        out.append((m.group(), False))
        at = m.end()
    out.append((text[at:], True))
    return out


def code(text, comment):
    return "".join(p if is_code else " " for p, is_code in parts(text, comment))


def main():
    crates = sorted(os.listdir("crates"))
    foreign, made, fields = set(), set(), set()
    every = set()
    for path in walk("crates", (".antt", ".rt")):
        text = code(open(path, encoding="utf-8").read(), "--" if path.endswith(".antt") else "//")
        every |= set(DASHED.findall(text))
        for line in text.split("\n"):
            use = USE.match(line)
            if not use:
                continue
            root = OWN_ROOT.match(use.group(1) + ".")
            words = set(DASHED.findall(re.sub(r"(\S+) as \S+", r"\1", use.group(2))))
            if not root or root.group(1) not in crates:
                foreign |= words
            elif use.group(1).endswith((".Goals", ".Given")) or ".declared." in use.group(1):
                made |= words
        made |= set(re.findall(r"goal\.([A-Za-z][\w'-]*)", text))
        fields |= set(re.findall(r"^\s+pub ([a-z][\w'-]*) :", text, re.M))
    fields = {f for f in fields if "-" in f}
    made = {m for m in made if "-" in m}
    # a word behind a dot is Rattle's, but for the fields of the repository's own records
    behind, free = set(), set()
    for path in walk("crates", (".antt", ".rt")):
        text = code(open(path, encoding="utf-8").read(), "--" if path.endswith(".antt") else "//")
        for m in DASHED.finditer(text):
            (behind if text[m.start() - 1 : m.start()] == "." else free).add(m.group())
    own = {w for w in every if w not in foreign and w not in made and (w in free or w in fields)}
    taken = set()
    for path in walk("crates", (".antt",)):
        taken |= set(re.findall(r"[A-Za-z_][\w']*", code(open(path, encoding="utf-8").read(), "--")))

    def spelled(word):
        if word[0].isupper() and not word.endswith("-of"):
            return "".join(p[0].upper() + p[1:] for p in word.split("-"))
        # the library's older word for a list's element is `get_or` now
        snake = word.replace("-", "_").replace("getD", "get_or")
        return snake.lower() if word[0].isupper() else snake

    new = {w: spelled(w) for w in own}
    for w in sorted(own):
        if new[w] in taken:
            print(f"look: {w}: {new[w]} is there already")

    def turn(piece):
        def one(m):
            word = m.group()
            before = piece[m.start() - 1 : m.start()]
            if word not in new or (before == "." and word not in fields):
                return word
            return new[word]

        return DASHED.sub(one, piece)

    changed = 0
    for path in walk("crates", (".antt", ".rt")):
        text = open(path, encoding="utf-8").read()
        comment = "--" if path.endswith(".antt") else "//"
        made_text = "".join(turn(p) if is_code else re.sub(r"`[^`\n]*`", lambda m: turn(m.group()), p) if p[0] != '"' else p for p, is_code in parts(text, comment))
        if made_text != text:
            open(path, "w", encoding="utf-8").write(made_text)
            changed += 1
    pages = list(walk("docs", (".md",))) if os.path.isdir("docs") else []
    for path in pages + [p for p in ("README.md",) if os.path.exists(p)]:
        text = open(path, encoding="utf-8").read()
        made_text = re.sub(r"`[^`\n]*`", lambda m: turn(m.group()), text)
        if made_text != text:
            open(path, "w", encoding="utf-8").write(made_text)
            changed += 1
    print(f"{len(new)} words, {changed} files")
    if "--list" in sys.argv:
        print("\n".join(f"{a} {b}" for a, b in sorted(new.items())))


if __name__ == "__main__":
    main()
