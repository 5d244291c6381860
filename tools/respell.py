#!/usr/bin/env python3
"""Brings the repository's own antt names to today's spelling: words in snake case, a dash only beside a fact's name.

usage: python3 tools/respell.py        at the top of the repository, once, after port.py

    leafList, live-length, zero-only  ->  leaf_list, live_length, zero_only
    Narrow-tail                       ->  Narrow-tail (a fact keeps its capital, and a dash joins it to a name)

It goes by text. In the .antt files of specs/ and proofs/ it turns each name with a dash or a capital inside that no library of the kit
brought into that file; in src/, in must-fail edits and between the backticks of documents only names that some .antt file declares. A proof
that walks the code (proofs/F/Proof.antt) keeps the names of its goals and steps, which the check makes.
"""

import os
import re
import sys

TOKEN = re.compile(r"--[^\n]*|\"(?:[^\"\\]|\\.)*\"|[^\s(){}\[\].;,@\"«»]+")
WORDS = r"[A-Za-z\u0370-\u03ff][\w'\u2080-\u2089]*"
NAME = re.compile(rf"{WORDS}(?:-[\w'\u2080-\u2089≡≢≤<+*^∷]+)*\Z")
DECLARED = re.compile(r"^\s*(?:(?:abbrev|unfoldable|opaque|private|pub)\s+)*([^\s:(){}.;,]+)(?:\s+\([^)]*\))*\s*:(?=\s)", re.M)
KIT_USE = re.compile(r"^\s*(?:ghost )?use (?!Rattle\.)(\S+?)(?:\.\{([^}]*)\})?(?: as (\S+))?;?\s*$", re.M)
STD_USE = re.compile(r"^\s*(?:ghost )?use Rattle\.(\w+)\.\S*?\.\{([^}]*)\}", re.M)
OWN = set()
# Lemmas that would have a definition's name: they get `_lem`.
LEMMAS = {"entry-depth", "fields_fit", "joined_number", "on_row", "one_side"}


def camel(word):
    return re.sub(r"(?<=[a-z0-9'])([A-Z])", lambda m: "_" + m.group(1).lower(), word)


def snake(name):
    """Returns the name in today's spelling."""
    return plain(name) + "_lem" * (name in LEMMAS)


def plain(name):
    """Returns the name with its capitals and dashes turned."""
    parts = name.split("-")
    turned = [it if it[:1].isupper() else camel(it) for it in parts]
    if any(it[:1].isupper() for it in parts):
        return "-".join(turned)
    return "_".join(turned)


def turns(name):
    return bool(NAME.match(name)) and snake(name) != name


def read(path):
    with open(path, encoding="utf-8") as f:
        return f.read()


def write(path, text):
    with open(path, "w", encoding="utf-8") as f:
        f.write(text)


def files(root, endings):
    for folder, dirs, names in os.walk(root):
        dirs[:] = sorted(d for d in dirs if d not in ("out", "target", ".git", "drafts"))
        for name in sorted(names):
            if name.endswith(endings):
                yield os.path.join(folder, name)


def brought(text):
    """Returns the names that a library of the kit brings into the file."""
    found = set()
    for m in KIT_USE.finditer(text):
        found |= {it.strip().split(" as ")[0] for it in (m.group(2) or "").split(",")}
    for m in STD_USE.finditer(text):
        if m.group(1) not in OWN:
            found |= {it.strip().split(" as ")[0] for it in m.group(2).split(",")}
    return found


def turn(text, wanted):
    """Returns the text with each token turned that wanted says; wanted is given the token and whether a dot stands before it."""

    def one(m):
        it = m.group(0)
        if it.startswith(("--", '"')):
            return it
        before = text[m.start() - 1 : m.start()]
        return snake(it) if wanted(it, before == ".") else it

    return TOKEN.sub(one, text)


def in_ticks(text, known):
    """Turns known names between backticks."""
    one = lambda m: re.sub(r"[\w'\u2080-\u2089≡≢≤-]+", lambda n: snake(n.group(0)) if n.group(0) in known else n.group(0), m.group(0))
    return re.sub(r"`[^`\n]*`", one, text)


def fall_together(path, old, new):
    """Says which names of a file were two and are one."""
    a = {t for t in TOKEN.findall(old) if not t.startswith(("--", '"'))}
    made = {}
    for t in a:
        made.setdefault(snake(t) if turns(t) else t, set()).add(t)
    for to, of in sorted(made.items()):
        if len(of) > 1:
            print(f"look: {path}: {', '.join(sorted(of))} -> {to}")


def main():
    OWN.update(os.listdir("crates"))
    antt = list(files("crates", ".antt"))
    texts = {p: read(p) for p in antt}
    walk = lambda p: p.endswith("/Proof.antt")
    declared = set()
    for p, t in texts.items():
        if not walk(p):
            declared |= {n for n in DECLARED.findall(t) if turns(n)}
    # A definition and a lemma that fall together: the lemma, which has dashes, gives way.
    camels = {plain(n) for n in declared if "-" not in n}
    LEMMAS.update(n for n in declared if "-" in n and plain(n) in camels)
    declared |= LEMMAS
    for p, t in texts.items():
        kit = brought(t)
        names = set(TOKEN.findall(t))
        local = {n for n in names if "-" in n and turns(n) and n not in declared | kit and any(c != n and turns(c) and plain(c) == plain(n) for c in names)}
        LEMMAS.update(local)
        if walk(p):
            heads = set(re.findall(r"^\s*(?:pub )?(\S+) :", t, re.M))
            wanted = lambda it, dot: it in declared and it not in kit and it not in heads
        else:
            wanted = lambda it, dot: turns(it) and it not in kit and (it in declared or not dot)
        new = turn(t, wanted)
        new = "\n".join(in_ticks(line, declared) if line.lstrip().startswith("--") else line for line in new.split("\n"))
        if new != t:
            if not walk(p):
                fall_together(p, t, new)
            write(p, new)
        LEMMAS.difference_update(local)
    for p in files("crates", (".rt", ".edit")):
        t = read(p)
        kit = brought(t)
        lines = []
        for line in t.split("\n"):
            code, mark, comment = line.partition("//")
            if p.endswith(".edit"):
                code, mark, comment = line, "", ""
            code = turn(code, lambda it, dot: it in declared and it not in kit)
            lines.append(code + mark + in_ticks(comment, declared))
        new = "\n".join(lines)
        if new != t:
            write(p, new)
    for p in [it for it in files(".", ".md") if not it.startswith("./crates")]:
        t = read(p)
        new = in_ticks(t, declared)
        if new != t:
            write(p, new)
    print(f"respell: {len(declared)} declared names turned")
    return 0


if __name__ == "__main__":
    sys.exit(main())
