#!/usr/bin/env python3
"""Gives the definitions and lemmas of this repository today's spelling: words in snake case. It ran once, right after the kit's
port.py, at the top of the repository; docs/PORT.md says in which commit. Names that Rust's own words, or two of ours, would share
are told apart by hand, in the tables below."""
import collections
import glob
import re

TOKEN = re.compile(r"[^\s(){}.;,@\"«»`]+")
ITEM = re.compile(r"^( *)(?:(?:abbrev|pub|unfoldable|opaque) )*([^\s(){}.;,@\"«»:λ]+)((?: \([^:]*:.*)?) :(?: |$)")

# A lemma that would fall together with the definition it speaks of, by the files in which it already stood in snake case.
LAWS_HERE = {
    "alike_next": ["theory/proofs/ClassListLaws.antt", "alike/proofs/ByLevel.antt"],
    "in_order": ["links/proofs/Laws.antt"],
    "rest_in": ["links/proofs/Laws.antt"],
    "group_at": ["theory/proofs/CondenseLaws.antt"],
}
# The same, by the files in which the lemma stood with a hyphen.
LAWS_THERE = {
    "in-range": ["promise/proofs/Promise.antt", "header/proofs/File.antt", "hestovane/proofs/Laws.antt", "surround/proofs/Keys.antt"],
    "class-in": ["rowwise/proofs/Rows.antt", "rowwise/proofs/Window.antt", "theory/proofs/Master.antt"],
    "class-is": ["theory/proofs/CondenseLaws.antt"],
    "row-rises": ["wellformed/proofs/Loops.antt", "wellformed/proofs/rows_fine/Proof.antt"],
}
# Words that a function of the same file has for a name: there they are imported as NAME_word.
WORDS = {
    "counted": ["classOf"],
    "edges": ["classLinks", "keyOf"],
    "filed": ["rowNumbers"],
    "matching": ["askedKey", "rowsMatch"],
    "reader": ["classOf"],
    "seek": ["sameMembers"],
    "surround": ["itemRows"],
    "wellformed": ["rowKey"],
}


def snake(name):
    bare = name.rstrip("'")
    marks = name[len(bare):]
    bare = re.sub(r"([a-z0-9])([A-Z])", lambda m: m[1] + "_" + m[2].lower(), bare.replace("-", "_"))
    return bare + marks


def files(*patterns):
    return sorted(f for p in patterns for f in glob.glob(p, recursive=True))


def read(path):
    with open(path, encoding="utf-8") as f:
        return f.read()


def write(path, text):
    with open(path, "w", encoding="utf-8") as f:
        f.write(text)


def turned(text, table):
    return TOKEN.sub(lambda m: table.get(m[0], m[0]), text)


def declared():
    """Each name that a file of specs/ or a file of lemmas declares, with the files."""
    names = collections.defaultdict(set)
    for path in files("crates/*/specs/*.antt", "crates/*/proofs/*.antt"):
        for line in read(path).split("\n"):
            m = ITEM.match(line)
            if m and not line.strip().startswith("--") and m[2] not in ("data", "record", "module") and len(m[1]) % 2 == 0:
                names[m[2]].add(path)
    return names


def main():
    names = declared()
    old = [n for n in names if not n[0].isupper() and snake(n) != n]
    plain = set(n for n in names if snake(n) == n)
    of_specs = set(n for n in old if any("/specs/" in f for f in names[n]))
    table = {}
    for name in old:
        new = snake(name)
        rival = name not in LAWS_THERE and new not in LAWS_HERE and (new in plain or any(o != name and snake(o) == new for o in old))
        table[name] = new + "_law" if rival and "-" in name and name not in of_specs else new
    known = {snake(n) for n in LAWS_THERE} | set(LAWS_HERE)
    taken = collections.Counter(table.values())
    for name, new in table.items():
        if new not in known and (taken[new] > 1 or new in plain):
            print("falls together:", name, new)

    for path in files("crates/**/*.antt"):
        text = read(path)
        laws = {n: snake(n) + "_law" for n, where in (LAWS_HERE | LAWS_THERE).items() if path[len("crates/"):] in where}
        write(path, turned(turned(text, laws), table))
    for path in files("crates/**/*.rt"):
        text = read(path)
        crate = path.split("/")[1]
        for word in WORDS.get(crate, []):
            new = snake(word)
            text = re.sub(r"(ghost use [^;]*[{, ])" + word + r"(?=[,}])", r"\1" + new + " as " + new + "_word", text)
            text = re.sub(r"(?<![\w.'-])" + word + r"(?![\w'-])", new + "_word", text)
        if crate == "hestovane":
            text = text.replace("left, askTree, askRegister, askSummary}", "left, askTree}")
            text = re.sub(r"\b(askRegister|askSummary)\b", lambda m: "answers." + snake(m[0]), text)
        aliases = {a: snake(a) for a in re.findall(r"\bas ([a-z]\w*)", " ".join(re.findall(r"ghost use [^;]*;", text))) if snake(a) != a}
        write(path, turned(text, {**table, **aliases}))
    for path in files("crates/*/must-fail/*.edit"):
        write(path, "\n".join(turned(l, table) if l[:4] in ("old:", "new:") else l for l in read(path).split("\n")))
    for path in files("README.md", "CONTRIBUTING.md", "docs/*.md"):
        write(path, re.sub(r"`[^`\n]*`", lambda m: turned(m[0], table), read(path)))
    print("respelled:", len(table), "names")


main()
