#!/usr/bin/env python3
"""Spells this repository's own definitions, lemmas and record fields in snake case, once, after the kit's port.py.

usage: python3 tools/respell.py [--dry]      at the top of the repository

A name is own if a file of crates/*/specs or crates/*/proofs/*.antt declares it. 'wholePlan' and 'pass-apart' become 'whole_plan' and 'pass_apart';
types keep their capital. What would fall together is told apart by APART. Files of proofs/F keep the names that they declare themselves.
"""

import os
import re
import sys

# old name: new name, where the rule would make two names one: a lemma that would have its definition's name gets '_lem'
LEMMAS = """ahead-at all-started found-under fullest-first given-slices gpu-at gpu-read holds-in is-end job-at no-gpu nan-bits no-job not-held on-node
record-form"""
# the same, of lemmas that port.py has put in snake case; such a word is also the name of a function, so that it turns in lists of names and terms of antt alone
SNAKE_LEMMAS = "goes_on held_one in_order in_use least_under left_over plus_one sorted_front turn_on"
SNAKE = set(SNAKE_LEMMAS.split())
APART = {n: n.replace("-", "_") + "_lem" for n in (LEMMAS + " " + SNAKE_LEMMAS).split()}

SIGN = re.compile(r"^[ \t]*(?:abbrev |unfoldable )?(?:pub )?(?:abbrev |unfoldable )?(?:data |record )?([^\s:(){}.]+)(?: *[({][^\n]*)? :(?= |$)", re.M)
FIELD = re.compile(r"^[ \t]+pub ([^\s:(){}.]+) :(?= |$)", re.M)
TOKEN = re.compile(r'[^\s(){}.;,@"«»`\[\]|]+')


def files(root):
    for folder, dirs, names in os.walk(root):
        dirs[:] = sorted(d for d in dirs if d not in ("out", ".git", "target"))
        for n in sorted(names):
            yield os.path.join(folder, n)


def read(path):
    with open(path, encoding="utf-8") as f:
        return f.read()


def is_lemma_file(path):
    return path.endswith(".antt") and re.search(r"/specs/[^/]+$|/proofs/[^/]+\.antt$", path)


def spelled(name):
    if name in APART:
        return APART[name]
    head, tail = name[0], name[1:]
    if head.isupper() and "-" not in name:
        return name
    name = re.sub(r"(?<=[a-z0-9])([A-Z])(?![A-Z])", lambda m: "_" + m.group(1).lower(), name) if head.islower() else name
    return name.replace("-", "_").replace("\u2032", "'")


def table(root):
    names, fields = set(), set()
    for p in files(root):
        if is_lemma_file(p):
            t = read(p)
            names |= set(SIGN.findall(t))
            fields |= set(FIELD.findall(t))
            # a field or a local lemma below a 'where'
            names |= set(re.findall(r"^[ \t]+([a-z][\w'-]*) :(?= |$)", t, re.M))
    return {n: spelled(n) for n in names | fields}, fields


def told_apart(t):
    back = {}
    for old, new in t.items():
        back.setdefault(new, []).append(old)
    return {new: olds for new, olds in back.items() if len(olds) > 1}


def turned(text, t, fields, kept, everywhere, antt=False):
    def one(m):
        w = m.group(0)
        if w not in t or w in kept:
            return w
        if w in SNAKE and (not antt or text[m.start() - 1 : m.start()] == "."):
            return w
        if not everywhere and m.start() and text[m.start() - 1] == "." and w not in fields:
            chain = re.search(r"[^\s(){};,]*$", text[: m.start()]).group(0)
            if not chain.startswith("Rattle."):
                return w
        return t[w]

    return TOKEN.sub(one, text)


def borrowed(text, own):
    """The names that a file imports from a library: these stay as they are."""
    found = set()
    for path, names in re.findall(r"(?<![\w-])use ([\w.\u00b7]+)\.\{([^}]*)\}", text):
        if not (path.startswith("Rattle.") and path.split(".")[1] in own):
            found |= {w.split()[0] for w in names.split(",") if w.strip()}
    return found


def main(argv):
    dry = "--dry" in argv
    own = set(os.listdir("crates"))
    t, fields = table("crates")
    # a variable that a module binds, beside left_after
    t["freeAfter"] = "free_after"
    for new, olds in sorted(told_apart(t).items()):
        print("together:", new, sorted(olds))
    t = {old: new for old, new in t.items() if old != new}
    print(len(t), "names")
    if dry:
        return
    for p in files("crates"):
        if not p.endswith((".antt", ".rt", ".edit")):
            continue
        text = read(p)
        by_hand = "/proofs/" in p and not is_lemma_file(p)
        kept = borrowed(text, own) | (set(SIGN.findall(text)) if by_hand else set())
        new = turned(text, t, fields, kept, not by_hand, p.endswith(".antt"))
        if by_hand:
            # the proof of a function f is f_spec
            for name in re.findall(r"^pub ([\w-]+-spec) :", new, re.M):
                new = re.sub(r"(?<![\w-])" + re.escape(name) + r"(?![\w-])", name.replace("-", "_"), new)
        if new != text:
            with open(p, "w", encoding="utf-8") as f:
                f.write(new)
    for p in ["README.md"] + [os.path.join("docs", n) for n in sorted(os.listdir("docs"))] + ["library/README.md", "compare/FORMAT.md"]:
        if not p.endswith(".md") or p.endswith("CHANGES.md"):
            continue
        text = read(p)
        new = re.sub(r"`[^`\n]+`", lambda m: turned(m.group(0), t, fields, set(), True), text)
        if new != text:
            with open(p, "w", encoding="utf-8") as f:
                f.write(new)


if __name__ == "__main__":
    main(sys.argv[1:])
