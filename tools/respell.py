#!/usr/bin/env python3
"""Brings the names that this repository's own texts declare to snake case: definitions, fields and lemmas of specs/ and proofs/.

usage: tools/respell.py [--say] [FOLDER]

In FOLDER (the current one if none is given), in the .rt and .antt files and the must-fail edits below crates/: a name in camel case that a
.antt file declares, or that an `as` gives, and a lemma's name with dashes, gets underscores. Types, facts and modules keep their case, and so does
what Rattle makes (goals, steps). OTHER has the names that would fall together with another name. --say lists what would fall together, and writes
nothing.
"""
import os
import re
import sys

OTHER = {
    "newTops": "grown_tops",
    "Walked-more": "walked_more",
    "Walked-next": "walked_next",
    "Walked-last": "walked_last",
    "Walked-drained": "walked_drained",
}
WORD = re.compile(r"(?<![\w'-])[A-Za-z_⊎][\w'-]*")
MADE = re.compile(r"/proofs/.*/(Proof|Answers|Invariants)\.antt$")
DECLARED = re.compile(r"(?m)^ *(?:(?:abbrev|unfoldable|axiom|pub) )*([A-Za-z][\w'-]*)(?: \{[^{}\n]*\})*\s*:(?=\s)")
SPEC = re.compile(r"(?<![\w.'-])[a-z][\w-]*-spec(?![\w'-])")
TOP = re.compile(r"(?m)^(?:(?:abbrev|unfoldable|axiom|pub) )*([A-Za-z][\w'-]*)(?: \{[^{}\n]*\})*\s*:(?=\s)")
ITEM = re.compile(r"\b(?:const|static|struct|enum|type|fn|mod) (\w+)")
USE = re.compile(r"(?m)^ *(?:ghost )?use (?:([^\s;{]+)\.\{([^}]*)\}|([^\s;{]+))")
RENAMED = re.compile(r"\bas ◌?([A-Za-z][\w'-]*)")


def snake(name):
    words = re.sub(r"(?<=[a-z0-9])[A-Z]", lambda m: "_" + m[0].lower(), name)
    return words.replace("-", "_")


def files(root):
    for folder, dirs, names in os.walk(os.path.join(root, "crates")):
        dirs[:] = sorted(d for d in dirs if d != "out")
        for n in sorted(names):
            if n.endswith((".rt", ".antt", ".edit")):
                yield os.path.join(folder, n)


def comments(path, text):
    """The text without its comments and strings."""
    if path.endswith(".antt"):
        return re.sub(r"--(?=\s).*", "", text)
    return re.sub(r"//.*|\"(?:[^\"\\]|\\.)*\"", "", text)


def taken_in(text, root):
    """The names that a text imports from a library, which keep their spelling there."""
    own = {"package"} | set(os.listdir(os.path.join(root, "crates")))
    found = set()
    for path, several, one in USE.findall(text):
        first = (path or one).split(".")
        first = first[1] if first[0] == "Rattle" and len(first) > 1 else first[0]
        if first not in own:
            found |= {n.split()[0] for n in several.split(",") if n.strip()} if several else {one.split(".")[-1]}
    return found


def names(texts):
    """What each name becomes: names in camel case, lemmas with dashes, and lemmas that a definition's new name would meet."""
    camel, dashed, plain, specs, rust = {}, set(), set(), set(), set()
    for p, t in texts.items():
        t = comments(p, t)
        if p.endswith(".rt"):
            rust |= set(ITEM.findall(t))
            declared = RENAMED.findall(t)
        else:
            declared = DECLARED.findall(t) + RENAMED.findall(t)
            if "/specs/" in p:
                specs |= set(TOP.findall(t))
        for n in declared:
            if re.match(r"[a-z]", n) and re.search(r"[a-z0-9][A-Z]", n):
                camel[n] = OTHER.get(n, snake(n))
            elif not MADE.search(p):
                (dashed if "-" in n else plain).add(n)
    taken = plain | rust | set(camel.values())
    lemmas = {n: OTHER.get(n, snake(n) + ("_lem" if snake(n) in taken else "")) for n in dashed}
    defined = {camel[n] for n in specs if n in camel}
    lemmas |= {n: n + "_lem" for n in plain if n in defined and n not in specs}
    return camel, lemmas


def main(argv):
    say = "--say" in argv
    root = next((a for a in argv if a != "--say"), ".")
    texts = {p: open(p, encoding="utf-8").read() for p in files(root)}
    camel, lemmas = names(texts)
    if say:
        return fall(texts, camel | lemmas)

    changed = 0
    for p, t in texts.items():
        theirs = taken_in(t, root)

        def word(m):
            w = m[0]
            if w in theirs:
                return w
            if w in camel:
                return camel[w]
            behind = m.start() > 0 and t[m.start() - 1] == "."
            return lemmas[w] if w in lemmas and not behind and not p.endswith(".rt") else w
        new = WORD.sub(word, t)
        if p.endswith("/Proof.antt"):
            new = SPEC.sub(lambda m: snake(m[0]), new)
        if new != t:
            changed += 1
            with open(p, "w", encoding="utf-8") as f:
                f.write(new)
    print(f"respell: {len(camel) + len(lemmas)} names, {changed} files")
    return 0


def fall(texts, turned):
    """Lists each file in which an old name stands beside its new one."""
    back = {}
    for o, n in turned.items():
        back.setdefault(n, []).append(o)
    for n, os_ in sorted(back.items()):
        if len(os_) > 1:
            print("two become one:", n, "of", *os_)
    for p, t in texts.items():
        words = set(WORD.findall(comments(p, t)))
        for o, n in turned.items():
            if o in words and n in words:
                print(f"{p}: {o} beside {n}")
    return 0


if __name__ == "__main__":
    raise SystemExit(main(sys.argv[1:]))
