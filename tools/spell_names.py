#!/usr/bin/env python3
"""Spells this repository's definitions and lemmas as today's Rattle does: words in snake case.

usage: tools/spell_names.py FOLDER      the top of a checkout that port.py has turned; files below crates/ are rewritten in place
       tools/spell_names.py --list FOLDER      prints each old name with its new one and writes nothing

A name is turned where specs/ or a file of lemmas in proofs/ declares it: `blocksOf` is `blocks_of`, `most-tasks` is `most_tasks`.
In a lemma's name a dash stays between two names of definitions, as in `length-blocks_of`; any other dash is `_`.
Names of the library, of Rust code, of strings and of comments stay. Names that would fall together are said, and then nothing is written.
"""
import collections
import os
import re
import sys

NAME = r"[^\s(){}\[\];,.:λ«»⌜⌝∥]+"
SIGNATURE = re.compile(r"(?m)^(?P<indent> *)(?P<mark>abbrev |unfoldable )?(?:pub )?(?P<names>" + NAME + r"(?: " + NAME + r")*) :(?= )")
TOKEN = re.compile(r"--[^\n]*|\"[^\"\n]*\"|" + NAME)
# words of the library that stand for definitions in a lemma's name
LIBRARY = set("length take drop set sets append cons nil map replicate get_or max min zero suc reverse".split())
# names of the library that this repository declares too: they stay
STAY = set("and-true".split())
FIXED = {"getD": "get_or"}
# names that would fall together with another: the lemma on a definition of its name ends in `_lem`
APART = {n: n.replace("-", "_") + "_lem" for n in "by-numeral flag-words limit-field number-most option-words rank-by read-log refused-by slot-most slot-words slots-words top-kind wait-bound".split()}
APART |= {"go_on": "go_on_lem", "in-range": "is_in_range", "with-left": "stored_with_left", "withoutKinds": "is_without_kinds"}
# names that one file gives to a module
ALIASES = {"crates/log_text/specs/Printing.antt": {"record_of": "variants"}}


def snake(word):
    return FIXED.get(word) or re.sub(r"(?<=[a-z0-9])([A-Z])", lambda m: "_" + m[1].lower(), word)


def files(root, ends):
    for folder, below, names in os.walk(os.path.join(root, "crates")):
        below[:] = sorted(d for d in below if d != "out")
        for name in sorted(names):
            if name.endswith(ends):
                yield os.path.join(folder, name)


def read(path):
    with open(path, encoding="utf-8") as f:
        return f.read()


def declared(root):
    """The names that specs/ declares, and those that files of lemmas declare; proofs of functions aside."""
    specs, lemmas = set(), set()
    for path in files(root, ".antt"):
        if os.path.basename(path) == "Proof.antt":
            continue
        text = re.sub(r"--[^\n]*", "", read(path))
        for m in SIGNATURE.finditer(text):
            (specs if "/specs/" in path else lemmas).update(m["names"].split())
    return specs, lemmas


def table(root):
    specs, lemmas = declared(root)
    known = LIBRARY | {snake(n) for n in specs if "-" not in n}
    turned = {n: APART[n] for n in (specs | lemmas) & APART.keys()}
    for name in specs | lemmas:
        if name in STAY or name in turned or not re.fullmatch(r"[a-z0-9][A-Za-z0-9_'-]*", name):
            continue
        parts = [snake(p) for p in name.split("-")]
        both = name not in specs and all(p in known for p in parts)
        new = ("-" if both else "_").join(parts)
        if new != name:
            turned[name] = new
    return turned, specs | lemmas


def clauses(text):
    """The spans of a .rt file that are antt: `ghost use` lines and the braces of clauses."""
    for m in re.finditer(r"(?m)^[ \t]*(?:pub )?(?:ghost use [^;]*;|(?:requires|ensures|ghost)\b[^{\n]*\{)", text):
        end = m.end()
        if text[end - 1] == "{":
            depth = 1
            while depth:
                depth += {"{": 1, "}": -1}.get(text[end], 0)
                end += 1
        yield m.start(), end


def spelled(text, turned):
    return TOKEN.sub(lambda m: turned.get(m[0], m[0]), text)


def main(argv):
    only = argv[:1] == ["--list"]
    if len(argv) != 1 + only or argv[-1].startswith("-"):
        print(__doc__, file=sys.stderr)
        return 2
    root = argv[-1]
    turned, names = table(root)
    if only:
        print("\n".join(f"{old} {turned[old]}" for old in sorted(turned)))
        return 0
    met = collections.defaultdict(set)
    for name in names:
        met[turned.get(name, name)].add(name)
    together = {new: olds for new, olds in met.items() if len(olds) > 1}
    for new, olds in sorted(together.items()):
        print(f"{new}: {', '.join(sorted(olds))} would fall together", file=sys.stderr)
    texts = {}
    for path in files(root, (".antt", ".rt")):
        texts[path] = spelled(read(path), ALIASES.get(os.path.relpath(path, root), {}))
    bad = bool(together)
    out = {}
    for path, text in texts.items():
        held = set(TOKEN.findall(text))
        if path.endswith(".antt"):
            new = spelled(text, turned)
        else:
            new, at = "", 0
            for start, end in clauses(text):
                new += text[at:start] + spelled(text[start:end], turned)
                at = end
            new += text[at:]
            held = set(TOKEN.findall(" ".join(text[s:e] for s, e in clauses(text))))
        for old in sorted(held & turned.keys()):
            if turned[old] in held - turned.keys() and os.path.basename(path) != "Proof.antt":
                print(f"{path}: {old} would meet {turned[old]}, which stands there", file=sys.stderr)
                bad = True
        out[path] = new
    if bad:
        return 1
    count = 0
    for path, new in out.items():
        if new != read(path):
            with open(path, "w", encoding="utf-8") as f:
                f.write(new)
            count += 1
    print(f"{len(turned)} names, {count} files")
    return 0


if __name__ == "__main__":
    raise SystemExit(main(sys.argv[1:]))
