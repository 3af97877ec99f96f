#!/usr/bin/env python3
"""Spells the names that this repository's specs/ and proofs/ declare as today's Rattle does: words in snake case.

usage: spelling.py [--list] [FOLDER]

FOLDER is the repository's top, by default the current folder. It takes each name in camel case and each lemma or field in
kebab case, in the .antt files, in the clauses and `ghost use` lines of the .rt files, and between backquotes in the pages.
A lemma that would meet a definition's name gets `_lem`. Names of types, modules and functions of src/, and constants in
capitals, stay: lower case would make SLOT, LIST and SPEED meet variables, and an underscore would make LOG-ROOM meet a
constant of src/. --list prints the names, old and new, and writes nothing.
"""

import collections
import glob
import os
import re
import sys

NAME = re.compile(r'[^\s(){}.;,@"«»]+')
CAMEL = re.compile(r"^[a-z][a-z0-9]*(?:_[a-z0-9]+)*[A-Z][A-Za-z0-9'′\-]*$")
KEBAB = re.compile(r"^[a-z][a-zA-Z0-9]*(?:-[a-zA-Z0-9]+)+['′]*$")
TOP = re.compile(r"^(?:(?:abbrev|unfoldable|pub|data|record|ruleset) )*([^\s:]+) :")
INNER = re.compile(r"^\s+(?:(?:abbrev|unfoldable|pub) )*((?:[^\s:(){}=]+ )+):(?:\s|$)")
# Names that Rattle or its porting script made, or that a hand proof shares with the logic.
STAY = {"word_Flags", "uint_Makes", "walk_Meets", "uint_Tells", "shr_slice_Tells", "shr_slice_Lawful", "is_Slice"}


def snake(name):
    name = re.sub(r"(?<=[a-z0-9])([A-Z])", lambda m: "_" + m[1].lower(), name)
    return name.replace("-", "_")


def uncommented(line):
    return re.split(r"(?:^|\s)--(?:\s|$)", line)[0]


def antt_files(top):
    return sorted(glob.glob(f"{top}/crates/*/specs/**/*.antt", recursive=True) + glob.glob(f"{top}/crates/*/proofs/**/*.antt", recursive=True))


def is_walk(path):
    return path.endswith("/Proof.antt")


def read(path):
    with open(path, encoding="utf-8") as f:
        return f.read()


def names(top):
    """The names to be spelled anew, each with its new spelling."""
    camel, defined, lemmas, fields, there, kits = set(), set(), set(), {}, set(), set()
    crates = set(os.listdir(f"{top}/crates"))
    for path in antt_files(top):
        text = read(path)
        for line in text.split("\n"):
            line = uncommented(line)
            camel.update(it for it in NAME.findall(line) if CAMEL.match(it) and "-" not in it and it not in STAY)
            if line.startswith("use "):
                crate = re.match(r"use Rattle\.(\w+)", line)
                if not (crate and crate[1] in crates) and "{" in line:
                    kits.update(NAME.findall(line[line.index("{"):]))
                continue
            declared = TOP.match(line)
            field = INNER.match(line)
            if declared and not (is_walk(path) and (": tie." in line or declared[1].endswith("-spec"))):
                if KEBAB.match(declared[1]):
                    lemmas.add(declared[1])
                else:
                    (defined if CAMEL.match(declared[1]) else there).add(declared[1])
            for word in field[1].split() if field and not is_walk(path) else []:
                if KEBAB.match(word):
                    fields.setdefault(word, []).append(text)
    turned = {word: snake(word) for word in camel}
    taken = {snake(word): word for word in defined}
    for word in sorted((lemmas | set(fields)) - kits):
        new = snake(word)
        own = taken.get(new)
        if word in lemmas:
            meets = own or new in there
        else:
            meets = own and any(re.search(rf"\b{own}\b", text) for text in fields[word])
        turned[word] = new + "_lem" if meets else new
    for word in there & set(taken):
        turned[word] = word + "_lem"
    return turned


def respelled(text, turned, dotted=True):
    def word(m):
        return turned.get(m[0], m[0])

    if dotted:
        return NAME.sub(word, text)
    return re.sub(r'(?<![.])' + NAME.pattern, word, text)


def met_here(text, turned):
    """The names that a file declares in its inner modules and that would hide a definition which it mentions."""
    by_new = {new: old for old, new in turned.items() if CAMEL.match(old) and "-" not in old}
    inner = {word for line in text.split("\n") if INNER.match(line) for word in INNER.match(line)[1].split()}
    return {word: word + "_lem" for word in inner & set(by_new) if re.search(rf"\b{by_new[word]}\b", text)}


def turn_antt(path, text, turned, plain):
    out = []
    if "/proofs/" in path and not is_walk(path):
        turned = {**turned, **met_here(text, turned)}
    for line in text.split("\n"):
        code = uncommented(line)
        rest = line[len(code):]
        if is_walk(path):
            code = respelled(respelled(code, plain), turned, dotted=False)
        else:
            code = respelled(code, turned)
        out.append(code + re.sub(r"`[^`]*`", lambda m: respelled(m[0], turned), rest))
    return "\n".join(out)


def turn_rt(text, turned):
    """Only clauses, `ghost use` lines and comments of a source have names in camel case: its strings are left alone."""
    parts = re.split(r'(b?"(?:[^"\\\n]|\\.)*")', text)
    return "".join(it if i % 2 else respelled(it, turned) for i, it in enumerate(parts))


def turn_page(text, turned):
    parts = re.split(r"(```.*?```|`[^`\n]*`)", text, flags=re.S)
    return "".join(respelled(it, turned) if i % 2 else it for i, it in enumerate(parts))


def main():
    words = [it for it in sys.argv[1:] if it != "--list"]
    top = words[0] if words else "."
    turned = names(top)
    if "--list" in sys.argv:
        for old, new in sorted(turned.items()):
            print(old, new)
        return
    plain = {old: new for old, new in turned.items() if "-" not in old and not re.match(r"^[a-z0-9_]+$", old)}
    for path in antt_files(top):
        text = read(path)
        new = turn_antt(path, text, turned, plain)
        if new != text:
            with open(path, "w", encoding="utf-8") as f:
                f.write(new)
    for path in glob.glob(f"{top}/crates/*/src/**/*.rt", recursive=True):
        text = read(path)
        new = turn_rt(text, plain)
        if new != text:
            with open(path, "w", encoding="utf-8") as f:
                f.write(new)
    for path in [f"{top}/README.md"] + glob.glob(f"{top}/docs/**/*.md", recursive=True):
        text = read(path)
        new = turn_page(text, turned)
        if new != text:
            with open(path, "w", encoding="utf-8") as f:
                f.write(new)


if __name__ == "__main__":
    main()
