#!/usr/bin/env python3
"""Turns this repository's own names to today's spelling: words in snake case, statements in upper camel case.

usage: python3 tools/respell.py        at the top of the repository, once, right after port.py

A name with dashes that a file of specs/ or proofs/ declares (a definition, lemma, field, constructor or alias)
gets underscores: within-grows -> within_grows. One that begins with a capital is a statement and becomes one word
in camel case: Yes-granted -> YesGranted. `getD` in a lemma's name becomes `get_or`, as the library's word is called
now. The library's `All` by recursion is cited by its own name, `AllByRecursion`, since the gate takes no alias that
has the name of another of the library's words.

Names of functions and parameters, names that Rattle makes (what stands right behind `goal.` or `c.`, and what is
imported from Goals or Given) and names of the library stay as they are.
"""

import pathlib
import re
import sys

CRATES = pathlib.Path("crates")
# A comment, a string, a quoted name, a name, or any other character.
TOKEN = re.compile(r'--[^\n]*|//[^\n]*|"(?:[^"\\]|\\.)*"|«[^»]*»|[^\s(){}.;,@"«»\[\]\\|]+|[\s\S]')
DECLARED = re.compile(r"^ *(?:(?:pub|abbrev|unfoldable|opaque|rec) )*((?:[^\s(){};:.=λ→]+ )+): (.*)$", re.M)
HEADED = re.compile(r"^ *(?:pub )?(?:data|record|module) ([^\s:]+)", re.M)
ALIASED = re.compile(r" as ([\w'-]+)")
MADE = re.compile(r"\.(?:Goals|Given)\b")
# Parameters and variables of patterns, which no line declares.
VARIABLES = "entries-in pairs-in in-range no-base no-close no-group no-open no-rest no-user no-v no-view no-x no-y".split()
# What port.py gave an alias of ours, and the one library word that it spelled in two ways.
GARBLED = {"Numbers-of": "numbers_of"}
TWO_WAYS = (pathlib.Path("crates/register/specs/Catalogue.antt"), "get_or", "slice_index_or")


def spelled(name):
    """Returns the name in today's spelling."""
    if name in GARBLED:
        return GARBLED[name]
    if name[0].isupper():
        return "".join(part[0].upper() + part[1:] for part in name.split("-"))
    return name.replace("getD", "get_or").replace("-", "_")


def declared(text):
    """Returns the names with dashes that a file of specs/ or proofs/ declares, without answers to goals."""
    names = set(HEADED.findall(text))
    for found in DECLARED.finditer(text):
        for name in found[1].split():
            answers = re.match(r"\w+\." + re.escape(name) + r"(?!\S)", found[2])
            if not answers:
                names.add(name)
    return {name for name in names if "-" in name.strip("-") and re.search(r"[A-Za-z]", name)}


def aliases(text):
    """Returns the names with dashes that imports of this repository give to others."""
    lines = [line for line in text.split("\n") if re.match(r"(?:pub |ghost )*use ", line) and not MADE.search(line)]
    return {name for line in lines for name in ALIASED.findall(line) if "-" in name}


def respelled(text, names):
    """Returns the text with each of the names in today's spelling."""

    def in_comment(comment):
        return re.sub(r"[A-Za-z_][\w']*(?:-[\w']+)+", lambda it: names.get(it[0], it[0]), comment)

    def one(found):
        token = found[0]
        if token.startswith(("--", "//")):
            return in_comment(token)
        if token not in names:
            return token
        line = text[text.rfind("\n", 0, found.start()) + 1 : found.start()]
        if re.search(r"(?<![\w.])(?:goal|c)\.\Z", line) or (re.match(r"(?:pub )?use ", line) and MADE.search(line)):
            return token
        return names[token]

    return TOKEN.sub(one, text)


def by_recursion(text):
    """Returns the text with the library's `All` by recursion cited by its own name."""
    if "AllByRecursion as All" not in text:
        return text
    text = text.replace("AllByRecursion as All", "AllByRecursion")

    def one(found):
        return "AllByRecursion" if found[0] == "All" else found[0]

    return TOKEN.sub(one, text)


def main():
    if not CRATES.is_dir():
        sys.exit("run it at the top of the repository")
    ghost = sorted(p for part in ("specs", "proofs") for p in CRATES.glob(f"*/{part}/**/*.antt") if "out" not in p.parts)
    code = sorted(p for p in CRATES.glob("*/src/**/*.rt") if "out" not in p.parts)
    texts = {path: path.read_text() for path in ghost + code}
    names = set(VARIABLES) | set(GARBLED)
    for path in ghost:
        names |= declared(texts[path])
    for text in texts.values():
        names |= aliases(text)
    spelling = {name: spelled(name) for name in names}
    if len(set(spelling.values())) != len(spelling):
        sys.exit("two names would fall together")
    every = {word for text in texts.values() for word in TOKEN.findall(text)}
    for name, new in sorted(spelling.items()):
        if new in every:
            print(f"look: {name} becomes {new}, which stands already")
    changed = 0
    for path, text in texts.items():
        new = by_recursion(respelled(text, spelling))
        if path == TWO_WAYS[0]:
            new = re.sub(r"\b%s\b" % TWO_WAYS[1], TWO_WAYS[2], new).replace(f", {TWO_WAYS[2]}, None, {TWO_WAYS[2]}", f", None, {TWO_WAYS[2]}")
        if new != text:
            path.write_text(new)
            changed += 1
    print(f"{len(spelling)} names, {changed} files changed")


if __name__ == "__main__":
    main()
