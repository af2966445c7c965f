#!/usr/bin/env python3
"""Turns the names of this repository's own definitions and lemmas to snake case.

usage: python3 tools/respell.py          at the top: rewrites crates/*/specs, crates/*/proofs and the ghost parts of crates/*/src
       python3 tools/respell.py --list   prints the names, old and new, and changes nothing

Run once, after port.py. A name is ours where a file of specs/ or proofs/ gives it a signature, binds it by `let`, or imports
something under it by `as`; what is ours is respelled: `textOf` and `text-of` become `text_of`. Types and facts begin with a
capital and stay. So do the names of Rattle's goals, the fields behind a dot, and all of the code. Two names that would fall
together are in APART.
"""

import os
import re
import sys

# Lemmas that would be called as a definition is: a definition keeps the plain name.
APART = {
    "code-text": "code_text_lem",
    "give-if": "give_if_lem",
    "give-to": "give_to_lem",
    "handler-text": "handler_text_lem",
    "kind-number": "kind_number_lem",
    "kind-numbered": "kind_numbered_lem",
    "last-method": "last_method_lem",
    "letter-byte": "letter_byte_lem",
    "line-length": "line_length_lem",
    "line_taken": "line_taken_lem",
    "op-number": "op_number_lem",
    "op-numbered": "op_numbered_lem",
    "same_text": "same_text_lem",
}

# Lemmas that were called by older words of the library.
APART |= {"getD-default'": "get_or_default'", "mapped-is": "option_map_is", "nth-getD": "slice_get_or"}

# A module is spelled as a type is.
APART |= {"use-of": "UseOf"}

# Variables of patterns, which have no signature.
BOUND = ("use-of", "no-feed", "no-digits", "at-end", "at-third")

# std's word under another name, which a lemma of ours had taken.
TAKEN = ("digit_value", "digitValue", "digit_value_lem")

WORD = r"[^\s()\[\]{}.,;:=|«»⌜⌝\"`@/\\λ→]+"
SIGNATURE = re.compile(
    r"^ *(?:(?:abbrev|unfoldable|pub) +)*(?P<name>" + WORD + r") +: (?P<type>.*)$", re.M
)
LET = re.compile(r"\blet (?P<name>" + WORD + r") +[:=]")
ALIAS = re.compile(r"\bas (?P<name>[a-z]" + WORD + r")[,}]")
OURS = re.compile(r"[a-z][A-Za-z0-9]*(?:[-_][A-Za-z0-9]+)*'?")
TOKEN = re.compile(r"(?<![\w'.-])[a-z][\w'-]*(?![\w'-])")


def texts(ending):
    for folder, dirs, files in sorted(os.walk("crates")):
        dirs[:] = sorted(d for d in dirs if d not in ("out", "must-fail", "data"))
        for name in sorted(files):
            if name.endswith(ending):
                yield os.path.join(folder, name)


def read(path):
    with open(path, encoding="utf-8") as f:
        return f.read()


def snake(name):
    parts = re.sub(r"(?<=[a-z0-9])(?=[A-Z])", "_", name).replace("-", "_")
    return "_".join(p if p.isupper() and len(p) == 1 else p.lower() for p in parts.split("_"))


def own_names():
    found = set(BOUND)
    for path in texts(".antt"):
        text = read(path)
        for m in SIGNATURE.finditer(text):
            if not m["type"].startswith("goal."):
                found.add(m["name"])
        found.update(m["name"] for m in LET.finditer(text))
        found.update(m["name"] for m in ALIAS.finditer(text))
    for path in texts(".rt"):
        found.update(m["name"] for line in read(path).split("\n") if line.lstrip().startswith("ghost use") for m in ALIAS.finditer(line))
    new = {}
    for name in sorted(found):
        if OURS.fullmatch(name):
            to = APART.get(name, snake(name))
            if to != name:
                new[name] = to
    return new


def freed(text):
    """A file that has std's word under another name gets it under its own, and our lemma another."""
    word, alias, lemma = TAKEN
    if f"{word} as {alias}" not in text:
        return text
    text = re.sub(rf"(?<![\w'.-]){word}(?! as )(?![\w'-])", lemma, text)
    return text.replace(f"{word} as {alias}", word).replace(alias, word)


def respelled(text, new):
    return TOKEN.sub(lambda m: new.get(m[0], m[0]), text)


# The ghost parts of a source: imports, clauses, ghost fields and members. All of them stand in braces on one line.
GHOST = re.compile(r"^ *(?:pub )?(?:ghost use .*|(?:ghost|requires|ensures)\*? .*\{.*\}[,;]?)$", re.M)


def main():
    new = own_names()
    if sys.argv[1:] == ["--list"]:
        for name in sorted(new):
            print(name, new[name])
        return
    for path in texts(".antt"):
        old = read(path)
        put(path, old, respelled(freed(old), new))
    for path in texts(".rt"):
        old = read(path)
        put(path, old, GHOST.sub(lambda m: respelled(m[0], new), old))


def put(path, old, text):
    if text != old:
        with open(path, "w", encoding="utf-8") as f:
            f.write(text)


main()
