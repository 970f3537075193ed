#!/usr/bin/env python3
"""Respells the repository's own definitions, fields and lemmas as today's Rattle spells names: words in snake case, types and modules in camel case.

usage: respell.py [--check]        at the top of the repository, after port.py, once

    freshCall -> fresh_call, tileCount-pos -> tile_count_pos, copies-none -> copies_none

A name is the repository's own if a file of specs/ or proofs/ declares it. One that a library declares too, and that is imported here from there,
keeps its spelling, and so do functions of src/, exported names, strings, inputs and outputs. Where two names would fall together in one module,
the later one gets `_lem`, as a lemma that would have its function's name does in the libraries.
With --check nothing is written, and what would fall together is listed. A tree whose proofs answer today's goals is refused: it has the new names.
"""

import collections
import os
import re
import sys

TOKEN = r"[^\s(){}.;,@\"«»\[\]\\:`]+"
DECLARED = (
    r"(?m)^(?:(?:abbrev|unfoldable|pub) )*(%s)(?: \{[^}]*\}| \([^)]*\))* :(?= |$)" % TOKEN,
    r"(?m)^(?:(?:abbrev|unfoldable|pub) )*(?:record|data) (%s)" % TOKEN,
    r"(?m)^ +(?:(?:abbrev|unfoldable|pub) )*(%s)(?: \{[^}]*\}| \([^)]*\))* : " % TOKEN,
)
USE = re.compile(r"(?m)^(?:pub )?use ([^\s{]+?)(?:\.\{([^}]*)\}| as (\S+))?\s*$", re.S)
GHOST_USE = re.compile(r"ghost use ([^\s{;]+?)(?:\.\{([^}]*)\})?(?: as (\S+))?;", re.S)
# lemmas that would get the name of a definition that their files speak of too
BESIDE = {
    "as_long": "as_long_lem",
    "held_by": "held_by_lem",
    "no_cell": "no_cell_lem",
    "in-words": "in_words_lem",
    "at-home": "at_home_lem",
    "row-values": "row_values_lem",
    "bit-or": "bit_or_lem",
    "turn_at": "turn_at_lem",
    "left_by": "left_by_lem",
    "handed-over": "handed_over_once",
    "in-shape": "is_in_shape",
    "own-cells": "cells_are_own",
}
KEPT_FILES = ("Proof.antt",)


def read(path):
    with open(path, encoding="utf-8", newline="") as it:
        return it.read()


def snake(name):
    """The name with each hump and each dash as an underscore."""
    name = re.sub(r"(?<=[a-z0-9'])([A-Z])", lambda m: "_" + m[1].lower(), name)
    return name.replace("-", "_").replace("′", "'")


def is_word(name):
    """Does it name a word, and not a type, an operator or a module?"""
    return re.match(r"[a-z]", name) is not None and re.fullmatch(r"[\w'′-]+", name) is not None


def texts(root, endings):
    for folder, folders, files in os.walk(os.path.join(root, "crates")):
        folders[:] = sorted(it for it in folders if it != "out")
        for file in sorted(files):
            if file.endswith(endings):
                yield os.path.join(folder, file)


def declared(text):
    return {name for pattern in DECLARED for name in re.findall(pattern, text)}


def is_own(path, crates):
    words = path.split(".")
    return words[0] == "Rattle" and len(words) > 2 and words[1] in crates and words[2] in ("specs", "proofs")


def foreign(text, crates):
    """The names that a file takes from the libraries."""
    found, aliases = set(), set()
    for uses in (USE, GHOST_USE):
        for path, names, alias in uses.findall(text):
            if is_own(path, crates):
                continue
            found.update(it.split(" as ")[0].strip() for it in names.split(",") if it.strip())
            aliases.add(alias or path.split(".")[-1])
    for alias in aliases - {""}:
        found.update(re.findall(r"(?<![\w.'-])%s\.(%s)" % (re.escape(alias), TOKEN), text))
    return found


def renamed(root):
    """The old and new spelling of each name that changes."""
    crates = {it for it in os.listdir(os.path.join(root, "crates"))}
    names, theirs, by_module = set(), set(), {}
    for path in texts(root, (".antt",)):
        text = read(path)
        theirs |= foreign(text, crates)
        if os.path.basename(path) not in KEPT_FILES:
            by_module[path] = declared(text)
            names |= by_module[path]
        # what has a hump is respelled wherever it stands: in a module with parameters, as a constructor, in a proof
        names |= {it for it in re.findall(TOKEN, re.sub(r"--[^\n]*|\"[^\"]*\"", "", text)) if re.match("[a-z]", it) and re.search("[a-z0-9][A-Z]", it)}
    for path in texts(root, (".rt",)):
        theirs |= foreign(read(path), crates)
    table = {it: snake(it) for it in names if is_word(it) and it not in theirs and snake(it) != it}
    for path in texts(root, (".antt",)):
        olds = collections.defaultdict(set)
        for it in set(re.findall(TOKEN, re.sub(r"--[^\n]*", "", read(path)))):
            olds[table.get(it, it)].add(it)
        for new, them in olds.items():
            dashed = [it for it in them if "-" in it and not re.search("[A-Z]", it)]
            if len(them) > 1 and dashed and any(it in table and it not in dashed for it in them):
                table[dashed[0]] = new + "_lem"
    table.update({old: new for old, new in BESIDE.items() if old in names})
    return table, by_module, theirs


def main():
    root = "."
    if any(re.search(r"(?m)^use \S+\.Goals as goal$", read(path)) for path in texts(root, (".antt",))):
        sys.exit("respell.py: these proofs answer today's goals, so the names are respelled already")
    table, by_module, theirs = renamed(root)
    falls = collections.defaultdict(set)
    for path, names in by_module.items():
        seen = collections.defaultdict(set)
        for it in names:
            seen[table.get(it, it)].add(it)
        for new, olds in seen.items():
            if len(olds) > 1:
                falls[new] |= olds
    for new, olds in sorted(falls.items()):
        keep = next((it for it in sorted(olds) if it == new), sorted(olds, key=lambda it: ("-" in it, it))[0])
        for it in sorted(olds - {keep}):
            table[it] = new + "_lem"
            print(f"together: {keep}, {it} -> {new}, {new}_lem")
    token = re.compile(r"--[^\n]*|\"(?:[^\"\\]|\\.)*\"|" + TOKEN)
    changed = 0
    for path in texts(root, (".antt", ".rt")):
        text = read(path)
        if path.endswith(".antt"):
            have = set(re.findall(TOKEN, re.sub(r"--[^\n]*", "", text)))
            for it in have:
                if it in table and table[it] in have:
                    print(f"look: {path}: {it} beside {table[it]}")
            new = token.sub(lambda m: m[0] if m[0].startswith('"') else in_comment(m[0], table) if m[0].startswith("--") else table.get(m[0], m[0]), text)
        else:
            new = in_source(text, table)
        if new != text:
            changed += 1
            if "--check" not in sys.argv:
                with open(path, "w", encoding="utf-8", newline="") as it:
                    it.write(new)
    print(f"{len(table)} names, {changed} files")


def in_comment(text, table):
    """A name in back quotes, or one with a hump, is a name in prose too."""
    text = re.sub(r"`([^`\n]+)`", lambda m: "`" + re.sub(TOKEN, lambda it: table.get(it[0], it[0]), m[1]) + "`", text)
    return re.sub(r"(?<![\w.'-])[a-z]\w*[A-Z][\w'-]*", lambda m: table.get(m[0], m[0]), text)


def in_source(text, table):
    """Clauses and ghost items alone: code keeps its names."""
    out, at = [], 0
    for m in re.finditer(r"//[^\n]*|ghost use [^;]*;|\b(?:requires|ensures)\*?(?: \w+)? \{|\bghost \w+: \{", text):
        if m.start() < at:
            continue
        out.append(text[at:m.start()])
        end = m.end()
        if m[0].startswith("//"):
            out.append(in_comment(m[0], table))
        elif m[0].startswith("ghost use"):
            out.append(re.sub(TOKEN, lambda it: table.get(it[0], it[0]), m[0]))
        else:
            depth = 1
            while depth:
                depth += {"{": 1, "}": -1}.get(text[end], 0)
                end += 1
            out.append(re.sub(TOKEN, lambda it: table.get(it[0], it[0]), text[m.start():end]))
        at = end
    return "".join(out) + text[at:]


if __name__ == "__main__":
    main()
