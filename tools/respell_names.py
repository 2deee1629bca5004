#!/usr/bin/env python3
"""Respells the repository's own definitions and lemmas as Rattle's libraries spell theirs.

usage: tools/respell_names.py [--check]      at the top, once, after port.py and before any edit by hand

Words in snake case (`row-of` to `row_of`), types and facts in camel case (`Table-holds` to `TableHolds`). A name that a
library has keeps the library's spelling, and so do functions of src/, exported names, strings and comments. The file
specs/Contracts.antt becomes specs/Cited.antt, since Rattle makes a module `contracts` of its own. It rewrites the .antt and
.rt files and the texts of the .edit files in place, prints names that fall together and, with --check, writes nothing.
"""

import collections
import os
import re
import subprocess
import sys

PIECE = re.compile(r'--[^\n]*|"(?:[^"\\]|\\.)*"|«[^»]*»|[^\s(){}.;,@"«»\[\]\\]+')
PIECE_RT = re.compile(r'//[^\n]*|"(?:[^"\\]|\\.)*"|«[^»]*»|[^\s(){}.;,@"«»\[\]\\]+')
USE = re.compile(r"^\s*(?:pub |ghost |unfoldable )*use ([^\s{;]+?)\.?\{([^}]*)\}", re.M)
NAMES = r"[^\s(){}.;,@\"«»\[\]\\:]+"
# the head of a declaration
DECL = re.compile(r"^( *)((?:pub |abbrev |unfoldable |record |data |pattern )*)(%s)(?= [^\n=]*:(?: |$)| :(?: |$))" % NAMES, re.M)


def read(path):
    with open(path, encoding="utf-8", newline="") as it:
        return it.read()


def files(*endings):
    for folder, dirs, names in os.walk("crates"):
        dirs[:] = sorted(d for d in dirs if d != "out")
        for name in sorted(names):
            if name.endswith(endings):
                yield os.path.join(folder, name)


def tokens(text, pattern):
    for it in pattern.finditer(text):
        word = it.group(0)
        if word[:2] not in ("--", "//") and word[0] not in '"«':
            yield it.start(), word


def library_imports(own_crates):
    """The hyphenated names that the repository takes from a library."""
    out = set()
    for path in files(".antt", ".rt"):
        for it in USE.finditer(read(path)):
            module = it.group(1).split(".")
            if len(module) > 1 and module[0] == "Rattle" and module[1] in own_crates and "Tie" not in module:
                continue
            out |= {re.sub(r" as .*", "", name).strip() for name in it.group(2).split(",")}
            out |= {name.split(" as ")[-1].strip() for name in it.group(2).split(",") if " as " in name} - out
    return out


def is_type(text, at):
    """Whether the signature that begins at a place answers a type."""
    rest = text[at:]
    stop = re.search(r"\n(?! *(?:→|->)|   )", rest)
    return re.search(r"Type(?: \d)?(?: where)?\s*$", rest[: stop.start()] if stop else rest) is not None


def declared():
    """Each name's kinds: 'type' or 'word'."""
    out = collections.defaultdict(set)
    for path in files(".antt"):
        text = read(path)
        for it in re.finditer(r"\b(?:record|data) (\S+)", text):
            out[it.group(1)].add("type")
        for it in DECL.finditer(text):
            kind = "type" if "record" in it.group(2) or "data" in it.group(2) or is_type(text, it.start()) else "word"
            out[it.group(3)].add(kind)
    return out


def camel(name):
    return "".join(part[:1].upper() + part[1:] for part in name.split("-"))


def table():
    own_crates = set(os.listdir("crates"))
    taken = library_imports(own_crates)
    kinds = declared()
    own = {}
    for path in files(".antt"):
        text = read(path)
        generated = os.path.basename(path) == "Proof.antt"
        for at, word in tokens(text, PIECE):
            if "-" not in word or word in taken or word.startswith("-") or word.endswith("-"):
                continue
            if re.fullmatch(r"[\W\d]*", word) or "::" in word or "+" in word or "#" in word:
                continue
            before = text[:at][-1:]
            if before == "." and word not in kinds:
                continue
            if generated and text[max(0, at - 4) : at] == "tie.":
                continue
            if generated and word.startswith(("invariant-", "decreases-")):
                continue
            own[word] = None
    for word in own:
        if word[0].isupper():
            if "type" in kinds[word] or word not in kinds:
                own[word] = camel(word)
            else:
                head, rest = word.split("-", 1)
                own[word] = head + "-" + rest.replace("-", "_")
        else:
            own[word] = re.sub(r"\bgetD\b", "get_or", word.replace("-", " ")).replace(" ", "_")
    return {old: new for old, new in own.items() if old != new}


def together(names):
    """Names of one file that would be spelled alike."""
    out = []
    for path in files(".antt"):
        seen = collections.defaultdict(set)
        for _, word in tokens(read(path), PIECE):
            seen[names.get(word, word)].add(word)
        out += [(path, sorted(olds)) for olds in seen.values() if len(olds) > 1]
    return out


def respelled(text, pattern, names):
    at = 0
    out = []
    for it in pattern.finditer(text):
        word = it.group(0)
        if word in names:
            out += [text[at : it.start()], names[word]]
            at = it.end()
    return "".join(out) + text[at:]


def main(arguments):
    names = table()
    for path, olds in together(names):
        print("together:", path, *olds)
    if arguments == ["--check"]:
        for old, new in sorted(names.items()):
            print(old, new)
        return
    for path in files(".antt", ".rt", ".edit"):
        text = read(path)
        new = respelled(text, PIECE_RT if path.endswith(".rt") else PIECE, names)
        new = re.sub(r"(\.specs\.|/|pub mod )Contracts\b", r"\1Cited", new)
        if new != text:
            with open(path, "w", encoding="utf-8", newline="") as it:
                it.write(new)
    for path in files("Contracts.antt"):
        subprocess.run(["git", "mv", path, path.replace("Contracts.antt", "Cited.antt")], check=True)


main(sys.argv[1:])
