#!/usr/bin/env python3
"""Brings the names of definitions and lemmas to the spelling of today's Rattle: words in snake case, facts and types in camel case.

usage: tools/respell.py [--check]       at the top of the repository, once, right after the toolchain's port script

    chargedPage -> charged_page      beforeLastSecond -> BeforeLastSecond      length-slotPages -> length-slot_pages
    getD-mapi   -> get_or-mapi       a record's field array-is -> array_is, but not in a comment, where it may be two words

It reads the definitions of specs/ and proofs/, and writes their new names there, in the clauses and comments of src/, in must-fail/*.edit
and in the pages README.md and docs/. Names of constants of the source (FULL, EV, ..) and of its functions stay. --check writes nothing and
lists, by file, each new name that stood there before: names that would fall together.
"""

import glob
import re
import sys

# A name of antt: no white space, brackets, point, comma, semicolon or quote mark.
NAME = re.compile(r"[^\s(){}.;,@\"«»\[\]\\`:|]+")
DEFINED = re.compile(r"^(\s*)((?:(?:unfoldable|abbrev|pub) )*)((?:data|record) )?([^\s:(){}]+)((?: [({].*?[)}])*) :(?: (.*))?$")
IN_TYPES = re.compile(r"(?:^|→ |\) |\} )Type(?: \d)?$")


def definitions():
    """Returns the names that are defined, each with whether it is a fact or type, and the names of records' fields."""
    kinds, fields = {}, set()
    for path in sorted(glob.glob("crates/*/specs/**/*.antt", recursive=True) + glob.glob("crates/*/proofs/**/*.antt", recursive=True)):
        with open(path, encoding="utf-8") as it:
            lines = it.read().split("\n")
        in_record = False
        for at, line in enumerate(lines):
            if not line.strip() or line.strip().startswith("--"):
                continue
            if not line.startswith(" "):
                in_record = re.match(r"(?:pub )?record ", line) is not None
            found = DEFINED.match(line)
            if not found:
                continue
            indent, keyword, name, said = len(found[1]), (found[3] or "").strip(), found[4], [found[6] or ""]
            if in_record and indent and keyword == "":
                fields.add(name)
            for more in lines[at + 1 :]:
                if keyword or not more.strip() or not more.startswith(" " * (indent + 1)):
                    break
                said.append(more.strip())
            is_type = keyword != "" or (not (in_record and indent) and IN_TYPES.search(" ".join(said)) is not None)
            kinds[name] = kinds.get(name, False) or is_type
    return kinds, fields


def snake(name):
    name = re.sub(r"(?<![A-Za-z])getD(?![A-Za-z])", "get_or", name)
    # An acronym of the source that ends a name stays a word: latchFE, but endsEarly in two words.
    name = re.sub(r"(?<=[a-z0-9])([A-Z]+)(?![a-zA-Z])", lambda it: "_" + it[1].lower(), name)
    return re.sub(r"(?<=[a-z0-9])([A-Z])(?=[a-z])", lambda it: "_" + it[1].lower(), name)


def renamed():
    kinds, fields = definitions()
    out = {}
    for name, is_type in kinds.items():
        if name[0].isupper() or not re.search(r"[a-z]", name):
            new = name
        elif is_type and "-" not in name:
            new = name[0].upper() + name[1:]
        else:
            new = snake(name)
        if name in fields:
            new = new.replace("-", "_")
        if new != name:
            out[name] = new
    return out


# Lemmas whose names a definition takes: by crate.
TAKEN = {("history", "value_in"): "value_in_lem", ("history", "value_line"): "value_line_lem", ("steps", "all_done"): "all_done_lem"}
LEMMAS = {"history": ("proofs/Range.antt",), "steps": ("proofs/Desks.antt", "proofs/waiting/finish_due/Proof.antt")}


def freed(path, text):
    """Gives a lemma that has the new name of a definition a name of its own."""
    for (crate, old), new in TAKEN.items():
        for file in LEMMAS[crate]:
            if path == f"crates/{crate}/{file}":
                # A path of a function's module or a step of a proof is not the lemma.
                text = re.sub(rf"(?<![\w.'-]){old}(?![\w.'-])", new, text)
    return text


def respelled(path, text, new_name):
    """Renames in a file; a name that is plain words but for its dashes stays where prose may have it."""
    def turn(found):
        return new_name.get(found[0], found[0])

    def turn_prose(found):
        new = new_name.get(found[0], found[0])
        return found[0] if found[0].islower() and "-" in found[0] else new

    if path.endswith(".md"):
        return NAME.sub(turn_prose, text)
    sign = "--" if path.endswith(".antt") else "//"
    lines = []
    for line in text.split("\n"):
        lines.append(NAME.sub(turn_prose if line.lstrip().startswith(sign) else turn, line))
    return "\n".join(lines)


def files():
    for pattern in ("crates/*/specs/**/*.antt", "crates/*/proofs/**/*.antt", "crates/*/src/**/*.rt", "crates/*/must-fail/*.edit", "docs/*.md", "README.md"):
        yield from sorted(glob.glob(pattern, recursive=True))


def main():
    if sys.argv[1:] not in ([], ["--check"]):
        sys.stderr.write(__doc__.split("\n\n")[1] + "\n")
        sys.exit(2)
    new_name = renamed()
    together = {}
    for old, new in sorted(new_name.items()):
        together.setdefault(new, []).append(old)
    for new, olds in together.items():
        if len(olds) > 1:
            print(f"{new}: {', '.join(olds)}")
    for path in files():
        with open(path, encoding="utf-8") as it:
            before = it.read()
        text = freed(path, before)
        there = set(NAME.findall(text))
        if "--check" in sys.argv:
            for old in sorted(there & set(new_name)):
                if new_name[old] in there:
                    print(f"{path}: {old} -> {new_name[old]}")
            continue
        done = respelled(path, text, new_name)
        if done != before:
            with open(path, "w", encoding="utf-8") as it:
                it.write(done)


main()
