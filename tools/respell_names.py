#!/usr/bin/env python3
"""Brings the names of definitions, fields, constructors and ghost members to the spelling of today's Rattle.

usage: tools/respell_names.py [--check]     at the top of the repository

Words of definitions, record fields, constructors and ghost members go to snake case; types keep their capitals. A dash
stays where it joins two names in the name of a lemma, and becomes an underscore in a field or a constructor. Folders of
specs/ that are modules get a capital. Names of functions in src/ are not touched. It turns whole words in .antt files, in
clauses of .rt files, and in code spans of README.md and docs/.

It ran once, on what the kit's port.py had made of the repository, and is kept so that the names can be compared with the
older ones. It is not meant to run again.
"""
import collections
import os
import re
import sys

WORD = re.compile(r"(?<![\w'′\-·.])[A-Za-z_][\w'′\-]*|(?<=\.)[A-Za-z_][\w'′\-]*")
FOLDERS = {"lawful": "Lawful"}
# names whose older word came from the library, which calls it otherwise today
WORDS = {"getD": "get_or"}
# lemmas whose name falls together with that of the definition that they are about
LEMMAS = {"crates/reader/proofs/": {"cut_line": "cut_line_lem"}}


def snake(word):
    if word in WORDS:
        return WORDS[word]
    if not word[:1].islower():
        return word
    return re.sub(r"(?<=[a-z0-9])([A-Z])", lambda m: "_" + m.group(1).lower(), word)


def files(kinds):
    for top, folders, names in os.walk("crates"):
        folders[:] = sorted(f for f in folders if f != "out")
        for name in sorted(names):
            if name.endswith(kinds):
                yield os.path.join(top, name)


def declared():
    """Each declared name with its kinds: def, field."""
    found = collections.defaultdict(set)
    for path in files((".antt",)):
        inside = None
        for line in open(path, encoding="utf-8"):
            head = re.match(r"^(?:abbrev |unfoldable |pub )*(record|data)\b", line)
            if head:
                inside = head.group(1)
                continue
            if line.strip() and not line.startswith((" ", "--")):
                inside = None
            name = re.match(r"^(\s*)(?:abbrev |unfoldable |pub )*([A-Za-z_][^\s:(){},;=.]*) :(?:\s|$)", line)
            if name:
                found[name.group(2)].add("field" if inside and name.group(1) else "def")
    for path in files((".rt",)):
        for line in open(path, encoding="utf-8"):
            name = re.match(r"^\s*ghost ([A-Za-z_]\w*)\s*[:=]", line)
            if name:
                found[name.group(1)].add("field")
    return found


GENERATED = re.compile(
    r"^(returns|loop|invariant|decreases|overflow|bounds|slice-bounds|offset-bounds|nonzero|prove|ghost)\b|-requires"
)


def table():
    turned = {}
    names = declared()
    for name, kinds in sorted(names.items()):
        if GENERATED.search(name) and "field" not in kinds:
            continue
        new = "-".join(snake(part) for part in name.split("-"))
        if "field" in kinds:
            new = new.replace("-", "_")
        if new != name:
            turned[name] = new
    olds = set(names)
    met = collections.defaultdict(list)
    for old, new in turned.items():
        met[new].append(old)
        if new in olds:
            met[new].append(new)
    for new, old in met.items():
        if len(set(old)) > 1:
            print(f"falls together: {new} from {sorted(set(old))}", file=sys.stderr)
    return turned


def turn_words(text, names):
    return WORD.sub(lambda m: names.get(m.group(0), m.group(0)), text)


def turn_folders(text):
    for old, new in FOLDERS.items():
        text = re.sub(rf"(?<=specs\.){old}(?=[.;\s])", new, text)
        text = re.sub(rf"(?m)^(pub mod ){old}$", rf"\g<1>{new}", text)
        text = text.replace(f"specs/{old}", f"specs/{new}")
    return text


def turn_rust(text, names):
    """Lines of clauses, ghost members and ghost uses alone."""
    out, depth = [], 0
    for line in text.splitlines(keepends=True):
        clause = re.match(r"\s*(requires|ensures|ghost)\b", line)
        if depth or clause:
            code = line.split("//")[0]
            out.append(turn_folders(turn_words(line, names)))
            depth += code.count("{") - code.count("}")
            depth = max(depth, 0)
        else:
            out.append(line)
    return "".join(out)


def turn_prose(text, names):
    span = lambda m: turn_folders(turn_words(m.group(0), names))
    text = re.sub(r"`[^`\n]+`", span, text)
    return turn_folders(text)


def main():
    check = "--check" in sys.argv[1:]
    names = table()
    if check:
        for old, new in sorted(names.items()):
            print(old, new)
        return
    plan = []
    for path in files((".antt", ".rt")):
        text = open(path, encoding="utf-8").read()
        own = dict(names)
        for folder, lemmas in LEMMAS.items():
            if path.startswith(folder):
                own.update(lemmas)
        plan.append((path, turn_folders(turn_words(text, own)) if path.endswith(".antt") else turn_rust(text, own)))
    for path in ["README.md"] + [os.path.join("docs", f) for f in sorted(os.listdir("docs"))]:
        if path.endswith(".md") and not os.path.basename(path).startswith("PORT"):
            plan.append((path, turn_prose(open(path, encoding="utf-8").read(), names)))
    for path, text in plan:
        with open(path, "w", encoding="utf-8") as out:
            out.write(text)
    for top, folders, entries in list(os.walk("crates")):
        for old, new in FOLDERS.items():
            if os.path.basename(top) == "specs" and old in folders:
                os.rename(os.path.join(top, old), os.path.join(top, new))
            if os.path.basename(top) == "specs" and old + ".antt" in entries:
                os.rename(os.path.join(top, old + ".antt"), os.path.join(top, new + ".antt"))
    print(f"{len(names)} names respelled")


main()
