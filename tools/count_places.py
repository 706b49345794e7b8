#!/usr/bin/env python3
"""Lists the places in src/ that read like an older Rattle, point by point; docs/DESIGN-PASS.md says what the points are.

    tools/count_places.py [POINT] [--list]      counts for each point; with --list the places themselves

The rules are plain patterns over the text, so a place that a pattern finds may be good as it stands: the document says which.
"""
import glob
import re
import sys
from collections import defaultdict

FILES = sorted(glob.glob("crates/*/src/**/*.rt", recursive=True))


def lines():
    for path in FILES:
        for number, line in enumerate(open(path, encoding="utf-8"), 1):
            if not line.lstrip().startswith("//") and "ghost use" not in line:
                yield path, number, line.rstrip("\n")


def matching(pattern):
    found = re.compile(pattern)
    return [f"{p}:{n}: {t.strip()}" for p, n, t in lines() if found.search(t)]


def functions():
    """(path, line, name, head up to its body) of each function."""
    for path in FILES:
        text = open(path, encoding="utf-8").read()
        for m in re.finditer(r"^[ \t]*(?:pub(?:\(crate\))? )?fn (\w+)", text, re.M):
            end = re.search(r"^\s*\{\s*$|;\s*$|\{\s*$", text[m.start():], re.M)
            head = text[m.start(): m.start() + (end.end() if end else 0)]
            yield path, text[: m.start()].count("\n") + 1, m.group(1), head


def signature(head):
    return re.split(r"\n\s*(?:requires|ensures)\b", head)[0]


def clauses(head):
    return re.findall(r"\b(requires|ensures)\b[^{]*\{(.*)\}", head)


def parameters(head):
    inside = signature(head)
    inside = inside[inside.find("(") + 1: inside.rfind(")")]
    inside = inside.split(") ->")[0]
    return [p.strip() for p in re.findall(r"(\w+: [^,()]+(?:\([^)]*\))?)", inside)]


def point1():
    enums = matching(r"^\s*(pub(\(crate\))? )?enum ")
    flags = matching(r"^\s*(pub(\(crate\))? )?\w+: bool,$")
    refusals = [
        f"{p}:{n}: {name}" for p, n, name, head in functions()
        if "&mut" in signature(head) and re.search(r"-> (bool|usize)\s*$", signature(head).strip())
    ]
    kinds = matching(r"\bKIND\b|kind: u8|u32::MAX|\b(bound|total): 0,|return 0;")
    pairs = matching(r"-> \((?!&)")
    return {"own enums": enums, "flags in structs": flags, "bool or count for a refusal": refusals,
            "numbers for kinds or for none": kinds, "pairs as results": pairs}


def point3():
    return {"counted loops": matching(r"\bfor \w+ in .*\.\."), "while": matching(r"^\s*while "), "enumerate": matching(r"\.enumerate\(\)")}


def point4():
    return {
        "comparing by hand": matching(r"fn (no_later_than|same|earlier|eq|cmp)\b|\w+\.\w+ == \w+\.\w+ &&|if self\.\w+ != other\.\w+"),
        "converting by hand": matching(r"fn (number|cause|conclude|started|progressed|written|refusal|parse)\b|=> [0-9]+,$"),
        "printing by hand": matching(r"fn (name|write_\w+)\b|=> b\"|write_all\("),
        "zero values by hand": matching(r"const (ZERO|NO_\w+)\b"),
    }


def point5():
    heads = defaultdict(set)
    for path, number, name, head in functions():
        for _, text in clauses(head):
            first = re.sub(r"[()\s×]+", " ", text).strip().split(" ")[0]
            key = re.sub(r"\.(old|new|now|entry|exit)", "", text)
            heads[re.sub(r"\b(self|memory|result)\b", "_", key).strip()].add(f"{path}:{number}: {name}")
    facts = [f"{len(v)} contracts: {k}" for k, v in sorted(heads.items(), key=lambda e: -len(e[1])) if len(v) >= 3]
    groups = defaultdict(set)
    for path, number, name, head in functions():
        got = sorted(set(parameters(head)))
        for i, a in enumerate(got):
            for b in got[i + 1:]:
                groups[(a, b)].add(f"{path}:{number}: {name}")
    together = [f"{len(v)} functions: {a} + {b}" for (a, b), v in sorted(groups.items(), key=lambda e: -len(e[1])) if len(v) >= 3]
    return {"facts in three contracts or more": facts, "pairs of parameters in three functions or more": together}


def point6():
    return {
        "buffers and lengths": matching(r"^\s*(pub(\(crate\))? )?\w*(len|held|count|used|size): usize,$"),
        "fixed arrays": matching(r"\[[^\[\]]+; (8|32|256|2048|4)\]"),
        "arithmetic in an index": matching(r"\[[^\]\"]*\w+ [*+] [^\]]*\]|\.\.\w+ \+ \w+"),
    }


def point7():
    return {
        "matches on what to do": matching(r"match (shape|call|kind|self\.status|event)\b"),
        "functions as values": matching(r"\bfn\(|\bdyn |Box<|impl Fn"),
    }


def point8():
    answers, size = [], 0
    for path in sorted(glob.glob("crates/*/proofs/**/*.antt", recursive=True)):
        text = open(path, encoding="utf-8").read()
        size += text.count("\n")
        if path.endswith("Answers.antt"):
            answers += [f"{path}: {m}" for m in re.findall(r"^pub ([\w-]+) :", text, re.M)]
    return {"answers": answers, f"lines of proof ({size})": []}


POINTS = {"1": point1, "3": point3, "4": point4, "5": point5, "6": point6, "7": point7, "8": point8}


def main():
    chosen = [a for a in sys.argv[1:] if a in POINTS] or list(POINTS)
    for point in chosen:
        for name, places in POINTS[point]().items():
            print(f"{point}  {name}: {len(places)}")
            if "--list" in sys.argv:
                print("".join(f"     {place}\n" for place in places), end="")


main()
