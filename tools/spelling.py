#!/usr/bin/env python3
"""Brings this repository's own names to the spelling of today's Rattle: definitions, lemmas, fields, constructors and variables of
antt in snake case. Run once, at the top, behind the kit's port.py; see docs/PORT.md. Names of types and facts keep their capital,
a dash between the parts of a lemma's name stays, and nothing of Rattle's own side (functions, strings, inputs, outputs) has such a name."""

import collections
import glob
import re

FILES = [
    f
    for pattern in ("crates/*/specs/**/*.antt", "crates/*/proofs/**/*.antt", "crates/*/src/**/*.rt", "crates/*/must-fail/*.edit")
    for f in glob.glob(pattern, recursive=True)
]
WORD = re.compile(r"[^\W\d][\w₀-₉'’-]*")
# Lemmas whose names would fall together with their functions': such a lemma ends in `_lem`.
LEMMAS = r"(?<![\w.-])(only_of|some_of)(?![\w-])"
IN_STEPS = r"(?<![\w.-])(base_on|base_step|ones_step)(?![\w-])"
RECORD = re.compile(r"^(?:abbrev |unfoldable |pub )*(?:record|data) ")
MEMBER = re.compile(r"^\s+(?:pub )?([a-z]\S*)\s*:")


def snake(part):
    """Where a part of a name begins small, each capital inside it begins a word."""
    if not part[:1].islower():
        return part
    return re.sub(r"_?([A-Z])", lambda m: "_" + m[1].lower(), part)


def dashed_members():
    """Fields and constructors with a dash: each is one name, so its words are joined by `_`."""
    found = set()
    for f in FILES:
        inside = False
        if not f.endswith(".antt"):
            continue
        for line in open(f, encoding="utf-8"):
            if re.match(r"\S", line):
                inside = bool(RECORD.match(line))
            member = MEMBER.match(line)
            if inside and member and "-" in member[1]:
                found.add(member[1])
    return found


def main():
    members = dashed_members()
    changed = collections.OrderedDict()

    def turned(match):
        word = match[0]
        new = word.replace("-", "_") if word in members else word
        new = "-".join(snake(part) for part in new.split("-"))
        new = new.replace("get_d", "get_or") if new.startswith("get_d-") else new
        if new != word:
            changed[word] = new
        return new

    before = {}
    for f in FILES:
        text = open(f, encoding="utf-8").read()
        if f.endswith(".antt"):
            text = re.sub(LEMMAS, r"\1_lem", text)
        if f.startswith("crates/steps/proofs/") and "lib.Count" not in text:
            text = re.sub(IN_STEPS, r"\1_lem", text)
        before[f] = text
    for f in FILES:
        after = WORD.sub(turned, before[f])
        if after != open(f, encoding="utf-8").read():
            with open(f, "w", encoding="utf-8") as out:
                out.write(after)
    words = {f: set(WORD.findall(text)) for f, text in before.items()}
    for old, new in sorted(changed.items()):
        both = [f for f in FILES if old in words[f] and new in words[f]]
        print(old, new, *(["FALLS TOGETHER in"] + both if both else []))
    by_new = collections.defaultdict(set)
    for old, new in changed.items():
        by_new[new].add(old)
    for new, olds in by_new.items():
        if len(olds) > 1:
            print("FALLS TOGETHER", new, *sorted(olds))


main()
