#!/usr/bin/env python3
"""Brings the repository's own definitions and lemmas to snake case, after port.py of the Rattle kit has run.

usage: tools/respell.py [--dry]    at the top of the repository, once

A name that specs/ or proofs/ define and that has a dash or a capital inside is written in snake case wherever a file of the repository
means it: in .antt files, in the clauses and ghost uses of .rt files, in must-fail edits, and in backquotes of README.md and docs/*.md.
Types, facts, constructors and modules begin with a capital and stay. A name that a file takes from the kit stays in that file, and so do
the goals of a function's Proof.antt. It also writes the tactics' line at the head of each crate, and lets plain types be copied.
"""

import collections
import glob
import re
import sys

PART = r"[^\s(){}\[\],;.\"`]+"
TOKEN = re.compile(PART)
MARKS = r"(?:(?:abbrev|unfoldable|pub|private|data|record|ruleset)\s+)*"
DEFINED = re.compile(r"^\s*" + MARKS + r"(" + PART + r")(?:\s+\{[^}]*\})*(?:\s+\([^)]*\))*\s*(?::\s|:$)", re.M)
RECORD = re.compile(r"^\s*pub (?:record|data) (" + PART + r")", re.M)
USE = re.compile(r"^\s*(?:ghost )?use (" + PART + r"(?:\." + PART + r")*)\.\{([^}]*)\}", re.M)
MANY = re.compile(r"^\s+(?:pub )?((?:" + PART + r" )+" + PART + r") : [A-Z]", re.M)
AS = re.compile(r"^\s*(?:ghost )?use .* as .*$", re.M)
BINDER = re.compile(r"[({]((?:" + PART + r" )*" + PART + r") : |(?:\blet |^\s+)(" + PART + r")(?: " + PART + r")* (?:=|:)|\u03bb ((?:" + PART + r" )*" + PART + r")\.", re.M)
KIT = ("mathlib", "Prim", "native", "lib", "borrow", "denote", "types", "contract", "prog", "base", "mir", "seplogic", "sound", "run")
GOAL = re.compile(r"^\s*(?:pub )?(" + PART + r")(?:\s+\{[^}]*\})*\s*:\s.*(?:tie\.(?:Need|Invariant|Decreases)|statement M)", re.M)
# these were std's names when the proofs were written
# a lemma that would have its function's name gets an ending
LEMMAS = """component-at entry-at finite-root first-name first-of floor-root guess-at guess-in guesses-at has-place in-limits kind-of label-at
line-at names-at put-at row-no rows-by scaled-root shape-of size-of slot-of slots-by sum-to told-by values-in""".split()
ENDED = {**{n: n.replace("-", "_") + "_lem" for n in LEMMAS}, "pairPart": "pair_part_of"}
# port.py wrote these lemmas in snake case already
BEFORE = {
    "crates/names/proofs/": ("name_in", "name_in_lem"),
    "crates/ask/proofs/": ("no_record", "no_record_lem"),
    "crates/renaming/proofs/": ("read_back", "read_back_lem"),
}
WORDS = [(re.compile(r"getD(?![a-z])"), "get_or"), (re.compile(r"\u2032"), "'")]


def read(path):
    with open(path, encoding="utf-8") as f:
        return f.read()


def snake(name):
    if name in ENDED:
        return ENDED[name]
    if name[0].isupper() or not re.search(r"[a-z]", name):
        return name
    for old, new in WORDS:
        name = old.sub(new, name)
    if "\u25cc" in name:
        return name
    name = re.sub(r"(?<=[a-z0-9])-(?=\w)", "_", name)
    name = re.sub(r"(?<=[a-z0-9])([A-Z])(?=[a-z0-9]|$|_|')", lambda m: "_" + m[1].lower(), name)
    return re.sub(r"(?<=[a-z0-9])([A-Z]+)", lambda m: "_" + m[1].lower(), name)


def before(path, text):
    for folder, (old, new) in BEFORE.items():
        if path.startswith(folder):
            text = TOKEN.sub(lambda m: new if m[0] == old else m[0], text)
    return text


def bare(text):
    return re.sub(r"^\s*--.*$", "", text, flags=re.M)


def main():
    dry = "--dry" in sys.argv[1:]
    antts = sorted(p for top in ("specs", "proofs") for p in glob.glob(f"crates/*/{top}/**/*.antt", recursive=True))
    texts = {p: before(p, read(p)) for p in antts}
    names, goals = collections.defaultdict(set), collections.defaultdict(set)
    for p, text in texts.items():
        goals[p] = set(GOAL.findall(text)) if p.endswith("Proof.antt") else set()
        for n in DEFINED.findall(bare(text)):
            if n not in goals[p]:
                names[n].add(p)
        for line in MANY.findall(bare(text)):
            for n in line.split():
                names[n].add(p)
    table = {n: snake(n) for n in names if snake(n) != n}
    back = collections.defaultdict(set)
    for n in names:
        back[snake(n)].add(n)
    for new, olds in sorted(back.items()):
        if len(olds) > 1:
            print("together:", new, "<-", " ".join(sorted(olds)), "|", " ".join(sorted({p for o in olds for p in names[o]}))[:200])

    def turn(path, text, whole=True):
        kit = set()
        for module, group in USE.findall(text):
            if module.split(".")[0] in KIT or module.startswith("Rattle.std."):
                kit |= {x.strip().split(" ")[0] for x in group.split(",")}
        mine = {n for n in kit if path in names.get(n, ())}
        stays = (kit - mine) | goals.get(path, set())
        local = {n for m in BINDER.findall(bare(text)) for part in m for n in part.split()}
        local |= {n for line in AS.findall(text) for n in re.findall(r" as (" + PART + r")", line)}
        local = {n: snake(n) for n in local if re.fullmatch(r"[a-z0-9]+(?:-[a-z0-9']+)+", n) and not path.endswith("Proof.antt")}

        def one(m):
            n = m[0]
            return n if n in stays else table.get(n, local.get(n, n))

        return TOKEN.sub(one, text)

    changed = 0
    rts = sorted(glob.glob("crates/*/src/**/*.rt", recursive=True))
    edits = sorted(glob.glob("crates/*/must-fail/*.edit"))
    for p in antts + rts + edits:
        text = read(p)
        new = turn(p, before(p, text))
        if p.endswith(".rt"):
            new = new.replace("#[derive(Drop)]", "#[derive(Clone, Copy)]")
            if p.endswith(("/lib.rt", "/main.rt")) and "#![tactic(auto)]" not in new:
                lines = new.split("\n")
                at = next(i for i, l in enumerate(lines) if not l.startswith("//"))
                new = "\n".join(lines[:at] + ["#![tactic(auto)]"] + lines[at:])
        if new != text:
            changed += 1
            if not dry:
                open(p, "w", encoding="utf-8").write(new)
    for p in ["README.md"] + sorted(glob.glob("docs/*.md")):
        text = read(p)
        new = re.sub(r"`[^`\n]*`", lambda m: TOKEN.sub(lambda t: table.get(t[0], t[0]), m[0]), text)
        if new != text:
            changed += 1
            if not dry:
                open(p, "w", encoding="utf-8").write(new)
    print(f"{len(table)} names, {changed} files")


main()
