#!/usr/bin/env python3
"""Spells the repository's own definitions, lemmas, fields and variables in snake case: sqrtOf -> sqrt_of, le-abs -> le_abs.

usage: tools/respell.py [FOLDER]          the top of a repository, as the kit's port.py leaves it

It renames what the files of specs/ and proofs/ declare, in those files, in the clauses and ghost lines of src/, and in README and docs/ between
backticks. It leaves alone: names of the sources and of the kit's libraries, names that the prover makes for a function's proof, operators, strings,
and the names of the edits. It ends without a change where two names would fall together. A second run changes nothing.
"""

import collections
import glob
import os
import re
import sys

W = r"[^\s(){}.;,@\"«»\[\]`|\\]+"
COMMENT = re.compile(r"--(?=\s|-|$)[^\n]*")
DECLARED = re.compile(r"(?m)^ *(?:(?:pub|abbrev|unfoldable|record|data|let|in|where|ruleset) +)*(" + W + r")(?: +[({][^\n]*?[)}])* +:\s")
LOCAL = re.compile(r"(?:\blet|\bin let) +(" + W + r") +[:=]")
BOUND = re.compile(r"[({](" + W + r"(?: +" + W + r")*) :")
LAMBDA = re.compile(r"λ ([^.\n]*)\.")
EQUATION = re.compile(r"(?m)^ *(" + W + r")((?: +[^=\n]*)?) = ")
UNQUALIFIED = re.compile(r"(?<![^\s(){};,@\"«»])" + W + r"(?![.])")
USE = re.compile(r"(?m)^\s*(?:pub +)?use ([^\s;{]+)\.\{([^}]*)\}")
NEED = re.compile(r"(?m)^(?:pub +)?(\S+) : tie\.Need-\S+")
NUMBER = re.compile(r"[+-]?\d[\w.]*(?:e-?\d+)?")
# What the prover calls a goal, a step or a proof.
MADE = re.compile(r"(?:returns|requires|ensures)(?:-\d+)?|\S+-(?:spec|requires|ensures)(?:-\d+)?|(?:if|in|loop|returns|array|shared|slice|element)-\S+")
RECORD = re.compile(r"(?m)^ *(?:pub +)?(?:record|data) [^\n]*\n(?:(?: +[^\n]*)?\n)*")
MEMBER = re.compile(r"(?m)^ +(?:pub +)?(" + W + r") :")
GHOST_USE = re.compile(r"ghost use ([^\s;{]+)\.\{([^}]*)\}")
# Lemmas whose name, spelled so, would be that of the definition that they are about.
LEMMAS = {("column_sums", "add_at"), ("column_sums", "other_entries"), ("mosfet1", "point_at"), ("square_root", "units_of")}
# Fields and a variable, which stand beside a definition or a field of that name without being taken for it.
MAY_MEET = {"beyondAscii", "blockRefused", "drain-ext", "source-ext", "phiT", "tnomOutside"}


def in_snake_case(name):
    return re.sub(r"(?<=[a-z0-9])[A-Z]", lambda m: "_" + m[0].lower(), name).replace("-", "_")


def is_ours(name):
    if "◌" in name or "·" in name or NUMBER.fullmatch(name) or not re.search(r"[-A-Z]", name):
        return False
    if not re.search(r"[^-+*/<>=]-[^-+*/<>=]|(?<=[a-z0-9])[A-Z]|[^\s\w]-\w|\w-[^\s\w]", name):
        return False
    if name[0].isupper() and "-" not in name:
        return False
    return not name.startswith("-") and not name.endswith("-")


def read(path):
    with open(path, encoding="utf-8") as it:
        return it.read()


def bare(text):
    return COMMENT.sub("", text)


def declared_in(text):
    found = {m[1] for m in DECLARED.finditer(text)} | {m[1] for m in LOCAL.finditer(text)}
    found |= {m[1] for m in EQUATION.finditer(text)}
    for m in EQUATION.finditer(text):
        found |= set(re.findall(W, m[2]))
    for m in BOUND.finditer(text):
        found |= set(m[1].split())
    for m in LAMBDA.finditer(text):
        found |= set(re.findall(W, m[1]))
    return {it for it in found if is_ours(it)}


def own(path):
    return path.startswith("Rattle.") and path.split(".")[1] in CRATES


def borrowed_in(text):
    """Names that a file takes from the kit's libraries."""
    return {name.split(" as ")[0].strip() for m in USE.finditer(text) if not own(m[1]) for name in m[2].split(",")}


def main(top):
    global CRATES
    os.chdir(top)
    CRATES = {os.path.basename(it) for it in glob.glob("crates/*")}
    edits = {os.path.basename(it)[:-5] for it in glob.glob("crates/*/must-fail/*.edit")}
    antt = sorted(glob.glob("crates/*/specs/**/*.antt", recursive=True) + glob.glob("crates/*/proofs/**/*.antt", recursive=True))
    texts = {it: read(it) for it in antt}
    declared, made, borrowed, words, members = set(), set(), {}, set(), set()
    for path, text in texts.items():
        code = bare(text)
        own_names = declared_in(code)
        if path.endswith("/Proof.antt"):
            goals = {m[1] for m in NEED.finditer(code)}
            own_names -= {it for it in own_names if MADE.fullmatch(it)} & (goals | {it for it in own_names if it.endswith("-spec")})
            made |= goals
        declared |= own_names
        members |= {m[1] for it in RECORD.findall(code) for m in MEMBER.finditer(it)}
        borrowed[path] = borrowed_in(code)
        words |= set(re.findall(W, code))
    names = {it: in_snake_case(it) for it in declared}
    clash = collections.defaultdict(set)
    for old, new in names.items():
        clash[new].add(old)
    for new, olds in clash.items():
        if len(olds) > 1:
            fields = {it for it in olds if it in members}
            olds = olds - fields
            if not olds:
                continue
            kept = min(olds, key=lambda it: ("-" in it, it))
            for it in olds - {kept}:
                names[it] = new + "_lem"
    if any(name + "_lem" in words for _, name in LEMMAS):
        print("respelled already")
        return 0
    scope = {path: set(UNQUALIFIED.findall(bare(text))) for path, text in texts.items()}
    bad = [(old, path) for old in names for path in antt if old in scope[path] and names[old] in scope[path] and old not in borrowed[path]]
    bad = [it for it in bad if it[0] not in MAY_MEET and (it[1].split("/")[1], names[it[0]]) not in LEMMAS]
    for old, path in bad:
        print("would meet:", old, names[old], path)
    if "--list" in sys.argv:
        for old, new in sorted(names.items()):
            print(old, new)
    if bad:
        return 1
    for path, text in texts.items():
        mine = {old: new for old, new in names.items() if old not in borrowed[path]}
        mine.update({name: name + "_lem" for crate, name in LEMMAS if path.split("/")[1] == crate})
        write(path, text, turned(text, mine))
    for path in sorted(glob.glob("crates/*/src/**/*.rt", recursive=True)):
        text = read(path)
        lent = {name.strip() for m in GHOST_USE.finditer(text) if not own(m[1]) for name in m[2].split(",")}
        write(path, text, turned(text, {old: new for old, new in names.items() if old not in lent}, "//"))
    for path in ["README.md", *sorted(glob.glob("docs/*.md"))]:
        text = read(path)
        write(path, text, re.sub(r"`([^`\n]+)`", lambda m: "`" + in_words(m[1], {it: names[it] for it in names if it not in edits}) + "`", text))
    return 0


def in_words(text, names):
    return re.sub(W, lambda m: names.get(m[0], m[0]), text)


def turned(text, names, comment="--"):
    """The text with each name in its place anew; in a comment only between backticks, in a string nowhere."""
    start = re.escape(comment) + (r"(?=\s|-|$)" if comment == "--" else "")
    parts = re.compile(r"(?m)" + start + r'[^\n]*|"(?:[^"\\\n]|\\.)*"|' + W)

    def one(m):
        if m[0].startswith(comment):
            return re.sub(r"`([^`]+)`", lambda it: "`" + in_words(it[1], names) + "`", m[0])
        new = names.get(m[0], m[0])
        # behind a dot stands a field, also one that the prover makes
        return in_snake_case(m[0]) if new != m[0] and text[m.start() - 1] == "." else new

    return parts.sub(one, text)


def write(path, before, after):
    if after != before:
        with open(path, "w", encoding="utf-8") as it:
            it.write(after)


if __name__ == "__main__":
    sys.exit(main(([it for it in sys.argv[1:] if not it.startswith("--")] or ["."])[0]))
