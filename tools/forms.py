#!/usr/bin/env python3
"""Counts the places in crates/*/src that docs/DESIGN-PASS.md speaks of, by point. `forms.py` counts the working tree, `forms.py COMMIT`
that commit; with -l each place is listed."""
import re
import subprocess
import sys
from collections import Counter, defaultdict


def sources(commit):
    if commit:
        names = subprocess.run(["git", "ls-tree", "-r", "--name-only", commit, "crates"], capture_output=True, text=True, check=True).stdout.split()
    else:
        names = subprocess.run(["git", "ls-files", "crates"], capture_output=True, text=True, check=True).stdout.split()
    for name in sorted(names):
        if "/src/" in name and name.endswith(".rt"):
            if commit:
                text = subprocess.run(["git", "show", f"{commit}:{name}"], capture_output=True, text=True, check=True).stdout
            else:
                try:
                    text = open(name).read()
                except FileNotFoundError:
                    continue
            yield name, text


FUNCTION = re.compile(r"^(?:    )?(?:pub )?(?:extern \"C\" )?fn (\w+)(.*?)^(?:    )?\{\n(.*?)^(?:    )?\}", re.M | re.S)


def functions(text):
    for m in FUNCTION.finditer(text):
        yield m.group(1), m.group(2), m.group(3), text.count("\n", 0, m.start()) + 1


def bare(text):
    return "\n".join(line.split("//")[0] for line in text.split("\n"))


def parameters(head):
    inside = head[head.find("(") + 1:]
    depth, end = 1, 0
    for end, ch in enumerate(inside):
        depth += (ch in "([") - (ch in ")]")
        if depth == 0:
            break
    return [tuple(x.strip() for x in p.split(":", 1)) for p in re.split(r",(?![^\[<(]*[\]>)])", inside[:end]) if ":" in p]


def shape(body):
    """A body with its names, numbers and literals taken out: two functions of one shape may be twins."""
    seen = {}
    words = re.findall(r"[A-Za-z_]\w*|\d[\w.]*|\S", body)
    keep = {"if", "else", "let", "mut", "return", "match", "while", "for", "in", "as", "true", "false", "fn", "move"}
    return tuple(w if w in keep or not re.match(r"\w", w) else f"${seen.setdefault(w, len(seen))}" for w in words)


def main():
    listed = "-l" in sys.argv
    rest = [a for a in sys.argv[1:] if a != "-l"]
    found = defaultdict(list)
    facts, groups, shapes = defaultdict(list), defaultdict(list), defaultdict(list)
    for name, text in sources(rest[0] if rest else None):
        code = bare(text)
        at = lambda m: f"{name}:{code.count(chr(10), 0, m.start()) + 1}"
        for m in re.finditer(r"^\s*(?:pub )?enum (\w+)", code, re.M):
            found["1 own enums"].append(f"{at(m)} {m.group(1)}")
        for m in re.finditer(r"^\s*(?:pub )?(good|over|there|present|resolved|reset|conducts|remembers|\w+_given|row|resolution): (bool|u8|u64),$", code, re.M):
            found["1 flags beside values"].append(f"{at(m)} {m.group(1)}")
        for m in re.finditer(r"\) -> u8\b|-> bool\b(?=[^{]*(?:_refused|Assembled|Stored))", code):
            found["1 numbers for kinds or refusals"].append(at(m))
        for m in re.finditer(r"^\s*(while|loop)\b", code, re.M):
            found["3 loops that count by hand"].append(at(m))
        for fn, head, body, line in functions(code):
            where = f"{name}:{line} {fn}"
            if re.search(r"(_copy|_record|_from|_tag|^wide|^either|^higher|^lower|^larger|^same|^equal|_from_tag)$", fn) and "/replay/" not in name or re.fullmatch(r"wide|same|either|digit_byte", fn):
                found["4 conversion, copying, order or equality by hand"].append(where)
            for m in re.finditer(r"if [^{}]* \{ (true|false) \} else \{[^{}]*\}|if [^{}]* \{[^{}]*\} else \{ (true|false) \}", body):
                found["4 conversion, copying, order or equality by hand"].append(where + " (if for && or ||)")
            for m in re.finditer(r"requires \{(.*?)\}\n", head, re.S):
                facts[" ".join(m.group(1).split())].append(where)
            ps = parameters(head)
            for i in range(len(ps) - 2):
                groups[tuple(ps[i:i + 3])].append(where)
            for i in range(len(ps) - 1):
                (a, s), (b, t) = ps[i], ps[i + 1]
                if s.startswith("&mut [u8") and t == "usize":
                    found["6 buffer and place, parallel slices"].append(where + f" ({a}, {b})")
                elif {a, b} <= {"offsets", "lengths", "values", "starts", "counts"} and s.startswith("&") and t.startswith("&"):
                    found["6 buffer and place, parallel slices"].append(where + f" ({a}, {b})")
            if body.count("\n") >= 3:
                shapes[shape(body)].append(where)
            for m in re.finditer(r"match (k|kind|number|command|tag|which|first)\w* \{\s*\d", body):
                found["7 switches on a step's number"].append(where)
    for fact, wheres in facts.items():
        if len(wheres) >= 3:
            found["5 facts in three contracts or more"] += [f"{w}: {fact}" for w in wheres]
    together = {w for wheres in groups.values() if len(wheres) >= 3 for w in wheres}
    found["5 parameters that travel together"] = sorted(together)
    for body, wheres in shapes.items():
        if len(wheres) >= 2 and len(body) >= 25:
            found["2 functions of one shape"].append(" = ".join(wheres))
    for m, words in sorted(found.items()):
        print(f"{len(words):4} {m}")
        if listed:
            for w in words:
                print("       ", w)


main()
