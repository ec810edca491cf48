#!/usr/bin/env python3
"""Names that a file imports and does not use: `python3 tools/unused.py [FILE...]`, all crates without arguments.

Reads `use` and `ghost use` lines of .antt and .rt files. A name counts as used where it, or a part of it between the marks `◌` of an
operator, stands anywhere else in the file outside comments. Limits: a name that only a literal or an implicit step needs (as ℕ may
be) is reported though it is needed; a name that stands in another meaning counts as used; a module brought in whole is tested by
the name before its first dot. What it reports is to be removed by hand and proved again.
"""
import pathlib
import re
import sys

COMMENT = {".antt": re.compile(r"--.*"), ".rt": re.compile(r"//.*")}
LISTED = re.compile(r"^(?:ghost )?(pub |unfoldable pub )?use ([^;{]+)\.\{([^}]*)\};?\s*$", re.M)
PLAIN = re.compile(r"^use ([\w:]+)(?: as (\w+))?;\s*$", re.M)
WHOLE = re.compile(r"^use ([^\s{]+)(?: as (\S+))?\s*$", re.M)


def used(name, text):
    parts = [p for p in name.strip("«»").split("◌") if p]
    return all(re.search(r"(?<![\w′'·-])" + re.escape(p) + r"(?![\w′'·-])", text) if re.match(r"\w", p) else p in text for p in parts)


def imports(text, suffix):
    """Each name brought in, with the line that brings it."""
    for m in LISTED.finditer(text):
        if not m[1]:
            for item in m[3].split(","):
                name = item.strip().split(" as ")[-1].strip()
                if name:
                    yield name, m[0]
    pattern = PLAIN if suffix == ".rt" else WHOLE
    for m in pattern.finditer(text):
        yield (m[2] or re.split(r"::|\.", m[1])[-1]), m[0]


def main(files):
    found = 0
    for path in files:
        text = COMMENT[path.suffix].sub("", path.read_text())
        rest = LISTED.sub("", text)
        rest = (PLAIN if path.suffix == ".rt" else WHOLE).sub("", rest)
        for name, line in imports(text, path.suffix):
            if not used(name, rest):
                found += 1
                print(f"{path}: {name}")
    print(f"{found} found")


if __name__ == "__main__":
    root = pathlib.Path(__file__).resolve().parent.parent
    named = [pathlib.Path(a) for a in sys.argv[1:]]
    main(named or sorted(p for p in (root / "crates").rglob("*") if p.suffix in COMMENT))
