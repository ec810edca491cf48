#!/usr/bin/env python3
"""Everything that a caller in C or Rust meets, held to the sources and to the compiled library.

Run from the repository's root after `tools/archives.sh`; .ci/run does all after the proofs. It
compares every #[repr(C)] record, every export and every constant of include/mivtolgya.h and rust/ with crates/, and the tables of
docs/USING.md with both; then it compiles and runs the C programs (gcc, g++), the Rust tests and examples (cargo), and the programs that
README shows. What cannot be tried because a compiler is missing is said in a line. Ends with status 1 if one of the parts failed.
"""
import os
import platform
import sys
import tempfile

from callers import c_part, rust_part, sources, texts
from callers.run import ARCHIVE, BRIDGE


def fit_for_programs():
    """Whether programs over the archives can be run here."""
    if platform.machine() != "x86_64":
        print(f"callers: this machine is {platform.machine()}: programs over the archives, which are for x86-64, were not tried")
        return False
    for archive in (ARCHIVE, BRIDGE):
        if not os.path.exists(archive):
            name = os.path.basename(archive).removeprefix("lib").removesuffix(".a")
            sys.exit(f"callers: FAILED: {archive} is missing: run `tools/archives.sh {name}` first")
    return True


def failed(part):
    """Runs a part; whether it failed."""
    with tempfile.TemporaryDirectory(dir="target") as folder:
        try:
            part(folder)
        except AssertionError as failure:
            print(f"callers: FAILED: {failure}")
            return True
    return False


def main():
    os.chdir(os.path.join(os.path.dirname(os.path.abspath(__file__)), ".."))
    os.makedirs("target", exist_ok=True)
    all_records = sources.records()
    all_exports = sources.exports(all_records)
    failures = [failed(lambda _: texts.check(all_records, all_exports))]
    if fit_for_programs():
        failures.append(failed(lambda folder: c_part.check(folder, all_records, all_exports, texts.check_keys(sources.read(texts.USING)))))
        failures.append(failed(rust_part.check))
    if any(failures):
        sys.exit("callers: FAILED")
    print("callers: passed")


if __name__ == "__main__":
    main()
