"""The wrapper: its tests, example and documentation, and README's program, by cargo."""
import os

from .run import expect, readme_program, run, there, write

MANIFEST = """[package]
name = "point"
version = "0.1.0"
edition = "2021"

[dependencies]
mivtolgya = {{ path = "{path}" }}

[workspace]
"""


def cargo(*words):
    """Cargo without the network, its output under target/; a warning is an error."""
    surroundings = {
        **os.environ,
        "CARGO_TARGET_DIR": os.path.abspath("target/cargo"),
        "MIVTOLGYA_LIB": os.path.abspath("target/staticlib"),
        "RUSTFLAGS": "-D warnings",
        "RUSTDOCFLAGS": "-D warnings",
    }
    return run("cargo", *words, env=surroundings)


def check(folder):
    if not there("cargo") or not there("cc"):
        print("callers: cargo or cc is missing: the Rust wrapper was not tried")
        return
    wrapper = ("--offline", "--quiet", "--manifest-path", "rust/Cargo.toml")
    tests = cargo("test", *wrapper)
    print(f"callers: {sum(int(w.split()[3]) for w in tests.splitlines() if w.startswith('test result: ok.'))} tests of the Rust wrapper")
    cargo("doc", "--no-deps", *wrapper)
    expect("the Rust example", cargo("run", "--example", "point", *wrapper).split("\n")[0], "ids 3 gm 2 gds 2.000000000001")
    program, output = readme_program("rust")
    os.makedirs(os.path.join(folder, "src"))
    write(folder, "src/main.rs", program)
    write(folder, "Cargo.toml", MANIFEST.format(path=os.path.abspath("rust")))
    expect("README's Rust program", cargo("run", "--offline", "--quiet", "--manifest-path", os.path.join(folder, "Cargo.toml")), output)
    print("callers: the Rust example, the documentation without a warning, README's Rust program")
