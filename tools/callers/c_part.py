"""The header, the C programs and the archive, by gcc and g++."""
import os
import re

from . import texts
from .run import ARCHIVE, BRIDGE, expect, readme_program, run, there, write
from .sources import NUMBERS, array, exports_of, read, size

WARNINGS = ["-Wall", "-Wextra", "-Wpedantic", "-Wconversion", "-Werror"]
SANITIZERS = ["-g", "-O1", "-fsanitize=address,undefined", "-fno-sanitize-recover=all"]
EXAMPLES = {"example": [ARCHIVE], "loop": [ARCHIVE], "half_bridge": [ARCHIVE, BRIDGE]}
C11 = ["gcc", "-std=c11", "-O2", *WARNINGS, "-Iinclude"]


def c_name(record):
    words = re.findall(r"[A-Z][a-z0-9]*", record)
    return "mivtolgya_" + "_".join(w.lower() for w in words if w != "Record")


def c_type(name):
    return NUMBERS.get(name) or c_name(name)


def layout(all_records):
    """Every field has its type and its place, every record its size."""
    for name, fields in all_records.items():
        at = 0
        for field, kind in fields:
            element, _ = array(kind) or (kind, 1)
            bytes_of = size(kind, all_records)
            yield f'_Static_assert(offsetof({c_name(name)}, {field}) == {at}, "{name}.{field}");'
            yield f'_Static_assert(sizeof((({c_name(name)} *)0)->{field}) == {bytes_of}, "size of {name}.{field}");'
            yield f"{c_type(element)} *at_{name}_{field}({c_name(name)} *r);"
            yield f"{c_type(element)} *at_{name}_{field}({c_name(name)} *r) {{ return {'' if array(kind) else '&'}r->{field}; }}"
            at += bytes_of
        yield f'_Static_assert(sizeof({c_name(name)}) == {at}, "{name}");'


def prototypes(all_exports):
    """Every export has its type: a pointer of that type takes it."""
    for name, (parameters, result) in all_exports.items():
        kinds = []
        for _, kind in parameters:
            lent = re.match(r"&(mut )?(\[?)(\w+)", kind)
            if not lent:
                kinds.append(c_type(kind))
                continue
            kinds.append(("" if lent[1] else "const ") + c_type(lent[3]) + " *")
            if lent[2]:
                kinds.append("size_t")
        yield f"extern {c_type(result)} (*const is_{name})({', '.join(kinds) or 'void'});"
        yield f"{c_type(result)} (*const is_{name})({', '.join(kinds) or 'void'}) = {name};"


def check_header(folder, all_records, all_exports):
    lines = ["#include <mivtolgya.h>", *layout(all_records), *prototypes(all_exports)]
    run(*C11, "-c", write(folder, "layout.c", "\n".join(lines) + "\n"), "-o", os.path.join(folder, "layout.o"))
    for standard in ("c99", "c11"):
        for name in EXAMPLES:
            run("gcc", f"-std={standard}", "-O2", *WARNINGS, "-Iinclude", "-c", f"c/{name}.c", "-o", os.path.join(folder, "example.o"))
    print("callers: the header has the sources' layout and prototypes, and passes C99 and C11 without a warning")


def check_archives(all_records):
    """Each archive has its crate's exports and no other symbol, needs none but those that USING names, and has no writable data."""
    said = re.findall(r"`(libmivtolgya\w*\.a)` (?:needs no symbol|none) but (`\w+`(?: and `\w+`)*)", read(texts.USING))
    allowed = {name: set(texts.ticked(symbols)) for name, symbols in said}
    for archive in (ARCHIVE, BRIDGE):
        name = os.path.basename(archive)
        symbols = re.findall(r"^\w* +(\w) (\S+)$", run("nm", "-g", archive), re.M)
        needed = {symbol for kind, symbol in symbols if kind == "U"} - allowed[name]
        if needed:
            raise AssertionError(f"{name} needs {', '.join(sorted(needed))}, which USING does not name")
        exported = exports_of(name.removeprefix("lib").removesuffix(".a"), all_records)
        texts.same(f"symbols of {name} and its exports", sorted(symbol for kind, symbol in symbols if kind != "U"), sorted(exported))
        for line in run("readelf", "-SW", archive).split("\n"):
            section = re.match(r"\s+\[\s*\d+\] (\S+)\s+\w+\s+\w+ \w+ (\w+) \w+ +([A-Za-z]*) ", line)
            if section and "W" in section[3] and int(section[2], 16) > 0:
                raise AssertionError(f"{name} has data that is written: {section[1]}")
    needed = ", ".join(sorted(set().union(*allowed.values())))
    print(f"callers: the archives have their exports alone and no writable data, and need no symbol but {needed}")


def check_examples(folder, compiler, standard, language):
    binary = os.path.join(folder, "example")
    # there is no heap to look for leaks in, and the search for them is not allowed everywhere
    surroundings = {**os.environ, "ASAN_OPTIONS": "detect_leaks=0"}
    for name, archives in EXAMPLES.items():
        source = ("-x", language, f"c/{name}.c", "-x", "none")
        in_order = archives if language == "c" else reversed(archives)  # any order links
        run(compiler, f"-std={standard}", *SANITIZERS, *WARNINGS, "-Iinclude", *source, *in_order, "-o", binary)
        expect(f"c/{name}.c by {compiler}", run(binary, env=surroundings), read(f"c/{name}.stdout"))
    print(f"callers: {', '.join(f'c/{name}.c' for name in EXAMPLES)}: {standard} by {compiler} with sanitizers")


def check_program(folder, name):
    binary = os.path.join(folder, name)
    run(*C11, f"c/{name}.c", ARCHIVE, BRIDGE, "-lm", "-o", binary)
    return run(binary)


def check_stack(folder):
    """No call takes more stack than USING allows."""
    limits = {call: int(limit) for call, _, limit in texts.table_after(read(texts.USING), "## Memory and stack")}
    taken = dict(reversed(line.split(" ", 1)) for line in check_program(folder, "stack").splitlines())
    texts.same("calls in USING and in c/stack.c", list(limits), list(taken))
    for call, used in taken.items():
        if int(used) > limits[call]:
            raise AssertionError(f"{call} takes {used} bytes of stack; USING allows {limits[call]}")
    print(f"callers: stack of {len(limits)} calls within USING's limits (evaluation in place {taken['evaluation in place']} bytes)")


# where a key's value stands in the record; the others stand in no field of their own, or not as they are given
FIELDS = {"is": "card.is_bulk", "as": "geometry.as_", "uo": None, "tox": None, "kp": None, "rd": None, "rs": None, "tnom": None}


def key_lines(listed):
    """Lines of a C program that tries the ends of every range, their outer neighbours, and every default."""
    for table, names, default, ends, zero in listed:
        least, greatest = (round(e - 273.15, 2) for e in ends) if names[0] == "tnom" else ends[-2:]
        for name in names:
            call = f'try_{table}("{name}", '
            if name != "tnom":
                yield f"{call}{least!r}, 0); {call}{greatest!r}, 0);"
                yield f"{call}nextafter({least!r}, -INFINITY), 4); {call}nextafter({greatest!r}, INFINITY), 4); {call}NAN, 4);"
                yield f"{call}0.0, {0 if zero or least <= 0 <= greatest else 4});"
            else:
                yield f"{call}{least!r}, 6); {call}nextafter({least!r}, 0.0), 0); {call}{greatest!r}, 0); {call}NAN, 6);"
                yield f"{call}{greatest + 1e-9!r}, 6);"
        field = FIELDS.get(names[0], f"{table}.{names[0]}")
        if field:
            yield f'default_of("{names[0]}", fresh.{field}, {float(default)!r});'


KEYS = r"""
#include <math.h>
#include <mivtolgya.h>
#include <stdio.h>
static mivtolgya_device fresh;
static int failures;
static void tried(const char *name, double value, uint64_t refusal, uint64_t expected) {
    if (refusal != expected) {
        printf("%s = %a: %u, not %u\n", name, value, (unsigned)refusal, (unsigned)expected);
        failures++;
    }
}
static void try_card(const char *name, double value, uint64_t expected) {
    mivtolgya_device d = fresh;
    const mivtolgya_key key = {name, value};
    tried(name, value, mivtolgya_read_card(&d, MIVTOLGYA_NMOS, &key, 1), expected);
}
static void try_geometry(const char *name, double value, uint64_t expected) {
    mivtolgya_device d = fresh;
    const mivtolgya_key key = {name, value};
    tried(name, value, mivtolgya_read_geometry(&d, &key, 1), expected);
}
static void default_of(const char *name, double found, double expected) {
    if (!(found <= expected && found >= expected)) {
        printf("the default of %s is %g, not %g\n", name, found, expected);
        failures++;
    }
}
int main(void) {
    if (mivtolgya_device_init(&fresh) || mivtolgya_read_card(&fresh, MIVTOLGYA_NMOS, NULL, 0) || mivtolgya_read_geometry(&fresh, NULL, 0)) {
        return 2;
    }
    LINES
    default_of("kp", fresh.card.kp, 2e-5);
    default_of("tnom", fresh.card.tnom, 27 + 273.15);
    return failures != 0;
}
"""


def check_keys(folder, listed):
    source = write(folder, "keys.c", KEYS.replace("LINES", "\n    ".join(key_lines(listed))))
    binary = os.path.join(folder, "keys")
    run("gcc", "-std=c11", "-Wall", "-Wextra", "-Werror", "-Iinclude", source, ARCHIVE, "-lm", "-o", binary)
    expect("the keys of USING", run(binary), "")
    print(f"callers: the ends of {len(listed)} ranges, their neighbours and the defaults of USING, by the library")


def check_unfit(folder):
    """A header of another interface, one with another record, and a program linked with -ffast-math are told before the first call."""
    header = read("include/mivtolgya.h")
    no_asserts = re.sub(r"^MIVTOLGYA_ASSERT\(.*\n", "", header, flags=re.M)
    cases = [
        (201, header.replace("MIVTOLGYA_VERSION UINT64_C(1)", "MIVTOLGYA_VERSION UINT64_C(2)"), []),
        (202, no_asserts.replace("    uint64_t stage;\n} mivtolgya_device;", "    uint64_t stage, more;\n} mivtolgya_device;"), []),
        (205, header, ["-ffast-math"]),
    ]
    for number, text, flags in cases:
        write(folder, "mivtolgya.h", text)
        binary = os.path.join(folder, "unfit")
        run("gcc", "-std=c11", *flags, f"-I{folder}", "c/example.c", ARCHIVE, "-o", binary)
        said = run(binary, status=1)
        if not said.startswith(f"this program cannot go on: {number}, "):
            raise AssertionError(f"expected {number} at once; the example said\n{said}")
        os.remove(os.path.join(folder, "mivtolgya.h"))
    check_program(folder, "floating_point")
    print("callers: another interface, another record and another floating-point environment are told before the first call")


def check_readme(folder):
    program, output = readme_program("c")
    binary = os.path.join(folder, "point")
    run(*C11, write(folder, "point.c", program), ARCHIVE, "-o", binary)
    expect("README's C program", run(binary), output)
    print("callers: README's C program")


def check(folder, all_records, all_exports, listed):
    if not there("gcc"):
        print("callers: gcc is missing: the header, the C programs and the archives were not tried")
        return
    check_header(folder, all_records, all_exports)
    check_archives(all_records)
    check_examples(folder, "gcc", "c99", "c")
    if there("g++"):
        check_examples(folder, "g++", "c++17", "c++")
    else:
        print("callers: g++ is missing: the examples were not tried in C++")
    check_keys(folder, listed)
    check_unfit(folder)
    check_stack(folder)
    check_readme(folder)
    print("callers: " + check_program(folder, "guards").splitlines()[-1])
