"""Holds the header, the wrapper and docs/USING.md to the sources, by their texts."""
import re

from . import sources
from .sources import read

HEADER, USING = "include/mivtolgya.h", "docs/USING.md"
RECORDS, CALLS, REFUSALS, KEYS = "rust/src/record.rs", "rust/src/calls.rs", "rust/src/refusal.rs", "rust/src/keys.rs"
OWN = {"OTHER_VERSION": 201, "OTHER_RECORD": 202, "NO_ROOM": 203, "OTHER_ROUNDING": 204, "SUBNORMALS_LOST": 205, "EXCEPTIONS_TRAPPED": 206}


def camel(name):
    return "".join(word.capitalize() for word in name.split("_"))


def same(what, one, other):
    if one == other:
        return
    if isinstance(one, dict):  # the entries that differ are enough
        one, other = ({k: v for k, v in a.items() if b.get(k) != v} for a, b in ((one, other), (other, one)))
    raise AssertionError(f"{what} differ:\n  {one}\n  {other}")


def header_numbers():
    return {name: int(n) for name, n in re.findall(r"#define MIVTOLGYA_(\w+) UINT64_C\((\d+)\)", read(HEADER))}


def check_numbers():
    """Every constant of the header and of the wrapper is the sources'."""
    header = header_numbers()
    refused = {n.removeprefix("REFUSED_"): k for n, k in header.items() if n.startswith("REFUSED_")}
    others = {n: k for n, k in header.items() if not n.startswith("REFUSED_")}
    numbers_of_sources = set().union(*sources.rows().values()) | {sources.unknown_tag()}
    same("refusals of header and sources", sorted(refused.values()), sorted(numbers_of_sources))
    same("numbers of header and sources", others, {**sources.tags(), **OWN, "ACCEPTED": 0})
    wrapper = {n: int(k) for n, k in re.findall(r"pub const (\w+): u64 = (\d+);", read(RECORDS))}
    same("constants of wrapper and sources", wrapper, sources.tags())
    rows = re.findall(r'^    (\w+) = (\d+), "(.*)";$', read(REFUSALS), re.M)
    same("refusals of wrapper and header", {n: int(k) for n, k, _ in rows}, {camel(n): k for n, k in {**refused, **OWN}.items()})
    texts = re.findall(r'case MIVTOLGYA_(?:REFUSED_)?(\w+): return "(.*)";', read(HEADER))
    same("words of wrapper and header", {n: t for n, _, t in rows}, {camel(n): t for n, t in texts if n != "ACCEPTED"})
    room = re.findall(r"#define MIVTOLGYA_(?:KEY|BYTE)_SPACE (\d+)", read(HEADER))
    same("room for keys in header and wrapper", room, re.findall(r"pub const MAX_KEY\w*: usize = (\d+);", read(KEYS)))
    if "more than {} keys or {} bytes".format(*room) not in read(USING):
        raise AssertionError("USING says otherwise how many keys and bytes a helper takes")
    return len(header) + len(room), len(refused)


def check_records(all_records):
    """Every record stands in the wrapper word for word, and no other does. (The header's are held by the C compiler.)"""
    found = re.findall(r"#\[repr\(C\)\]\n#\[derive\((.*?)\)\]\npub struct (\w+) \{\n(.*?)\n\}", read(RECORDS), re.S)
    lines = {n: (f.strip() for f in body.split("\n")) for _, n, body in found}
    wrapper = {n: [tuple(f.rstrip(",").removeprefix("pub ").split(": ")) for f in fs if f.startswith("pub ")] for n, fs in lines.items()}
    same("records of wrapper and sources", wrapper, all_records)
    for traits, name, _ in found:
        holds_device = name == "DeviceRecord" or any(kind == "DeviceRecord" for _, kind in all_records[name])
        expected = "Clone, Debug" if holds_device else "Clone, Copy, Debug"
        same(f"traits of {name}", traits, expected + (", PartialEq, Eq" if name == "Cells" else ""))


def check_marks():
    """The two numbers that stand in place of a place, in header and wrapper, are the sources'."""
    same("marks of the sources", sources.marks(), {"skipped": 2**64 - 1, "missing": 2**64 - 2})
    header = dict(re.findall(r"#define MIVTOLGYA_(CELL_\w+) (.+)", read(HEADER)))
    same("marks of the header", header, {"CELL_GROUND": "SIZE_MAX", "CELL_ABSENT": "(SIZE_MAX - 1)"})
    wrapper = dict(re.findall(r"pub const (CELL_\w+): usize = (.+);", read(RECORDS)))
    same("marks of the wrapper", wrapper, {"CELL_GROUND": "usize::MAX", "CELL_ABSENT": "usize::MAX - 1"})


def check_counts():
    """The room for columns and the count of devices that header, wrapper and USING name are those of the sources."""
    laws, devices = sources.layout_columns(), sources.most_devices()
    for name, count in (("LAYOUT_COLUMNS", laws[0]), ("MOST_DEVICES", devices)):
        header = re.findall(rf"#define MIVTOLGYA_{name} (\d+)", read(HEADER))
        wrapper = re.findall(rf"pub const {name}: usize = (\d+);", read(RECORDS))
        same(f"{name} of header and wrapper, and the sources' number,", header + wrapper, [str(count)] * 2)
    if "at most {} columns, and {} without series resistances".format(*laws) not in read(USING):
        raise AssertionError("USING says otherwise how many columns a layout needs")
    if f"at most {devices} devices" not in read(USING):
        raise AssertionError("USING says otherwise how many devices a bridge has")


def rust_parameters(parameters):
    for _, kind in parameters:
        lent = re.match(r"&(mut )?(\[?)(\w+)", kind)
        if not lent:
            yield kind
        else:
            yield ("*mut " if lent[1] else "*const ") + lent[3]
            if lent[2]:
                yield "usize"


def check_exports(all_exports):
    """Every export is declared in the wrapper with its signature, and header and wrapper declare no other."""
    found = re.findall(r"pub fn (\w+)\((.*?)\) -> (\w+);", read(CALLS), re.S)
    wrapper = {n: ([p.split(": ")[1].strip() for p in body.split(",") if ":" in p], r) for n, body, r in found}
    same("exports of wrapper and sources", wrapper, {n: (list(rust_parameters(p)), r) for n, (p, r) in all_exports.items()})
    declared = re.findall(r"^(?:uint64_t|size_t|mivtolgya_\w+) (mivtolgya_\w+)\([^;{]*\);", read(HEADER), re.M)
    same("exports of header and sources", sorted(declared), sorted(all_exports))


def table_after(text, heading):
    """The rows of the first table below a heading, each a list of cells."""
    lines = text[text.index(heading) :].split("\n")
    start = next(i for i, line in enumerate(lines) if line.startswith("|---"))
    rows = []
    for line in lines[start + 1 :]:
        if not line.startswith("|"):
            break
        rows.append([c.strip().replace("\0", "|") for c in line.replace("\\|", "\0").strip("|").split("|")])
    return rows


def ticked(cell):
    return re.findall(r"`([^`]*)`", cell)


def numbers(cell):
    return [float(n) for n in re.findall(r"-?\d[\d.]*(?:e-?\d+)?", cell.replace("−", "-"))]


def check_refusals(text):
    """USING's table of refusals: the header's names and numbers, and the calls that refuse so."""
    table = table_after(text, "## Refusals")
    refused = {n.removeprefix("REFUSED_"): k for n, k in header_numbers().items() if n.startswith("REFUSED_")}
    names = {ticked(row[1])[0]: (int(row[0]), ticked(row[2])[0]) for row in table}
    same("refusals of USING and header", names, {n: (k, camel(n)) for n, k in refused.items()})
    calls = {int(row[0]): set(row[3].split(", ")) for row in table}
    same("who refuses an unknown tag", calls.pop(sources.unknown_tag()), {"all"})
    by_call = sources.rows()
    same("who refuses, in USING and sources", calls, {n: {c for c in by_call if n in by_call[c]} for n in calls})
    for name, number in OWN.items():
        if f"`{name}`" not in text:
            raise AssertionError(f"USING does not name {name}, {number}")


def check_keys(text):
    """USING's tables of keys: spellings and ranges. Answers their rows."""
    known = sources.keys()
    listed = []
    for table in ("card", "geometry"):
        for key, also, _unit, default, ends, _meaning in table_after(text, f"## Keys of the {table}"):
            listed.append((table, ticked(key) + ticked(also), default, numbers(ends), ends.startswith("0, or")))
    expected = {(t, tuple(e["spellings"])): e["range"] for (t, meaning), e in known.items() if meaning != "Unread"}
    found = {(t, tuple(names)): (zero, *(ends[-2:])) for t, names, _, ends, zero in listed}
    tnom = ("card", ("tnom",))
    same("tnom's ends", (found.pop(tnom), expected.pop(tnom)), ((False, 200.0, 500.0), None))
    same("keys of USING and sources", found, expected)
    unread = known["card", "Unread"]["spellings"]
    same("keys accepted unread", ticked(next(line for line in text.split("\n") if line.startswith("- Accepted, and neither"))), unread)
    return listed


def check(all_records, all_exports):
    names, refused = check_numbers()
    check_records(all_records)
    check_marks()
    check_counts()
    check_exports(all_exports)
    check_refusals(read(USING))
    listed = check_keys(read(USING))
    print(
        f"callers: {len(all_records)} records, {len(all_exports)} exports, {names} constants, {refused} refusals and "
        f"{len(listed)} keys of header, wrapper and USING are the sources'"
    )
    return listed
