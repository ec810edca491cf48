"""What the sources say: records, exports, numbers, keys. All from crates/, none from the header, the wrapper or docs/."""
import glob
import re
import struct

NUMBERS = {"f64": "double", "u64": "uint64_t", "u32": "uint32_t", "u8": "uint8_t", "usize": "size_t"}


def read(path):
    with open(path, encoding="utf-8") as file:
        return file.read()


def code(path):
    """A file's lines without comments."""
    return re.sub(r"(--|//).*", "", read(path))


# The numbers of resolved cells are an array in the sources; header and wrapper give them names, in the order of crates/resolve/specs.
CELL_NUMBERS = "[usize; 37]"
CELLS = [("nodes", "[usize; 6]"), ("rows", "usize"), ("values", "usize"), ("places", "[usize; 24]"), ("gate_places", "[usize; 5]")]


def with_cells(path):
    return read(path).replace(CELL_NUMBERS, "Cells")


# The parts of a record that are the model's own structs, which have no "Record" in their names; header and wrapper call them so.
OWN_STRUCTS = {
    "Geometry": "GeometryRecord",
    "Scaled": "ScaledRecord",
    "OperatingPoint": "PointRecord",
    "Charges": "ChargesRecord",
    "Answer": "AnswerRecord",
}


def records():
    """Every #[repr(C)] struct: its name to its fields in order, each (name, type)."""
    found = {}
    for path in sorted(glob.glob("crates/*/src/*.rt")):
        for name, body in re.findall(r"#\[repr\(C\)\]\n(?:#\[derive\([^)]*\)\]\n)?pub struct (\w+) \{(.*?)\}", with_cells(path), re.S):
            fields = (f.strip().removeprefix("pub ").split(": ") for f in re.split(r"[,\n]", body) if f.strip())
            found[OWN_STRUCTS.get(name, name)] = [(field, OWN_STRUCTS.get(kind, kind)) for field, kind in fields]
    if any(kind == "Cells" for fields in found.values() for _, kind in fields):
        found["Cells"] = CELLS
    return found


def exports_of(crate, all_records):
    """The exported functions of a crate, or of the crate NAME_c that exports it: each name to (parameters, result), each parameter (name, type)."""
    if glob.glob(f"crates/{crate}_c"):
        crate += "_c"
    found = {}
    # a device of a bank is the words of its record; header and wrapper lend the records
    words = f"[f64; {size('DeviceRecord', all_records) // 8}]"
    for path in sorted(glob.glob(f"crates/{crate}/src/*.rt")):
        text = with_cells(path).replace(words, "DeviceRecord")
        for name, body, result in re.findall(r'pub extern "C" fn (\w+)\((.*?)\) -> (?:\w+::)?(\w+)', text, re.S):
            parts = filter(None, (p.strip() for p in body.replace("\n", " ").split(",")))
            found[name] = ([tuple(p.split(": ")) for p in parts], result)
    return found


def exports(all_records):
    """The exported functions of both archives' crates."""
    found = {**exports_of("mivtolgya", all_records), **exports_of("mivtolgya_bridge", all_records)}
    return found


def array(kind):
    """The type of an array's elements and their count, none of another type."""
    found = re.fullmatch(r"\[(\w+); (\d+)\]", kind)
    return found and (found[1], int(found[2]))


def size(kind, all_records):
    if array(kind):
        element, count = array(kind)
        return count * size(element, all_records)
    return 8 if kind in NUMBERS else sum(size(k, all_records) for _, k in all_records[kind])


def tags():
    """The numbers of stages, nodes, methods, polarities and of what may be absent, by the header's names without MIVTOLGYA_."""
    text = code("crates/record/specs/Records.antt")
    found = {"STAGE_" + n.upper(): int(k) for n, k in re.findall(r"stage_tag Stage\.(\w+) = (\d+)", text)}
    for n, k in re.findall(r"method_record \(?Discretisation\.(\w+).*?tag = (\d+)", text):
        found["METHOD_" + n.upper()] = int(k)
    for n, name in (("Ground", "NODE_GROUND"), (r"\(At i\)", "NODE_ROW")):
        found[name] = int(re.search(rf"node_record {n} = record {{ tag = (\d+)", text)[1])
    for n, name in (("None", "ABSENT"), (r"\(Some v\)", "PRESENT")):
        found[name] = int(re.search(rf"given_record {n} = record {{ tag = (\d+)", text)[1])
    pmos = int(re.search(r"card_of \(eqb polarity (\d+)\)", code("crates/record_card/specs/Keys.antt"))[1])
    found.update(PMOS=pmos, NMOS=1 - pmos)
    found["VERSION"] = int(re.search(r"interface_version = (\d+)", code("crates/interface/specs/Interface.antt"))[1])
    return found


def marks():
    """The numbers of a place that is skipped, ground's, and of one that is missing."""
    return {n: int(k) for n, k in re.findall(r"^(skipped|missing)_number = (\d+)", code("crates/places/specs/Places.antt"), re.M)}


def layout_columns():
    """How many cells a device has at most, and how many without series resistances, by the laws that say so."""
    laws = re.findall(r"^pub at_most_\d+ : .*length \(cells_of t\) ≤ (\d+)$", code("crates/cells/proofs/Bounds.antt"), re.M)
    return [int(n) for n in laws]


def most_devices():
    """How many devices a bridge has at most."""
    return int(re.search(r"^most_devices = (\d+)$", code("crates/bridge/specs/Runs.antt"), re.M)[1])


# the definitions that list a call's rows
ROWS = {
    "card": ["entries/specs/Entries key_rows", "card/specs/Card card_rows"],
    "geometry": ["entries/specs/Entries key_rows", "geometry/specs/Geometry geometry_rows"],
    "scaling": ["setup/specs/Scaling scaling_rows"],
    "extra nodes": ["matrix_layout/specs/MatrixLayout extra_nodes_rows"],
    "binding": ["setup/specs/Binding binding_rows"],
    "layout": ["matrix_layout/specs/MatrixLayout layout_rows"],
    "evaluation": ["rows/specs/Rows eval_rows"],
    "load": ["loading/specs/Loading load_rows"],
    "resolving": ["resolve/specs/Resolve resolve_rows"],
    "resolved load": ["resolved_rows/specs/LoadResolved load_resolved_rows"],
    "block load": ["bridge/specs/Bridge block_rows", "bridge/specs/Bridge devices_rows"],
    "bridge load": ["bridge/specs/Bridge bridge_rows", "bridge/specs/Bridge devices_rows"],
    "resolved bridge load": ["bank_resolved/specs/Resolved bridge_celled_rows", "bank_resolved/specs/Resolved celled_rows"],
    "commit": ["rows/specs/Rows commit_rows"],
    "noise": ["rows/specs/Rows noise_rows"],
    "reactances": ["rows/specs/Rows reactance_rows"],
}


def rows():
    """Under which numbers each call refuses, by its list of rows: `(N when ..)`."""
    found = {}
    for call, places in ROWS.items():
        for path, name in (place.split() for place in places):
            text = re.search(rf"^{name} .*=((?:.|\n)*?)\n(?:\n|$)", code(f"crates/{path}.antt"), re.M)[1]
            found.setdefault(call, set()).update(int(n) for n in re.findall(r"\((\d+) when", text))
    return found


def unknown_tag():
    """The number for an unknown tag, the same in the definition of every call on a record."""
    found = set()
    for path in glob.glob("crates/record_*/specs/*.antt"):
        found.update(re.findall(r"refusal = (\d+)|[rR]efused\w* (?:r )?(\d+)\)", code(path)))
    calls = code("crates/bridge_calls/specs/Calls.antt")
    found.update(("", number) for number in re.findall(r"^ +cond \(good\w+ [^()]*\) \(number .*\) (\d+)$", calls, re.M))
    (number,) = {int(n) for groups in found for n in groups if n} - {0}
    return number


def constants(path):
    """The floats that a file of definitions names, by their bits."""
    found = {"+0": 0.0, "+1": 1.0}
    for name, sign, bits in re.findall(r"^(\S+) = (neg \()?of_bits binary64 0x([0-9a-f_]+)", code(path), re.M):
        value = struct.unpack(">d", bytes.fromhex(bits.replace("_", "")))[0]
        found[name] = -value if sign else value
    return found


def keys():
    """Each parameter: its table, its spellings in order, and its range (zero passes too, least, greatest)."""
    ends = constants("crates/keys/specs/Ranges.antt")
    ranges = {
        key: (kind == "ZeroOr", ends[least], ends[greatest])
        for key, kind, least, greatest in re.findall(r"range_of (\w+) = (Within|ZeroOr) (\S+) (\S+)", code("crates/keys/specs/Ranges.antt"))
    }
    names = code("crates/keys/specs/Names.antt")
    found = {}
    for table in ("card", "geometry"):
        body = names[names.index(f"{table}_names =") :].split("∷ []")[0]
        for spelling, meaning in re.findall(r'"(\w*)" means (?:Sets )?(\w+)', body):
            entry = found.setdefault((table, meaning), {"spellings": [], "range": ranges.get(meaning)})
            entry["spellings"].append(spelling)
    return found
