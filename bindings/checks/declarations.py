#!/usr/bin/env python3
"""Compares what bindings/c/track.h, bindings/rust/src/sys.rs and bindings/python declare with the exports of crates/track_c: each
call with its arguments, each struct with its fields, and each code with its name. With an archive or a shared object named, it
also compares the names that this exports.

Usage: bindings/checks/declarations.py [LIBRARY]"""
import json
import pathlib
import re
import subprocess
import sys

TOP = pathlib.Path(__file__).resolve().parents[2]
BINDINGS = TOP / "bindings"

# How each language spells the types that an argument or a field may have. A struct goes by its name in track.h.
C_TYPES = {"uint32_t": "u32", "uint64_t": "u64", "size_t": "size", "bool": "bool", "uint8_t": "u8", "void": "void"}
RUST_TYPES = {"u32": "u32", "u64": "u64", "usize": "size", "bool": "bool", "u8": "u8"}
STRUCTS = {
    "track_handle": ("TrackHandle", "Raw", "Handle"),
    "track_refusal": ("TrackRefusal", "Refusal", "Refusal"),
    "track_sizes": ("TrackSizes", "Sizes", "Sizes"),
    "track_edge": ("TrackEdge", "EdgeFields", "Edge"),
    "track_cell": ("TrackCell", "CellFields", "CellFields"),
    "track_put": ("TrackPut", "PutFields", "PutFields"),
    "track_census": ("TrackCensus", "CensusFields", "CensusFields"),
    "track_room": ("TrackRoom", "RoomFields", "RoomFields"),
    "track_answer": ("TrackAnswer", "AnswerFields", "AnswerFields"),
    "track_place": ("TrackPlace", "PlaceFields", "PlaceFields"),
    "track_fields": ("TrackFields", "WordFields", "WordFields"),
}
LIBRARY_NAMES = {names[0]: name for name, names in STRUCTS.items()}
RUST_NAMES = {names[1]: name for name, names in STRUCTS.items()}


def header():
    return re.sub(r"/\*.*?\*/", "", (BINDINGS / "c/track.h").read_text(encoding="utf-8"), flags=re.S)


def c_type(words):
    """An argument's type, from `const uint8_t *text`: a pointer to a type is '*TYPE'."""
    words = re.sub(r"\bconst\b", "", words)
    name = re.match(r"\s*(\w+)", words)[1]
    return ("*" if "*" in words else "") + C_TYPES.get(name, name)


def c_calls(text):
    found = {}
    for name, arguments in re.findall(r"^uint32_t (track_\w+)\(([^)]*)\);", text, flags=re.M):
        found[name] = [c_type(it) for it in arguments.split(",")]
    return found


def c_structs(text):
    """Each struct with its fields; several names may follow one type."""
    found = {}
    for body, name in re.findall(r"typedef struct \{(.*?)\} (\w+);", text, flags=re.S):
        fields = []
        for kind, names in re.findall(r"(\w+) ([^;]+);", body):
            fields += [(it.strip().lstrip("*"), ("*" if "*" in it else "") + C_TYPES.get(kind, kind)) for it in names.split(",")]
        found[name] = fields
    return found


def rust_type(words, names):
    """`&mut TrackHandle`, `*const u8`, `u32`: a pointer or a reference is '*TYPE'."""
    words = words.strip()
    pointer = re.match(r"(?:&(?:mut )?|\*(?:mut|const) )(.*)", words)
    name = pointer[1] if pointer else words
    return ("*" if pointer else "") + RUST_TYPES.get(name, names.get(name, name))


def lent(kind, names):
    """What an argument is lent as: a slice is a pointer and a count."""
    of = re.fullmatch(r"&(?:mut )?\[(\w+)\]", kind)
    return [rust_type(f"&{of[1]}", names), "size"] if of else [rust_type(kind, names)]


def rust_calls(text, names):
    """Functions by name. The library's own argument, its allocator, is none of the caller's."""
    found = {}
    for name, arguments in re.findall(r"\bfn (track_\w+)\s*\(([^)]*)\) -> u32", text):
        kinds = [it.split(":", 1)[1].strip() for it in arguments.split(",") if it.strip()]
        found[name] = [told for kind in kinds if kind != "Global" for told in lent(kind, names)]
    return found


def rust_structs(text, names):
    found = {}
    for name, body in re.findall(r"#\[repr\(C\)\](?:\s*#\[[^\]]*\])*\s*(?:pub(?:\(crate\))? )?struct (\w+) \{(.*?)^\}", text, flags=re.S | re.M):
        fields = re.findall(r"^\s*(?:pub )?(?:ghost )?(\w+): ([^,\n]+),", body, flags=re.M)
        found[names.get(name, name)] = [(field, rust_type(kind, names)) for field, kind in fields]
    return found


def python_declarations():
    """The calls and structs of the package, read off its objects."""
    script = """
import ctypes, json, os, sys
ctypes.PyDLL = ctypes.CDLL = lambda _: type("L", (), {"__getattr__": lambda s, n: type("F", (), {})()})()
os.environ["TRACK_LIBRARY"] = "none"
from track import _library as it
plain = {ctypes.c_uint32: "u32", ctypes.c_uint64: "u64", ctypes.c_bool: "bool", ctypes.c_char_p: "*u8", ctypes.c_void_p: "*void"}
def told(kind):
    if isinstance(kind, it.Checked): return plain[kind.kind]
    if kind in plain: return plain[kind]
    return "*" + told(kind._type_) if hasattr(kind, "contents") else kind.__name__
structs = {name: [(f, told(k)) for f, k in value._fields_] for name, value in vars(it).items() if isinstance(value, type) and issubclass(value, ctypes.Structure) and value is not ctypes.Structure}
from track.errors import BY_CODE
print(json.dumps([{name: [told(k) for k in kinds] for name, kinds in it.SIGNATURES.items()}, structs, {code: kind.__name__ for code, kind in BY_CODE.items()}]))
"""
    ran = subprocess.run([sys.executable, "-B", "-c", script], env={"PYTHONPATH": str(BINDINGS / "python/src")}, capture_output=True, text=True, check=False)
    if ran.returncode:
        sys.exit(f"declarations: the package can't be read: {ran.stderr.strip().splitlines()[-1]}")
    calls, structs, codes = json.loads(ran.stdout)
    names = {python: name for name, (_, _, python) in STRUCTS.items()}
    named = {name: [re.sub(r"^\*(\w+)$", lambda m: "*" + names.get(m[1], m[1]), it) for it in kinds] for name, kinds in calls.items()}
    return named, {names[name]: [(f, names.get(k, k)) for f, k in fields] for name, fields in structs.items()}, codes


def compare(what, found, wanted):
    if found == wanted:
        return
    for name in sorted(set(found) | set(wanted)):
        if found.get(name) != wanted.get(name):
            sys.exit(f"declarations: {what}: {name} is {found.get(name)}, and track.h has {wanted.get(name)}")


def compare_codes(text):
    codes = dict(re.findall(r"\bTRACK_([A-Z_]+) = (\d+)", re.search(r"enum track_code \{(.*?)\};", text, flags=re.S)[1]))
    camel = {"".join(part.capitalize() for part in name.split("_")): int(code) for name, code in codes.items() if name != "OK"}
    fault = (TOP / "crates/track_c/src/fault.rt").read_text()
    compare("codes of the crate", {name: int(code) for name, code in re.findall(r"Fault::(\w+)(?:\(_\))? => (\d+),", fault)}, camel)
    rust = {name: int(code) for code, name in re.findall(r"^\s*(\d+) => Error::(\w+),", (BINDINGS / "rust/src/error.rs").read_text(), flags=re.M)}
    unseen = {"EmptyHandle", "OtherKind", "FullHandle", "BadNetwork"}
    compare("codes of the Rust package", rust, {name: code for name, code in camel.items() if name not in unseen})
    python = {name: int(code) for code, name in python_declarations()[2].items()}
    compare("codes of the Python package", python, {name: code for name, code in camel.items() if name != "BadNetwork"})


def exported(library):
    """The names that a library exports."""
    words = ["nm", "-D", "--defined-only", library] if library.endswith(".so") else ["nm", "--defined-only", "--extern-only", library]
    ran = subprocess.run(words, capture_output=True, text=True, check=True)
    return set(re.findall(r"^\S+ T (track_\w+)$", ran.stdout, flags=re.M))


def main():
    text = header()
    calls, structs = c_calls(text), c_structs(text)
    sources = "\n".join(path.read_text() for path in sorted((TOP / "crates/track_c/src").glob("*.rt")))
    exports = "\n".join(re.findall(r'extern "C" (fn track_\w+\s*\([^)]*\) -> u32)', sources))
    compare("the crate", rust_calls(exports, LIBRARY_NAMES), calls)
    own = rust_structs(sources, LIBRARY_NAMES)
    compare("structs of the crate", {name: fields for name, fields in own.items() if name in structs and name != "track_handle"},
            {name: fields for name, fields in structs.items() if name != "track_handle"})
    rust = (BINDINGS / "rust/src/sys.rs").read_text()
    compare("the Rust package", rust_calls(rust, RUST_NAMES), calls)
    handle = [("full", "bool"), ("at", "*u8")]
    compare("structs of the Rust package", rust_structs(rust, RUST_NAMES), {**structs, "track_handle": handle})
    python_calls, python_structs, _ = python_declarations()
    # To ctypes both are one type here.
    compare("the Python package", python_calls, {name: ["u64" if it == "size" else it for it in kinds] for name, kinds in calls.items()})
    compare("structs of the Python package", python_structs, structs)
    compare_codes(text)
    if sys.argv[1:]:
        compare(f"the names in {sys.argv[1]}", dict.fromkeys(exported(sys.argv[1])), dict.fromkeys(calls))
    print(f"declarations: {len(calls)} calls and {len(structs)} structs are declared alike")


main()
