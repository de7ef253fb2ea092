"""Holds the declarations of the C interface to each other: include/cauchy.h, src/sys.rs with the types that the crate
shows, and the exported functions of crates/cauchy with the structs of crates/crossing. Compared are, for every
function, the names, types and order of its arguments and its answer; for every struct, the names, types and order of
its fields; the numbers of the refusals, and their words in Rust and C; the sizes and offsets of a store. (Python is
held to the header and to the crate by python/tests/test_header.py.) The first difference is told. Then each of EDITS
is made to the texts in memory and must be told too. Only the standard library is needed."""
import re
import sys
from pathlib import Path

from header import header

# Rust's and Rattle's names of the types in C; a type of the crate is the C type with `Cauchy` before it.
TYPES = {"f64": "double", "u32": "uint32_t", "u64": "uint64_t", "usize": "size_t", "u8": "uint8_t"}
RATTLE_TYPES = {"V3": "Vector"}
# Arguments that have another name in Rattle, in every function or in one.
RATTLE_NAMES = {"k": "kernel", "default": "default_alpha", "cauchy_store_page.out": "page"}
# A refusal that has another name in Rattle.
RATTLE_REFUSALS = {"Unclosed": "NotClosed"}


class Difference(Exception):
    pass


def need(condition, *words):
    if not condition:
        raise Difference(" ".join(str(word) for word in words))


def code(text):
    """The text without comments, white space squeezed to single spaces."""
    text = re.sub(r"/\*.*?\*/", " ", text, flags=re.S)
    return " ".join(re.sub(r"//[^\n]*", " ", text).split())


# ---- Rust and Rattle ------------------------------------------------------------------------------------------


def c_type(kind):
    """A type of Rust as C has it."""
    pointer = re.fullmatch(r"\*(const|mut) (\w+)", kind)
    if pointer:
        return ("const " if pointer[1] == "const" else "") + c_type(pointer[2]) + "*"
    array = re.fullmatch(r"\[(\w+); (\d+)\]", kind)
    if array:
        return f"{c_type(array[1])}[{array[2]}]"
    kind = RATTLE_TYPES.get(kind, kind)
    return TYPES.get(kind) or "Cauchy" + re.sub("^Cauchy", "", kind)


def rust_variables(text):
    pairs = [one.split(":", 1) for one in text.split(",") if one.strip()]
    return [(re.sub("^pub ", "", name.strip()), kind.strip()) for name, kind in pairs]


def rust_structs(text):
    """The structs laid out as in C, by their names in C."""
    found = re.findall(r"#\[repr\(C\)\] (?:#\[derive\([^]]*\)\] )?pub struct (\w+) \{(.*?)\}", code(text))
    return {c_type(name): [(field, c_type(kind)) for field, kind in rust_variables(body)] for name, body in found}


def rust_functions(text):
    block = re.search(r'unsafe extern "C" \{(.*)\}', code(text))[1]
    functions = {}
    for name, arguments, answer in re.findall(r"pub (?:safe )?fn (\w+)\((.*?)\) -> (\w+);", block):
        functions[name] = ([(one, c_type(kind)) for one, kind in rust_variables(arguments)], c_type(answer))
    need(len(functions) == block.count(" fn "), "sys.rs: a function that is not understood")
    return functions


def rattle_arguments(function, text):
    """A run `&[T]` is a pointer and a count in C."""
    for name, kind in rust_variables(text):
        name = RATTLE_NAMES.get(f"{function}.{name}", RATTLE_NAMES.get(name, name))
        run = re.fullmatch(r"&(mut )?\[(\w+)\]", kind)
        if run:
            yield name, ("" if run[1] else "const ") + c_type(run[2]) + "*"
            yield "n_" + name, "size_t"
        else:
            yield name, c_type(kind)


def rattle_functions(text):
    found = re.findall(r'pub extern "C" fn (\w+)\((.*?)\) -> (\w+) ensures', code(text))
    need(len(found) == code(text).count('extern "C"'), "crates/cauchy: an exported function that is not understood")
    return {name: (list(rattle_arguments(name, arguments)), c_type(answer)) for name, arguments, answer in found}


# ---- The comparison ---------------------------------------------------------------------------------------------


def same_names(what, ours, there, theirs):
    for name in sorted(set(ours) | set(theirs)):
        need(name in theirs, f"{what} {name} is in cauchy.h and not in {there}")
        need(name in ours, f"{what} {name} is in {there} and not in cauchy.h")


def same_list(what, ours, there, theirs):
    for at, (one, other) in enumerate(zip(ours, theirs), 1):
        need(one == other, f"{what} {at}: cauchy.h has {one[1]} {one[0]}, {there} {other[1]} {other[0]}")
    need(len(ours) == len(theirs), f"{what}s: cauchy.h has {len(ours)}, {there} {len(theirs)}")


def same_functions(ours, there, theirs):
    same_names("function", ours, there, theirs)
    for name, (arguments, answer) in ours.items():
        same_list(f"{name}, argument", arguments, there, theirs[name][0])
        need(answer == theirs[name][1], f"{name}, answer: cauchy.h has {answer}, {there} {theirs[name][1]}")


def same_structs(ours, there, theirs):
    same_names("struct", ours, there, theirs)
    for name, fields in ours.items():
        same_list(f"{name}, field", fields, there, theirs[name])


def same_refusals(ours, of_host, rust, words_in_c):
    """The numbers of cauchy.h and refusal.rs, and that C and Rust say the same words."""
    numbers = dict(re.findall(r"^    (\w+) = (\d+),$", rust, flags=re.M))
    names = {"CAUCHY_" + re.sub(r"(?<=[a-z])(?=[A-Z])", "_", name).upper(): name for name in numbers}
    said = dict(re.findall(r'Refusal::(\w+) => (?:\{\s*)?"([^"]*)"', rust))
    said_in_c = dict(re.findall(r'case (\w+): return "([^"]*)";', words_in_c))
    same_names("refusal", set(ours) - {"CAUCHY_ACCEPTED"}, "refusal.rs", names)
    same_names("refusal", {**ours, **of_host}, "cauchy_host.c", said_in_c)
    for name, rust_name in names.items():
        number, words = int(numbers[rust_name]), said[rust_name]
        need(ours[name] == number, f"{name}: cauchy.h has {ours[name]}, refusal.rs {number}")
        need(words == said_in_c[name], f"{name}: refusal.rs says '{words}', cauchy_host.c '{said_in_c[name]}'")


def same_numbers(ours, rattle):
    """The refusals' numbers of cauchy.h and of the library."""
    names = {}
    for name, number in re.findall(r"Refusal::(\w+) => (\d+),", rattle):
        name = RATTLE_REFUSALS.get(name, name)
        names["CAUCHY_" + re.sub(r"(?<=[a-z])(?=[A-Z])", "_", name).upper()] = int(number)
    same_names("refusal", set(ours) - {"CAUCHY_ACCEPTED"}, "crates/base", names)
    for name, number in names.items():
        need(ours[name] == number, f"{name}: cauchy.h has {ours[name]}, crates/base {number}")


# What the library calls a size of the store, and what Rust's crate does.
SIZES = {
    "PLACES": "PLACES", "KERNEL": "KERNELS_AT", "KERNEL_SIZE": "KERNEL_FLOATS", "COORDS": "FLOATS_BEFORE_MESH",
    "STATE": "STATES_AT", "WIDTH": "STATE_WORDS", "CORNERS": "WORDS_BEFORE_MESH",
    "OLD_CORNERS": "OLD_WORDS_BEFORE_MESH",
}


def same_sizes(text, sizes, rattle, rust):
    """A store's sizes and offsets: the library's, the header's and Rust's."""
    constants = re.compile(r"const (\w+): \w+ = (\d+);")
    library, crate = ({name: int(number) for name, number in constants.findall(one)} for one in (rattle, rust))
    before = dict(re.findall(r"#define CAUCHY_((?:OLD_)?STORE_\w+)\(\w\) \(\(size_t\)(\d+) ", text))
    in_header = {"PLACES": sizes["CAUCHY_PLACES"], "PIECES": sizes["CAUCHY_MAX_PIECES"]}
    in_header.update(COORDS=int(before["STORE_FLOATS"]), CORNERS=int(before["STORE_WORDS"]))
    in_header.update(OLD_CORNERS=int(before["OLD_STORE_WORDS"]))
    in_rust = {name: crate[theirs] for name, theirs in SIZES.items()}
    for there, found in (("cauchy.h", in_header), ("the crate", in_rust)):
        for name, number in found.items():
            need(library.get(name) == number, f"{name}: the library has {library.get(name)}, {there} {number}")


def may_refuse(answer, structs):
    return answer == "uint32_t" or (answer in structs and structs[answer][0] == ("no", "uint32_t"))


def texts(root):
    """All texts that declare something, by their names."""
    host = ["include/cauchy.h", "include/cauchy_host.h", "c/cauchy_host.c"]
    host += [f"src/{name}.rs" for name in ("sys", "kernel", "report", "refusal", "runs", "store")]
    paths = [root / "host" / name for name in host]
    for crate in ("cauchy", "crossing"):
        paths += sorted((root / "crates" / crate / "src").glob("*.rt"))
    others = ("kernel/src/kernel.rt", "mesh/src/vectors.rt", "density/src/report.rt")
    others += ("base/src/refusal.rt", "layout/src/offsets.rt", "carry/src/check.rt")
    paths += [root / "crates" / name for name in others]
    return {path.relative_to(root).as_posix(): path.read_text(encoding="utf-8") for path in paths}


def compare(has):
    functions, structs, enums, must_use = header(has["host/include/cauchy.h"])
    host_functions, _, host_enums, host_must_use = header(has["host/include/cauchy_host.h"])
    rust = "".join(has[f"host/src/{name}.rs"] for name in ("sys", "kernel", "report"))
    rattle = "\n".join(text for name, text in has.items() if name.endswith(".rt"))
    same_functions(functions, "sys.rs", rust_functions(has["host/src/sys.rs"]))
    same_structs(structs, "the crate", rust_structs(rust))
    same_functions(functions, "crates/cauchy", rattle_functions(rattle))
    same_structs(structs, "crates/crossing", rust_structs(rattle))
    (refusals,) = [names for names in enums if "CAUCHY_ACCEPTED" in names]
    same_refusals(refusals, host_enums[0], has["host/src/refusal.rs"], has["host/c/cauchy_host.c"])
    same_numbers(refusals, has["crates/base/src/refusal.rt"])
    (sizes,) = [names for names in enums if "CAUCHY_PLACES" in names]
    offsets = has["crates/layout/src/offsets.rt"] + has["crates/carry/src/check.rt"]
    same_sizes(has["host/include/cauchy.h"], sizes, offsets, has["host/src/runs.rs"] + has["host/src/store.rs"])
    for name, (_, answer) in functions.items():
        marked = name in must_use
        need(marked == may_refuse(answer, structs), f"{name}: CAUCHY_MUST_USE goes with an answer that may refuse")
    for name, (_, answer) in host_functions.items():
        need(name in host_must_use or "char" in answer, f"{name}: CAUCHY_MUST_USE is missing")
    return len(functions), len(structs)


# Mistakes that must be told: the file, a text in it, what it becomes, and how the difference begins.
EDITS = [
    ("host/src/sys.rs", "place: u32,\n        w: f64,",
     "w: f64,\n        place: u32,", "cauchy_store_reweigh, argument 5"),
    ("host/src/sys.rs", "total: f64,\n        mean: f64,",
     "mean: f64,\n        total: f64,", "cauchy_source_calibrate, argument 7"),
    ("host/src/sys.rs", "budget: u64", "budget: u32", "cauchy_store_advance, argument 5"),
    ("host/src/sys.rs", "points: *const f64", "points: *mut f64", "cauchy_store_track, argument 7"),
    ("host/src/sys.rs", "n_out: usize,\n    ) -> Listed", "n_out: usize,\n    ) -> Track", "cauchy_store_list, answer"),
    ("host/src/sys.rs", "    pub safe fn cauchy_ten(y: f64) -> f64;\n", "", "function cauchy_ten"),
    ("host/src/sys.rs", "pub done: u64,\n    pub left: u64,",
     "pub left: u64,\n    pub done: u64,", "CauchySteps, field 2"),
    ("host/src/sys.rs", "pub freed: u32", "pub freed: u64", "CauchySqueezed, field 2"),
    ("host/include/cauchy.h", "double sigma, w, alpha;", "double w, sigma, alpha;", "CauchyKernel, field 2"),
    ("host/include/cauchy.h", "double radius, double *out",
     "double *out, double radius", "cauchy_decompose, argument 2"),
    ("host/include/cauchy.h", "uint32_t verts, uint32_t faces);",
     "uint32_t faces, uint32_t verts);", "cauchy_bill, argument 3"),
    ("host/include/cauchy.h", "double default_alpha, uint32_t loader",
     "uint32_t loader, double default_alpha", "cauchy_convert, argument 3"),
    ("host/src/sys.rs", "lines: *const u8", "lines: *const f64", "cauchy_convert, argument 1"),
    ("host/src/sys.rs", "page: *mut u8", "page: *const u8", "cauchy_store_page, argument 5"),
    ("host/src/sys.rs", "pub bytes: u64", "pub bytes: u32", "CauchyBytes, field 2"),
    ("host/src/sys.rs", "bytes: *mut u8", "bytes: *const u8", "cauchy_store_write, argument 5"),
    ("host/src/sys.rs", "bytes: *const u8", "bytes: *mut u8", "cauchy_store_read, argument 5"),
    ("host/src/sys.rs", "pub puts: u64", "pub puts: u32", "CauchyLoaded, field 4"),
    ("host/include/cauchy.h", "CAUCHY_BAD_LINE = 13", "CAUCHY_BAD_LINE = 19", "CAUCHY_BAD_LINE"),
    ("host/include/cauchy.h", "CAUCHY_VACANT = 7", "CAUCHY_VACANT = 13", "CAUCHY_VACANT"),
    ("host/include/cauchy.h", "CAUCHY_MUST_USE\nCauchyTrack", "CauchyTrack", "cauchy_store_track: CAUCHY_MUST_USE"),
    ("host/c/cauchy_host.c", "vacant: the place", "vacant: a place", "CAUCHY_VACANT"),
    ("crates/base/src/refusal.rt", "Refusal::NoPlace => 6", "Refusal::NoPlace => 7", "CAUCHY_NO_PLACE"),
    ("crates/layout/src/offsets.rt", "COORDS: usize = 1761", "COORDS: usize = 1762", "COORDS"),
    ("host/include/cauchy.h", "((size_t)1761", "((size_t)1760", "COORDS"),
    ("host/include/cauchy.h", "((size_t)98", "((size_t)97", "OLD_CORNERS"),
    ("host/src/sys.rs", "old_words: *const u32", "old_words: *mut u32", "cauchy_store_carry, argument 3"),
    ("host/src/sys.rs", "other_words: *const u32", "other_words: *mut u32", "cauchy_store_adopt, argument 8"),
    ("host/include/cauchy.h", "uint32_t no, same_body;", "uint32_t same_body, no;", "CauchyAdopted, field 1"),
    ("host/src/store.rs", "KERNEL_FLOATS: usize = 7", "KERNEL_FLOATS: usize = 6", "KERNEL_SIZE"),
    ("crates/crossing/src/stores.rt", "pub verts: u32,\n    pub faces: u32,",
     "pub faces: u32,\n    pub verts: u32,", "CauchyOpened, field 2"),
    ("crates/cauchy/src/volumes.rt", "c: V3, sigma: f64", "sigma: f64, c: V3", "cauchy_kernel_volume, argument 5"),
]


def each_edit_is_told(has):
    for name, old, new, begins in EDITS:
        need(old in has[name], f"{name} has '{old}' no more: choose another edit")
        try:
            compare({**has, name: has[name].replace(old, new, 1)})
        except Difference as told:
            need(str(told).startswith(begins), f"{name}, '{old}' become '{new}', was told as: {told}")
        else:
            raise Difference(f"{name}: '{old}' may become '{new}', and nothing is told")


if __name__ == "__main__":
    has = texts(Path(__file__).resolve().parents[2])
    try:
        counts = compare(has)
        each_edit_is_told(has)
    except (Difference, ValueError) as difference:
        sys.exit(f"declarations: {difference}")
    print("declarations: %d functions and %d structs are the same in the header, in Rust and in the library" % counts)
