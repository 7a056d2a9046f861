"""Holds languages/c/vbson.h and the wrappers to the sources of crates/vbson: the calls with their types, the statuses
with their numbers, which statuses each call answers, the modes, the options, the greatest lengths, the buffer's fields, and the
version."""
import re
import subprocess
from pathlib import Path

ROOT = Path(__file__).resolve().parents[2]
SOURCES = ROOT / "crates/vbson/src"
LANGUAGES = ROOT / "languages"
HEADER = LANGUAGES / "c/vbson.h"
PACKAGE = LANGUAGES / "python/vbson"
NUMBERS = {"u32": "uint32_t", "i32": "int32_t", "i64": "int64_t", "u64": "uint64_t", "usize": "size_t"}
STRUCTS = {"Text<'static>": "vbson_buffer", "Lines<'static>": "vbson_lines", "Documents<'static>": "vbson_documents",
           "Rejection<'static>": "vbson_error", "Slice<'a>": "vbson_slice", "RawValue<'a>": "vbson_raw_value",
           "RawValue<'_>": "vbson_raw_value", "Builder<'_>": "vbson_builder", "CallOptions": "vbson_options"}
EXPORT = re.compile(
    r'#\[unsafe\(no_mangle\)\]\npub (?:unsafe )?extern "C" fn (\w+)(?:<.a>)?\(([^)]*)\) -> (\w+)\n(.*?)\n\{\n', re.S)


def as_c(name, kind):
    """The C parameters of one of Rattle's."""
    if kind == "Global":
        return []
    if kind in NUMBERS:
        return [f"{NUMBERS[kind]} {name}"]
    kind = kind.replace("&'a ", "&")
    const, inner = ("", kind[5:]) if kind.startswith("&mut ") else ("const ", kind[1:])
    array = re.fullmatch(r"\[u8; (\d+)\]", inner)
    if array:
        return [f"{const}uint8_t {name}[{array[1]}]"]
    if inner == "[u8]":
        return [f"{const}uint8_t *{name}", "size_t"]
    if inner in NUMBERS:
        return [f"{const}{NUMBERS[inner]} *{name}"]
    if inner in STRUCTS:
        return [f"{const}{STRUCTS[inner]} *{name}"]
    raise ValueError(f"no C type is known for {kind}")


def exports():
    """Each export: its C parameters and result, and its contract."""
    found = {}
    for file in sorted(SOURCES.glob("*.rt")):
        text = file.read_text()
        for name, parameters, result, contract in EXPORT.findall(text):
            parts = [it.strip().split(": ") for it in parameters.split(",") if it.strip()]
            found[name] = ([it for part in parts for it in as_c(*part)], NUMBERS[result], contract)
        if text.count("no_mangle") != len(EXPORT.findall(text)):
            raise ValueError(f"{file.name}: an export is not read")
    return found


def of_rust(name, kind):
    """The C parameter of one of the wrapper's in Rust."""
    if kind in NUMBERS:
        return f"{NUMBERS[kind]} {name}"
    found = re.fullmatch(r"\*(const|mut) (?:\[u8; (\d+)\]|(\w+))", kind)
    const = "const " if found[1] == "const" else ""
    kinds = {"u8": "uint8_t", "RawText": "vbson_buffer", "RawLines": "vbson_lines", "RawDocuments": "vbson_documents",
             "RawError": "vbson_error", "RawSlice": "vbson_slice", "RawValue": "vbson_raw_value", "RawBuilder": "vbson_builder",
             "RawOptions": "vbson_options", **NUMBERS}
    if found[2]:
        return f"{const}uint8_t {name}[{found[2]}]"
    return f"{const}{kinds[found[3]]} *{name}"


def declared_by_rust():
    """Each call that the wrapper in Rust declares: its parameters and result, as C has them."""
    found = {}
    text = (LANGUAGES / "rust/src/call.rs").read_text()
    for name, parameters, result in re.findall(r"(?m)^    fn (vbson_\w+)\((.*)\) -> (\w+);$", text):
        parts = re.findall(r"(\w+): ([^,]+)", parameters)
        found[name] = ([of_rust(*it) for it in parts], NUMBERS[result])
    return found


def without_inline(text):
    return re.sub(r"static inline [^{;]*\{.*?\n\}\n", "", text, flags=re.S)


def split(parameters):
    """The parameters of a call in C."""
    return [] if parameters == "void" else [" ".join(it.split()) for it in parameters.split(",")]


def declared():
    """Each call of the header: its parameters and result, and the statuses that its comment names. That of a call with
    options is above the inline function."""
    text = HEADER.read_text()
    comments = re.findall(r"/\*((?:(?!\*/).)*)\*/\n(?:static inline )?\w+ (vbson_\w+)\(", text, flags=re.S)
    told = {name: set(re.findall(r"VBSON_[A-Z_]+", comment)) for comment, name in comments}
    text = without_inline(text)
    found = {name: (split(parameters), result, told.get(name.removesuffix("_nonnull"), set()))
             for result, name, parameters in re.findall(r"(?m)^(\w+) (vbson_\w+)\(([^)]*)\);", text)}
    if text.count(");") != len(found):
        raise ValueError("vbson.h: a call is not read")
    return found


def inline_faults():
    """Over each call with options is an inline function with the same parameters, which replaces a null pointer."""
    text = " ".join(HEADER.read_text().split())
    for name, (parameters, result, _) in declared().items():
        has_options = "const vbson_options *options" in parameters
        yield f"the name {name}", None if has_options == name.endswith("_nonnull") else "it does not say whether options can be null"
        if has_options:
            names = [it.split()[-1].lstrip("*") for it in parameters]
            passed = ", ".join("vbson_options_or_init(options)" if it == "options" else it for it in names)
            over = name.removesuffix("_nonnull")
            wanted = f"static inline {result} {over}({', '.join(parameters)}) {{ return {name}({passed}); }}"
            yield f"the inline {over}", None if wanted in text else f"it is not {wanted}"


def statuses():
    """The number of each status, as the sources have it."""
    found = re.findall(r"(?m)^pub const (\w+): u32 = (\d+);$", (SOURCES / "status.rt").read_text())
    return {name: int(number) for name, number in found}


def option_values():
    """The number of each value of an option that is not 0, as the sources have it."""
    found = re.findall(r"(?m)^pub const (\w+): u32 = (\d+);$", (SOURCES / "options.rt").read_text())
    return {name: int(number) for name, number in found}


# What stands for them in Python: a bit for each field of the struct, in their order.
FLAGS = {"DOUBLES": 1, "KEEP_ORDER": 2, "REJECT_DUPLICATE_KEYS": 4, "V1": 8, "MONGODB_LAYOUT": 16}


def answers(contract):
    """The numbers for which the clause `possible_statuses` of a contract holds."""
    clause = re.search(r"(?m)^    ensures possible_statuses \{ (.*) \}$", contract)
    if not clause:
        return None
    test = clause[1].replace("≡", "==").replace("⊎", "or").replace("×", "and").replace("≤", "<=")
    if not re.fullmatch(r"(result|or|and|==|<=|\d+|[ ()])+", test):
        raise ValueError(f"the clause is not read: {clause[1]}")
    return {number for number in range(1000) if eval(test, {"result": number})}


def is_alike(of_source, of_header):
    """A length may have any name, every other parameter has its own."""
    return len(of_source) == len(of_header) and all(
        b == a or (a == "size_t" and re.fullmatch(r"size_t \w+", b)) for a, b in zip(of_source, of_header))


def call_faults():
    of_source, of_header, numbers = exports(), declared(), statuses()
    for name in sorted({*of_source} ^ {*of_header}):
        yield name, "it stands in the sources or in vbson.h alone"
    for name in sorted({*of_source} & {*of_header}):
        (parameters, result, contract), (written, told, named) = of_source[name], of_header[name]
        yield name, None if is_alike(parameters, written) and result == told else f"{written} is not {parameters}"
        yield f"{name} requires nothing", "it has a requires" if "requires" in contract else None
        if name == "vbson_version":
            continue
        can = answers(contract)
        wanted = {numbers[it.removeprefix("VBSON_")] for it in named if it.removeprefix("VBSON_") in numbers} | {0}
        yield f"{name}'s statuses", None if can == wanted else f"vbson.h says {sorted(wanted)}, and the contract {can}"


def rust_faults():
    of_rust, of_header = declared_by_rust(), declared()
    for name in sorted({*of_rust} | {*of_header}):
        wanted = of_header[name][:2] if name in of_header else None
        yield f"{name} in Rust", None if of_rust.get(name) == wanted else f"{of_rust.get(name)} and not {wanted}"


def status_faults():
    numbers = statuses()
    yield "no number twice", None if len({*numbers.values()}) == len(numbers) else "two statuses have one number"
    text = HEADER.read_text()
    enum = dict(re.findall(r"VBSON_(\w+) = (\d+)\b", text[text.index("enum vbson_status"):text.index("};")]))
    kinds = {"vbson.h": {name: int(number) for name, number in enum.items()}}
    rust = re.findall(r"(?m)^const (\w+): u32 = (\d+);$", (LANGUAGES / "rust/src/call.rs").read_text())
    kinds["call.rs"] = {name: int(number) for name, number in rust}
    sources = (PACKAGE / "errors.py").read_text() + (PACKAGE / "_options.py").read_text()
    kinds["Python"] = {}
    for names, values in re.findall(r"(?m)^([A-Z_\d, ]+) = ([\d, ]+)$", sources):
        kinds["Python"] |= dict(zip(names.split(", "), map(int, values.split(", "))))
    modes = {"CANONICAL": 0, "RELAXED": 1, "SHOW": 2}
    for file, found in kinds.items():
        found = {name: number for name, number in found.items() if name not in modes and name not in FLAGS}
        yield f"the statuses of {file}", None if found == numbers else f"{found} is not {numbers}"
    for name in numbers:
        yield f"words for {name}", None if f"case VBSON_{name}: return" in text else "vbson_status_text has none"
    for name, number in modes.items():
        is_right = f"VBSON_{name} = {number}" in text and kinds["Python"].get(name) == number
        yield f"the mode {name}", None if is_right else "other numbers"
    for name, number in option_values().items():
        is_right = number == 1 and f"VBSON_{name} = {number}" in text
        is_right = is_right and f"\npub const {name}: u32 = {number};\n" in (LANGUAGES / "rust/src/call.rs").read_text()
        yield f"the value {name}", None if is_right else "other numbers"
    enums = re.findall(r"enum vbson_(\w+) \{\n +VBSON_(\w+) = 0, .*\n +VBSON_(\w+) = 1 .*\n\};", text)
    fields = RAW["vbson_options"][2][1:]
    is_right = [f"uint32_t {name}" for name, *_ in enums] == fields and [it[2] for it in enums] == [*option_values()]
    yield "the enums of the options", None if is_right else f"{enums} is not {fields}"
    names = re.findall(r"VBSON_\w+", re.search(r"#define VBSON_OPTIONS_INIT \{(.*?)\}", text, flags=re.S)[1])
    yield "VBSON_OPTIONS_INIT", None if names == [f"VBSON_{it[1]}" for it in enums] else f"{names} is not {enums}"
    has_flags = all(kinds["Python"].get(name) == number for name, number in FLAGS.items())
    python = re.findall(r'\("(\w+)", ctypes.c_uint32\)', (PACKAGE / "_calls.py").read_text().partition("class Buffer")[0])
    yield "the options of Python", None if has_flags and [f"uint32_t {it}" for it in python] == fields else f"{python} is not {fields}"


def length_faults():
    """The greatest length of each kind is that of the contract, and no wrapper has a smaller buffer."""
    text = HEADER.read_text()
    rust = int(re.search(r"(?m)^pub const MAX_LENGTH: usize = (\d+);$", (LANGUAGES / "rust/src/call.rs").read_text())[1])
    python = int(re.search(r"buffer, size = ctypes.create_string_buffer\((\d+)\)", (PACKAGE / "scalars.py").read_text())[1])
    for name, (_, _, contract) in exports().items():
        fits = re.search(r"ensures fits \{ (\d+) ≤ length buffer.old → result ≢ 8 \}", contract)
        if name.endswith("_print"):
            kind = name.removeprefix("vbson_").removesuffix("_print").upper()
            is_right = fits and f"#define VBSON_{kind}_MAX_LENGTH {fits[1]}\n" in text and int(fits[1]) <= min(rust, python)
            yield f"the greatest length of {name}", None if is_right else "vbson.h, a wrapper and the contract have other numbers"


def text_fault():
    source = (SOURCES / "text.rt").read_text()
    wanted = "#[repr(C)]\n#[derive(Drop)]\npub struct Text<'a> {\n    pub bytes: &'a [u8],\n    pub len: usize,\n}"
    has_fields = wanted in source
    fields = re.search(r"typedef struct vbson_buffer \{(.*?)\} vbson_buffer;", HEADER.read_text(), flags=re.S)[1]
    names = re.findall(r"(\S[^;/*]*\*?\w+);", re.sub(r"/\*.*?\*/", "", fields))
    return None if has_fields and names == ["const uint8_t *bytes", "size_t size", "size_t len"] else f"{names}"


def block_fault(name, file, numbers):
    """Two texts and two numbers, as the sources, the header and the wrapper in Rust have them."""
    wanted = f"#[repr(C)]\n#[derive(Drop)]\npub struct {name}<'a> {{\n    pub text: Text<'a>,\n    pub diagnostics: Text<'a>,\n"
    rust = f"pub struct Raw{name} {{\n    pub text: RawText,\n    pub diagnostics: RawText,\n"
    behind = "".join(f"    pub {it}: u64,\n" for it in numbers) + "}"
    has_fields = wanted + behind in (SOURCES / file).read_text() and rust + behind in (LANGUAGES / "rust/src/call.rs").read_text()
    in_c = f"vbson_{name.lower()}"
    fields = re.search(rf"typedef struct {in_c} \{{(.*?)\}} {in_c};", HEADER.read_text(), flags=re.S)[1]
    names = re.findall(r"(\S[^;/*]*\w+);", re.sub(r"/\*.*?\*/", "", fields))
    return None if has_fields and names == ["vbson_buffer text", "vbson_buffer diagnostics", *(f"uint64_t {it}" for it in numbers)] else f"{names}"


# The fields of the structs of options, of raw documents, of builders and of errors: in the sources, in the wrapper in Rust and in C.
RAW = {
    "vbson_options": tuple(
        [f"pub struct {it} {{\n    pub size: usize,\n    pub doubles: u32,\n    pub key_order: u32,\n    pub duplicate_keys: u32,\n"
         "    pub v1: u32,\n    pub layout: u32,\n}" for it in ("CallOptions", "RawOptions")]
        + [["size_t size", "uint32_t doubles", "uint32_t key_order", "uint32_t duplicate_keys", "uint32_t v1", "uint32_t layout"]]),
    "vbson_slice": ("pub struct Slice<'a> {\n    pub bytes: &'a [u8],\n}",
                    "pub struct RawSlice {\n    pub bytes: *const u8,\n    pub len: usize,\n}",
                    ["const uint8_t *bytes", "size_t len"]),
    "vbson_raw_value": ("pub struct RawValue<'a> {\n    pub bytes: &'a [u8],\n    pub len: usize,\n    pub kind: u8,\n}",
                        "pub struct RawValue {\n    pub bytes: *const u8,\n    pub size: usize,\n    pub len: usize,\n    pub kind: u8,\n}",
                        ["const uint8_t *bytes", "size_t size", "size_t len", "uint8_t type"]),
    "vbson_builder": ("pub struct Builder<'a> {\n    pub bytes: &'a mut [u8],\n    pub len: usize,\n    pub needed: usize,\n}",
                      "pub struct RawBuilder {\n    pub bytes: *mut u8,\n    pub size: usize,\n    pub len: usize,\n    pub needed: usize,\n}",
                      ["uint8_t *bytes", "size_t size", "size_t len", "size_t needed"]),
    "vbson_error": ("pub struct Rejection<'a> {\n    pub code: u32,\n    pub line: usize,\n    pub column: usize,\n    pub offset: usize,\n"
                    "    pub path: Text<'a>,\n    pub reason: Text<'a>,\n    pub message: Text<'a>,\n}",
                    "pub struct RawError {\n    pub code: u32,\n    pub line: usize,\n    pub column: usize,\n    pub offset: usize,\n"
                    "    pub path: RawText,\n    pub reason: RawText,\n    pub message: RawText,\n}",
                    ["uint32_t code", "size_t line", "size_t column", "size_t offset", "vbson_buffer path", "vbson_buffer reason",
                     "vbson_buffer message"]),
}


def raw_fault(name):
    """A struct of RAW, as the sources, the header and the wrapper in Rust have it."""
    source, rust, wanted = RAW[name]
    sources = "".join(it.read_text() for it in sorted(SOURCES.glob("*.rt")))
    has_fields = source in re.sub(r"(?m)^ *///.*\n", "", sources) and rust in (LANGUAGES / "rust/src/call.rs").read_text()
    fields = re.search(rf"typedef struct {name} \{{(.*?)\}} {name};", HEADER.read_text(), flags=re.S)[1]
    names = re.findall(r"(\S[^;/*]*\*?\w+);", re.sub(r"/\*.*?\*/", "", fields, flags=re.S))
    return None if has_fields and names == wanted else f"{names}"


def type_faults():
    """The number of each type, by the tags of the sources."""
    tags = re.findall(r"(?m)^            ElementType::(\w+) => (0x\w+),$", (ROOT / "crates/bson_types/src/spec.rt").read_text())
    types = re.findall(r"(?m)^    VBSON_TYPE_(\w+) = (0x\w+),?$", HEADER.read_text())
    yield "the types", None if [it[1] for it in tags] == [it[1] for it in types] and len(types) == 21 else f"{types} is not {tags}"


def version():
    """That of all places, or nothing where they differ."""
    return subprocess.run([ROOT / "tools/version"], capture_output=True, text=True).stdout.strip()


def version_faults():
    yield "the version", None if version() else "tools/version finds different ones"


def faults():
    """What was compared, and beside it what is wrong, or None."""
    yield from call_faults()
    yield from inline_faults()
    yield from rust_faults()
    yield from status_faults()
    yield from length_faults()
    yield "the fields of vbson_buffer", text_fault()
    yield "the fields of vbson_lines", block_fault("Lines", "lines.rt", ("lines", "refused"))
    yield "the fields of vbson_documents", block_fault("Documents", "dump.rt", ("documents", "consumed"))
    for name in RAW:
        yield f"the fields of {name}", raw_fault(name)
    yield from type_faults()
    yield from version_faults()


if __name__ == "__main__":
    for name, fault in faults():
        print(name, fault or "is right")
