"""The tests of the Rust package: with each of its features, on the rows, the fields of its errors beside those of the package
of Python, and its examples."""
import os
import re
import shutil
from pathlib import Path

from python_parts import DEBIAN, MOST_LINES, has_bson, where
from rows import rows
from tally import LANGUAGES, differs, example, has, judge_lines, printed_by, run, wants_status_0

HERE = Path(__file__).resolve().parent
EXAMPLES = LANGUAGES / "rust/examples"
# Where Debian puts packages of Rust, and those that each feature needs.
CRATES = Path("/usr/share/cargo/registry")
FEATURES = {"serde": ("serde", "serde_derive"), "serde_json": ("serde_json",)}
# Fewer tests than these are a sign that some are not found: without features, and with each.
LEAST_TESTS = {"": 52, "serde": 62, "serde_json": 58, "serde,serde_json": 68}


def found_features(package):
    """The features that the package can be built with. The others have no packages, and then bring nothing."""
    (package / ".cargo").mkdir()
    replaced = f'[source.crates-io]\nreplace-with = "debian"\n[source.debian]\ndirectory = "{CRATES}"\n'
    if CRATES.exists():
        (package / ".cargo/config.toml").write_text(replaced)
    found, manifest = [], package / "Cargo.toml"
    for feature, crates in FEATURES.items():
        if all([*CRATES.glob(f"{it}-[0-9]*")] for it in crates):
            found.append(feature)
            continue
        names = " or ".join(f"librust-{it.replace('_', '-')}-dev" for it in crates)
        print(f"not tried, since there is no {names}: the feature {feature} of the wrapper in Rust")
        text = re.sub(rf"(?m)^{feature} = \{{.*\n", "", manifest.read_text())
        manifest.write_text(text.replace(f'{feature} = ["dep:{feature}"]', f"{feature} = []"))
    return found


def try_rust(tally, room, cases, vbson):
    if not (has("cargo") and has("rustc")):
        return
    package = Path(f"{room}/rust")
    shutil.copytree(LANGUAGES / "rust", package)
    features = found_features(package)
    block = example("rust")
    shutil.copy(HERE / "documents.rs", package / "examples")
    variables = {**os.environ, "VBSON_LIB": str(LANGUAGES / "out/lib"), "CARGO_TARGET_DIR": f"{room}/target", "RUSTFLAGS": "-Dwarnings"}
    how = {"cwd": package, "env": {**variables, "RUSTDOCFLAGS": "-Dwarnings"}}
    for names in ["", *features, *([",".join(features)] if len(features) > 1 else [])]:
        try_tests(tally, names, how)
    run_example = ["cargo", "run", "--offline", "--quiet", "--features", ",".join(features), "--example"]
    if "serde" in features:
        (package / "examples/readme.rs").write_text(f"fn main() -> Result<(), Box<dyn std::error::Error>> {{\n{block}    Ok(())\n}}\n")
        tally.told("the example in Rust", differs(run([*run_example, "readme"], **how), printed_by(block, "//")))
    judge_lines(tally, "Rust", cases, [*run_example, "documents"], **how)
    judge_lines(tally, "Rust, with its fields", [*field_cases(vbson)], [*run_example, "documents"], **how)
    if "serde_json" in features:
        shutil.copy(HERE / "json.rs", package / "examples")
        judge_lines(tally, "serde_json", value_cases(vbson), [*run_example, "json"], **how)
    try_rust_examples(tally, room, features, how)


def try_tests(tally, features, how):
    """The package's own tests and those of its documentation, with features between commas."""
    name = f"cargo test --features '{features}'"
    ran = wants_status_0(tally, name, ["cargo", "test", "--offline", "--quiet", "--features", features], **how)
    tests = sum(map(int, re.findall(r"(\d+) passed", ran.stdout))) if ran else 0
    least = LEAST_TESTS[features]
    tally.told(f"the number of tests of {name}", None if tests >= least else f"{tests} of at least {least}")
    wants_status_0(tally, f"cargo doc --features '{features}'", ["cargo", "doc", "--offline", "--quiet", "--no-deps", "--features", features], **how)


# ---- the fields of errors

def fields_of(error):
    """What documents.rs writes of an error."""
    numbers = ["" if it is None else str(it) for it in (error.code, error.line, error.column, error.offset)]
    path = "\1".join(f"index {it}" if isinstance(it, int) else f"key {it}" for it in error.path)
    return "\0".join([*numbers, error.message, error.reason, path])


def fields_by_python(vbson, call, given):
    """What documents.rs answers to a line with this call."""
    try:
        if call == "lines":
            return [f"{number}\0{fields_of(it)}" for number, it in vbson.convert_lines(given, "relaxed", **vbson.SPECIFIED)[1]]
        if call == "dump":
            return [f"{number}\0{start}\0{fields_of(it)}" for number, start, it in vbson.decode_documents(given, "relaxed", **vbson.SPECIFIED)[1]]
        vbson.decode(given, "show") if call == "bytes" else vbson.convert(given, **vbson.SPECIFIED)
    except vbson.Error as error:
        return [fields_of(error)]
    return []


def field_cases(vbson):
    """Each text of the rows, also on several lines, and in blocks; and documents with each damage, alone and in dumps."""
    import damaged

    texts = [text for row in rows() if row.on_cli() for text in [row.on_cli()[1]]]
    given = [("text", it) for it in texts]
    given += [("text", b"\n" + it.replace(b",", b",\n").replace(b":", b"\n:") + b"\n\n") for it in texts]
    given += [("lines", b"\n".join(texts[at:at + 40])) for at in range(0, len(texts), 40)]
    given += [("lines", b"\xef\xbb\xbf" + it) for it in texts]
    wholes = damaged.documents()
    broken = [it for data in wholes[::8] for it in damaged.damages(data)]
    given += [("bytes", it) for it in broken]
    given += [("dump", wholes[at % 200] + it + wholes[0]) for at, it in enumerate(broken)]
    for number, (call, it) in enumerate(given):
        answer = "\n".join(fields_by_python(vbson, call, it))
        yield f"the fields of {call} {number}, {it[:40]!r}", f"{call} {it.hex()}", f"0 {answer.encode(errors='surrogatepass').hex()}"


# ---- values of serde_json

def value_cases(vbson):
    """Each text of the rows, which comes out of a value as it is converted."""
    lines = [(row, form, text) for row in rows() if row.on_cli() for form, text in [row.on_cli()[:2]] if form != "show"]
    return [(row.place, f"{form} {text.hex()}", by_values(vbson, form, text)) for row, form, text in lines]


def by_values(vbson, form, text):
    """What json.rs answers: the conversion, with doubles and in order."""
    try:
        return f"0 {vbson.convert(text, form).encode().hex()}"
    except vbson.Error as error:
        return f"1 {str(error).encode().hex()}"


# ---- examples

def try_rust_examples(tally, room, features, how):
    """The examples of languages/rust/examples, whose output and bytes are those of the same work by PyMongo."""
    for path in sorted(EXAMPLES.glob("*.rs")):
        lines = len(path.read_text().splitlines())
        tally.told(f"the length of {path.name}", None if lines <= MOST_LINES else f"{lines} lines of at most {MOST_LINES}")
    if not has_bson():
        print("not tried, since there is no python3-bson: the examples of languages/rust/examples")
        return
    words = ["cargo", "build", "--offline", "--quiet", "--examples", "--features", ",".join(features)]
    if wants_status_0(tally, "cargo build --examples", words, **how):
        programs = f"{room}/target/debug/examples"
        tally.counted("rust_examples.py", run([DEBIAN, "-B", HERE / "rust_examples.py", programs, room], env=where()))
