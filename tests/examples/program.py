"""One program of the examples of the documentation: a module for each, with the `use` items that it needs."""
import os
import re
import textwrap

import sources

HERE = os.path.dirname(os.path.realpath(__file__))
# A string, a character or a comment, in which nothing is a name.
LITERAL = re.compile(r"""(?s)b?r(#*)".*?"\1|b?"(?:\\.|[^"\\])*"|b?'(?:\\[^']+|[^'\\])'|//[^\n]*""")
# The first name of a path: of a type or a constant, or of what is called or has the next name in it.
FIRST = re.compile(r"(?:(?<=\.\.)|(?<![\w.:]))(?:([A-Z]\w*)|([a-z]\w*)(?=\(|::))(?:::(\w+))?")
PRELUDE = {"Err", "None", "Ok", "Result", "Some", "String", "Vec", "drop", "bool", "char", "f64", "str"}
PRELUDE |= {f"{sign}{size}" for sign in "iu" for size in (8, 16, 32, 64, 128, "size")}
# What an example may use and need not make, each with the function of given.txt that makes it, and where that is another.
GIVEN = {"document": "document", "pairs": "pairs"}
OTHERS = {"crates/bson_store/src/indexed/into_iter.rt": {"pairs": "indexed_pairs"}}
# How many examples a function of the program calls.
CALLS = 6
BEFORE, AFTER = "pub(crate) fn example(rt: &HostRuntime, alloc: Global) -> anyhow::Result<()> {\n", "    Ok(())\n}\n"
END = """
fn end(rt: &HostRuntime, name: &str, outcome: anyhow::Result<()>) {
    if let Err(error) = outcome {
        let _ = println!(rt; "error: {error}");
    }
    let _ = println!(rt; "== {name}");
}
"""


def blocks_in(text):
    """The blocks of code in the documentation of a source, or of a part of it: each with its line, its kind and its code."""
    found, block = [], None
    for at, line in enumerate(text.split("\n"), 1):
        words = re.match(r" *//[/!] ?(.*)", line)
        if words and block is None and words[1].startswith("```"):
            block = (at, words[1][3:], [])
        elif words and block is not None and words[1] != "```":
            block[2].append(f"{words[1]}\n")
        elif block is not None:
            # (one that does not end before the comment does is of no kind)
            found.append((block[0], block[1] if words else "?", "".join(block[2])))
            block = None
    return found


class Example:
    """An example, and what it needs."""

    def __init__(self, file, line, body, number):
        self.file, self.line, self.body = file, line, body
        self.place = f"{file}:{line}"
        self.module = f"{re.sub(r'^crates/|[.]rt$', '', file).replace('/src/', '_').replace('/', '_')}_{number}"
        self.code = LITERAL.sub('""', body)
        # Filled in by look_up().
        self.uses, self.crates, self.unknown = set(), set(), []

    def says(self):
        """The lines that it says it prints: its comments."""
        return re.findall(r"(?:^ *|[;,] )// (.*)$", self.body, re.M)

    def given(self):
        """What it uses and does not make, each with the function of given.txt that makes it."""
        makers = {**GIVEN, **OTHERS.get(self.file, {})}
        made = re.findall(r"\blet (?:mut )?(\w+)", self.code)
        return {it: makers[it] for it in GIVEN if it not in made and re.search(rf"(?<!\.)\b{it}\b", self.code)}

    def look_up(self, names):
        """Finds the paths of the names in it, and the crates that it uses."""
        found = {}
        for upper, lower, then in FIRST.findall(self.code):
            found.setdefault(upper or lower, set()).update({then} - {""})
        for name, members in found.items():
            if name in names.crates:
                self.crates.add(name)
            elif name not in PRELUDE:
                path = names.path(self.file, name, members)
                (self.uses.add if path else self.unknown.append)(path or name)
        self.uses |= {names.traits[it] for it in re.findall(r"(?<!\.)\.(\w+)\(", self.code) if it in names.traits}
        self.crates |= {it.partition("::")[0] for it in self.uses}

    def start(self):
        """The lines that make what is given."""
        return "".join(f"    let mut {name} = given::{maker}(alloc)?;\n" for name, maker in self.given().items())

    def text(self):
        """Its module."""
        uses = sorted({*self.uses, "std::alloc::Global", *["crate::given"] * bool(self.given())})
        lines = "".join(f"use {it};\n" for it in uses)
        return f"//! {self.place}\n{lines}\n{BEFORE}{self.start()}{textwrap.indent(self.body, '    ')}{AFTER}"

    def body_in(self, text):
        """Its code in the text of its module."""
        inner = text.partition(BEFORE)[2].removesuffix(AFTER)
        return textwrap.dedent(inner.removeprefix(self.start()))


def examples_in(files):
    """Each example of the files, in their order."""
    return [Example(file, line, code, number) for file in files
            for number, (line, _, code) in enumerate(blocks_in(sources.read(file)), 1)]


def main_of(examples):
    """The root of the program: it calls each example, and then prints a line with the name of its module."""
    parts = [examples[at : at + CALLS] for at in range(0, len(examples), CALLS)]
    text = "//! The examples of the documentation.\n#![tactic(auto)]\n\n"
    text += "".join(f"mod {it};\n" for it in sorted(["given", *(it.module for it in examples)]))
    text += "use std::alloc::Global;\n\nfn main(rt: HostRuntime) {\n    let alloc = rt.alloc();\n"
    text += "".join(f"    part_{at}(&rt, alloc);\n" for at in range(len(parts))) + "}\n"
    for at, part in enumerate(parts):
        calls = [f'    end(rt, "{it.module}", {it.module}::example(rt, alloc));\n' for it in part]
        text += f"\nfn part_{at}(rt: &HostRuntime, alloc: Global) {{\n{''.join(calls)}}}\n"
    return text + END


def write(folder, examples):
    """Writes the sources of the program below a folder."""
    os.makedirs(f"{folder}/src")
    with open(f"{HERE}/given.txt", encoding="utf-8") as file:
        texts = {"main": main_of(examples), "given": file.read()}
    for name, text in [*texts.items(), *((it.module, it.text()) for it in examples)]:
        with open(f"{folder}/src/{name}.rt", "w", encoding="utf-8") as file:
            file.write(text)


def expected(examples):
    """What the program prints if each example prints what it says."""
    return "".join(f"{line}\n" for it in examples for line in [*it.says(), f"== {it.module}"])


def printed(text):
    """The lines that each example printed, by its module."""
    found, lines = {}, []
    for line in text.split("\n"):
        if line.startswith("== "):
            found[line[3:]], lines = lines, []
        else:
            lines.append(line)
    return found
