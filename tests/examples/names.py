"""How a caller names the items of the library crates: the public paths, read from the sources."""
import os
import re

import sources

MODULE = re.compile(r"(?m)^pub mod (\w+);")
ITEM = re.compile(r"(?m)^pub (?:const )?(?:fn|struct|enum|trait|type|const) (\w+)")
EXPORT = re.compile(r"(?m)^pub use ([^;]+);")
# Names of the kit.
OF_KIT = {"Value": "serde_json::Value"}


def exported(path):
    """Each path that a `pub use` names, as its words, and the name that it has there."""
    start, brace, inner = re.sub(r"\s+", "", path.replace(" as ", "@")).partition("{")
    for it in inner.rstrip("},").split(",") if brace else [start]:
        named, _, other = it.partition("@")
        words = f"{start if brace else ''}{named}".split("::")
        yield words, other or words[-1]


def file_of(module):
    """The source of a module, whose first word is its crate."""
    return f"crates/{module[0]}/src/{'/'.join(module[1:]) or 'lib'}.rt"


def is_module(words):
    return os.path.exists(f"{sources.TOP}/{file_of(words)}")


def exports(module):
    """What a module exports by `pub use`: its words from the crate on, and the name that it has in the module."""
    for path in EXPORT.findall(sources.read(file_of(module))):
        for words, name in exported(path):
            if words[0] == "crate":
                words = [module[0], *words[1:]]
            elif is_module([*module, words[0]]):
                words = [*module, *words]
            yield words, name


def target(words):
    """What a path leads to: a module, as a list of its words, or an item, as its file and its name."""
    module = words[:1]
    for word in words[1:]:
        if not is_module(module):
            return None
        paths = [path for path, name in exports(module) if name == word]
        if is_module([*module, word]):
            module = [*module, word]
        elif word in ITEM.findall(sources.read(file_of(module))):
            return file_of(module), word
        elif paths:
            module = target(paths[0])
            if not isinstance(module, list):
                return module
        else:
            return None
    return module if is_module(module) else None


class Names:
    """The names of the public items of these crates."""

    def __init__(self, api, crates):
        self.crates = crates
        # The paths of each item, by its file and its name.
        self.paths = {}
        for crate in crates:
            self.walk([crate], [crate])
        public = {name: (os.path.relpath(it.file, sources.TOP), it) for name, it in api.public_names().items()}
        self.public = set(public)
        # The items of docs/API.md by their bare names, each with its name there, and the others by theirs.
        self.listed, self.others = {}, {}
        for name, (file, it) in public.items():
            if it.name == it.owner:
                self.listed.setdefault(name.rpartition("::")[2], []).append((file, name))
        for file, name in self.paths:
            self.others.setdefault(name, []).append((file, name))
        # The trait of each method whose name no other public item gives to one of its own.
        self.traits = {}
        owners = {}
        for name, (file, it) in public.items():
            if it.name != it.owner:
                owners.setdefault(name.rpartition("::")[2], []).append((file, it.owner))
        for method, [(file, owner), *more] in owners.items():
            if not more and re.search(rf"(?m)^pub trait {owner}\b", sources.read(file)):
                self.traits[method] = self.shortest(file, owner)

    def walk(self, module, path):
        """Notes what a module exports under a path."""
        for name in ITEM.findall(sources.read(file_of(module))):
            self.paths.setdefault((file_of(module), name), []).append([*path, name])
        for name in MODULE.findall(sources.read(file_of(module))):
            self.walk([*module, name], [*path, name])
        for words, name in exports(module):
            to = target(words)
            if isinstance(to, list):
                self.walk(to, [*path, name])
            elif to:
                self.paths.setdefault(to, []).append([*path, name])

    def shortest(self, file, name):
        """The path by which a caller names an item: in the first crate that has one, the shortest; or None."""
        paths = self.paths.get((file, name), [])
        return "::".join(min(paths, key=lambda it: (self.crates.index(it[0]), len(it)))) if paths else None

    def path(self, file, name, members):
        """The path of the item that an example in a file means by a name, or None if that is not one item."""
        if name in OF_KIT:
            return OF_KIT[name]
        found = self.listed.get(name) or self.others.get(name, [])
        if len(found) > 1:
            found = [it for it in found if all(f"{it[1]}::{member}" in self.public for member in members)]
        if len(found) > 1:
            found = [it for it in found if it[0] == file]
        return self.shortest(found[0][0], name) if len(found) == 1 else None
