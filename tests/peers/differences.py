"""Which differences between our text of a document and a peer's have a name: docs/DIFFERENCES.md says each in a row.

Ours is in MongoDB's layout. A peer's text must have the same bytes, but for blanks between its tokens and for scalars for
which a rule says what the peer writes: the tree of our text, with these scalars as the peer has them, is written again and
compared.
"""
import json
import re
import struct

import forms

BLANKS = "blanks"
WRITTEN = json.JSONEncoder(ensure_ascii=False).encode


class Number(str):
    """A number as it is written."""


class Pairs(list):
    """The members of an object, in their order."""


def tree(text):
    return json.loads(text, object_pairs_hook=Pairs, parse_int=Number, parse_float=Number, parse_constant=Number)


def written(it):
    """The compact text of a tree."""
    if isinstance(it, Pairs):
        return "{" + ",".join(f"{WRITTEN(key)}:{written(inner)}" for key, inner in it) + "}"
    if isinstance(it, list):
        return "[" + ",".join(map(written, it)) + "]"
    return it if isinstance(it, Number) else WRITTEN(it)


def without_blanks(text):
    """The text without the blanks that are not in a string."""
    return re.sub(r'("(?:[^"\\]|\\.)*")|[ \n]+', r"\1", text)


def explained(value, ours, theirs, rules, names):
    """Our tree with the peer's scalars that a rule explains, whose names are added to the list."""
    kind, content = value
    if kind == "Document" and keys(ours) == keys(theirs) is not None:
        return Pairs((key, explained(inner, a, b, rules, names)) for (_, inner), (key, a), (_, b) in zip(content, ours, theirs))
    if kind == "Array" and type(theirs) is list and len(ours) == len(theirs):
        return [explained(inner, a, b, rules, names) for inner, a, b in zip(content, ours, theirs)]
    if kind == "JavaScriptCodeWithScope" and keys(ours) == keys(theirs):
        scope = explained(("Document", content[1]), ours[1][1], theirs[1][1], rules, names)
        return Pairs([ours[0], (ours[1][0], scope)])
    if ours == theirs and type(ours) is type(theirs):
        return ours
    name = next((name for name, rule in rules.get(kind, {}).items() if rule(content, theirs)), None)
    names.extend([name] if name else [])
    return theirs if name else ours


def keys(it):
    return [key for key, _ in it] if isinstance(it, Pairs) else None


# ---- rules: what a peer writes of a content, and we do not

def pattern_of(text):
    return int.from_bytes(struct.pack(">d", float(text)), "big")


def double_text(content, theirs):
    """Other digits or another layout of the same double, under $numberDouble."""
    return keys(theirs) == ["$numberDouble"] and isinstance(theirs[0][1], str) and pattern_of(theirs[0][1]) == content


def double_number(content, theirs):
    """The same of a JSON number with a point or an exponent, which a finite double is in the relaxed form."""
    return isinstance(theirs, Number) and not set(".eE").isdisjoint(theirs) and pattern_of(theirs) == content


def is_later(content, theirs):
    """A date past the year 9999 as a string."""
    return content > forms.LAST_RELAXED_DATE and keys(theirs) == ["$date"] and isinstance(theirs[0][1], str) and "-" in theirs[0][1]


def reference(content, theirs):
    """A DBRef in the place of a pointer."""
    return theirs == Pairs([("$ref", content[0]), ("$id", Pairs([("$oid", content[1].hex())]))])


IN_ANY_FORM = {
    "libbson": {},
    "json_util": {"DbPointer": {"pointers as references": reference},
                  "Undefined": {"undefined as null": lambda _, theirs: theirs is None},
                  "Symbol": {"symbols as strings": lambda content, theirs: theirs == content}},
}
IN_RELAXED = {"libbson": {"DateTime": {"dates past 9999 as strings": is_later}}, "json_util": {}}


def rules(peer, is_relaxed):
    """Of each kind its rules by name."""
    double = double_number if is_relaxed else double_text
    return {"Double": {"layout of doubles": double}, **IN_ANY_FORM[peer], **(IN_RELAXED[peer] if is_relaxed else {})}


def names_of(peer):
    """The names of all differences between its texts and ours."""
    found = {name for is_relaxed in (False, True) for its in rules(peer, is_relaxed).values() for name in its}
    return found | ({BLANKS} if peer == "libbson" else set())
