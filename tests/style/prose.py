"""The prose of a document: its sentences, without code, and what the style sheet counts in them."""
import re

LONGEST = 35
# The specification gives this sentence word for word.
THEOREM = (
    "Where memory is found, each writer accepts a value exactly if its doubles are zeros, infinities or NaNs, giving its "
    "grammar's one tree for the normal form; plain values' canonical trees are equal exactly if their normal forms are, and "
    "read back to them, relaxed trees to the narrowed forms; the reader accepts exactly the full grammar's trees, with their "
    "meaning."
)
# Words of the project's former dialect, each with the plain words for it.
BANNED = (
    (r"\bbehind\b", "after, following"),
    (r"\b(?:stands?|stood|standing)\b(?! for)", "is, occurs"),
    (r"\b(?:tells|told)\b", "reports, says"),
    (r"\btakes\b", "accepts, needs"),
    (r"\b(?:take|taking|taken|took) (?:the |no |so much )?(?:memory|allocator|time)\b", "allocate, need"),
    (r"\bcomes? back\b", "reads back"),
    (r"\bbeside\b", "next to, compared with"),
    (r"\bthe (?:gate|book)\b", "./test; the specification"),
    (r"\bwanting\b", "missing"),
    (r"\b[Ss]uch\b(?! as\b)", "this, these"),
    (r"^(?:\W*)Of (?!course)|[:;] of ", "For X, .. or X's .."),
    (r"\btwice in its object\b", "a duplicate key"),
    (r"(?<![Tt]here )\b(?:is|are) (?:no|none)\b", "is not a"),
    (r"\ball else\b", "everything else"),
    (r"\b(?:exactly|just) where\b", "if and only if"),
    (r"\blet go\b", "freed"),
    (r"\bthe very\b", "exactly the"),
    (r"\bverdicts?\b", "diagnostic"),
)
ITEM = re.compile(r"\s*(?:[-*]|\d+\.)\s+")
END = re.compile(r"(?<=[.!?])[\"*)\]]*\s+(?=[A-Z`(*\[])")
MACRO = re.compile(r"\.(?:TP|PP|SH|SS|IP|SY|YS|TH|OP)")


def paragraphs(path, text):
    """Each paragraph, list item and table cell of a document."""
    return of_manual(text) if path.endswith((".1", ".3")) else of_markdown(text)


def of_markdown(text):
    fenced, open_ = False, []
    for line in [*text.split("\n"), ""]:
        starts = line.startswith(("```", "#", "|")) or not line.strip() or ITEM.match(line)
        if open_ and (starts or fenced):
            yield " ".join(open_)
            open_ = []
        if line.startswith("```"):
            fenced = not fenced
        elif fenced or line.startswith("#") or not line.strip() or not open_ and line.startswith("    "):
            pass
        elif line.startswith("|"):
            cells = re.split(r"(?<!\\)\|", line.strip().strip("|"))
            yield from (it.strip() for it in cells if re.search(r"\w", it))
        else:
            item = ITEM.match(line)
            open_.append(line[item.end() if item and not open_ else 0 :].strip())


def of_manual(text):
    shown, open_ = True, []
    for line in [*text.split("\n"), ".PP"]:
        if line.startswith((".EX", ".nf", ".EE", ".fi")):
            shown = line.startswith((".EE", ".fi"))
        elif MACRO.match(line):
            if open_:
                yield re.sub(r"\s+([.,;:)])", r"\1", " ".join(open_))
            open_ = []
        elif shown and not line.startswith('.\\"'):
            words = re.sub(r"^\.(?:B|I|BR|RB|IR|RI|BI|MR)\s+", "", line)
            open_.append(re.sub(r"\\f[RBIP]|\"", "", words.replace("\\-", "-").replace("\\c", "")))


def sentences(path, text):
    """The sentences of a document, code as one word each, and the sentence of the specification left out."""
    for paragraph in paragraphs(path, text):
        plain = re.sub(r"!?\[([^\]]*)\]\([^)]*\)", r"\1", paragraph.replace(THEOREM, ""))
        plain = re.sub(r"``.*?``|`[^`]*`", "`code`", plain).replace("..", "…")
        yield from (it.strip() for it in END.split(plain) if it.strip())


def long_ones(path, text):
    """The sentences that are too long."""
    return [it for it in sentences(path, text) if sum(bool(re.search(r"\w", word)) for word in it.split()) > LONGEST]


def banned_ones(path, text):
    """Each banned word with the words for it and its sentence."""
    return [f"'{found[0].strip()}' ({better}) in: {it}"
            for it in sentences(path, text) for words, better in BANNED for found in re.finditer(words, it)]
