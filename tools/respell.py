#!/usr/bin/env python3
"""Brings the repository's own names to today's spelling: once, behind the kit's port.py, over what that left.

  tools/respell.py [TOP]     TOP is a checkout of the repository (default: the folder that this one stands in)

tools/respelled.tsv has a row for each name: as it was, as it is, and, where it is so in some files alone, those files.
Turned are the definitions, lemmas, theorems, fields and locals of crates/, in code and in what comments quote; labels
of clauses; the edits, in must-fail/ and tests/wrong, with their projections; names in pages, pictures, tests and words.
Functions of src/, C names, strings, inputs and outputs keep their names, and so do names of files. A second run changes
nothing.
"""
import collections
import glob
import os
import re
import subprocess
import sys
import tempfile

HERE = os.path.dirname(os.path.realpath(__file__))
TABLE = os.path.join(HERE, "respelled.tsv")
# a name, whole: it is no part of a longer one, nor of a path
WORD = re.compile(r"(?<![\w'′/-])[A-Za-z][\w'′]*(?:-[\w'′]+)*(?![\w'′/-])")
# labels that port.py gives where a clause had none, and that say nothing
LABELS = {
    "crates/views/src/counts.rt": [
        ("requires counted {", "requires recoverable {"),
        ("requires counted_2 {", "requires unrecoverable {"),
        ("requires counted_3 {", "requires others {"),
    ],
}
# facts of console, which functions and labels share a name with: in clauses, imports and specs alone
FACTS = {
    "placed": "IsPlaced", "sound": "IsSound", "ready": "IsReady", "held": "IsHeld", "within": "IsWithin",
    "unmoved": "Unmoved", "with_state": "WithState", "written": "Written", "answered": "Answered",
}
FACT_FILES = [
    "crates/console/specs/Places.antt",
    "crates/console/src/lib.rt",
    "crates/*_main/src/*.rt",
    "crates/*_main/proofs/**/Invariants.antt",
]
CLAUSE = re.compile(r"^ *(?:requires|ensures)(?: \w+)? \{(.*)\}$")
IMPORT = re.compile(r"^(?:ghost )?use Rattle\.console\.specs\.Places\.\{(.*)\};?$")
# pages, and other texts that name definitions
TEXTS = ["docs/pictures/*.svg", "words/names.txt", "tests/manual", "tests/names", "tests/book", "tests/columns",
         "tests/pictures/src/*.rs", "tests/pictures/tests/*.rs"]


def read(path):
    with open(path, encoding="utf-8") as f:
        return f.read()


def write(path, text):
    if text != read(path):
        with open(path, "w", encoding="utf-8") as f:
            f.write(text)
        return 1
    return 0


def kit_notes():
    page = subprocess.run(["rt", "doc"], check=True, capture_output=True, text=True).stdout.strip()
    folder = os.path.join(os.path.dirname(page), "port", "notes")
    found = glob.glob(os.path.join(folder, "*-names-are-in-snake-case", "snake.py"))
    if not found:
        sys.exit("respell.py: the kit has no snake.py")
    return found[0]


def rows(path):
    for line in read(path).splitlines():
        row = line.split("\t")
        if len(row) >= 2 and not line.startswith("#"):
            yield row


def turn(text, table):
    return WORD.sub(lambda m: table.get(m.group(0), m.group(0)), text)


def turn_spans(text, table):
    """names in code spans and fenced blocks of a page"""
    fence = re.compile(r"(^ *```[^\n]*\n.*?^ *```)|(`[^`\n]+`)", re.S | re.M)
    return fence.sub(lambda m: turn(m.group(0), table), text)


INNER = r"\((?:[^()]|\([^()]*\))*\)"
FIELD = r"\.(?:[a-z]\w*|\d)"


def tight(text):
    """`b .now .x` to `b.now.x`, `(f b .x)` to `(f b).x`; an edit has one line for one line"""
    before = None
    while before != text:
        before = text
        # an application that is taken the field of, up to the bracket or operator before it
        text = re.sub(rf"(?<![\w').])([\w']+(?: (?:[\w'.]+|{INNER}))+) ({FIELD})(?!\w)",
                      lambda m: f"({m.group(1)}){m.group(2)}", text)
        text = re.sub(rf"([\w']+(?:\.[\w']+)*|{INNER}) ({FIELD})(?!\w)", r"\1\2", text)
        # brackets round a name and its fields, or round brackets and theirs
        text = re.sub(rf"(?<![\w'(])\(([\w']+(?:\.[\w']+)+)\)", r"\1", text)
        text = re.sub(rf"\(({INNER}(?:{FIELD})+)\)", r"\1", text)
    return text


# imports, whose words stand apart
WORDS = [(f"_{sign}_", f"◌{sign}◌") for sign in ("%", "&&", "||", "/", "≡", "≤", "<")]
WORDS += [("′", "'"), ("Rattle·", "Rattle."), ("lib.Bits.bitXor", "bit_xor"), ("lib.Bits.bit_xor", "bit_xor"),
          (".the-variants", ".TheVariants")]


def turn_edit(text, table):
    lines, file = [], ""
    for line in text.split("\n"):
        m = re.match(r"(file|old|new|theorem): (.*)$", line, re.S)
        if m is None:
            lines.append(turn_spans(line, table))
            continue
        word, what = m.group(1), m.group(2)
        if word == "file":
            file = what
            lines.append(line)
            continue
        if file.endswith(".antt"):
            what = turn(what, table)
            for old, new in WORDS:
                what = what.replace(old, new)
            what = tight(what)
        elif word == "theorem":
            what = turn(what, table)
        lines.append(f"{word}: {what}")
    return "\n".join(lines)


def fact_line(line, all_of_it):
    """a line of a file that knows console's facts"""
    if all_of_it:
        return line if line.startswith("--") else turn(line, FACTS)
    found = CLAUSE.match(line) or IMPORT.match(line)
    if found is None:
        return line
    start, end = found.span(1)
    return line[:start] + turn(line[start:end], FACTS) + line[end:]


def turn_facts(path):
    text = read(path)
    if "Rattle.console.specs.Places" not in text and not path.endswith("Places.antt"):
        return 0
    return write(path, "\n".join(fact_line(line, path.endswith(".antt")) for line in text.split("\n")))


def main():
    top = os.path.realpath(sys.argv[1] if len(sys.argv) > 1 else os.path.dirname(HERE))
    os.chdir(top)
    snake = kit_notes()
    kits = {row[0]: row[1] for row in rows(os.path.join(os.path.dirname(snake), "snake.tsv"))}
    everywhere, placed, landed = {}, collections.defaultdict(dict), {}
    for row in rows(TABLE):
        old, new = row[0], row[1]
        ported = kits.get(old, old)
        if len(row) > 2 and row[2]:
            for place in row[2].split():
                placed[place][old] = ported, new
            continue
        landed[old] = new
        if ported != new:
            everywhere[ported] = new
        if old != new:
            everywhere.setdefault(old, new)
    turned = 0
    for path, names in sorted(placed.items()):
        text = read(path)
        stand = set(WORD.findall(text))
        table = {old if old in stand else ported: new for old, (ported, new) in names.items() if new not in stand}
        turned += write(path, turn(text, table))
    with tempfile.NamedTemporaryFile("w", suffix=".tsv", encoding="utf-8", delete=False) as f:
        f.writelines(f"{old}\t{new}\n" for old, new in sorted(everywhere.items()))
    subprocess.run([sys.executable, snake, "--table", f.name, "--only", "antt,rt", "--prose", "file", "crates"],
                   check=True)
    os.unlink(f.name)
    for path, pairs in LABELS.items():
        text = read(path)
        for old, new in pairs:
            text = text.replace(old, new)
        turned += write(path, text)
    facts = sorted(path for pattern in FACT_FILES for path in glob.glob(pattern, recursive=True))
    turned += sum(turn_facts(path) for path in facts)
    edits = 0
    for path in sorted(glob.glob("crates/*/must-fail/**/*.edit", recursive=True) + glob.glob("tests/wrong/*.edit")):
        edits += write(path, turn_edit(read(path), landed))
    pages = 0
    for path in sorted(set(glob.glob("docs/**/*.md", recursive=True) + ["README.md"]) - {"docs/PORT.md"}):
        pages += write(path, turn_spans(read(path), landed))
    # in other texts a name with a dash may be a word of English
    camel = {old: new for old, new in landed.items() if "-" not in old and re.search("[a-z0-9][A-Z]", old)}
    for path in sorted(path for pattern in TEXTS for path in glob.glob(pattern)):
        text = turn(read(path), camel)
        if path == "words/names.txt":
            # the last column quotes definitions
            text = re.sub(r"(?m)^(.*\|)([^|\n]* \.[^|\n]*)$", lambda m: m.group(1) + tight(m.group(2)), text)
        pages += write(path, text)
    print(f"{len(landed)} names; {turned} files by place, {edits} edits, {pages} pages and other texts turned")


main()
