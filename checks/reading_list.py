"""What the clauses of `run` and of the laws reach: the list of an auditor, and whether docs/READING.md is that list.

    python3 checks/reading_list.py [--write]

The clauses of `run` stand in crates/minerful_core/src/program.rt, those of the inputs and outputs that it takes in
crates/decl_outside/src. A law is a public function without code, in any file
of a crate's src/. From the definitions that these clauses name, each definition of this repository's specs/ folders that
is named in turn is followed, also where it is handed on or has another name where it is used. Types of the code
(`declared`) and modules of the kit aren't. Each file stands behind all that it imports, the low crates first. Of each
the lines are counted, and of these the lines of definitions that are reached; the others serve contracts of lower crates
alone. A second list has what the laws reach and `run` doesn't, a third one the laws.

Ends with 1 where docs/READING.md lists other files, another order, other lines or other laws. With --write it puts the
rows right, and leaves the sentence of each row as it is.
"""

import argparse
import glob
import os
import re
import sys
from dataclasses import dataclass, field

ROOT = os.path.join(os.path.dirname(os.path.abspath(__file__)), "..")
TOP = "crates/minerful_core/src/program.rt"
TRAITS = ["crates/decl_outside/src/inputs.rt", "crates/decl_outside/src/sink.rt"]
LIST = "docs/READING.md"

IMPORT = re.compile(r"^(?:pub |ghost )*use Rattle\.(\w+)\.specs\.([\w.]*\w)(?:\.\{([^}]*)\})?", re.MULTILINE)
DEFINED = re.compile(r"^ *(?:abbrev |unfoldable )(?:pub )?([^\s:(]+)|^ *(?:pub )?(?:record|data) ([^\s:(]+)", re.MULTILINE)
MUTUAL = re.compile(r"^(?:abbrev |unfoldable )mutual", re.MULTILINE)
IN_MUTUAL = re.compile(r"^  (?:pub )?([^\s:(]+) :", re.MULTILINE)
CONSTRUCTOR = re.compile(r"^ +(\w+) :", re.MULTILINE)
WORD = re.compile(r"[\w◌>=+*.\-']+")
FIELD = re.compile(r"^ +pub (\w+) :", re.MULTILINE)
LAW = re.compile(r"^pub fn (\w+)\(\)\n((?:    .*\n)+)\{\}", re.MULTILINE)

# The tables of the list, by their headings: `run`, what the laws reach besides, and the laws.
OF_RUN, OF_LAWS, LAWS = "## What `run` reaches", "## What the laws reach besides", "## The laws"
ROW = re.compile(r"^\| `(crates/[^`]+)` \| (\d+) \| (\d+) \| (.*) \|\n", re.MULTILINE)
LAW_ROW = re.compile(r"^\| `(crates/[^`]+)` \| (.*) \|\n", re.MULTILINE)


def text_of(path):
    with open(os.path.join(ROOT, path), encoding="utf-8") as file:
        return file.read()


def words_of(text):
    """The words of a text without its comments. `a.b` counts as both."""
    code = re.sub(r"(?:--|//).*", "", text)
    return {part for word in WORD.findall(code) for part in [word, *word.split(".")]}


@dataclass
class File:
    """A file of specs/: its paragraphs by the names that they define, and where its other names come from."""

    path: str
    paragraphs: list = field(default_factory=list)
    defines: dict = field(default_factory=dict)
    imports: dict = field(default_factory=dict)
    reached: set = field(default_factory=set)

    def __post_init__(self):
        text = text_of(self.path)
        self.lines = text.count("\n")
        self.imports = imported(text)
        self.paragraphs = paragraphs_of(text)
        for place, paragraph in enumerate(self.paragraphs):
            for names in DEFINED.findall(paragraph):
                self.defines[names[0] or names[1]] = place
            if MUTUAL.search(paragraph):
                self.defines |= {name: place for name in IN_MUTUAL.findall(paragraph)}
            if re.search(r"^ *(?:pub )?data ", paragraph, re.MULTILINE):
                self.defines |= {name: place for name in CONSTRUCTOR.findall(paragraph)}

    def words(self, place):
        """What a paragraph names. The fields of a record are its own."""
        return words_of(self.paragraphs[place]) - set(FIELD.findall(self.paragraphs[place]))

    def lines_of(self, places):
        return sum(len(self.paragraphs[place].strip("\n").split("\n")) for place in places)


def paragraphs_of(text):
    """The parts between empty lines. Fields of a record that stand behind an empty line belong to the record."""
    found = []
    for part in text.split("\n\n"):
        if found and part.startswith(" ") and not DEFINED.search(part):
            found[-1] += "\n\n" + part
        else:
            found.append(part)
    return found


def imported(text):
    """For each name that is imported from specs/ of this repository, its file and its name there."""
    found = {}
    for crate, module, names in IMPORT.findall(text):
        path = f"crates/{crate}/specs/{module.replace('.', '/')}.antt"
        if not module.startswith("declared") and os.path.exists(os.path.join(ROOT, path)):
            each = [name.strip().split(" as ") for name in names.split(",") if name.strip()]
            found |= {name[-1]: (name[0], path) for name in each}
    return found


def reach(name, path, files):
    """Follows a name of a file, and all that its definition names."""
    if path not in files:
        files[path] = File(path)
    file = files[path]
    place = file.defines.get(name)
    if place is None and name in file.imports:
        reach(*file.imports[name], files)
    if place is None or place in file.reached:
        return
    file.reached.add(place)
    for word in sorted(file.words(place)):
        if word in file.imports:
            reach(*file.imports[word], files)
        elif word in file.defines:
            reach(word, path, files)


def clauses_of_run():
    """The head of `run`: its conditions and clauses."""
    text = text_of(TOP)
    start = text.index("pub fn run")
    return text[start : text.index("\n{\n", start)]


def clauses_of_trait(path):
    text = text_of(path)
    start = text.index("pub trait")
    return text[start : text.index("\n}\n", start)]


def behind(path, files, found):
    """Puts the file into the list, behind all that it imports."""
    for _, other in files[path].imports.values():
        if other in files and other not in found:
            behind(other, files, found)
    if path not in found:
        found.append(path)


def crates():
    return [line.split(":")[0] for line in text_of("crates.txt").splitlines()]


def laws():
    """For each file with laws their names and clauses, in the order of the crates."""
    for crate in crates():
        for path in sorted(glob.glob(os.path.join(ROOT, "crates", crate, "src", "*.rt"))):
            found = LAW.findall(text_of(path))
            if found:
                yield os.path.relpath(path, ROOT), dict(found)


def follow(path, clauses, files):
    """Follows what some clauses of a file of src/ name."""
    names = imported(text_of(path))
    for word in sorted(words_of(clauses) & names.keys()):
        reach(*names[word], files)


def rows_of(files, found, before):
    """Of each file that has more paragraphs than before: its path, its lines, and those of what is more."""
    more = {path: files[path].reached - before.get(path, set()) for path in found}
    kept = [path for path in found if path not in before or more[path]]
    return [(path, files[path].lines, files[path].lines_of(more[path])) for path in kept]


def reading_order():
    """The rows of `run`, and those of the laws besides."""
    files, found = {}, []
    follow(TOP, clauses_of_run(), files)
    for path in TRAITS:
        follow(path, clauses_of_trait(path), files)
    of_run = {path: set(file.reached) for path, file in files.items()}
    for path, told in laws():
        follow(path, "\n".join(told.values()), files)
    for path in sorted(files):
        behind(path, files, found)
    found.sort(key=lambda path: crates().index(path.split("/")[1]))
    first = [(path, files[path].lines, files[path].lines_of(of_run[path])) for path in found if path in of_run]
    return first, rows_of(files, found, of_run)


def law_rows():
    return [(path, ", ".join(f"`{name}`" for name in told)) for path, told in laws()]


def parts_of(text):
    """The list, cut before each heading of a table, and what each table has behind it."""
    places = [text.index(heading + "\n") for heading in (OF_RUN, OF_LAWS, LAWS)]
    return [text[start:end] for start, end in zip([0, *places], [*places, len(text)])]


def with_rows(part, row, lines):
    """A part of the list with other rows in its table."""
    rows = list(row.finditer(part))
    return part[: rows[0].start()] + "".join(line + "\n" for line in lines) + part[rows[-1].end() :]


def write(first, besides):
    """Puts the rows of the list right, with the sentences that stand there."""
    head, *parts = parts_of(text_of(LIST))
    for place, wanted in enumerate((first, besides)):
        says = {found[1]: found[4] for found in ROW.finditer(parts[place])}
        lines = [f"| `{path}` | {lines} | {reached} | {says.get(path, 'TO SAY')} |" for path, lines, reached in wanted]
        parts[place] = with_rows(parts[place], ROW, lines)
    parts[2] = with_rows(parts[2], LAW_ROW, [f"| `{path}` | {names} |" for path, names in law_rows()])
    with open(os.path.join(ROOT, LIST), "w", encoding="utf-8") as file:
        file.write("".join([head, *parts]))


def told(rows):
    """The rows of a table without their sentences."""
    return [(path, int(lines), int(reached)) for path, lines, reached, _ in rows]


def differences(heading, wanted, listed):
    yield from (f"{LIST}, {heading}: lacks, or has with other numbers: {row}" for row in wanted if row not in listed)
    yield from (f"{LIST}, {heading}: has, but should not: {row}" for row in listed if row not in wanted)
    if listed != wanted and sorted(listed) == sorted(wanted):
        yield f"{LIST}, {heading}: has another order"


def main():
    options = argparse.ArgumentParser(description=__doc__.splitlines()[0])
    options.add_argument("--write", action="store_true", help=f"put the rows of {LIST} right")
    first, besides = reading_order()
    for name, rows in (("run", first), ("laws", besides)):
        for path, lines, reached in rows:
            print(f"{lines:>5} {reached:>5}  {name:<4} {path}")
    lines = dict(row[:2] for row in [*first, *besides])
    print(f"{sum(lines.values()):>5} {sum(row[2] for row in [*first, *besides]):>5}  in {len(lines)} files")
    if options.parse_args().write:
        write(first, besides)
    text = text_of(LIST)
    _, of_run, of_laws, of_law_files = parts_of(text)
    faults = [
        *differences(OF_RUN, first, told(ROW.findall(of_run))),
        *differences(OF_LAWS, besides, told(ROW.findall(of_laws))),
        *differences(LAWS, law_rows(), LAW_ROW.findall(of_law_files)),
        *(f"{LIST} has a row without a sentence" for _ in range(text.count("TO SAY"))),
    ]
    print("\n".join(faults), end="\n" if faults else "")
    return int(bool(faults))


if __name__ == "__main__":
    sys.exit(main())
