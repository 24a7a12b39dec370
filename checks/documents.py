"""Whether README.md and docs/DEFINITIONS.md say what stands in the code.

    python3 checks/documents.py

README's table of refusals is tried against crates/decl_base: each row's status and line is that of a refusal of
specs/Refusal.antt, each refusal has its row, and the texts that src/refusal.rt derives are those lines. README's table
of options has the numbers and names of crates/minerful_words/specs/Table.antt. README's table of the clauses of `run`
and its table of crates name clauses that are there. Of docs/DEFINITIONS.md each module that is pointed to is there, with
the names beside it, and each clause stands at its function. Prints what differs, and ends with 1 where something does.
"""

import glob
import os
import re
import sys

from reading_list import File, imported, words_of

ROOT = os.path.join(os.path.dirname(os.path.abspath(__file__)), "..")

STATUS = re.compile(r"^status_of \(?refusal\.(\w+)[^)=]*\)? = status\.(\w+)", re.MULTILINE)
LINE = re.compile(r"^line_of \(?refusal\.(\w+)[^)=]*\)? =\s+(.*)$", re.MULTILINE)
CODE = re.compile(r"^code_of (\w+) = (\d+)", re.MULTILINE)
DERIVED = re.compile(r'#\[error\("([^"]*)"\)\]\s+(\w+)')
OPTION = re.compile(r'option (\d+) \(codes "([\w-]+)"\)')
OPTION_ROW = re.compile(r"^\| (\d+) \| `--([\w-]+)` \|", re.MULTILINE)
ROW = re.compile(r"^\| (\d) \| (?:`(minerful: [^`]*)`)? ?\|", re.MULTILINE)

FUNCTION = re.compile(r"^( *)(pub )?(?:const )?fn (\w+)(.*?)(?=^\1\{|;$|(?<!record) \{$)", re.MULTILINE | re.DOTALL)
OWNER = re.compile(r"^(?:impl(?:<[^\n]*?>)? (\w+(?:<[^\n]*?>)? for )?|(pub trait ))(\w+)", re.MULTILINE)
WORD_ROW = re.compile(r"^\| `(\S+)` \| `(\w+/\w+)` \| (.+) \|$", re.MULTILINE)


def text_of(path):
    with open(os.path.join(ROOT, path), encoding="utf-8") as file:
        return file.read()


def plain(line):
    """A line with N in place of each number, or of what stands for one."""
    return re.sub(r"\{\w+\}|\b(?:\d+|[A-Z])\b", "N", line)


# README's table of refusals.


def line_in_specs(parts):
    """The line that `codes "text" ++ decimal number ++ codes "\\n"` is."""
    texts = re.findall(r'codes "([^"]*)"|decimal (\w+)', parts)
    return "".join(text or "N" for text, _ in texts).removesuffix("\\n")


def refusals():
    """For each refusal its exit status and its line."""
    text = text_of("crates/decl_base/specs/Refusal.antt")
    codes = dict(CODE.findall(text_of("crates/decl_base/specs/Status.antt")))
    lines = {name: plain(line_in_specs(parts)) for name, parts in LINE.findall(text)}
    return {name: (int(codes[status]), lines[name]) for name, status in STATUS.findall(text)}


def refusal_faults():
    told = refusals()
    rows = [(int(status), plain(line)) for status, line in ROW.findall(text_of("README.md")) if line]
    known = list(dict.fromkeys(told.values()))
    yield from (f"README has a row that is no refusal's: {row}" for row in rows if row not in known)
    yield from (f"README has no row of {row}" for row in known if row not in rows)
    yield from (f"README has two rows of {row}" for row in set(rows) if rows.count(row) > 1)
    derived = {name: plain(line) for line, name in DERIVED.findall(text_of("crates/decl_base/src/refusal.rt"))}
    for name, (_, line) in told.items():
        if derived.get(name) != line:
            yield f"refusal.rt derives another line of {name}: {derived.get(name)}, not {line}"
    yield from (f"refusal.rt derives a line of {name}, which is no refusal" for name in derived if name not in told)


# README's table of options.


def option_faults():
    told = OPTION.findall(text_of("crates/minerful_words/specs/Table.antt"))
    rows = OPTION_ROW.findall(text_of("README.md"))
    yield from (f"README has no row of option {row}" for row in told if row not in rows)
    yield from (f"README has a row of option {row}, which isn't there" for row in rows if row not in told)


# The modules and clauses of docs/DEFINITIONS.md.


def named_behind(text):
    """The names in backquotes behind a module, up to the next module or sentence."""
    return re.findall(r"`(\w+)`", text)


def path_of(module):
    return "crates/{}/specs/{}.antt".format(*module.split("/"))


def modules_in(line):
    """The modules of a line, each with what stands behind it."""
    pieces = re.split(r"`(\w+/\w+)`", line)
    return zip(pieces[1::2], pieces[2::2])


def module_faults(line):
    for module, behind in modules_in(line):
        path = path_of(module)
        if not os.path.exists(os.path.join(ROOT, path)):
            yield f"no module {module}"
            continue
        text = text_of(path)
        for name in named_behind(behind) if behind.startswith(":") else []:
            if not re.search(rf"(?:^|\s){name}\b", text):
                yield f"{module} has no {name}"


def code_of(crate):
    paths = sorted(glob.glob(os.path.join(ROOT, "crates", crate, "src", "*.rt")))
    return "\n".join(text_of(os.path.relpath(path, ROOT)) for path in paths)


def clauses_of(code, name):
    """The clauses of each function of this name; of a type or a trait those of all functions of its crate."""
    if re.search(rf"(?:trait|struct) {name}\b", code):
        return set(re.findall(r"ensures (\w+)", code))
    heads = re.findall(rf"fn {name}\b(.*?)\n *(?:\{{|\}}|fn |ghost )", code, re.DOTALL)
    return {clause for head in heads for clause in re.findall(r"ensures (\w+)", head)}


def is_declared(code, name):
    return re.search(rf"(?:fn|ghost|const|trait|struct) {name}\b", code)


def crates():
    return [line.split(":")[0] for line in text_of("crates.txt").splitlines()]


def clause_faults(line):
    """A crate in backquotes before a colon, then functions, each followed by its clauses."""
    pieces = re.split(rf"`({'|'.join(crates())})`: ", line)
    for crate, behind in zip(pieces[1::2], pieces[2::2]):
        code, clauses = code_of(crate), set()
        for path in re.findall(r"`([\w:]+)`", behind):
            name = path.split("::")[-1]
            if name not in clauses and is_declared(code, name):
                clauses = clauses_of(code, name)
            elif name not in clauses:
                yield f"{crate} has no function or clause {path}"


# The words of the clauses of public functions, and their entries.


def exported(crate):
    """The names that a crate hands out. One with a `main` hands out none."""
    path = f"crates/{crate}/src/lib.rt"
    code = text_of(path) if os.path.exists(os.path.join(ROOT, path)) else ""
    names = re.findall(r"^pub use [\w:]*?(?:\{([^}]*)\}|(\w+));", code, re.MULTILINE)
    return {name.strip() for several, one in names for name in (several or one).split(",")}


def public_heads(code, names):
    """The heads of the functions, and of the methods of types and traits, that have one of these names and are public."""
    code = re.split(r"^#\[cfg\(test\)\]\nmod \w+ \{", code, flags=re.MULTILINE)[0]
    for found in FUNCTION.finditer(code):
        indent, is_pub, name, head = found.groups()
        *_, owner = [None, *OWNER.finditer(code, 0, found.start())]
        of_trait = owner and (owner[1] or owner[2])
        if (owner and owner[3] in names and (is_pub or of_trait)) if indent else (is_pub and name in names):
            yield head


def defined_at(name, path):
    """Where a name that a file defines or hands on is defined, with its name there."""
    file = File(path)
    return defined_at(*file.imports[name]) if name not in file.defines and name in file.imports else (name, path)


def words_of_clauses():
    """Each word, and the file that defines it, that the clauses of public functions use."""
    for crate in crates():
        for path in sorted(glob.glob(os.path.join(ROOT, "crates", crate, "src", "*.rt"))):
            code, names = text_of(path), imported(text_of(path))
            for head in public_heads(code, exported(crate)):
                clauses = re.search(r"^ *(?:requires|ensures)\b.*", head, re.MULTILINE | re.DOTALL)
                for word in words_of(clauses[0]) & names.keys() if clauses else ():
                    yield defined_at(*names[word])


def entries():
    """Each name, and the file that it is said to stand in, of the lines and the table of docs/DEFINITIONS.md."""
    text = text_of("docs/DEFINITIONS.md")
    for line in text.splitlines():
        if line.startswith("- **In** "):
            yield from ((name, path_of(module)) for module, behind in modules_in(line) for name in named_behind(behind))
    yield from ((name, path_of(module)) for name, module, _ in WORD_ROW.findall(text))


def word_faults():
    missing = sorted({*words_of_clauses()} - {*entries()})
    yield from (f"docs/DEFINITIONS.md has no entry for {name} of {path}" for name, path in missing)
    for name, module, _ in WORD_ROW.findall(text_of("docs/DEFINITIONS.md")):
        yield from module_faults(f"`{module}`: `{name}`")


# The layers of docs/ARCHITECTURE.md.


def layer_faults():
    text = text_of("docs/ARCHITECTURE.md")
    layers = text[text.index("## The layers") :].split("```")[1]
    found = re.findall(r"^ (\w+) ", layers, re.MULTILINE)
    for crate, under in (line.split(":") for line in text_of("crates.txt").splitlines()):
        if crate not in found:
            yield f"docs/ARCHITECTURE.md has no layer {crate}"
        else:
            behind = found[found.index(crate) :]
            yield from (f"docs/ARCHITECTURE.md has {crate} before {other}" for other in under.split() if other in behind)
    yield from (f"docs/ARCHITECTURE.md has a layer {crate}, which is no crate" for crate in found if crate not in crates())


# The clauses that README names.


def readme_clause_faults():
    text = text_of("README.md")
    of_run = text[text.index("| clause |") : text.index("**The outcome.**")]
    yield from clause_faults("`minerful_core`: `run` " + " ".join(re.findall(r"^\| (`\w+`) \|", of_run, re.MULTILINE)))
    by_crate = re.findall(r"^\| `(\w+)` \| .* \| (.*) \|$", text[text.index("## Crate by crate") :], re.MULTILINE)
    yield from (f"README lacks the crate {crate}" for crate in crates() if crate not in dict(by_crate))
    for crate, named in by_crate:
        yield from clause_faults(f"`{crate}`: {named}")


def definition_faults():
    for line in text_of("docs/DEFINITIONS.md").splitlines():
        if line.startswith("- **In** "):
            yield from module_faults(line)
        if line.startswith("- **By** "):
            yield from clause_faults(line)


def main():
    of_readme = [*refusal_faults(), *option_faults(), *readme_clause_faults()]
    faults = [*of_readme, *definition_faults(), *word_faults(), *layer_faults()]
    print("\n".join(faults) or f"{len(refusals())} refusals, and all clauses and modules that are named, are as in the code")
    return int(bool(faults))


if __name__ == "__main__":
    sys.exit(main())
