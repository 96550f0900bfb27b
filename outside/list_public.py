#!/usr/bin/env python3
"""Lists the public functions of every crate in crates.txt, and checks docs/PROVED.md against the tree.

    python3 outside/list_public.py             prints them, a line for each: free functions, methods, and the methods of the trait
                                               impls that callers use, as crate::function or crate::Type::function
    python3 outside/list_public.py --check     exits with 1 and names each thing that is wrong in docs/PROVED.md

Wrong is
    a public function that the page doesn't name, or one that it names and that isn't there;
    a public function with a `requires`, since public entry points have no conditions;
    a name that the page cites with a file and that isn't in that file, or a file that isn't there;
    a quoted piece that docs/RULES.md doesn't have, or a sentence of docs/RULES.md that no row quotes.

How the page cites: a file in backticks (paths are under crates/, or under outside/, docs/ or .ci/), then names in backticks, up to the next file,
a semicolon, a full stop, the end of the cell or of the line. A name of a .antt file is a definition, a theorem or a constructor,
`Record.field` a field of a record. A name of a .rt file is a type, a constant or a function, `Type::function` a method, and
`Type::function.clause` a named clause of its contract. The rows under "The page, sentence by sentence" begin with the quoted sentence, whose
left-out parts are ` .. `.

The sources are read as `rt fmt` lays them out: what is at the top of a file starts at the line's start, and so does the brace that ends it.
"""

import re
import sys
from pathlib import Path
from typing import NamedTuple

ROOT = Path(__file__).resolve().parent.parent
PAGE = ROOT / "docs" / "PROVED.md"
RULES = ROOT / "docs" / "RULES.md"
QUOTED_UNDER = "The page, sentence by sentence"
OMITTED = " .. "

IMPL = re.compile(r"impl\b(?:<[^>]*>)? (?:(?P<trait>[\w<>]+) for )?(?P<type>\w+)")
FUNCTION = re.compile(r"(?P<public>pub )?(?:pub\(crate\) )?(?:const )?(?:extern \"C\" )?fn (?P<name>\w+)")
DECLARED = re.compile(r"(?P<public>pub )?(?:pub\(crate\) )?(?:struct|enum|trait|const) (?P<name>\w+)")


class Function(NamedTuple):
    """A function of a source: its type ('' if it is free), its name, whether callers in other crates have it, and its text up to its body."""

    type: str
    name: str
    public: bool
    head: str

    def path(self):
        return f"{self.type}::{self.name}" if self.type else self.name


# The sources.


def crates():
    """The crates of crates.txt, in its order."""
    lines = (ROOT / "crates.txt").read_text().splitlines()
    return [line.split(":")[0].split()[0] for line in lines if line.strip() and not line.startswith("#")]


def sources(crate):
    return sorted((ROOT / "crates" / crate / "src").rglob("*.rt"))


def declared(path):
    """The types, traits and constants of a source: whether each is public."""
    found = (DECLARED.match(line) for line in path.read_text().splitlines())
    return {match["name"]: bool(match["public"]) for match in found if match}


def head_at(lines, at):
    """A function's text from its first line on, up to its body or to the end of its declaration."""
    for end in range(at, len(lines)):
        if lines[end].strip() == "{" or lines[end].rstrip().endswith((" {", ";")):
            return "\n".join(lines[at : end + 1])
    return "\n".join(lines[at:])


def functions(path, hidden):
    """The functions of a source. `hidden` are the crate's types and traits that callers in other crates don't have."""
    lines = path.read_text().splitlines()
    block, found = None, []
    for at, line in enumerate(lines):
        if line.startswith("}"):
            block = None
        block = IMPL.match(line) or block
        match = FUNCTION.match(line.strip())
        indent = len(line) - len(line.lstrip())
        if not match or indent != (4 if block else 0):
            continue
        of_type, of_trait = (block["type"], block["trait"]) if block else ("", None)
        public = bool(match["public"]) or bool(of_trait and of_trait not in hidden)
        found.append(Function(of_type, match["name"], public and of_type not in hidden, head_at(lines, at)))
    return found


def all_functions(crate):
    hidden = {name for path in sources(crate) for name, public in declared(path).items() if not public}
    return [function for path in sources(crate) for function in functions(path, hidden)]


def public_functions():
    """Every public function, by its path with the crate's name."""
    return {
        f"{crate}::{function.path()}": function
        for crate in crates()
        for function in all_functions(crate)
        if function.public
    }


# What the page names.


def citations(line):
    """The files that a line cites, each with the names that it cites of it."""
    cited = []
    current = None
    for token in re.finditer(r"`([^`]+)`|[|;]|\.(?=\s|$)", line):
        name = token[1]
        if name is None:
            current = None
        elif re.match(r"\w+/((src|specs|proofs|must-fail)/|std(in|out)$)|(outside|docs|\.ci)/", name):
            current = (name, [])
            cited.append(current)
        elif current:
            current[1].append(name)
    return cited


def file_of(name):
    return ROOT / name if name.startswith(("outside/", "docs/", ".ci/")) else ROOT / "crates" / name


def in_definitions(text, name):
    """Is it declared in the text of a .antt file? Each word of `Record.field` has to be."""
    words = r"(?:(?:pub|unfoldable|abbrev|data|record|ruleset) +)+"
    names = [re.escape(part) for part in name.split(".")]
    return all(re.search(rf"^ *(?:{words}{part}(?=[ :])|{part} :)", text, re.M) for part in names)


def in_source(path, name):
    """Is it in a .rt file?"""
    if name in declared(path):
        return True
    of, _, clause = name.partition(".")
    heads = [function.head for function in functions(path, set()) if function.path() == of]
    return any(not clause or re.search(rf"ensures\*? {clause} {{", head) for head in heads)


def is_in(path, name):
    if path.suffix == ".antt":
        return in_definitions(path.read_text(), name)
    if path.suffix == ".rt":
        return in_source(path, name)
    return name in path.read_text()


# The rules' sentences.


def joined(text):
    return " ".join(text.replace("|", " ").split())


def units(text):
    """The rules' paragraphs, list items, table rows and blocks, each on one line."""
    text = re.sub(r"```\n(.*?)```", lambda block: " ".join(block[1].split("\n")), text, flags=re.S)
    text = re.sub(r"^\|.*\n\|-.*\n", "\n", text, flags=re.M)
    text = re.sub(r"^#.*$", "\n", text, flags=re.M)
    text = re.sub(r"^(\||- |\d\. )", r"\n\1", text, flags=re.M)
    return [re.sub(r"^(- |\d\. )", "", joined(unit)) for unit in re.split(r"\n\s*\n", text) if joined(unit)]


def sentences(text):
    """The rules' sentences. A stop behind a capital, as in a name, ends none."""
    return [part for unit in units(text) for part in re.split(r"(?<=[^A-Z]\.)\s+(?=[A-Z(`])|(?<=\.\))\s+(?=[A-Z])", unit)]


def quoted(page):
    """The pieces that the page quotes."""
    part = page.split(f"## {QUOTED_UNDER}\n")[-1].split("\n## ")[0]
    rows = [line for line in part.splitlines() if line.startswith("| ") and not line.startswith("| sentence ")]
    quotes = [joined(row.split(" | ")[0].lstrip("| ")).removesuffix(OMITTED.rstrip()) for row in rows]
    return [piece for quote in quotes for piece in quote.split(OMITTED)]


# The check.


def wrong_functions(page):
    public = public_functions()
    named = set(re.findall(rf"`((?:{'|'.join(crates())})::[\w:]+)`", page))
    yield from (f"not in docs/PROVED.md: {path}" for path in public if path not in named)
    yield from (f"no such public function: {path}" for path in sorted(named - public.keys()))
    yield from (f"it has a condition: {path}" for path, function in public.items() if " requires " in function.head)


def wrong_citations(page):
    for number, line in enumerate(page.splitlines(), 1):
        for name, cited in citations(line):
            path = file_of(name)
            if not path.is_file():
                yield f"line {number}: no such file: {name}"
                continue
            yield from (f"line {number}: not in {name}: {entry}" for entry in cited if not is_in(path, entry))


def wrong_quotes(page):
    rules = RULES.read_text()
    whole, pieces = " ".join(units(rules)), quoted(page)
    yield from (f"docs/RULES.md doesn't have: {piece}" for piece in pieces if piece not in whole)
    for sentence in sentences(rules):
        if not any(piece in sentence or sentence in piece for piece in pieces):
            yield f"not quoted: {sentence}"


def main(arguments):
    if arguments not in ([], ["--check"]):
        sys.exit(__doc__)
    if not arguments:
        print("\n".join(public_functions()))
        return 0
    page = PAGE.read_text()
    wrong = [*wrong_functions(page), *wrong_citations(page), *wrong_quotes(page)]
    print("\n".join(wrong) if wrong else f"docs/PROVED.md names all {len(public_functions())} public functions, and what it cites is there")
    return 1 if wrong else 0


if __name__ == "__main__":
    sys.exit(main(sys.argv[1:]))
