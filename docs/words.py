"""Refuses words that are no terms of the field, on the pages and in the texts of errors.

`python3 docs/words.py` prints each place with the word and what to say instead, and ends with 1 where there is one. `python3 docs/words.py
--comments` looks at the comments of the sources and the definitions, too.
"""
import re
import sys
from pathlib import Path

TOP = Path(__file__).resolve().parent.parent

# a word, and what to say instead
WORDS = {
    r"at once": "atomically, together, immediately",
    r"found between": "the interpolation",
    r"asks?|asked|asking": "requires, queries, calls",
    r"held": "kept, allocated, the payload type",
    r"stands? for|stood for": "denotes, represents",
    r"told|tells? of": "reported, said",
    r"behind": "after",
    r"lets? go of|letting go of": "frees",
    r"storeys?": "layers",
    r"stranger'?s?": "attacker-controlled",
    r"both mosts": "both limits",
    r"paths of rows": "paths through crates.txt",
}
WORD = re.compile("|".join(rf"(?P<w{at}>\b(?:{word})\b)" for at, word in enumerate(WORDS)))
# what is quoted: code, and what the program or a tool prints
QUOTED = re.compile(r"``.*?``|`[^`]*`|\"[^\"]*\"|\]\([^)]*\)")


def places(file, lines):
    """The places of a file where a word stands that is none of the field's, of these lines with their numbers."""
    for number, line in lines:
        for found in WORD.finditer(QUOTED.sub(lambda it: " " * len(it[0]), line)):
            instead = [*WORDS.values()][int(found.lastgroup[1:])]
            yield f"{file.relative_to(TOP)}:{number}: {found[0]!r}: say {instead}: {line[max(0, found.start() - 40):found.end() + 20].strip()}"


def of_page(file):
    """The lines of a page outside of its examples."""
    inside = False
    for number, line in enumerate(file.read_text().splitlines(), 1):
        inside ^= line.startswith("```")
        if not inside:
            yield number, line


def of_errors(file):
    """The texts of a source's errors."""
    for number, line in enumerate(file.read_text().splitlines(), 1):
        for text in re.findall(r"#\[error\(\"(.*)\"", line):
            yield number, text


def of_comments(file):
    """The comments of a source."""
    mark = "//" if file.suffix == ".rt" else "--"
    for number, line in enumerate(file.read_text().splitlines(), 1):
        before, comment, text = line.partition(mark)
        if comment and not before.strip():
            yield number, text


def main():
    crates = TOP / "crates"
    pages = [TOP / "README.md", TOP / "page/README.md", *sorted((TOP / "docs").glob("*.md")), *sorted(crates.glob("*/CALLING.md")), *sorted((TOP / "examples").rglob("*.md"))]
    found = [it for file in pages for it in places(file, of_page(file))]
    sources = sorted(crates.glob("*/src/**/*.rt"))
    found += [it for file in sources for it in places(file, of_errors(file))]
    if "--comments" in sys.argv[1:]:
        sources += sorted(file for part in ("specs", "proofs") for file in crates.glob(f"*/{part}/**/*.antt"))
        found += [it for file in sources for it in places(file, of_comments(file))]
    print("\n".join([*found, f"{len(found)} places"]))
    return 1 if found else 0


if __name__ == "__main__":
    sys.exit(main())
