#!/usr/bin/env python3
"""Checks the pages: links with their anchors, paths, files and commands that they quote, and how long they are.

`python3 docs/pages.py` prints what is wrong, and ends with status 1 where there is something. With `--run PROGRAM` it also runs the
commands `$ ./shader-check ..` of the pages by that program, and compares what they print with the lines beneath.
"""
import re
import shlex
import subprocess
import sys
import tempfile
from pathlib import Path

TOP = Path(__file__).resolve().parent.parent
DOCS = TOP / "docs"
# the most bytes of each group of pages
USERS = ["FORMAT", "FRONT_ENDS", "SPIRV", "WGSL", "DIFFERENCES"]
BELIEVERS = ["JUDGEMENT", "THEOREMS", "READING"]
KEEPERS = ["ARCHITECTURE", "CONTRIBUTING", "DECISIONS", "TESTING", "PERFORMANCE"]
SIZES = [("README.md", ["README.md"], 7_000),
         ("the pages for users", [f"docs/{it}.md" for it in USERS], 100_000),
         ("the pages on what is proved", [f"docs/{it}.md" for it in BELIEVERS], 80_000),
         ("the pages for those who go on", [f"docs/{it}.md" for it in KEEPERS], 80_000)]
# where each program reads its options
OPTIONS = {"./shader-check": ["shader-check", "crates/checker/src/*.rt"], "shader-check": ["shader-check", "crates/checker/src/*.rt"]}
PATH = re.compile(r"`((?:crates|docs|examples|bench|page|include)/[\w./-]+|(?:\.\./)*\w+\.md|\w+/(?:src|specs|proofs|edits|must-fail)[\w./-]*)`")


def pages():
    found = [TOP / "README.md", TOP / "page/README.md", *sorted(DOCS.glob("*.md")), *sorted(TOP.glob("crates/*/CALLING.md"))]
    return found + sorted((TOP / "examples").rglob("*.md"))


def slug(heading):
    """The anchor that a heading has."""
    text = re.sub(r"\[([^\]]*)\]\([^)]*\)", r"\1", heading).replace("`", "").strip().lower()
    return re.sub(r"[^\w\- ]", "", text).replace(" ", "-")


def anchors(page):
    outside = re.sub(r"^```.*?^```", "", page.read_text(), flags=re.M | re.S)
    return {slug(it) for it in re.findall(r"^#+ (.*)$", outside, re.M)}


def wrong_links(page, text):
    """The links of a page that lead nowhere."""
    for target in re.findall(r"\]\(([^)\s]+)\)", re.sub(r"`[^`\n]*`", "", text)):
        if re.match(r"\w+:", target):
            continue
        name, _, anchor = target.partition("#")
        file = (page.parent / name).resolve() if name else page
        if not file.exists():
            yield f"no file {target}"
        elif anchor and file.suffix == ".md" and anchor not in anchors(file):
            yield f"no heading {target}"


def wrong_paths(page, text):
    """The paths in quotes that name no file."""
    for path in PATH.findall(text):
        if re.search(r"NAME|CRATE|/out/|^CALLING", path):
            continue
        if not any((base / path).exists() for base in (TOP, TOP / "crates", page.parent, DOCS)):
            yield f"no file {path}"


def wrong_files(page, text):
    """The files of definitions that a line names after the link to their folder, and that are not in it."""
    for line in re.findall(r"^\[\w+\]\([^)]*/specs/\w+\).*$", text, re.M):
        folder = None
        for target, name in re.findall(r"\]\(([^)]*/specs/\w+)\)|`(\w+)`", line):
            folder = page.parent / target if target else folder
            if name and not (folder / f"{name}.antt").exists():
                yield f"no file {name}.antt in {folder.relative_to(DOCS.parent) if folder.is_relative_to(DOCS.parent) else folder}"


def known_options(program):
    """The text in which a program's options are, or nothing where it is none of this repository."""
    files = OPTIONS.get(program) or ([program[2:]] if program.startswith("./") else [program] if program.endswith(".py") else [])
    found = [it for pattern in files for it in TOP.glob(pattern)]
    return "\n".join(it.read_text() for it in found) if found else None


def commands(text):
    """The commands that a page quotes, in blocks and in lines."""
    for block in re.findall(r"^```(?:sh|console)?\n(.*?)^```", text, re.M | re.S):
        yield from (line.strip().removeprefix("$ ").split(" #")[0] for line in block.split("\n"))
    yield from re.findall(r"`((?:\./|python3 |shader-check )[^`]*)`", text)


def wrong_commands(text):
    """Commands of this repository that are not there, and options that they don't know."""
    for command in commands(text):
        words = command.split()
        if words[:1] == ["python3"]:
            words = words[1:]
        if not words or not (words[0].startswith("./") or words[0].endswith(".py") or words[0] == "shader-check"):
            continue
        known = known_options(words[0])
        if known is None:
            if not words[0].startswith("./shader-check."):
                yield f"no program {words[0]} in {command!r}"
            continue
        for option in words[1:]:
            if re.match(r"--[a-z]", option) and option.split("=")[0].rstrip(".,") not in known:
                yield f"no option {option} in {command!r}"


def examples(text):
    """The commands that are run, a block's in their order, each with the lines that it is to print."""
    for block in re.findall(r"^```(?:console)?\n(\$ .*?)^```", text, re.M | re.S):
        parts = re.split(r"^\$ ", block, flags=re.M)[1:]
        yield [(it.split("\n", 1)[0], it.split("\n", 1)[1]) for it in parts]


def run(program, words, room):
    """What a command prints; of the script ./shader-check what the program prints, which reads one file from standard input."""
    if words[0] != "./shader-check":
        return subprocess.run(words, cwd=room, capture_output=True, text=True).stdout
    options = [it for it in words[1:] if it.startswith("--")]
    file = words[-1]
    language = {".spv": "--spirv", ".wgsl": "--wgsl"}.get(Path(file).suffix)
    chosen = [language] if language and language not in options else []
    return subprocess.run([program, *chosen, *options], stdin=(Path(room) / file).open("rb"), capture_output=True, text=True).stdout


def wrong_examples(text, program):
    """Examples that print something else than the page says."""
    with tempfile.TemporaryDirectory() as room:
        for link in ("examples", "crates"):
            (Path(room) / link).symlink_to(TOP / link)
        for block in examples(text):
            try:
                for command, wanted in block:
                    printed = run(program, shlex.split(command), room)
                    if command.startswith("./shader-check") and printed.strip() != wanted.strip() and wanted.strip():
                        yield f"{command} prints {printed!r}"
            except FileNotFoundError as missing:
                yield f"not run, since there is no {missing.filename}: {block[0][0]}"


def wrong_sizes():
    for title, names, most in SIZES:
        size = sum((TOP / name).stat().st_size for name in names)
        if size > most:
            yield f"{title}: {size} bytes, and at most {most}"
    named = {name for _, names, _ in SIZES for name in names}
    for page in sorted(DOCS.glob("*.md")):
        if f"docs/{page.name}" not in named:
            yield f"docs/{page.name}: in no group of pages"


def main():
    words = sys.argv[1:]
    program = str(Path(words[words.index("--run") + 1]).resolve()) if "--run" in words else None
    wrong = list(wrong_sizes())
    for page in pages():
        text = page.read_text()
        found = [*wrong_links(page, text), *wrong_paths(page, text), *wrong_files(page, text), *wrong_commands(text)]
        if program:
            found += wrong_examples(text, program)
        wrong += [f"{page.relative_to(TOP)}: {it}" for it in found]
    sizes = ", ".join(f"{title} {sum((TOP / it).stat().st_size for it in names)}" for title, names, _ in SIZES)
    print("\n".join([*wrong, f"{len(pages())} pages, {len(wrong)} things wrong; bytes: {sizes}"]))
    return 1 if wrong else 0


if __name__ == "__main__":
    sys.exit(main())
