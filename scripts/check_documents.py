#!/usr/bin/env python3
"""Do the documents name what is there?

    python3 scripts/check_documents.py

Every file that they name must exist, every name that stands alone between backquotes must be a word of some source file, every crate
of crates.txt must stand in docs/ARCHITECTURE.md's list and in its table of check times, and every wrong program that docs/TRUST.md
names must be a must-fail edit. docs/PORT.md and docs/DESIGN-PASS.md are left out: they name what older trees had. The last line is
`N passed, M failed`.
"""
import itertools
import pathlib
import re
import sys

TOP = pathlib.Path(__file__).resolve().parent.parent
ROOTS = {TOP: "crates|docs|scripts|include|harness", TOP / "harness": "src|peers"}
SOURCES = ("crates/**/*.rt", "crates/**/*.antt", "crates/**/*.edit", "harness/*.rs", "harness/src/**/*.rs", "harness/peers/*", "scripts/*.py", "include/*")
# of the C library and of what checks say, which no source of ours spells out
OUTSIDE = {"axioms", "memset"}
OLDER = {TOP / "docs" / "PORT.md", TOP / "docs" / "DESIGN-PASS.md"}
DOCUMENTS = [TOP / "README.md", TOP / "harness" / "README.md", *sorted({*(TOP / "docs").glob("*.md")} - OLDER)]


def expanded(path):
    """specs/{A,B}.antt names specs/A.antt and specs/B.antt."""
    parts = re.split(r"\{([^}]*)\}", path)
    choices = [[p] if i % 2 == 0 else p.split(",") for i, p in enumerate(parts)]
    return ["".join(c) for c in itertools.product(*choices)]


def named_paths(text, roots):
    for found in re.findall(rf"(?<![\w/.])(?:{roots})/[\w./{{}},*-]*[\w}}*]", text):
        if "NAME" not in found and "target/" not in found and "/out" not in found:
            yield from expanded(found)


def files():
    for document in DOCUMENTS:
        for folder, roots in ROOTS.items():
            if folder in (TOP, document.parent):
                for path in sorted(set(named_paths(document.read_text(), roots))):
                    yield f"{document.relative_to(TOP)}: {path}", any(folder.glob(path))


def names():
    words = set(OUTSIDE) | set(listed_crates())
    for pattern in SOURCES:
        for source in TOP.glob(pattern):
            text = source.read_text()
            words |= {source.stem} | set(re.findall(r"\w+", text)) | set(re.findall(r"[\w-]+", text))
    for document in DOCUMENTS:
        text = re.sub(r"```.*?```", "", document.read_text(), flags=re.S)
        for name in sorted(set(re.findall(r"`([A-Za-z][\w-]*)`", text))):
            yield f"{document.relative_to(TOP)}: {name}", name in words


def listed_crates():
    lines = (TOP / "crates.txt").read_text().splitlines()
    return [line.split(":")[0].split()[0] for line in lines if ":" in line and not line.startswith("#")]


def crates():
    text = (TOP / "docs" / "ARCHITECTURE.md").read_text()
    for crate in listed_crates():
        yield f"docs/ARCHITECTURE.md: {crate} in the list", re.search(rf"^{crate} +\w+ ", text, re.M) is not None
        yield f"docs/ARCHITECTURE.md: {crate} in the check times", re.search(rf"^\| {crate} \|", text, re.M) is not None


def edits():
    """Names in TRUST's last column and after 'Wrong programs' or 'Wrong statements' are edits."""
    there = {e.stem for e in TOP.glob("crates/*/must-fail/*.edit")}
    text = (TOP / "docs" / "TRUST.md").read_text()
    passages = re.findall(r"^Wrong (?:programs|statements)[^\n]*(?:\n[^\n]+)*", text, re.M)
    passages += re.findall(r"Wrong (?:programs|statements):[^\n]*(?:\n[^\n]+)*", text)
    passages += [line.rsplit("|", 2)[1] for line in text.splitlines() if line.startswith("| `") and "crates/" in line and line.count("|") == 5]
    for name in sorted({n for p in passages for n in re.findall(r"`(\w+_\w+)`", p)}):
        yield f"docs/TRUST.md: {name}", name in there


def main():
    results = [*files(), *names(), *crates(), *edits()]
    for what, found in results:
        if not found:
            print(f"not there: {what}")
    failed = sum(not found for _, found in results)
    print(f"{len(results) - failed} passed, {failed} failed")
    return 1 if failed else 0


sys.exit(main())
