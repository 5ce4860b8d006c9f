#!/usr/bin/env python3
"""check_documents.py: checks README.md, docs and examples/README.md, and prints what is not right; then the status is 1.

Each relative link leads to a file that is there, and to a heading of it; each file that is named whole, as `crates/..`, `tools/..` or `mb_x/specs/..`, is there; no
cell of a table has more than 300 characters, in the documents of BRIEF no cell more than 200 and no sentence more than 300; README, PROMISE, ARCHITECTURE,
DECISIONS and PROVED keep their sizes, and all documents together theirs; no `@@NAME@@` is left that waits for a number; each story is that of the example of
its name."""
import pathlib
import re
import sys

TOP = pathlib.Path(__file__).resolve().parent.parent
SIZES = {"README.md": 12288, "docs/PROMISE.md": 15360, "docs/ARCHITECTURE.md": 10240, "docs/DECISIONS.md": 25600, "docs/PROVED.md": 23552}
MOST_BYTES = 320000
LONGEST_CELL = 300
BRIEF = ("docs/DECISIONS.md", "docs/PROVED.md", "docs/MUTATIONS.md", "docs/model/")
LONGEST_BRIEF_CELL = 200
LONGEST_SENTENCE = 300
LINK = re.compile(r"\[[^\]]*\]\(([^)\s]+)\)")
NAMED = re.compile(r"`((?:crates|tools|docs|examples)/[\w./-]+|mb_\w+/(?:src|specs|proofs|data)/[\w./-]+)`")
WAITING = re.compile(r"@@\w+@@")
TARGET = re.compile(r"\]\([^)\s]+\)")
SENTENCE_END = re.compile(r"(?<=[.?!])[*)]*\s+(?=[A-Z*`\[(])")


def documents():
    return [TOP / "README.md", TOP / "examples" / "README.md", *sorted((TOP / "docs").rglob("*.md"))]


def lines_outside_fences(document):
    """Each line with its number, but for fenced blocks."""
    fenced = False
    for number, line in enumerate(document.read_text().splitlines(), 1):
        if line.startswith("```"):
            fenced = not fenced
        elif not fenced:
            yield number, line


def anchor_of(heading):
    """The anchor that a heading has."""
    kept = re.sub(r"[^\w\s-]", "", heading.lower())
    return kept.strip().replace(" ", "-")


def anchors_of(document):
    return {anchor_of(line.lstrip("#").strip()) for _, line in lines_outside_fences(document) if line.startswith("#")}


def link_fault(document, target):
    """Why a link leads nowhere."""
    if target.startswith(("http:", "https:")):
        return None
    name, _, anchor = target.partition("#")
    path = (document.parent / name).resolve() if name else document
    if not path.exists():
        return f"no file {target}"
    if anchor and path.suffix == ".md" and anchor not in anchors_of(path):
        return f"no heading {target}"
    return None


def cells_of(line):
    return line.strip().strip("|").split("|") if line.startswith("|") else []


def is_there(name):
    """Whether a file or a folder that is named is there: from the top, or from crates, and of definitions also without their ending."""
    path = TOP / "crates" / name if name.startswith("mb_") else TOP / name
    return "NAME" in name or path.exists() or path.with_suffix(".antt").exists()


def is_brief(document):
    return document.relative_to(TOP).as_posix().startswith(BRIEF)


def sentences_of(line):
    """The sentences of a line that is no row of a table, without where their links lead."""
    return [] if line.startswith("|") else SENTENCE_END.split(TARGET.sub("]", line))


def long_parts(document, line):
    """Cells and sentences that are too long."""
    most = LONGEST_BRIEF_CELL if is_brief(document) else LONGEST_CELL
    yield from (f"a cell of {len(cell.strip())} characters: {cell.strip()[:50]}" for cell in cells_of(line) if len(cell.strip()) > most)
    if is_brief(document):
        yield from (f"a sentence of {len(part)} characters: {part[:50]}" for part in sentences_of(line) if len(part) > LONGEST_SENTENCE)


def faults_of_line(document, line):
    """What is not right in a line."""
    yield from filter(None, (link_fault(document, target) for target in LINK.findall(line)))
    yield from (f"no {name}" for name in NAMED.findall(line) if not is_there(name))
    yield from long_parts(document, line)


def size_faults():
    for name, most in SIZES.items():
        size = (TOP / name).stat().st_size
        if size > most:
            yield f"{name}: {size} bytes, more than {most}"
    total = sum(document.stat().st_size for document in documents())
    if total > MOST_BYTES:
        yield f"all documents: {total} bytes, more than {MOST_BYTES}"


def story_faults():
    """Stories whose schedule, without what is told between its lines, is not the example's; and examples without one."""
    stories = TOP / "crates" / "mb_program_tests" / "data" / "stories"
    for example in sorted((TOP / "examples").glob("*.schedule")):
        story = stories / f"{example.stem}.story"
        told = story.read_text().splitlines() if story.exists() else []
        if [line for line in told if not line.startswith("  ")] != example.read_text().splitlines():
            yield f"{story.relative_to(TOP)} is no story of {example.name}"


def main():
    faults = [*size_faults(), *story_faults()]
    for document in documents():
        place = document.relative_to(TOP)
        faults += [f"{place}:{number}: {fault}" for number, line in lines_outside_fences(document) for fault in faults_of_line(document, line)]
        faults += [f"{place}: {word} waits for its number" for word in WAITING.findall(document.read_text())]
    print("\n".join(faults + [f"{len(documents())} documents, {len(faults)} faults"]))
    sys.exit(1 if faults else 0)


if __name__ == "__main__":
    main()
