#!/usr/bin/env python3
"""long_clauses.py [CRATE..]: prints the clauses of contracts that have more than 200 characters, with spaces and breaks as one; then the status is 1.

A clause is what a `requires`, an `ensures` or a `ghost` item has within its braces."""
import pathlib
import re
import sys

TOP = pathlib.Path(__file__).resolve().parent.parent
LONGEST = 200
CLAUSE = re.compile(r"\b(requires|ensures|ghost)\*?\s*(\w*)\s*:?\s*=?\s*\{")
FUNCTION = re.compile(r"\bfn (\w+)")


def closed_from(text, at):
    """Where the brace that was opened before `at` is closed."""
    depth = 1
    while depth:
        depth += {"{": 1, "}": -1}.get(text[at], 0)
        at += 1
    return at - 1


def clauses_of(text):
    """Each clause with its line, its kind and its name."""
    for found in CLAUSE.finditer(text):
        body = " ".join(text[found.end():closed_from(text, found.end())].split())
        yield text.count("\n", 0, found.start()) + 1, " ".join(found.groups()).strip(), body, found.start()


def main(crates):
    longer = 0
    for source in sorted((TOP / "crates").glob("*/src/**/*.rt")):
        crate = source.relative_to(TOP / "crates").parts[0]
        if crates and crate not in crates:
            continue
        text = source.read_text()
        for line, kind, body, start in clauses_of(text):
            if len(body) > LONGEST:
                longer += 1
                functions = FUNCTION.findall(text[:start])
                print(f"{source.relative_to(TOP)}:{line}: {kind} of {functions[-1] if functions else 'no function'}, {len(body)}: {body}")
    print(f"{longer} clauses over {LONGEST} characters")
    return 1 if longer else 0


if __name__ == "__main__":
    sys.exit(main(sys.argv[1:]))
