#!/usr/bin/env python3
"""What a change costs: for each crate that is named, or for all, the share of the repository's lines that is proved anew when the crate changes.

A kept proof hangs on the files of its crate, on the libraries that its line in crates.txt names, and on those that these stand on in turn. So a changed
crate is proved anew, and so is each crate above it. With --below a crate's own side is listed: all that it stands on. Lines of src, specs and proofs are counted, which tells the time roughly: a function takes seconds, a line of definitions milliseconds.
"""
import pathlib
import sys

TOP = pathlib.Path(__file__).resolve().parent.parent
FOLDERS = ("src", "specs", "proofs")


def uses_of_crates():
    """For each crate the libraries that its line in crates.txt names."""
    uses = {}
    for line in (TOP / "crates.txt").read_text().splitlines():
        if line and not line.startswith("#"):
            name, libraries = line.split(":", 1)
            uses[name.split()[0]] = libraries.split()
    return uses


def below_each(uses):
    """For each crate all of the repository that it stands on."""
    found = {}

    def below(crate):
        if crate not in found:
            found[crate] = set()
            for library in uses[crate]:
                if library in uses:
                    found[crate] |= {library} | below(library)
        return found[crate]

    for crate in uses:
        below(crate)
    return found


def lines_of(crate):
    """The lines of a crate's sources, definitions and proofs."""
    files = (path for folder in FOLDERS for path in (TOP / "crates" / crate / folder).rglob("*") if path.suffix in (".rt", ".antt"))
    return sum(len(path.read_text().splitlines()) for path in files)


def main():
    uses = uses_of_crates()
    below = below_each(uses)
    lines = {crate: lines_of(crate) for crate in uses}
    whole = sum(lines.values())
    named = [word for word in sys.argv[1:] if word != "--below"]
    for crate in named or uses:
        if crate not in uses:
            sys.exit(f"price.py: crates.txt has no crate {crate}")
        if "--below" in sys.argv:
            print(f"{crate}: {' '.join(name for name in uses if name in below[crate])}")
            continue
        anew = [name for name in uses if name == crate or crate in below[name]]
        share = 100 * sum(lines[name] for name in anew) / whole
        print(f"{crate}: {share:.1f} % of the lines, {len(anew)} of {len(uses)} crates; the crate itself {lines[crate]} of {whole} lines")


if __name__ == "__main__":
    main()
