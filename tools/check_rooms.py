#!/usr/bin/env python3
"""Checks the rooms: code of hosts and of the client program stands on no world, the promise is a crate of definitions alone, no definition of a contract
stands in proofs, and crates.txt names what a crate's files cite, and no more."""
import re
import sys

sys.dont_write_bytecode = True
import price  # noqa: E402

WORLDS = {"mb_world_model", "mb_world_laws", "mb_promise", "mb_each_host", "mb_agreement", "mb_forgery", "mb_members", "mb_world"}
HOSTS = ("mb_replica", "mb_core", "mb_node", "mb_client", "mb_cluster", "mb_journal", "mb_kv")
# Lemmas of fields, which the laws of a service need: an impl can name only what is in specs.
LEMMAS = "mb_base.proofs.Laws"


def sources(crate, *folders):
    """The sources of a crate in these folders, each with its text without comments."""
    for folder in folders:
        for path in sorted((price.TOP / "crates" / crate / folder).rglob("*")):
            if path.suffix in (".rt", ".antt"):
                yield path.relative_to(price.TOP), re.sub(r"(--|//)[^\n]*", "", path.read_text())


def cited(crate, crates):
    """The crates of the repository that the files of a crate cite."""
    found = set()
    for _, text in sources(crate, *price.FOLDERS):
        found |= set(re.findall(r"\b(mb_[a-z_]+)(?=\.|::)", text))
    return found & crates - {crate}


def faults():
    uses = price.uses_of_crates()
    below = price.below_each(uses)
    for crate in HOSTS:
        for world in sorted(below[crate] & WORLDS):
            yield f"{crate} stands on {world}"
    if (price.TOP / "crates" / "mb_promise" / "proofs").exists():
        yield "mb_promise has proofs"
    for crate in uses:
        for path, text in sources(crate, "src", "specs"):
            for module in re.findall(r"\bRattle\.(mb_\w+\.proofs\.\w+)", text):
                if module != LEMMAS:
                    yield f"{path} names {module}"
        listed, named = {name for name in uses[crate] if name in uses}, cited(crate, set(uses))
        for name in sorted(listed - named):
            yield f"crates.txt: {crate} cites nothing of {name}"
        for name in sorted(named - listed):
            yield f"crates.txt: {crate} cites {name}, and its line lacks it"


def main():
    found = list(faults())
    for fault in found:
        print(fault)
    print(f"{len(found)} faults")
    sys.exit(1 if found else 0)


if __name__ == "__main__":
    main()
