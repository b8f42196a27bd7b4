# What the tools that make documents share: a document is written whole, or the part of one between two marks.
import sys


def usage(what):
    sys.exit(f"usage: {what} [--write|--check]")


def finish(name, path, text, made):
    """Prints what was made, writes the document with --write, and with --check fails where the document differs."""
    words = sys.argv[1:]
    if words not in ([], ["--write"], ["--check"]):
        usage(name)
    if not words:
        print(made, end="")
    elif words == ["--write"]:
        with open(path, "w", encoding="utf-8") as it:
            it.write(text)
    elif read(path) != text:
        sys.exit(f"{path} is stale: {name} --write makes it anew")


def read(path):
    try:
        with open(path, encoding="utf-8") as it:
            return it.read()
    except FileNotFoundError:
        return ""


def crates():
    """The names of the crates, as crates.txt lists them, lowest first, each with the libraries that it uses."""
    lines = [it.split(":") for it in read("crates.txt").splitlines() if ":" in it and it[0] != "#"]
    return {name.split()[0]: uses.split() for name, uses in lines}


def rooms():
    """The headings of crates.txt, each with its crates: the name, what stands above it, and the contracts behind "By"."""
    found, said = [], ""
    for line in read("crates.txt").splitlines():
        if line.startswith("## "):
            found.append((line[3:], []))
        elif line.startswith("# "):
            said = line[2:]
        elif ":" in line and found:
            what, _, contracts = said.partition(" By `")
            found[-1][1].append((line.split(":")[0].split()[0], what.rstrip("."), f"`{contracts}" if contracts else ""))
            said = ""
    return found
