"""What the tools that read definitions share: the files of crates/*/specs with their imports, and which definitions a name rests on."""
import glob
import re
import sys

from made import read

USE = re.compile(r"^\s*(?:ghost )?use (Rattle\.[\w.]+)(?:\.\{([^}]*)\}| as (\w+))", re.M)
BEGINS = re.compile(r"(?:abbrev |unfoldable |pub |record |data )+([^\s:(]+)")
CONSTRUCTOR = re.compile(r"  ([^\s:]+)(?: [^\s:]+)* : ")
WORD = re.compile(r"[^\s(){},;]+")


class Module:
    """A file with its imports, and the text of each of its definitions."""

    def __init__(self, file):
        self.file, text = file, read(file)
        self.imports, self.aliases = {}, {}
        for path, names, alias in USE.findall(text):
            if alias:
                self.aliases[alias] = path
            for name in names.replace("\n", " ").split(","):
                self.imports[name.split(" as ")[0].strip()] = path
        # (within: the type that has a constructor; over: the parameters that a definition has from the block that it stands in)
        self.texts, self.within, self.over = {}, {}, {}
        self.read_definitions(text)

    def read_definitions(self, text):
        current, block = None, ""
        for line in text.splitlines():
            code = line.split("--")[0].rstrip()
            if not line.strip():
                current = None
            if code.startswith("module _ "):
                block = code
                continue
            if code and not code.startswith(" "):
                block = ""
            if block:
                code = code.removeprefix("  ")
            begins = BEGINS.match(code)
            if begins and not code.startswith("pub mod"):
                current = begins[1]
                self.over.setdefault(current, block)
            if current and code:
                self.texts.setdefault(current, []).append(code)
                constructor = CONSTRUCTOR.match(code)
                if constructor and " data " in f" {self.texts[current][0]}":
                    self.within[constructor[1]] = current

    def names_in(self, path, text):
        """The names that stand in a text of this module, each with the path of its module."""
        for word in WORD.findall(USE.sub("", text)):
            # (what follows a point is a field, unless a module stands before it)
            first, _, rest = word.partition(".")
            if first in self.aliases and rest:
                yield self.aliases[first], rest.split(".")[0]
            elif first in self.texts or first in self.within:
                yield path, first
            elif first in self.imports:
                yield self.imports[first], first


def modules():
    for file in glob.glob("crates/*/specs/*.antt"):
        _, crate, _, name = file.split("/")
        yield f"Rattle.{crate}.specs.{name[:-5]}", Module(file)


def names_of(source, function):
    """The names in the clauses of a function."""
    text = read(source)
    begins = re.search(rf"^pub fn {function}\b", text, re.M)
    if not begins:
        sys.exit(f"{source} has no function {function}")
    return Module(source).names_in("", text[begins.start() : text.index("\n{", begins.start())])


def closure(known, waiting):
    """The definitions and the types that these names rest on."""
    found, types = set(), set()
    waiting = [*waiting]
    while waiting:
        path, name = waiting.pop()
        if ".specs.declared." in path:
            types.add(path)
        if path not in known:
            continue
        module = known[path]
        name = name if name in module.texts else module.within.get(name)
        if name and (path, name) not in found:
            found.add((path, name))
            waiting += module.names_in(path, "\n".join([*module.texts[name], module.over[name]]))
    return found, types
