#!/usr/bin/env python3
"""Lists the definitions that the promise of `dice11` rests on: those that its clause `ended` reaches, file by file.

A definition of specs/ is reached where its name stands in the text of one that is reached. The types of the code that
definitions name are counted apart.

    python3 docs/reached.py           the files, with the number of definitions reached in each
    python3 docs/reached.py --names   the same, with their names
    python3 docs/reached.py --bare    those that have no comment
    python3 docs/reached.py --check   compares the numbers with those of docs/DEFINITIONS.md
"""
import re
import sys
from pathlib import Path

TOP = Path(__file__).resolve().parent.parent
ROOT = ("dice_program.specs.Top", "Ended")

LIST = re.compile(r"^(?:pub )?use Rattle\.([\w.-]+)\.\{(.*)\}$")
WHOLE = re.compile(r"^(?:pub )?use Rattle\.([\w.-]+) as (\S+)$")
BLOCK = re.compile(r"^(?:(?:unfoldable |abbrev )?mutual|module _ .* where)$")
TYPE = re.compile(r"^(?:pub )?(?:record|data) (\S+)")
FUNCTION = re.compile(r"^(?:abbrev |unfoldable )?(?:pub )?(\S+) :(?: |$)")
CONSTRUCTOR = re.compile(r"^ +(\S+) :")
WORD = re.compile(r"[A-Za-z_][\w'-]*(?:\.[A-Za-z_][\w'-]*)*")


class Definition:
    def __init__(self, commented):
        self.text = ""
        self.commented = commented


class Module:
    """A file of specs/: its definitions, the constructors in them, and what it imports by name and as a whole."""

    def __init__(self, path):
        self.definitions, self.constructors, self.names, self.modules = {}, {}, {}, {}
        current, commented = None, False
        for line in flat(path.read_text().splitlines()):
            if line.startswith("--"):
                current, commented = None, not line.startswith("-- ----")
            elif not line.strip():
                current, commented = None, False
            elif self.imports(line):
                pass
            else:
                if not line.startswith(" "):
                    current = self.define(line, commented)
                if current is not None:
                    self.definitions[current].text += line.split("--")[0] + "\n"
                    if constructor := CONSTRUCTOR.match(line):
                        self.constructors.setdefault(constructor.group(1), current)

    def imports(self, line):
        if found := LIST.match(line):
            for item in found.group(2).split(","):
                name, _, other = (part.strip() for part in item.partition(" as "))
                self.names[other or name] = (found.group(1), name)
        elif found := WHOLE.match(line):
            self.modules[found.group(2)] = found.group(1)
        return found is not None

    def define(self, line, commented):
        name = line.split()[0]
        if name in self.definitions:
            return name
        found = TYPE.match(line) or FUNCTION.match(line)
        if not found:
            return None
        return self.definitions.setdefault(found.group(1), Definition(commented)) and found.group(1)


def flat(lines):
    """The lines, those of a block of definitions as if they stood by themselves."""
    inside = False
    for line in lines:
        if BLOCK.match(line):
            inside = True
            continue
        inside = inside and (not line or line.startswith(" "))
        yield line[2:] if inside else line


class Reach:
    def __init__(self):
        self.modules, self.types, self.found = {}, set(), {}
        waiting = [ROOT]
        while waiting:
            module, name = waiting.pop()
            if name not in self.found.setdefault(module, set()):
                self.found[module].add(name)
                waiting += self.cited(module, self.module(module).definitions[name].text)

    def module(self, name):
        if name not in self.modules:
            crate, *parts = name.split(".")
            path = TOP.joinpath("crates", crate, *parts).with_suffix(".antt")
            self.modules[name] = Module(path) if path.exists() else None
        return self.modules[name]

    def cited(self, module, text):
        for word in set(WORD.findall(text)):
            first, _, rest = word.partition(".")
            whole = self.module(module).modules.get(first)
            place = self.place(whole, rest.split(".")[0]) if whole and rest else self.place(module, first)
            if place:
                yield place

    def place(self, module, name):
        """Where a name that is used in a module is defined, if that is in specs/ of this repository."""
        if ".declared." in module:
            self.types.add(module.removesuffix(".TheVariants"))
            return None
        here = self.module(module)
        if here is None:
            return None
        if name in here.definitions:
            return module, name
        if name in here.constructors:
            return module, here.constructors[name]
        return self.place(*here.names[name]) if name in here.names else None


def title(module):
    crate, _, name = module.split(".", 2)
    return f"{crate}, {name}"


def main():
    reach = Reach()
    rows = {title(module): len(names) for module, names in reach.found.items()}
    if "--check" in sys.argv:
        page = (TOP / "docs" / "DEFINITIONS.md").read_text()
        told = {name: int(count) for name, count in re.findall(r"^\| (\w+, \w+) \| (\d+) \|", page, re.M)}
        wrong = sorted(set(rows.items()) ^ set(told.items()))
        for name, count in wrong:
            print(f"docs/DEFINITIONS.md: {name}: {told.get(name, 'not listed')}, and {rows.get(name, 'none')} are reached")
        sys.exit(1 if wrong else 0)
    for module in sorted(reach.found, key=title):
        names = [name for name in reach.modules[module].definitions if name in reach.found[module]]
        bare = [name for name in names if not reach.modules[module].definitions[name].commented]
        if "--bare" in sys.argv:
            names = bare
        if names:
            print(f"| {title(module)} | {len(names)} |")
        if names and ("--names" in sys.argv or "--bare" in sys.argv):
            print("    " + ", ".join(names))
    print(f"{len(rows)} files, {sum(rows.values())} definitions, {len(reach.types)} types of the code")


if __name__ == "__main__":
    main()
