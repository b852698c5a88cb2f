#!/usr/bin/env python3
"""Each public call of a library crate has a row in the table of tools/surface.md, and each row is a call: so a new call without a
row fails `make test` and `make memory`. Laws are left out. The calls are read from the sources: what `lib.rt` names by `pub use` or `pub mod`, the functions
among it, the `pub fn` of its types, and the methods of its traits. Each call is also looked for in the sources of the tests that its row
names. It prints nothing if all holds."""

import os
import re
import sys

HERE = os.path.dirname(os.path.abspath(__file__))
CRATES = os.path.join(HERE, "..", "crates")
PAGE = os.path.join(HERE, "surface.md")
# Crates that are no library of the store, beside tests and what tests stand on: programs.
OTHERS = {"bwlog", "bw_bench"}


def text(path):
    with open(path, encoding="utf-8") as file:
        return file.read()


def libraries():
    names = sorted(it for it in os.listdir(CRATES) if os.path.isfile(os.path.join(CRATES, it, "src", "lib.rt")))
    return [it for it in names if it not in OTHERS and not it.startswith("test_") and not it.endswith("_tests")]


def sources(crate):
    for folder, _, names in sorted(os.walk(os.path.join(CRATES, crate, "src"))):
        for name in sorted(names):
            if name.endswith(".rt"):
                yield text(os.path.join(folder, name))


def named_by(source):
    """What a root file makes public: the names of `pub use`, and whether a module is public as it is."""
    names = set()
    for used in re.findall(r"^pub use ([^;]+);", source, re.M):
        inner = re.search(r"\{(.*)\}", used, re.S)
        parts = inner[1].split(",") if inner else [used.rsplit("::", 1)[-1]]
        names |= {part.strip().rsplit("::", 1)[-1] for part in parts if part.strip()}
    return names, set(re.findall(r"^pub mod (\w+);", source, re.M))


def without_bodies(source):
    """Lines without their comments."""
    return [re.sub(r"//.*", "", line) for line in source.split("\n")]


def calls_in(source, names, all_functions):
    """The calls of these types, traits and functions that stand in a source."""
    kind = None
    for line in without_bodies(source):
        if line.startswith("}"):
            kind = None
        begun = re.match(r"(?:pub )?(impl|trait)\b(?:<.*?>+)? ?(?:(\w+)(?:<.*?>+)? for )?(\w+)", line)
        if begun and (begun[1] == "impl" or line.startswith("pub ")):
            # A method of a trait stands only under the trait.
            kind = (begun[1], begun[3]) if not begun[2] else None
        function = re.match(r"(\s*)(pub )?(?:unsafe )?fn (\w+)", line)
        if not function:
            continue
        if function[1] == "" and function[2] and (function[3] in names or all_functions):
            yield function[3]
        elif function[1] == "    " and kind and kind[1] in names and (function[2] or kind[0] == "trait"):
            yield "%s::%s" % (kind[1], function[3])


def surface(crate):
    root = os.path.join(CRATES, crate, "src")
    names, modules = named_by(text(os.path.join(root, "lib.rt")))
    found = set()
    for folder, _, files in os.walk(root):
        for file in files:
            # A law says something of definitions: it is asked for nothing.
            if file.endswith(".rt") and file != "laws.rt":
                is_open = file.removesuffix(".rt") in modules and folder == root
                found |= set(calls_in(text(os.path.join(folder, file)), names, is_open))
    return found


def rows():
    """The table: for each crate and each test the calls that stand there."""
    for line in text(PAGE).split("\n"):
        cells = [it.strip() for it in line.strip().strip("|").split("|")]
        if len(cells) == 4 and re.fullmatch(r"`\w+`", cells[0]):
            yield cells[0].strip("`"), re.findall(r"`([\w:]+)`", cells[1]), cells[2], re.findall(r"`(\w+)((?:::\w+)*)`", cells[3])


def tests_text(crate, module):
    """The sources of a module of a crate of tests, named as "::page::codec", and of those within it."""
    if not module:
        return "".join(sources(crate))
    root = os.path.join(CRATES, crate, "src", "tests")
    told = module.removeprefix("::").split("::")
    found = ""
    for folder, _, files in os.walk(root):
        for file in files:
            path = os.path.relpath(os.path.join(folder, file), root)
            if file.endswith(".rt") and path.removesuffix(".rt").split(os.sep)[: len(told)] == told:
                found += text(os.path.join(folder, file))
    return found


def main():
    wrong, told = [], {}
    for crate, calls, _, tests in rows():
        for call in calls:
            if (crate, call) in told:
                wrong.append("%s %s has two rows" % (crate, call))
            told[crate, call] = tests
    crates = libraries()
    for crate in crates:
        wrong += ["surface.md has no row for %s %s" % (crate, it) for it in sorted(surface(crate)) if (crate, it) not in told]
    for (crate, call), tests in sorted(told.items()):
        if crate not in crates or call not in surface(crate):
            wrong.append("surface.md has a row for %s %s, which is no public call" % (crate, call))
        for name, module in tests:
            if not os.path.isdir(os.path.join(CRATES, name)) or not re.search(r"\b%s\b" % call.rsplit("::", 1)[-1], tests_text(name, module)):
                wrong.append("%s%s has no %s of %s" % (name, module, call, crate))
    for line in wrong:
        print(line)
    return 1 if wrong else 0


if __name__ == "__main__":
    sys.exit(main())
