#!/usr/bin/env python3
"""The lists of PROMISES, "Definitions behind the theorems": which definitions of specs/ each main theorem stands on.

    specs.py            writes the lists between the two marks of the page
    specs.py --check    says where they are not what it would write; it prints nothing if they are

A theorem is the contract of a public function, or some of its clauses. It reaches each definition whose name its clauses use, and all
that these use. A clause sees a type with a model as its view: so each such type that a reached definition, or a field of a type that it
names, or the function's own signature names, has its view and the type of its value reached too. What is the kit's is named.
Lines of definitions are counted, and no comments. A function, a clause or an import that is not found ends it."""

import os
import re
import sys
import textwrap

HERE = os.path.dirname(os.path.abspath(__file__))
TOP = os.path.join(HERE, "..")
PAGE = ("docs", "PROMISES.md")
MARKS = ("<!-- tools/specs.py writes from here -->\n", "<!-- to here -->\n")
GOAL = ("bw_core", "Goal", "Goal", ["exactly", "last_cut", "shares", "whole", "stand"])
# The title, the function, its crate, its file, and its clauses: none if all are meant. In place of clauses may stand a record that
# they name, as its crate, its file of specs/, its name and a list of its fields: only these are meant then.
THEOREMS = [
    ("The machine, and any number of lives", "lives_lose_nothing", "bw_history", "laws.rt", None),
    ("The goal", "settle", "bw_core", "settle.rt", GOAL),
    ("All of `settle`", "settle", "bw_core", "settle.rt", None),
    ("`recover`", "recover", "bw_care", "recovery.rt", None),
    ("`shut`", "shut", "bw_core", "segments.rt", None),
    ("`get` of a reader", "get", "bw_versions", "reader.rt", None),
    ("`read_frame`", "read_frame", "bw_codec", "decoder.rt", None),
]
NAME = re.compile(r"[A-Za-z_]\w*(?:\.[A-Za-z_]\w*)*")
CODE, FILES = {}, {}


def text(*parts):
    with open(os.path.join(TOP, *parts), encoding="utf-8") as file:
        return file.read()


def source_of(crate, name, function):
    """The file of a crate that has the public function, and its path."""
    folder = os.path.join("crates", crate, "src")
    for one in [name] + sorted(os.listdir(os.path.join(TOP, folder))):
        path = os.path.join(TOP, folder, one)
        if os.path.isfile(path) and re.search(r"pub fn %s\b" % function, text(folder, one)):
            return text(folder, one), os.path.join(folder, one)
    raise SystemExit("no %s in %s" % (function, crate))


def contract(page, function, only):
    """The contract of a function, from its name to its body, or these clauses of it."""
    at = re.search(r"pub fn %s\b" % function, page).start()
    indent = re.search(r"[ \t]*$", page[:at])[0]
    whole = re.sub(r"//.*", "", page[at : re.compile(r"\n%s\{\}?\n" % indent).search(page, at).start()])
    if only is None:
        return whole
    parts = re.split(r"\n\s*(?=(?:requires|ensures)\b)", whole)
    found = {}
    for part in parts[1:]:
        head = re.match(r"(?:requires|ensures)\s+(\w*)", part)
        found[head[1]] = part
    missing = [one for one in only if one not in found]
    if missing:
        raise SystemExit("%s has no clause %s" % (function, ", ".join(missing)))
    return "\n".join(found[one] for one in only)


def names_in(page):
    """The names of a text, of each dotted one its first two parts."""
    found = set()
    for one in NAME.findall(page):
        parts = one.split(".")
        found.add(parts[0])
        found.add(".".join(parts[:2]))
    return found


def imports(page):
    """What a file knows of specs/ of the repository's crates: a name, or the beginning of one, with the crate and file, and its name there."""
    found = {}
    for path, listed, other in re.findall(r"use Rattle\.(bw_\w+\.specs\.[\w.]+?)(?:\.\{([^}]*)\}|\s+as (\w+))\s*;?$", page, re.M):
        parts = path.split(".")
        if parts[2] in ("declared", "contracts"):
            continue
        file = (parts[0], parts[2])
        for one in re.split(r",\s*", listed) if listed else []:
            name, _, known = one.strip().partition(" as ")
            found[known or name] = (file, name)
        if other:
            found.update(("%s.%s" % (other, name), (file, name)) for name in file_of(file)["definitions"])
    return found


def file_of(file):
    """A file of specs/: its definitions, what it knows of others, and the types that it names as they are declared."""
    if file not in FILES:
        page = text("crates", file[0], "specs", file[1] + ".antt")
        lines = [line for line in page.split("\n") if line.strip() and not line.strip().startswith("--")]
        parts, name = {}, None
        for line in lines:
            begun = re.match(r"\s*(?:(?:abbrev|unfoldable)(?: pub)?|pub (?:record|data)) (\S+)", line)
            if begun:
                name = begun[1]
                parts[name] = []
            elif re.match(r"\S*\s*module\b|use ", line):
                name = None
            if name:
                parts[name].append(line)
        FILES[file] = {"definitions": parts, "page": page}
        FILES[file]["imports"] = imports(page)
        FILES[file]["types"] = re.findall(r"use Rattle\.(bw_\w+)\.specs\.declared\.[\w.]+?\.\{(\w+)[^}]*\}\s*;?$", page, re.M)
    return FILES[file]


def text_of(one):
    """A definition as it stands."""
    file, name = one
    if name not in file_of(file)["definitions"]:
        raise SystemExit("no %s in %s/specs/%s" % (name, *file))
    return "\n".join(file_of(file)["definitions"][name])


def used_in(file, page):
    """The definitions that a text in a file uses."""
    used = names_in(page)
    yield from ((file, other) for other in file_of(file)["definitions"] if other in used)
    yield from (there for known, there in file_of(file)["imports"].items() if known in used)


def used_by(one):
    """The definitions that a definition uses."""
    yield from (other for other in used_in(one[0], text_of(one)) if other != one)


def used_by_fields(one, fields):
    """The definitions that these fields of a record use."""
    found = {part.split()[0]: part for part in re.split(r"^\s*pub (?=\w+ :)", text_of(one), flags=re.M)[1:]}
    missing = [field for field in fields if field not in found]
    if missing:
        raise SystemExit("%s has no field %s" % (one[1], ", ".join(missing)))
    yield from (other for field in fields for other in used_in(one[0], found[field]))


def sources(crate):
    """All Rattle files of a crate."""
    for folder, _, names in sorted(os.walk(os.path.join(TOP, "crates", crate, "src"))):
        for name in sorted(names):
            if name.endswith(".rt"):
                yield text(folder, name)


def block(page, at):
    """The text between the braces that open after a place."""
    begin = page.index("{", at)
    depth = 0
    for end in range(begin, len(page)):
        depth += {"{": 1, "}": -1}.get(page[end], 0)
        if depth == 0:
            return page[begin + 1 : end]
    raise SystemExit("a brace is not closed")


def types_in(crate, page, names):
    """The structs and enums of the repository that these names are in this file: each as its crate, its name and its source."""
    used = {}
    for other, listed in re.findall(r"^\s*(?:pub )?use (\w+)::\{?([^;{]*?)\}?;$", page, re.M | re.S):
        for one in re.split(r",\s*", listed):
            used[one.split("::")[-1].split(" as ")[-1].strip()] = other
    for name in sorted(names):
        owner = used.get(name, "crate")
        owner = crate if owner in ("crate", "super", "self") or not owner.startswith("bw_") else owner
        if owner not in CODE:
            CODE[owner] = list(sources(owner))
        for source in CODE[owner]:
            if re.search(r"\b(?:struct|enum) %s\b" % name, source):
                yield owner, name, source
                break


def views(crate, name, page, seen):
    """The definitions by which clauses see a type, and those of the types of its fields."""
    if (crate, name) in seen:
        return
    seen.add((crate, name))
    model = re.search(r"\bimpl(?:<[^>]*>)? Model for %s\b" % name, page)
    if model:
        inner = block(page, model.start())
        told = names_in("".join(re.findall(r"ghost (?:Value|view) = (.*?);$", inner, re.M | re.S)))
        yield from (there for known, there in imports(inner).items() if known in told)
    declared = re.search(r"\b(?:struct|enum) %s\b[^;{(]*([{(])" % name, page)
    if not declared:
        return
    fields = block(page, declared.start()) if declared.group(1) == "{" else page[declared.start() : page.index(";", declared.start())]
    fields = re.sub(r"ghost .*|//.*", "", fields)
    for found in types_in(crate, page, set(re.findall(r"\b[A-Z]\w+", fields)) - {name}):
        yield from views(*found, seen)


def reached(seeds):
    """These definitions, and all that they use."""
    found, waiting = set(), list(seeds)
    while waiting:
        one = waiting.pop()
        if one not in found:
            found.add(one)
            waiting += used_by(one)
    return found


def views_of(found, seen):
    """The definitions of the views of all types that these definitions name."""
    for file, name in sorted(found):
        here = file_of(file)
        used = names_in(text_of((file, name)))
        for crate, kind in here["types"]:
            if kind in used:
                for known in types_in(crate, "", {kind}):
                    yield from views(*known, seen)


def stands_on(page, crate, function, only):
    """The definitions that a theorem uses by name, and then those of views only."""
    fields = only if isinstance(only, tuple) else None
    used = names_in(contract(page, function, None if fields else only))
    if fields and fields[2] not in used:
        raise SystemExit("%s does not name %s" % (function, fields[2]))
    seeds = used_by_fields((fields[:2], fields[2]), fields[3]) if fields else (there for known, there in imports(page).items() if known in used)
    named = reached(seeds)
    found, seen = set(named), set()
    fresh = [there for kind in types_in(crate, page, {one for one in used if one[:1].isupper()}) for there in views(*kind, seen)]
    while True:
        found |= reached(fresh)
        fresh = [one for one in views_of(found, seen) if one not in found]
        if not fresh:
            return named, found - named


def in_order(files):
    """Files, each after those that it uses."""
    order = []

    def put(file, above):
        if file in order or file in above:
            return
        for other, _ in file_of(file)["imports"].values():
            if other in files:
                put(other, above | {file})
        order.append(file)

    for file in sorted(files):
        put(file, frozenset())
    return order


def lines_of(definitions):
    return sum(len(file_of(file)["definitions"][name]) for file, name in definitions)


def listed(definitions):
    """A line for each file, with the names that are reached in it."""
    for file in in_order({file for file, _ in definitions}):
        names = [name for name in file_of(file)["definitions"] if (file, name) in definitions]
        yield textwrap.fill("- `%s/specs/%s`: %s" % (*file, ", ".join("`%s`" % one for one in names)), 100, subsequent_indent="  ",
                            break_on_hyphens=False, break_long_words=False)


def of_the_kit(definitions):
    """The sentence on the words of the kit that the files of these definitions import."""
    told = {}
    for file in {file for file, _ in definitions}:
        for crate, there, names in re.findall(r"use Rattle\.(?!bw_|std\b)(\w+)\.specs\.(\w+)\.\{([^}]*)\}\s*;?$", file_of(file)["page"], re.M):
            told.setdefault("%s/specs/%s" % (crate, there), set()).update(one.split(" as ")[0].strip() for one in re.split(r",\s*", names))
    each = ["`%s` (%s)" % (place, ", ".join("`%s`" % one for one in sorted(told[place]))) for place in sorted(told)]
    return textwrap.fill("Of the kit: " + "; ".join(each) + ".", 100, break_on_hyphens=False)


def lists():
    parts, told, seen = [], set(), set()
    for title, function, crate, name, only in THEOREMS:
        page, path = source_of(crate, name, function)
        first, more = stands_on(page, crate, function, only)
        new = first - told
        head = "%s (`%s`): %d definitions in %d files, %d lines" % (title, path, len(first), len({file for file, _ in first}), lines_of(first))
        head += ", and %d of views, %d lines." % (len(more), lines_of(more)) if more else "."
        head += " Not named above:" if told and new else " All are named above." if told else ""
        parts += [textwrap.fill(head, 100, break_on_hyphens=False), "\n".join(listed(new))]
        told |= new
        seen |= more
    parts += ["Of views alone:", "\n".join(listed(seen - told)), of_the_kit(told | seen)]
    return "\n\n".join(part for part in parts if part) + "\n"


def main():
    page = text(*PAGE)
    if any(page.count(mark) != 1 for mark in MARKS):
        raise SystemExit("%s has not each mark of tools/specs.py once" % "/".join(PAGE))
    before, rest = page.split(MARKS[0])
    after = rest.split(MARKS[1])[1]
    made = before + MARKS[0] + "\n" + lists() + "\n" + MARKS[1] + after
    if made == page:
        return 0
    if "--check" in sys.argv[1:]:
        print("the lists of %s are not up to date: python3 tools/specs.py" % "/".join(PAGE))
        return 1
    with open(os.path.join(TOP, *PAGE), "w", encoding="utf-8") as file:
        file.write(made)
    return 0


if __name__ == "__main__":
    sys.exit(main())
