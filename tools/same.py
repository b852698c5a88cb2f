#!/usr/bin/env python3
"""The example of README.md stands to the letter in a program of the gate, the lines of INSIDE.md in the sources, the dumps of
FORMAT.md have the bytes that the tests read, and the stored folder from which the program goes on has the second of them. Each file that a
page names is there, each `Type::name` is a function or a public field, and what stands after a file is one of its functions. So none can
go stale. It prints nothing if all hold."""

import os
import re
import sys

EXAMPLES = {
    "README.md": ["crates/first/src/main.rt"],
    "docs/FIRST.md": ["crates/users/src/users.rt"],
    "docs/INSIDE.md": ["crates/bw_file/src/segment.rt", "crates/bw_versions/src/writer.rt", "crates/bw_codec/src/check.rt"],
}
PAGES = ["README.md"] + ["docs/%s.md" % name for name in ("FIRST", "USING", "EMBED", "FORMAT", "PROMISES", "INSIDE", "DECISIONS", "TESTING", "MEASURED")]
# What a page says that a program of the gate prints, line for line.
PRINTED = {"docs/FIRST.md": "crates/users/stdout"}
# What a run or a reader of a page makes.
MADE = ("out/", "crates/bwlog/out/", "crates/mine")
VECTORS = "crates/test_kit/src/vectors.rt"
STORED = "crates/bwlog/data/store/segment-0000.bw"


def text(path):
    with open(path, encoding="utf-8") as file:
        return file.read()


def blocks(page, kind):
    return re.findall(r"^```" + kind + r"\n(.*?)^```$", page, re.M | re.S)


def dumps(page):
    """The bytes of each dump, in hex: of each line the groups before three spaces and words."""
    for block in blocks(page, ""):
        for part in block.split("\n\n"):
            lines = [re.split(r"\s{3,}", line.strip())[0] for line in part.splitlines()]
            yield "".join(re.sub(r"\s", "", line) for line in lines)


def files():
    """All files of the repository but what is made, each after a slash."""
    for folder, inner, names in os.walk("."):
        inner[:] = [it for it in inner if it not in (".git", "out", "target", "__pycache__")]
        yield from (os.path.join(folder, name)[1:] for name in names + inner)


def stale(page, paths, functions):
    """What a page names and no source has."""
    shown = re.sub(r"^```.*?^```$|^<!--.*-->$", "", text(page), flags=re.M | re.S)
    for name in re.findall(r"`([\w.-]+/[\w./-]+|[\w./-]+\.(?:rt|antt|py|c|h|rs|toml))`", shown):
        known = ("/" + name.rstrip("/"), "/" + name + ".antt")
        if not name.startswith(MADE) and "NAME" not in name and not any(path.endswith(known) for path in paths):
            yield "%s names %s" % (page, name)
    for name in re.findall(r"`\w+::(?:\w+::)*(\w+)`", shown):
        if name[0].islower() and name not in functions and not any(path.endswith("/src/%s.rt" % name) for path in paths):
            yield "%s names a call %s" % (page, name)
    for name, listed in re.findall(r"`([\w/]+\.rt)`: ((?:`\w+`(?:, )?)+)", shown):
        sources = [text("." + path) for path in paths if path.endswith("/" + name)]
        for one in re.findall(r"\w+", listed):
            if not any(re.search(r"\bfn %s\b" % one, source) for source in sources):
                yield "%s names %s of %s" % (page, one, name)


def main():
    wrong = []
    paths = list(files())
    functions = {name for path in paths if path.endswith(".rt") for name in re.findall(r"\b(?:fn |pub (?=\w+:))(\w+)", text("." + path))}
    for page in PAGES:
        wrong += stale(page, paths, functions)
    for page, paths in EXAMPLES.items():
        shown = blocks(text(page), "rust")
        if len(shown) != len(paths):
            wrong.append("%s has %d examples in place of %d" % (page, len(shown), len(paths)))
        for example, path in zip(shown, paths):
            lines = [line.strip() for line in example.strip().splitlines()]
            if "\n".join(lines) not in "\n".join(line.strip() for line in text(path).splitlines()):
                wrong.append("an example of %s is not that of %s" % (page, path))
    for page, path in PRINTED.items():
        if "".join("    %s\n" % line for line in text(path).splitlines()) not in text(page):
            wrong.append("%s does not say what stands in %s" % (page, path))
    vectors = re.sub(r"\\\n\s*", "", text(VECTORS))
    found = [dump for dump in dumps(text("docs/FORMAT.md")) if dump.startswith("42574c4f")]
    if len(found) != 6:
        wrong.append("FORMAT.md has %d dumps in place of 6" % len(found))
    wrong += ["FORMAT.md: no test has " + dump for dump in found if '"%s"' % dump not in vectors]
    with open(STORED, "rb") as file:
        if file.read().hex() not in found:
            wrong.append(STORED + " has not the bytes of a dump of FORMAT.md")
    for line in wrong:
        print(line)
    return 1 if wrong else 0


sys.exit(main())
