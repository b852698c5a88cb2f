"""Which crates changed since a commit, and of which of them a clause or a definition did."""

import os
import re
import subprocess

from shown import TOP

# What a proof of a crate reads.
PARTS = ("src", "specs", "proofs")
# A clause, or a ghost member, begins so; else a brace after a signature begins a body.
CLAUSE = re.compile(r"\b(?:requires|ensures|ghost)\*?\s*(?:\w[\w-]*\s*)?[:=]?\s*$")
COMMENT = re.compile(r"//[^\n]*")


def git(*words):
    return subprocess.run(["git", *words], cwd=TOP, capture_output=True, text=True, check=True).stdout


def files_since(commit):
    """The files of crates/ and wrong/ that differ from the commit's, those too that git does not know yet."""
    changed = git("diff", "--name-only", "--no-renames", commit, "--", "crates", "wrong").split("\n")
    return [it for it in changed + git("ls-files", "--others", "--exclude-standard", "crates", "wrong").split("\n") if it]


def crate_of(file):
    """The crate whose proof reads a file, if it is one's."""
    words = file.split("/")
    return words[1] if len(words) > 3 and words[0] == "crates" and words[2] in PARTS else None


def edited_crate(file):
    """The crate that a wrong body is of, if a file is one."""
    return file.split("/")[1] if file.startswith("wrong/") and file.endswith(".edit") else None


def end_of(text, at):
    """Where the brace that stands here is closed."""
    depth = 0
    for place in range(at, len(text)):
        depth += {"{": 1, "}": -1}.get(text[place], 0)
        if depth == 0:
            return place + 1
    return len(text)


def statements(text):
    """A source without comments and without the bodies of its functions."""
    text, kept, at = COMMENT.sub("", text), [], 0
    for function in re.finditer(r"\bfn \w+", text):
        if function.start() < at:
            continue
        place = function.end()
        while place < len(text) and text[place] != ";":
            if text[place] == "{":
                if not CLAUSE.search(text, function.start(), place):
                    break
                place = end_of(text, place)
            else:
                place += 1
        kept.append(text[at:place])
        at = end_of(text, place) if text[place : place + 1] == "{" else place
    return re.sub(r"\s+", " ", "".join(kept) + text[at:])


def says_otherwise(commit, file):
    """Whether a file's clauses, types or definitions differ from the commit's."""
    if "/proofs/" in file:
        return False
    before = subprocess.run(["git", "show", "%s:%s" % (commit, file)], cwd=TOP, capture_output=True, text=True, check=False).stdout
    try:
        with open(os.path.join(TOP, file), encoding="utf-8") as it:
            now = it.read()
    except FileNotFoundError:
        now = ""
    return statements(before) != statements(now) if file.endswith(".rt") else before != now


def crates_since(commit):
    """The crates that changed, and those of them whose statements did. A line of crates.txt that changed is a statement of its crate."""
    changed, stated = set(), set()
    for file in files_since(commit):
        name = crate_of(file)
        if name:
            changed.add(name)
            if says_otherwise(commit, file):
                stated.add(name)
    for line in git("diff", "-U0", commit, "--", "crates.txt").split("\n"):
        named = re.match(r"\+(\w+)[^:]*:", line)
        if named:
            changed.add(named[1])
            stated.add(named[1])
    return changed, stated
