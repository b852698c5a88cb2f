#!/usr/bin/env python3
"""The manual page docs/bwlog.1 and the completion docs/bwlog.bash, made from what `bwlog --help` and `bwlog MODE --help` print.

    manual.py [--check] [PROGRAM]

writes both, or with --check says whether they are as the program would have them: each mode, argument, option, range and default is in the page then,
and the completion knows each mode, option and listed value. Where groff is there, --check also asks it for a page without a warning.
"""

import os
import re
import shutil
import subprocess
import sys

HERE = os.path.dirname(os.path.abspath(__file__))
DOCS = os.path.join(HERE, "..", "docs")
PROGRAM = os.path.join(HERE, "..", "crates", "bwlog", "out", "bwlog")
STATUS = [
    ("0", "all went well, also where a put answered full"),
    ("1", "get found no value"),
    ("2", "the command line"),
    ("3", "a line of a script or of an import"),
    ("4", "something was refused, damaged or lost"),
    ("5", "out of memory"),
    ("6", "a read or a write failed, or a folder was not opened"),
    ("7", "verify found no fault, and bytes without a digest"),
]


class Mode:
    """What the help of a mode says: a sentence, a usage, rows of arguments and options, an example."""

    def __init__(self, name, text):
        self.name = name
        self.says = text.split("\n", 1)[0]
        self.usage = re.search(r"^Usage: (.*)$", text, re.M)[1]
        self.arguments = rows_in(text, "Arguments")
        self.options = rows_in(text, "Options")
        self.example = (re.search(r"^Example: (.*)$", text, re.M) or [None, None])[1]


def rows_in(text, title):
    """The rows below a title: the words before two blanks, and what is said of them."""
    part = re.search(r"^%s:\n((?:  .*\n)+)" % title, text + "\n", re.M)
    return [re.match(r"\s+(.*?)(?:  +(.*))?$", line).groups("") for line in part[1].splitlines()] if part else []


def told(program, *words):
    return subprocess.run([program, *words, "--help"], capture_output=True, check=False).stderr.decode()


def modes_of(program):
    names = [words for words, _ in rows_in(told(program), "Commands")]
    return [Mode(name, told(program, name)) for name in names if name != "help"]


def escaped(text):
    """A text of a manual page: a hyphen is a minus, and no line begins with a dot or a quote."""
    text = text.replace("\\", "\\e").replace("-", "\\-")
    return "\\&" + text if text[:1] in (".", "'") else text


def page(program, modes):
    says = told(program).split("\n", 1)[0].split(" (This text", 1)[0]
    lines = ['.TH BWLOG 1 "" Hechdoram "User Commands"', ".SH NAME", "bwlog \\- a page store in a folder", ".SH SYNOPSIS"]
    for mode in modes:
        lines += [escaped(mode.usage), ".br"]
    lines += [".SH DESCRIPTION", escaped(says), ".SH COMMANDS"]
    for mode in modes:
        lines += [".SS " + mode.name, escaped(mode.says) + "."]
        for words, meaning in mode.arguments + mode.options:
            lines += [".TP", "\\fB%s\\fR" % escaped(words), escaped(meaning)]
        if mode.example:
            lines += [".PP", "Example:", ".PP", ".RS", ".nf", escaped(mode.example), ".fi", ".RE"]
    lines += [".SH EXIT STATUS"]
    for status, meaning in STATUS:
        lines += [".TP", status, meaning]
    lines += [
        ".SH FILES",
        ".TP",
        escaped("FOLDER/segment-NNNN.bw"),
        "a segment of the log",
        ".TP",
        escaped("FOLDER/segment-NNNN.sum"),
        "the digests of its pieces",
        ".SH SEE ALSO",
        "The page USING of the source has the lines of scripts, the requests of serve, and all that is printed.",
    ]
    return "\n".join(lines) + "\n"


def completion(modes):
    """A function for bash: modes first, then the options of the mode, the values that an option lists, and folders."""
    lines = [
        "# Completion of bwlog for bash: source it, or put it where bash looks for completions.",
        "_bwlog() {",
        '    local mode="${COMP_WORDS[1]}" last="${COMP_WORDS[COMP_CWORD-1]}" word="${COMP_WORDS[COMP_CWORD]}"',
        "    if [ \"$COMP_CWORD\" -eq 1 ]; then",
        '        COMPREPLY=($(compgen -W "%s help --help --version" -- "$word"))' % " ".join(mode.name for mode in modes),
        "        return",
        "    fi",
        '    case "$mode $last" in',
    ]
    values = {}
    for mode in modes:
        for words, meaning in mode.options:
            if "<FOLDER>" in words:
                lines.append('        "%s %s") COMPREPLY=($(compgen -d -- "$word")); return ;;' % (mode.name, re.search(r"--[a-z-]+", words)[0]))
            listed = re.search(r"\[possible values: ([^]]*)\]", meaning)
            if listed:
                option = re.search(r"--[a-z-]+", words)[0]
                values.setdefault((mode.name, option), listed[1].replace(",", ""))
    for (mode, option), listed in values.items():
        lines.append('        "%s %s") COMPREPLY=($(compgen -W "%s" -- "$word")); return ;;' % (mode, option, listed))
    lines += ["    esac", '    case "$mode" in']
    for mode in modes:
        options = [re.search(r"--[a-z-]+", words)[0] for words, _ in mode.options]
        lines.append('        %s) COMPREPLY=($(compgen -W "%s" -- "$word")) ;;' % (mode.name, " ".join(options)))
    return "\n".join([*lines, "    esac", "}", "complete -F _bwlog bwlog"]) + "\n"


def wrong_in(name, text):
    """What a tool of its kind says of a file; nothing if it is not there."""
    path = os.path.join(DOCS, name)
    words = ["groff", "-man", "-Tutf8", "-ww", "-z", path] if name.endswith(".1") else ["bash", "-n", path]
    if not shutil.which(words[0]):
        return ""
    ended = subprocess.run(words, capture_output=True, check=False)
    return ended.stderr.decode() or ("status %d" % ended.returncode if ended.returncode else "")


def main():
    words = [it for it in sys.argv[1:] if it != "--check"]
    program = os.path.abspath(words[0]) if words else PROGRAM
    modes = modes_of(program)
    texts = {"bwlog.1": page(program, modes), "bwlog.bash": completion(modes)}
    wrong = 0
    for name, text in texts.items():
        path = os.path.join(DOCS, name)
        if "--check" not in sys.argv:
            with open(path, "w", encoding="utf-8") as file:
                file.write(text)
        with open(path, encoding="utf-8") as file:
            if file.read() != text:
                print("docs/%s is not up to date: python3 tools/manual.py" % name)
                wrong = 1
        said = wrong_in(name, text)
        if said:
            print("docs/%s: %s" % (name, said))
            wrong = 1
    return wrong


if __name__ == "__main__":
    sys.exit(main())
