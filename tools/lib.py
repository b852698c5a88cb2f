#!/usr/bin/env python3
"""Makes the libraries for other languages, or installs them with the program.

    lib.py                   out/libhechdoram_read.a and .so, of what `rt lib` made of crates/bw_reading and of its part in C; out/libhechdoram.a
                             and .so, the store by its child, which is C only; and files for pkg-config, for this folder
    lib.py install PREFIX    below PREFIX: the program, its manual page and its completion, if `make run` was run; the headers; the libraries, that of
                             readers if `make lib` was run; and the files for pkg-config. DESTDIR stands before PREFIX, if it is set
    lib.py uninstall PREFIX  removes these files again, whether or not they would be installed now

The library of readers has clients/c/hechdoram_read.c in it and the kit's own calls of malloc. Each shows no name but those of its header: so two
such libraries may stand in one program. It needs cc, ld, objcopy and ar."""

import os
import shutil
import subprocess
import sys
import tempfile

TOP = os.path.realpath(os.path.join(os.path.dirname(os.path.abspath(__file__)), ".."))
OUT = os.path.join(TOP, "out")
NAME = "hechdoram_read"
INCLUDE = os.path.join(TOP, "include")
BUILT = os.path.join(TOP, "crates", "bw_reading", "out", "libbw_reading.a")
PROGRAM = os.path.join(TOP, "crates", "bwlog", "out", "bwlog")
PART_IN_C = os.path.join(TOP, "clients", "c", NAME + ".c")
CLIENT = [os.path.join(TOP, "clients", "c", name) for name in ("hechdoram.c", "hechdoram_scan.c", "hechdoram_tables.c")]
STRICT = ["-std=c11", "-O2", "-fPIC", "-Wall", "-Wextra", "-Wpedantic", "-Wconversion", "-Werror"]
# What the headers declare.
SHOWN, SHOWN_OF_CLIENT = "bw_raw_*", "hechdoram_*"
VERSION = "0.2.0"
SAYS = {
    "hechdoram": "A store of keys and values in a folder, written by a child process",
    "hechdoram_read": "The store in a folder, read in the process of its caller",
}
PC = """prefix=%s
includedir=%s
libdir=%s

Name: %s
Description: %s
Version: %s
Cflags: -I${includedir}
Libs: -L${libdir} -l%s
"""


def run(*words):
    ran = subprocess.run(words, capture_output=True, text=True, check=False)
    if ran.returncode != 0:
        raise SystemExit("%s\n%s%s" % (" ".join(words), ran.stdout, ran.stderr))
    return ran.stdout


def archives():
    """The library as it was built, and what of the kit it calls."""
    kit = os.path.dirname(run("rt", "doc").strip())
    return BUILT, [os.path.join(kit, "c", "liblibc_c.a")]


def compiled(source, folder):
    """The object file of a part in C."""
    path = os.path.join(folder, os.path.basename(source)[:-2] + "_c.o")
    run("cc", *STRICT, "-I", INCLUDE, "-c", source, "-o", path)
    return path


def make_archive(path, shown, *parts):
    """An archive of one object, which shows these names only."""
    with tempfile.TemporaryDirectory() as folder:
        one = os.path.join(folder, os.path.basename(path)[3:-2] + ".o")
        run("ld", "-r", "-o", one, *parts)
        run("objcopy", "--wildcard", "--keep-global-symbol=" + shown, one)
        if os.path.exists(path):
            os.remove(path)
        run("ar", "rcs", path, one)


def make_shared(path, shown, *parts):
    """A shared library that shows these names only."""
    with tempfile.TemporaryDirectory() as folder:
        names = os.path.join(folder, "names")
        with open(names, "w", encoding="ascii") as file:
            file.write("{ global: %s; local: *; };\n" % shown)
        run("cc", "-shared", "-o", path, "-Wl,-soname," + os.path.basename(path), "-Wl,--version-script=" + names, "-Wl,--no-undefined", *parts)


def write_pc(path, name, prefix, include, lib):
    with open(path, "w", encoding="ascii") as file:
        file.write(PC % (prefix, include, lib, name, SAYS[name], VERSION, name))


def files_of(name):
    """The two files of a library in out/."""
    return [os.path.join(OUT, "lib%s.%s" % (name, end)) for end in ("a", "so")]


def make_client():
    """The store by its child: C only, of which nothing is proved."""
    os.makedirs(OUT, exist_ok=True)
    archive, shared = files_of("hechdoram")
    with tempfile.TemporaryDirectory() as folder:
        parts = [compiled(source, folder) for source in CLIENT]
        make_archive(archive, SHOWN_OF_CLIENT, *parts)
        make_shared(shared, SHOWN_OF_CLIENT, *parts)
    write_pc(os.path.join(OUT, "hechdoram.pc"), "hechdoram", TOP, INCLUDE, OUT)


def make():
    built, beside = archives()
    if not os.path.isfile(built):
        raise SystemExit("%s is not built: make lib" % built)
    make_client()
    archive, shared = files_of(NAME)
    with tempfile.TemporaryDirectory() as folder:
        part = compiled(PART_IN_C, folder)
        make_archive(archive, SHOWN, part, "--whole-archive", built, "--no-whole-archive", *beside)
        make_shared(shared, SHOWN, part, "-Wl,--whole-archive", built, "-Wl,--no-whole-archive", *beside)
    write_pc(os.path.join(OUT, NAME + ".pc"), NAME, TOP, INCLUDE, OUT)


def installed():
    """What is installed: each file's place below the prefix, and where it is from; nothing of what is written there anew."""
    found = {"bin/bwlog": PROGRAM, "share/man/man1/bwlog.1": os.path.join(TOP, "docs", "bwlog.1")}
    found["share/bash-completion/completions/bwlog"] = os.path.join(TOP, "docs", "bwlog.bash")
    for name in SAYS:
        found["include/%s.h" % name] = os.path.join(INCLUDE, name + ".h")
        found.update({"lib/" + os.path.basename(file): file for file in files_of(name)})
        found["lib/pkgconfig/%s.pc" % name] = None
    return found


def is_left_out(place):
    """Whether a file is not there to be installed: those of the program, and of the library of readers."""
    if place.startswith("lib/") and NAME in place:
        return not all(os.path.isfile(file) for file in files_of(NAME))
    return "bwlog" in place and not os.path.isfile(PROGRAM)


def root_of(prefix):
    return os.environ.get("DESTDIR", "") + prefix


def put_file(path, source):
    """Puts a file in one step, so that a program that runs stays as it is."""
    beside = "%s.%d" % (path, os.getpid())
    shutil.copy(source, beside)
    os.replace(beside, path)


def install(prefix):
    make_client()
    for place, source in installed().items():
        path = os.path.join(root_of(prefix), place)
        if is_left_out(place):
            print("left out: %s, which %s makes" % (place, "make run" if "bwlog" in place else "make lib"))
            continue
        os.makedirs(os.path.dirname(path), exist_ok=True)
        if source:
            put_file(path, source)
        else:
            write_pc(path, os.path.basename(place)[:-3], prefix, "${prefix}/include", "${prefix}/lib")
        print("installed: " + path)


def uninstall(prefix):
    """Removes the files, and leaves the folders, in which others may stand."""
    for place in installed():
        path = os.path.join(root_of(prefix), place)
        if os.path.lexists(path):
            os.remove(path)
            print("removed: " + path)


def main(words):
    if not words:
        make()
    elif len(words) == 2 and words[0] in ("install", "uninstall"):
        {"install": install, "uninstall": uninstall}[words[0]](os.path.abspath(words[1]))
    else:
        raise SystemExit(__doc__)


if __name__ == "__main__":
    main(sys.argv[1:])
