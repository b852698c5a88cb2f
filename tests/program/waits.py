#!/usr/bin/env python3
"""When the built program writes its answers out: before it waits for more of its input, whatever stands there after a request (nothing, an
empty line, a comment, a part of a line, more than a line may have), and at once after a receipt: `flush`, `settle`, `clean`, and of
`serve` also `durable`.

Its output is a pipe that keeps each write apart, so what is read at once is what was written at once. The input stays open until the
answers were read: a program that keeps them while it waits answers nothing, and that is reported after some seconds."""

import os
import select
import subprocess
import sys

HERE = os.path.dirname(os.path.abspath(__file__))
PROGRAM = os.path.abspath(os.path.join(HERE, "..", "..", "crates", "bwlog", "out", "bwlog"))
SECONDS = 20
# What is sent at once, and what is written for it, a write each.
REPLAY = [
    (b"get k\n", [b"none\n"]),
    (b"get k\n\n", [b"none\n"]),
    (b"get k\n# a comment\n\n", [b"none\n"]),
    (b"get k\n# part of a lin", [b"none\n"]),
    (b"get k\nget ", [b"none\n"]),
    (b"get k\n\r", [b"none\n"]),
    (b"get k\n" + b"#" * 6000, [b"none\n"]),
    (b"get k\n" + b"#" * 30000 + b"\nget k\n#", [b"none\n", b"none\n"]),
    (b"put 0 k v\nflush\nget k\n", [b"ok\nframe 1\n", b"value v\n"]),
    (b"put 0 k v\nsettle\nflush\nget k\n", [b"ok\nsettled 1\n", b"no frame\n", b"value v\n"]),
    (b"put 0 k v\nflush\nroll\nput 0 k w\nflush\nclean\nget k\n",
     [b"ok\nframe 1\n", b"rolled\nok\nframe 2\n", b"cleaned segment 1 lease 0 pages 1 frames 1\n", b"value w\n"]),
    (b"clean\nget k\n", [b"refused E11 NothingOld\n", b"none\n"]),
]
SERVE = [
    (b"get k\n", [b"none\n"]),
    (b"get k\nget k\nget", [b"none\nnone\n"]),
    (b"get k\n# part", [b"none\n"]),
    (b"get k\n" + b"x" * 6000, [b"none\n", b"fault line too long\n"]),
    (b"put k v\nflush\nget k\nget k\n", [b"ok\nframe 1\n", b"value v\nvalue v\n"]),
    (b"put k v\nsettle\nget k\n", [b"ok\nsettled 1\n", b"value v\n"]),
    (b"durable\nget k\n", [b"durable 0\n", b"none\n"]),
    (b"clean\nget k\n", [b"refused E11 NothingOld\n", b"none\n"]),
]


def writes_of(words, sent, count):
    """The first writes of a run that was sent this and waits for more, each as it was written; fewer, if no further one came."""
    read, write = os.pipe2(os.O_DIRECT | os.O_CLOEXEC)
    child = subprocess.Popen([PROGRAM] + words, stdin=subprocess.PIPE, stdout=write)
    os.close(write)
    try:
        writes = []
        if words == ["serve"]:
            writes.append(one_of(read))
        child.stdin.write(sent)
        child.stdin.flush()
        while len(writes) < count:
            came = one_of(read)
            if not came:
                break
            writes.append(came)
        return writes
    finally:
        child.kill()
        child.wait()
        child.stdin.close()
        os.close(read)


def one_of(read):
    ready, _, _ = select.select([read], [], [], SECONDS)
    return os.read(read, 1 << 16) if ready else b""


def main():
    if not os.path.isfile(PROGRAM):
        print(PROGRAM + " is not built: make run")
        return 1
    rows = [(["replay"], sent, wanted) for sent, wanted in REPLAY]
    rows += [(["serve"], sent, [b"ready frame 0 protocol 1\n"] + wanted) for sent, wanted in SERVE]
    for words, sent, wanted in rows:
        writes = writes_of(words, sent, len(wanted))
        if writes != wanted:
            print("%s was sent %s, and wrote %s in place of %s" % (words[0], sent[:60], writes, wanted))
            return 1
    print("%d runs wrote their answers out before they waited" % len(rows))
    return 0


sys.exit(main())
