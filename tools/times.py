#!/usr/bin/env python3
"""Writes the processor time of each crate, as the last gates took it (out/cpu-times.json), into docs/TESTING.md."""

import os
import re

from shown import TOP, crates, known_times

PAGE = os.path.join(TOP, "docs", "TESTING.md")
TABLE = re.compile(r"(?<=<!-- times -->\n).*?(?=<!-- end -->)", re.S)


def rows(known):
    """A row for each crate that took a minute or more, the dearest first."""
    whole = {name: [known.get(name + kind, 0) for kind in ("", " tests", " wrong bodies")] for name in crates()}
    dear = sorted((sum(parts), name) for name, parts in whole.items() if sum(parts) >= 60)
    for _, name in reversed(dear):
        yield "| `%s` | %s |" % (name, " | ".join("%d" % part if part else "" for part in whole[name]))


def main():
    known = known_times("cpu")
    if not known:
        print("times: no gate has kept any")
        return
    parts = [sum(seconds for name, seconds in known.items() if kind(name)) / 60 for kind in (
        lambda it: " " not in it, lambda it: it.endswith(" tests"), lambda it: it.endswith(" wrong bodies"))]
    head = "Proofs %d core-minutes, tests %d, wrong bodies %d. In seconds, of crates with a minute or more:\n\n" % tuple(parts)
    table = "| Crate | Proof | Tests | Wrong bodies |\n|---|---|---|---|\n" + "\n".join(rows(known)) + "\n"
    with open(PAGE, encoding="utf-8") as file:
        text = file.read()
    with open(PAGE, "w", encoding="utf-8") as file:
        file.write(TABLE.sub(lambda _: head + table, text))


if __name__ == "__main__":
    main()
