#!/usr/bin/env python3
"""What each function of a crate costs to prove, in MB of what a check kept of it: python3 tools/cost.py crates/NAME/out/incremental [N].
About a second of processor time goes to each MB, and unlike seconds the MB are the same however busy the machine is. The N (40) dearest
functions come first, each with its Lts (what the borrow checker needs) and its Proof. A folder that several checks wrote also has what
older texts left, so remove it before the check. The check with tests keeps its work in the same folder."""

import collections
import os
import re
import sys

PART = re.compile(r"^(?P<function>.*)\.(Lts|Proof|Tie|Answers|Invariants|Reads|Code|Mir|Kinds|Instances|Statement|Met|Given|Layout|View|Goals|Named)$")


def modules(folder):
    """The name and the size of each module that was kept."""
    for at, _, files in os.walk(folder):
        for file in files:
            if file.endswith(".oantt") and not file.endswith(".decls.oantt"):
                yield file[: -len(".oantt")], os.path.getsize(os.path.join(at, file)) / 1e6


def main():
    folder, most = sys.argv[1], int(sys.argv[2]) if len(sys.argv) > 2 else 40
    whole, parts = collections.Counter(), collections.defaultdict(collections.Counter)
    for name, size in modules(folder):
        found = PART.match(name) if "-proofs." in name else None
        owner = found["function"].split("-proofs.")[1] if found else "(statements, lemmas and types)"
        whole[owner] += size
        parts[owner][found[2] if found else ""] += size
    lts = sum(it["Lts"] for it in parts.values())
    print("%.1f MB, of which Lts %.1f" % (sum(whole.values()), lts))
    for owner, size in whole.most_common(most):
        print("%7.2f  Lts %6.2f  Proof %6.2f  %s" % (size, parts[owner]["Lts"], parts[owner]["Proof"], owner))


if __name__ == "__main__":
    main()
