#!/usr/bin/env python3
"""What refuses each must-fail edit, a line for each, as docs/EDITS.md has them.

usage: tools/refusals.py < LOG   LOG: what `rt ci` printed, or several runs, the later ones last
"""

import re
import sys

SAID = re.compile(r"rt: must-fail (\w+)/(\w+)\.edit: refused, as it must be: (.*)")
PROOF = re.compile(r"\./proofs/(.*?)(?:/(?:Answers|Invariants))?\.antt:\d+:\d+: error: (?:`([^`]*)`)?")
SOURCE = re.compile(r"note: (src/\S+?\.rt):\d+:\d+: .*?\(`([^`]*)`\)")

lines = {}
for line in sys.stdin:
    if said := SAID.match(line):
        crate, edit, reason = said.groups()
        where = PROOF.match(reason) or SOURCE.match(reason)
        lines[crate, edit] = f"{where[1]} {where[2] or ''}".strip() if where else reason.strip()

for (crate, edit), where in sorted(lines.items()):
    print(f"- `{crate}/{edit}`: {where}")
