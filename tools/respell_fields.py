#!/usr/bin/env python3
"""Fields of records of proofs/ that respell.py left with a dash: a label is in snake case. Run at the top, after respell.py."""
import os
import re

import respell

FIELDS = """from-here root-coupled parent-below parent-coupled phase-count rest-bytes as-laid high-up marks-down flags-down root-down
source-listed source-low target-listed target-low length-is succeeds-yet from-open makes-nothing makes-it left-most link-most runs-long
traces-long same-words none-applies over-limit other-sum by-none by-fifth fine-none fine-empty""".split()

# Names that would fall together with a definition's.
NAMES = {name: name.replace("-", "_") for name in FIELDS} | {"half-open": "half_open_lem", "with-rules": "with_rules_lem"}


def turned(path, text):
    if path.endswith(".antt"):
        return respell.turned_lines(text, NAMES, respell.imported_from_library(text), "--")
    if path.endswith(".md"):
        return respell.turned_page(text, NAMES)
    return "\n".join(respell.turned(line, NAMES if re.match(r"(old|new|law): ", line) else {}) for line in text.split("\n"))


def main():
    for folder, dirs, files in os.walk("."):
        dirs[:] = [d for d in dirs if d not in ("out", ".git", "target")]
        for name in files:
            path = os.path.join(folder, name)
            if name.endswith((".antt", ".edit", ".md")):
                respell.write(path, turned(path, respell.text_of(path)))


if __name__ == "__main__":
    main()
