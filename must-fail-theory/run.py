#!/usr/bin/env python3
"""Wrong definitions that the theorems must refuse.

Each *.edit beside this file changes one line of a crate's specs/ and names the law at which the proof then breaks:

    # what is wrong
    crate: spec_step (where it is not `definition`)
    file: specs/Flatten.antt
    old: the text, which stands there once
    new: what takes its place
    law: law_flat `flat-sound`

The edit is made in a copy of the repository without the computed tables (which refuse most of these edits too), and the crates up to the
one with that law are checked there. It passes where the check fails and the first error names that law. As many edits run at a time as there are processors;
run.py NAME.. tries those alone.
"""
import concurrent.futures
import os
import pathlib
import re
import shutil
import subprocess
import sys
import tempfile

HERE = pathlib.Path(__file__).resolve().parent
ROOT = HERE.parent


def read_edit(path):
    fields = {"crate": "definition"}
    for line in path.read_text().splitlines():
        match = re.match(r"(crate|file|old|new|law): (.*)$", line)
        if match:
            fields[match.group(1)] = match.group(2)
    return fields


def copy_of_repository(folder):
    shutil.copy(ROOT / "crates.txt", folder / "crates.txt")
    shutil.copytree(ROOT / "crates", folder / "crates", ignore=shutil.ignore_patterns("out"))
    for part in ("proofs", "must-fail"):
        shutil.rmtree(folder / "crates/definition" / part, ignore_errors=True)


def try_edit(path):
    edit = read_edit(path)
    crate, law = re.match(r"(\S+) `(.+)`", edit["law"]).groups()
    with tempfile.TemporaryDirectory() as name:
        folder = pathlib.Path(name)
        copy_of_repository(folder)
        target = folder / "crates" / edit["crate"] / edit["file"]
        text = target.read_text()
        if text.count(edit["old"]) != 1:
            return path.stem, False, "the old text does not stand there once"
        target.write_text(text.replace(edit["old"], edit["new"]))
        run = subprocess.run(
            ["rt", "check", "--jobs", "1"], cwd=folder / "crates" / crate, capture_output=True, text=True
        )
        said = run.stdout + run.stderr
        if run.returncode == 0:
            return path.stem, False, "not refused"
        # A crate below it that falls is named after its errors.
        fallen = re.search(r"the library (\w+) did not build", said)
        first = next((line for line in said.splitlines() if ": error" in line), "no error line")
        first = f"{fallen.group(1) if fallen else crate}: {first}"
        right = first.startswith(f"{crate}: ./proofs/") and f": error: `{law}`" in first
        return path.stem, right, first[:200]


def main():
    names = sys.argv[1:]
    edits = sorted(path for path in HERE.glob("*.edit") if not names or path.stem in names)
    good = 0
    with concurrent.futures.ThreadPoolExecutor(max_workers=os.cpu_count() or 2) as pool:
        for name, right, first in pool.map(try_edit, edits):
            good += right
            print(f"{'refused' if right else 'WRONG'}: {name}: {first}", flush=True)
    print(f"{good} passed, {len(edits) - good} failed")
    return 0 if good == len(edits) and edits else 1


if __name__ == "__main__":
    sys.exit(main())
