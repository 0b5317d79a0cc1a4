#!/usr/bin/env python3
"""Tries the wrong bodies of crates that the gate leaves out, as these crates take long to prove: the prover has to
refuse each.

wrong_bodies.py NAME..     those of crates/NAME/wrong-bodies, over what checks of these crates kept; while it runs they
                           stand in crates/NAME/must-fail"""
import os
import shutil
import subprocess
import sys

TOP = os.path.dirname(os.path.dirname(os.path.abspath(__file__)))


def folder_of(name, kind):
    """A folder of edits of a crate."""
    return os.path.join(TOP, "crates", name, kind)


def add_edits(name):
    """Puts the wrong bodies of a crate among its edits, and gives where they stand now."""
    to = folder_of(name, "must-fail")
    os.makedirs(to, exist_ok=True)
    return [shutil.copy(edit.path, to) for edit in os.scandir(folder_of(name, "wrong-bodies"))]


def take_away(added, names):
    """Takes them away, and what folders are empty then."""
    for edit in added:
        os.remove(edit)
    for name in names:
        folder = folder_of(name, "must-fail")
        if os.path.isdir(folder) and not os.listdir(folder):
            os.rmdir(folder)


def tried(names):
    """Tries those of some crates, and gives the status of the try."""
    added = []
    try:
        for name in names:
            added += add_edits(name)
        return subprocess.run(["rt", "must-fail", *names], cwd=TOP).returncode
    finally:
        take_away(added, names)


def main(names):
    unknown = [name for name in names if not os.path.isdir(folder_of(name, "wrong-bodies"))]
    if unknown or not names:
        print(f"no wrong bodies: {' '.join(unknown)}" if unknown else __doc__, file=sys.stderr)
        return 2
    return tried(names)


if __name__ == "__main__":
    sys.exit(main(sys.argv[1:]))
