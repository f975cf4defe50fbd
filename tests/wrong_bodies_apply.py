#!/usr/bin/env python3
"""Each wrong body, of the gate or beside it, applies: each text that it replaces stands exactly once in its file."""
import glob
import os
import sys

ROOT = os.path.dirname(os.path.dirname(os.path.realpath(__file__)))


def fault(edit):
    """What keeps an edit from being applied, if anything does."""
    crate = os.path.dirname(os.path.dirname(edit))
    texts, path, old, pairs = {}, None, None, 0
    with open(edit, encoding="utf-8") as lines:
        for line in lines.read().split("\n"):
            word, _, rest = line.partition(":")
            rest = rest.removeprefix(" ")
            if word == "file":
                path = f"{crate}/{rest.strip()}"
                if not os.path.isfile(path):
                    return f"there is no file {rest}"
            elif word == "old":
                old = rest
            elif word == "new":
                if path not in texts:
                    with open(path, encoding="utf-8") as source:
                        texts[path] = source.read()
                found = texts[path].count(old)
                if found != 1:
                    return f"'{old}' stands {found} times in {os.path.relpath(path, crate)}"
                texts[path] = texts[path].replace(old, rest)
                pairs += 1
    return None if pairs else "it replaces nothing"


def main():
    edits = glob.glob(f"{ROOT}/crates/*/must-fail/*") + glob.glob(f"{ROOT}/crates/*/wrong-bodies/*")
    faults = [(os.path.relpath(it, ROOT), fault(it)) for it in sorted(edits)]
    for edit, why in faults:
        if why:
            print(f"{edit}: {why}")
    return 1 if any(why for _, why in faults) else 0


if __name__ == "__main__":
    sys.exit(main())
