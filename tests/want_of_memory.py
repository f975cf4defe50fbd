#!/usr/bin/env python3
"""Want of memory is told where a growth was refused. Types say most of that: `OutOfMemory` has no public constructor. What they
can't say: no crate but `xm_memory`, which makes it, and `xm_failing_alloc`, which refuses growths for tests, names the error of a
refused growth; and what takes another's word for one (`told_by`), or a count for too high (`count_within`), is named in
docs/TESTED.md. Prints each place where that isn't so, and ends with status 1 where there is one."""
import pathlib
import re
import sys

ROOT = pathlib.Path(__file__).resolve().parent.parent
MAKERS = {"xm_memory", "xm_failing_alloc"}
GROWTH = re.compile(r"\b(AllocError|AllocFailed)\b")
WORD = re.compile(r"\b(told_by|count_within)\(")


def places(pattern, files):
    """Each file and line number at which a pattern stands, with what was found."""
    for path in files:
        for number, line in enumerate(path.read_text(encoding="utf-8").splitlines(), 1):
            for found in pattern.finditer(line):
                yield path.relative_to(ROOT), number, found.group(1)


def main():
    sources = [it for it in sorted(ROOT.glob("crates/*/src/**/*.rt")) if it.relative_to(ROOT).parts[1] not in MAKERS]
    tested = (ROOT / "docs/TESTED.md").read_text(encoding="utf-8")
    faults = [f"{path}:{number}: {word} is named" for path, number, word in places(GROWTH, sources)]
    named = {path for path, _, _ in places(WORD, sources)}
    faults += [f"{path}: it is not named in docs/TESTED.md" for path in sorted(named) if f"`{path}`" not in tested]
    listed = set(map(pathlib.Path, re.findall(r"`(crates/[^`]*\.rt)`", tested)))
    faults += [f"docs/TESTED.md: {path} takes no word for want of memory" for path in sorted(listed - named)]
    for fault in faults:
        print(f"want_of_memory: {fault}")
    return 1 if faults else 0


sys.exit(main())
