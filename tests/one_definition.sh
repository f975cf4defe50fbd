#!/bin/sh
# Each name of a definition stands once in the `specs/` of all crates; the fields of records, which are accessors of views, may
# share theirs. Prints each name that stands more than once, with its places, and ends with status 1 where there is one.
set -eu
cd "$(dirname "$0")/.."
exec python3 - <<'END'
import collections, pathlib, re, sys

WORD = re.compile(r"(?:pub\s+)?(?:(?:abbrev|unfoldable)\s+)?(?:pub\s+)?(?:record\s+(?=[A-Z]))?(\S+)")
places = collections.defaultdict(list)
for path in sorted(pathlib.Path("crates").glob("*/specs/**/*.antt")):
    record = None
    for number, line in enumerate(path.read_text(encoding="utf-8").splitlines(), 1):
        text = line.lstrip()
        indent = len(line) - len(text)
        if record is not None and text and indent <= record:
            record = None
        opens = re.match(r"(pub|abbrev|unfoldable|record\s+[A-Z])", text)
        if record is not None or not opens or re.match(r"(pub )?(mod|use)\b", text):
            continue
        if re.match(r"(pub\s+)?record\b", text):
            record = indent
        places[WORD.match(text).group(1)].append(f"{path}:{number}")
double = {name: where for name, where in places.items() if len(where) > 1}
for name, where in sorted(double.items()):
    print(f"one_definition: {name} is defined more than once: {', '.join(where)}")
sys.exit(1 if double else 0)
END
