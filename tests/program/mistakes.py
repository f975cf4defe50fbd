#!/usr/bin/env python3
"""`explain` says of each mistaken file in tests/mistakes what the text beside it says, and ends as `run --strict` of it does; its first
mistake is in the record that the run's line names. A file that isn't there is told with the system's reason; an order file behind a
mistaken one is explained too; of files without a mistake it tells what their day leaves unsaid. Where a case ends with a fault, it has a
mistake, and where one doesn't, none. Prints what is wrong, and ends with status 1 where something is. With the path of a program it tries
that one."""
import pathlib
import re
import subprocess
import sys

ROOT = pathlib.Path(__file__).resolve().parent.parent.parent
CASES = ROOT / "crates" / "xetra_cases" / "data"
MISTAKES = ROOT / "tests" / "mistakes"
# The least number of mistaken files, so that none is left out unseen.
LEAST_FILES = 200
FAULT = re.compile(r"^xetra-day: (segment|carry|orders|orders [0-9]+): line ([0-9]+): [A-Za-z]+\n$|^xetra-day: open: [A-Za-z]+\n$")
RECORD = re.compile(r"\(record ([0-9]+)\)")
UNSAID = """no mistake: 7 rows accepted, 4 refused
unsaid.csv: line 3 (record 3): refused as unknown-member: "NOBODY" is no member of the segment file; rows refused so: 2
unsaid.csv: line 5 (record 5): refused as unknown-security: "GONE" is no security of the segment file; rows refused so: 1
unsaid.csv: line 7 (record 7): refused as wrong-phase: the phase that the security is in takes no such command: calls begin with open, intraday and close, and end with uncross; ioc, fok and boc go with continuous trading; rows refused so: 1
security ABC has not ended: opening-call since record 2
"""

Ended = tuple[int, str, str]


def call(program: str, *words: str, folder: pathlib.Path = MISTAKES) -> Ended:
    done = subprocess.run([program, *words], cwd=folder, capture_output=True, text=True, check=False)
    return done.returncode, done.stdout, done.stderr


def words_for(name: str) -> tuple[list[str], list[str]]:
    """How a file is explained, and how it is run."""
    if name.endswith(".segment.toml"):
        return ["explain", name, "orders.csv"], ["run", "--strict", name, "orders.csv"]
    if name.endswith(".carry.csv"):
        return (
            ["explain", "segment.toml", "orders.csv", "--carry", name],
            ["carry", "--strict", "segment.toml", name, "orders.csv", "--out", "/dev/null"],
        )
    return ["explain", "segment.toml", name], ["run", "--strict", "segment.toml", name]


def wrong_of(program: str, name: str, told: str) -> list[str]:
    """What is wrong with the explanation of a mistaken file, of which this is to be told."""
    explain, run = words_for(name)
    status, text, complaint = call(program, *explain)
    ended, _, line = call(program, *run)
    wrong = []
    if text != told or complaint:
        wrong.append(f"{name}: told\n{text}{complaint}and not\n{told}")
    fault = FAULT.match(line)
    if fault is None or status != 1 or ended != 1:
        wrong.append(f"{name}: explained with status {status}, run with {ended}: {line.strip()}")
    elif fault[1] and fault[1] != "segment":
        record = RECORD.search(text.splitlines()[0]) if text else None
        if record is not None and record[1] != fault[2]:
            wrong.append(f"{name}: the first mistake is that of record {record[1]}, and the run's of {fault[2]}")
    return wrong


def wrong_of_cases(program: str) -> list[str]:
    """A case has a mistake where its run ends with a fault, and else none, and both end with one status."""
    wrong = []
    for orders in sorted(CASES.glob("*.orders.csv")):
        name = orders.name.removesuffix(".orders.csv")
        own = CASES / f"{name}.segment.toml"
        segment = own.name if own.exists() else "segment.toml"
        files = [orders.name, *(path.name for path in sorted(CASES.glob(f"{name}.orders.*.csv")))]
        left = f"{name}.in.csv"
        if (CASES / left).exists():
            run = ["carry", "--strict", segment, left, *files, "--out", "/dev/null"]
            explain = ["explain", segment, *files, "--carry", left]
        else:
            run, explain = ["run", "--strict", segment, *files], ["explain", segment, *files]
        ended, _, _ = call(program, *run, folder=CASES)
        status, text, complaint = call(program, *explain, folder=CASES)
        faultless = text.startswith("no mistake: ")
        if status != ended or complaint or not text or faultless == (ended == 1):
            wrong.append(f"case {name}: explained with status {status}, run with {ended}:\n{text}{complaint}")
    return wrong


def wrong_of_others(program: str) -> list[str]:
    """Files that aren't there, several files, and days without a mistake."""
    wrong = []

    def expects(words: list[str], status: int, told: str) -> None:
        ended = call(program, "explain", *words)
        if ended != (status, told, ""):
            wrong.append(f"{' '.join(words)}: {ended[0]}\n{ended[1]}{ended[2]}and not {status}\n{told}")

    none = "No such file or directory"
    expects(["segment.toml", "gone.csv"], 1, f"gone.csv: {none}\n")
    expects(["gone.toml", "orders.csv"], 1, f"gone.toml: {none}\n")
    expects(["gone.toml", "gone.csv", "--carry", "none.csv"], 1, f"gone.toml: {none}\nnone.csv: {none}\ngone.csv: {none}\n")
    expects(["segment.toml", "."], 1, ".: Is a directory\n")
    second = (MISTAKES / "side_in_capitals.orders.txt").read_text()
    first = (MISTAKES / "command_new.orders.txt").read_text()
    expects(["segment.toml", "orders.csv", "side_in_capitals.orders.csv", "gone.csv"], 1, f"{second}gone.csv: {none}\n")
    expects(["segment.toml", "command_new.orders.csv", "side_in_capitals.orders.csv"], 1, first + second)
    expects(["segment.toml", "ended.csv"], 0, "no mistake: 10 rows accepted, 0 refused\n")
    expects(["segment.toml", "unsaid.csv"], 4, UNSAID)
    return wrong


def main() -> int:
    program = sys.argv[1] if len(sys.argv) > 1 else str(ROOT / "xetra-day")
    texts = sorted(MISTAKES.glob("*.txt"))
    wrong = []
    for text in texts:
        for kind in (".csv", ".toml"):
            if text.with_suffix(kind).exists():
                wrong += wrong_of(program, text.with_suffix(kind).name, text.read_text())
    wrong += wrong_of_others(program) + wrong_of_cases(program)
    if len(texts) < LEAST_FILES:
        wrong.append(f"{len(texts)} mistaken files, and {LEAST_FILES} are wanted")
    for line in wrong:
        print(f"mistakes: {line}")
    return 1 if wrong else 0


if __name__ == "__main__":
    sys.exit(main())
