#!/usr/bin/env python3
"""`auction` explains each call of each case and example: the calls that it tells and that traded are the auctions of the statement, with
their prices and their units; each price is in the ranges that its table tells as kept; and its candidates fall. Prints what is wrong, and
ends with status 1 where something is. With the path of a program it tries that one."""
import collections
import csv
import io
import pathlib
import re
import subprocess
import sys

ROOT = pathlib.Path(__file__).resolve().parent.parent.parent
CASES = ROOT / "crates" / "xetra_cases" / "data"
EXAMPLES = ROOT / "examples"
# The least number of calls that cases and examples have together, so that none is left out unseen.
LEAST_CALLS = 200
SECURITY = re.compile(r'^\s*name\s*=\s*"([A-Z0-9]+)"', re.MULTILINE)
RULES = {"nothing", "no-limit", "most-volume", "least-surplus", "highest-of-buys", "lowest-of-sells", "last-price-between"}

Call = list[dict[str, str]]


def days() -> list[tuple[pathlib.Path, list[pathlib.Path], list[pathlib.Path]]]:
    """Segment file and order files of each day, and the carry file that it opens with, if it does."""
    found = []
    for orders in sorted(CASES.glob("*.orders.csv")):
        name = orders.name.removesuffix(".orders.csv")
        left = CASES / f"{name}.in.csv"
        segment = CASES / f"{name}.segment.toml"
        more = sorted(CASES.glob(f"{name}.orders.*.csv"))
        found.append((segment if segment.exists() else CASES / "segment.toml", [orders, *more], [left] if left.exists() else []))
    for orders in sorted(EXAMPLES.glob("*.orders.csv")):
        segment = EXAMPLES / f"{orders.name.removesuffix('.orders.csv')}.segment.toml"
        found.append((segment if segment.exists() else EXAMPLES / "segment.toml", [orders], []))
    return found


def run(program: str, *words: object) -> tuple[int, str]:
    done = subprocess.run([program, *map(str, words)], capture_output=True, text=True, check=False)
    return done.returncode, done.stdout


def auctions(statement: str, security: str) -> list[tuple[str, int]]:
    """Price and units of each auction of a security that traded, in order."""
    section, units, prices = "", collections.Counter(), {}
    for line in statement.splitlines():
        words = line.split()
        if words[0] == "SECURITY":
            section = words[1]
        if words[0] == "TRADE" and section == security and words[2] != "continuous":
            units[words[1]] += int(words[4])
            prices[words[1]] = words[3]
    return [(prices[number], count) for number, count in units.items()]


def calls(table: str) -> list[Call]:
    """The rows of each call of a table, of which `price` is the last."""
    whole: list[Call] = []
    rows: Call = []
    for row in csv.DictReader(io.StringIO(table)):
        rows.append(row)
        if row["row"] == "price":
            whole.append(rows)
            rows = []
    assert not rows
    return whole


def mistakes_of(call: Call) -> list[str]:
    """What is wrong with a call by itself."""
    wrong = []
    candidates = [row for row in call if row["row"] == "candidate"]
    limits = [float(row["price"]) for row in candidates]
    if any(first <= second for first, second in zip(limits, limits[1:])):
        wrong.append("candidates don't fall")
    for row in candidates:
        demand, supply, surplus = int(row["demand"]), int(row["supply"]), int(row["surplus"])
        side = "buy" if demand > supply else "sell" if demand < supply else ""
        if int(row["volume"]) != min(demand, supply) or surplus != abs(demand - supply) or row["side"] != side:
            wrong.append(f"a candidate doesn't add up: {row}")
    price = call[-1]
    if price["told"] not in RULES:
        wrong.append(f"{price['told']} is no rule")
    if price["price"]:
        at = [row for row in candidates if row["price"] == price["price"]]
        if any(row["volume"] != price["volume"] for row in at):
            wrong.append("the volume isn't that of the candidate")
        if any(int(row["volume"]) > int(price["volume"]) for row in candidates):
            wrong.append("a candidate has more volume")
    for row in call:
        if row["row"] in ("dynamic", "static", "wide"):
            inside = float(row["low"]) <= float(price["price"]) <= float(row["high"])
            if inside != (row["told"] == "kept"):
                wrong.append(f"the {row['row']} range is told wrongly")
    return wrong


def traded(call: Call) -> bool:
    """Whether the call had a price, and each range that it asked was kept."""
    return bool(call[-1]["price"]) and all(row["told"] != "left" for row in call)


def main() -> int:
    program = sys.argv[1] if len(sys.argv) > 1 else str(ROOT / "xetra-day")
    wrong: list[str] = []
    number = 0
    for segment, orders, left in days():
        day = ["carry", segment, *left, *orders, "--out", "/dev/null"] if left else ["run", segment, *orders]
        status, statement = run(program, *day)
        if status != 0:
            continue
        for security in SECURITY.findall(segment.read_text(errors="replace")):
            asked = ["auction", segment, *orders, "--security", security, *(["--carry", *left] if left else [])]
            status, table = run(program, *asked, "--csv")
            told = calls(table)
            number += len(told)
            place = f"{orders[0].name}, {security}"
            wrong += [f"{place}: {mistake}" for call in told for mistake in mistakes_of(call)]
            prices = [(call[-1]["price"], int(call[-1]["volume"])) for call in told if traded(call)]
            if status != 0 or prices != auctions(statement, security):
                wrong.append(f"{place}: told {prices}, traded {auctions(statement, security)}")
            status, blocks = run(program, *asked)
            if status != 0 or blocks.count(", record ") != len(told):
                wrong.append(f"{place}: {len(told)} calls as CSV, and else {blocks.count(', record ')}")
    if number < LEAST_CALLS:
        wrong.append(f"{number} calls were told, and {LEAST_CALLS} are wanted")
    for line in wrong:
        print(f"auctions: {line}")
    return 1 if wrong else 0


if __name__ == "__main__":
    sys.exit(main())
