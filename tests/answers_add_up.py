#!/usr/bin/env python3
"""The answers of each example and of each case add up to its statement: accepted and refused rows, and of each security the
trades, their quantity and their money; where its trades are stored, they are those of the statement that each answer counts;
and where its levels are stored, the best ones are the best limits of the answers. Prints each sum, each record and the first trade
that differs, and ends with status 1 where one does."""
import csv
import pathlib
import sys
from collections import Counter
from decimal import Decimal
from itertools import zip_longest

ROOT = pathlib.Path(__file__).resolve().parent.parent
FOLDERS = (ROOT / "examples", ROOT / "crates/xetra_cases/data")


def of_answers(path):
    """What the answers sum to: rows by whether they were accepted, and of each security trades, quantity and money."""
    rows, traded = Counter(), {}
    with path.open(newline="") as file:
        for line in csv.DictReader(file):
            accepted = line["answer"] == "accepted"
            rows[accepted] += 1
            if accepted:
                trades, quantity, money = traded.get(line["security"], (0, 0, Decimal(0)))
                traded[line["security"]] = (
                    trades + int(line["trades"]),
                    quantity + int(line["quantity"]),
                    money + Decimal(line["money"]),
                )
    return (rows[True], rows[False]), those_traded(traded)


def those_traded(traded):
    return {name: sums for name, sums in traded.items() if sums[0]}


def of_statement(path):
    """The same of a statement."""
    rows, traded, security, trades = None, {}, None, 0
    for line in path.read_text().splitlines():
        word, *fields = line.split(" ")
        if word == "SECURITY":
            security, trades = fields[0], 0
        elif word == "TRADE":
            trades += 1
        elif word == "TOTAL":
            traded[security] = (trades, int(fields[0]), Decimal(fields[1]))
        elif word == "ROWS":
            rows = tuple(int(count) for count in fields)
    return rows, those_traded(traded)


def trades_of_statement(path):
    """The fields of the trades of each security of a statement."""
    trades = {}
    for line in path.read_text().splitlines():
        word, *fields = line.split(" ")
        if word == "SECURITY":
            security = trades.setdefault(fields[0], [])
        elif word == "TRADE":
            security.append(fields)
    return trades


def trades_of_answers(answers, trades):
    """The trades that each answer counts, of these of its security: record, security, fields, text."""
    with answers.open(newline="") as file:
        for line in csv.DictReader(file):
            if int(line["trades"] or 0):
                first = int(line["first_trade"])
                for fields in trades[line["security"]][first : first + int(line["trades"])]:
                    yield [line["record"], line["security"], *fields, line["text"]]


def line_that_differs(answers, trades):
    """The first line of a file of trades that isn't what answers and statement say, if there is one."""
    stated = trades_of_statement(answers.with_name(answers.name.replace(".answers.csv", ".statement")))
    with trades.open(newline="") as file:
        told = list(csv.reader(file))[1:]
    for number, (one, other) in enumerate(zip_longest(told, trades_of_answers(answers, stated)), 2):
        if one != other:
            return f"line {number} is {one}, and answers and statement give {other}"
    return None


def best_levels(path):
    """The limit and the units of the best level of each side, behind each record and security that changed the levels."""
    shown = {}
    with path.open(newline="") as file:
        for line in csv.DictReader(file):
            sides = shown.setdefault((line["record"], line["security"]), {"buy": ("", ""), "sell": ("", "")})
            if line["rank"] == "1":
                sides[line["side"]] = (line["limit"], line["quantity"])
    return shown


def those_that_differ(answers, depth):
    """The records behind which the best levels aren't the best limits of the answer."""
    shown, last = best_levels(depth), {}
    with answers.open(newline="") as file:
        for line in csv.DictReader(file):
            name = line["security"]
            last[name] = shown.get((line["record"], name), last.get(name, {"buy": ("", ""), "sell": ("", "")}))
            told = {side: (line[f"best_{side}"], line[f"{side}_quantity"]) for side in ("buy", "sell")}
            if name and told != last[name]:
                yield line["record"]


def main():
    failed = 0
    for answers in sorted(path for folder in FOLDERS for path in folder.rglob("*.answers.csv")):
        name = answers.name.removesuffix(".answers.csv")
        told = of_answers(answers)
        stated = of_statement(answers.with_name(f"{name}.statement"))
        if told != stated:
            print(f"answers_add_up: {answers.relative_to(ROOT).parent}/{name}: the answers give {told}, and the statement has {stated}")
            failed = 1
        trades = answers.with_name(f"{name}.trades.csv")
        difference = line_that_differs(answers, trades) if trades.exists() else None
        if difference:
            print(f"answers_add_up: {trades.relative_to(ROOT)}: {difference}")
            failed = 1
        depth = answers.with_name(f"{name}.depth.csv")
        for record in those_that_differ(answers, depth) if depth.exists() else []:
            print(f"answers_add_up: {depth.relative_to(ROOT)}: the best levels of record {record} aren't those of its answer")
            failed = 1
    return failed


sys.exit(main())
