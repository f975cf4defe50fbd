#!/usr/bin/env python3
"""The cases are complete: each stands once in the list that the gate runs, with what it gives, and in the index that other systems
read; no file belongs to none; the worked days among them are those of examples/, and give the same statements in version 2 of the
order file and in two files. And they show all: each rule of the table of docs/MARKET_MODEL.md names a case, and each command, side, kind, validity,
restriction and condition is accepted in one, each refusal answered, each phase reached, and a trade made in each kind of call.
Prints what is wrong, and ends with status 1 where something is.

With --index it writes the index anew: what each case shows and under which topic is kept from it, and all else is found."""
import csv
import json
import pathlib
import re
import sys
import tomllib

ROOT = pathlib.Path(__file__).resolve().parent.parent
CRATE = ROOT / "crates/xetra_cases"
CASES = CRATE / "data"
INDEX = CRATE / "index.json"
EXAMPLES = ROOT / "examples"
FEWEST = 60
WORKED_DAYS = ("cascade", "opening_call", "small_day", "whole_day")
# What the name of a case ends with whose day is that of another one, in other order files.
AGAIN = "_in_version_2"
IN_TWO_FILES = "_in_two_files"
# What a case may have beside its orders, and what it must.
BESIDE = (".answers.csv", ".trades.csv", ".events.csv", ".depth.csv")
ENDINGS = (".orders.csv", ".segment.toml", ".in.csv", ".statement", *BESIDE, ".out.csv", ".fault")
# An order file behind the first one, by its number.
LATER = re.compile(r"\.orders\.([2-9]|[1-9][0-9]+)\.csv$")
# What the index calls the files that come out.
GIVEN = {
    "statement": ".statement",
    "answers": ".answers.csv",
    "trades": ".trades.csv",
    "events": ".events.csv",
    "depth": ".depth.csv",
    "carry": ".out.csv",
    "fault": ".fault",
}
# The rules that no file can show.
UNSHOWN = {"want of memory"}
# What the fields of accepted rows say; a date is any validity of digits, and what is left out is empty.
FIELDS = {
    "command": {"enter", "change", "cancel", "cancel-all", "open", "intraday", "close", "uncross", "end"},
    "side": {"buy", "sell"},
    "kind": {"market", "limit", "stop-market", "stop-limit"},
    "validity": {"", "day", "gtc", "date"},
    "restriction": {"", "free", "opening", "auctions", "closing"},
    "condition": {"", "plain", "ioc", "fok", "boc"},
}


def ending_of(name):
    """The ending of a file of a case, if it is one."""
    later = LATER.search(name)
    return later[0] if later else next((it for it in ENDINGS if name.endswith(it)), None)


def later_orders(endings):
    """The endings of the order files of a case behind the first one, in their order."""
    return sorted(filter(LATER.search, endings), key=lambda ending: int(LATER.search(ending)[1]))


def files_by_case():
    """The endings of the files of each case, and the files that are of none."""
    found, strays = {}, []
    for path in sorted(CASES.iterdir()):
        ending = ending_of(path.name)
        if ending:
            found.setdefault(path.name.removesuffix(ending), set()).add(ending)
        elif path.name != "segment.toml":
            strays.append(path.name)
    return found, strays


def has_result(given):
    """Whether these are what a day gives: a fault alone, or a statement, which has answers where the day opens with no carry file."""
    if ".fault" in given:
        return given <= {".in.csv", ".fault"}
    if ".in.csv" in given:
        return given - set(BESIDE) == {".in.csv", ".statement", ".out.csv"}
    return given - {".trades.csv", ".events.csv", ".depth.csv"} == {".statement", ".answers.csv"}


def faults_of_files(found, strays):
    for name in strays:
        yield f"{name} is no file of a case"
    for name, endings in found.items():
        if not re.fullmatch(r"[a-z0-9_]{1,40}", name):
            yield f"{name}: a name has at most 40 lower-case letters, digits and _"
        later = later_orders(endings)
        if ".orders.csv" not in endings:
            yield f"{name} has no orders"
        if later != [f".orders.{number}.csv" for number in range(2, len(later) + 2)]:
            yield f"{name}: the numbers of its order files don't go on from 2"
        if not has_result(endings - {".orders.csv", ".segment.toml", *later}):
            yield f"{name} has not a statement and answers or a carry file, or a fault alone: dev/cases --update {name}"
    if len(found) < FEWEST:
        yield f"there are {len(found)} cases, and {FEWEST} are wanted"


def faults_of_list(found):
    names = sorted(found)
    printed = [f"{name} as stored" for name in names] + [f"{len(names)} cases, 0 differ"]
    for file, wanted in (("args", names), ("stdout", printed)):
        if (CRATE / file).read_text().splitlines() != wanted:
            yield f"crates/xetra_cases/{file} isn't the list of the cases: dev/cases --list"


def settings_of(path):
    """What a segment file says, but for the limits of journals, which are those of the cases alone."""
    segment = tomllib.loads(path.read_text())
    return {**segment, "security": [{**it, "journal": None} for it in segment["security"]]}


def faults_of_worked_days():
    if settings_of(EXAMPLES / "segment.toml") != settings_of(CASES / "segment.toml"):
        yield "examples/segment.toml has other settings than that of the cases"
    worked = [EXAMPLES / f"{day}{ending}" for day in WORKED_DAYS for ending in ENDINGS]
    for path in (path for path in worked if path.exists()):
        copy = CASES / path.name
        if not copy.exists() or copy.read_bytes() != path.read_bytes():
            yield f"examples/{path.name} isn't the same among the cases"


def faults_of_versions(found):
    """A day gives one statement in both versions of the order file, and in one file and in two."""
    agains = [f"{day}{AGAIN}" for day in WORKED_DAYS]
    for again in agains + [name for name in found if name.endswith(IN_TWO_FILES) and name.removesuffix(IN_TWO_FILES) in found]:
        day = again.removesuffix(AGAIN).removesuffix(IN_TWO_FILES)
        if again not in found:
            yield f"{day} isn't there in version 2 of the order file"
        elif (CASES / f"{again}.statement").read_bytes() != (CASES / f"{day}.statement").read_bytes():
            yield f"{again} doesn't give the statement of {day}"


def faults_of_texts(found):
    """Each answer tells the text of its record, and an empty one where the file has none."""
    for name in sorted(name for name in found if ".answers.csv" in found[name]):
        records = records_of(name, found[name])
        for line in answers_of(name):
            if line["text"] != records[int(line["record"])].get("text", ""):
                yield f"{name}: record {line['record']} has another text than its answer"


def rows_below(document, head):
    """The rows of the tables of a document that have this head, as lists of fields."""
    rows, inside = [], False
    for line in (ROOT / "docs" / document).read_text().splitlines():
        if inside and line.startswith("|") and not line.startswith("|---"):
            rows.append([field.strip() for field in line.strip("|").split("|")])
        inside = line == head or inside and line.startswith("|")
    if not rows:
        sys.exit(f"cases: docs/{document} has no table with the head {head}")
    return rows


def words_of(field):
    return re.findall(r"`([^`]+)`", field)


def rules_by_case():
    """The rules that each case shows, by the table of the rules."""
    shown = {}
    for rule, *_, field in rows_below("MARKET_MODEL.md", "| Rule | Definition | Public function that keeps it | Case |"):
        for name in words_of(field):
            shown.setdefault(name, []).append(rule.replace("`", ""))
    return shown


def faults_of_rules(found):
    for rule, *_, field in rows_below("MARKET_MODEL.md", "| Rule | Definition | Public function that keeps it | Case |"):
        if not words_of(field) and (field != "-" or rule not in UNSHOWN):
            yield f"docs/MARKET_MODEL.md names no case of the rule '{rule}'"
    for name in sorted(set(rules_by_case()) - set(found)):
        yield f"docs/MARKET_MODEL.md names a case {name}, and there is none"


def entry_of(name, endings, topic, shows, rules):
    """What the index says of a case: what it shows, the files that go in, and those that are to come out."""
    own = f"{name}.segment.toml"
    taken = {"segment": own if ".segment.toml" in endings else "segment.toml"}
    if ".in.csv" in endings:
        taken["carried"] = f"{name}.in.csv"
    taken["orders"] = f"{name}.orders.csv"
    if later_orders(endings):
        taken["more_orders"] = [f"{name}{ending}" for ending in later_orders(endings)]
    given = {text: f"{name}{ending}" for text, ending in GIVEN.items() if ending in endings}
    return {"case": name, "topic": topic, "shows": shows, "rules": rules, "takes": taken, "gives": given}


def entries_of(found):
    """The index as it is, and as it is to be: its cases by their topics, those that it doesn't have last."""
    stored = json.loads(INDEX.read_text(encoding="utf-8"))
    said = {it["case"]: (it["topic"], it["shows"]) for it in stored}
    topics = list(dict.fromkeys(topic for topic, _ in said.values()))
    order = sorted(found, key=lambda name: (topics.index(said[name][0]) if name in said else len(topics), list(said).index(name) if name in said else 0, name))
    rules = rules_by_case()
    return stored, [entry_of(name, found[name], *said.get(name, ("", "")), rules.get(name, [])) for name in order]


def write_index(found):
    lines = [json.dumps(it, ensure_ascii=False) for it in entries_of(found)[1]]
    INDEX.write_text("[\n" + ",\n".join(lines) + "\n]\n", encoding="utf-8")


def faults_of_index(found):
    stored, wanted = entries_of(found)
    if stored != wanted:
        yield f"{INDEX.relative_to(ROOT)} isn't the index of the cases: tests/cases.py --index, and say there what a new one shows"
    for entry in wanted:
        if not entry["topic"] or not entry["shows"]:
            yield f"{INDEX.relative_to(ROOT)} doesn't say what the case {entry['case']} shows"


def records_of(name, endings):
    """The records of the order files of a case, as dictionaries, by their numbers, which count on over all files with their headers."""
    records, header = {}, 1
    for ending in (".orders.csv", *later_orders(endings)):
        with (CASES / f"{name}{ending}").open(newline="", encoding="utf-8-sig") as file:
            head, *others = [record for record in csv.reader(file) if record]
        records |= {number: dict(zip(head, record)) for number, record in enumerate(others, header + 1)}
        header += len(others) + 1
    return records


def answers_of(name):
    """The lines of the answers of a case, as dictionaries."""
    with (CASES / f"{name}.answers.csv").open(newline="", encoding="utf-8") as file:
        return list(csv.DictReader(file))


def value_of(field, record):
    value = record[field]
    return "date" if field == "validity" and value.isdigit() else value


def shown_by(found):
    """What the cases show: the fields of accepted rows, the answers, the phases, and the kinds of trades."""
    fields, answers, phases, trades = {field: set() for field in FIELDS}, set(), set(), set()
    for name in (name for name in found if ".answers.csv" in found[name]):
        records = records_of(name, found[name])
        for line in answers_of(name):
            answers.add(line["answer"])
            phases.add(line["phase"])
            if line["answer"] == "accepted":
                record = records[int(line["record"])]
                for field in FIELDS:
                    fields[field].add(value_of(field, record))
        statement = (CASES / f"{name}.statement").read_text().splitlines()
        trades |= {line.split(" ")[2] for line in statement if line.startswith("TRADE ")}
    return fields, answers, phases, trades


def faults_of_what_is_shown(found):
    fields, answers, phases, trades = shown_by(found)
    for field, wanted in FIELDS.items():
        for value in sorted(wanted - fields[field]):
            yield f"no accepted row has the {field} '{value}'"
    for _, field in rows_below("FORMATS.md", "| Refusal | Word |"):
        for word in words_of(field):
            if word not in answers:
                yield f"no row is answered {word}"
    rows = rows_below("FORMATS.md", "| Phase | Word |")
    words = [word for _, field in rows for word in words_of(field)]
    for word in words:
        if word not in phases:
            yield f"no row leads to the phase {word}"
    for word in ["continuous", *(word for word in words if re.search("-(call|interrupted|extended)$", word))]:
        if word not in trades:
            yield f"no trade is of the kind {word}"


def main():
    found, strays = files_by_case()
    if sys.argv[1:] == ["--index"]:
        write_index(found)
        return 0
    faults = [
        *faults_of_files(found, strays),
        *faults_of_list(found),
        *faults_of_worked_days(),
        *faults_of_rules(found),
        *faults_of_index(found),
    ]
    # Files that are wanting can't be read.
    faults += [] if faults else [*faults_of_versions(found), *faults_of_texts(found), *faults_of_what_is_shown(found)]
    for fault in faults:
        print(f"cases: {fault}")
    return 1 if faults else 0


if __name__ == "__main__":
    sys.exit(main())
