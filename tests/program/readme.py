#!/usr/bin/env python3
"""The calls of README, TWO_DAYS, WHOLE_DAY and of the help, made as they are written, by the program of a fresh copy of the checkout, with
nothing on the path but what the system has: they print and write what stands beside them, in examples/ or in the page. So does the
day that the help shows. Files may be pipes, no text goes to a file that is read, and each goes to its own. Prints what is wrong, and ends
with status 1 where something is."""
import filecmp
import os
import pathlib
import re
import shutil
import subprocess
import sys
import tempfile

ROOT = pathlib.Path(__file__).resolve().parent.parent.parent
PAGES = ("README.md", "docs/TWO_DAYS.md", "docs/WHOLE_DAY.md")
# What the pages say that a call writes, and where it lies in examples/.
WRITTEN = {
    "second.csv": "second_day.carry.csv",
    "third.csv": "third_day.carry.csv",
    "answers.csv": "whole_day.answers.csv",
}
ENVIRONMENT = {"PATH": "/usr/bin:/bin", "HOME": "/nonexistent", "LC_ALL": "C"}


def fenced(page, language):
    """The blocks of a page in fences of this language."""
    return re.findall(rf"^```{language}\n(.*?)^```$", (ROOT / page).read_text(encoding="utf-8"), re.S | re.M)


def fresh_copy(room):
    """What a clone of the checkout would have, with its files as they stand."""
    copy = room / "copy"
    listed = subprocess.run(["git", "ls-files", "-cz"], cwd=ROOT, capture_output=True, check=True).stdout
    for name in filter(None, listed.decode().split("\0")):
        if (ROOT / name).is_file():
            (copy / name).parent.mkdir(parents=True, exist_ok=True)
            shutil.copy2(ROOT / name, copy / name)
    return copy


def call(copy, line, **words):
    """Has a shell make a call, at the top of the copy."""
    return subprocess.run(["bash", "-c", line], cwd=copy, env=ENVIRONMENT, capture_output=True, text=True, check=False, **words)


def has_matplotlib(copy):
    return call(copy, "python3 -c 'import matplotlib'").returncode == 0


def statement_of(line):
    """What the call prints, by examples/, or nothing where it prints nothing."""
    orders = next((word for word in line.split() if word.endswith(".orders.csv")), None)
    return (ROOT / orders.replace(".orders.csv", ".statement")).read_text() if orders else ""


def shown_behind(page, line):
    """The text that the page shows behind a call."""
    _, _, rest = (ROOT / page).read_text(encoding="utf-8").partition(f"\n{line}\n")
    shown = re.search(r"^```text\n(.*?)^```$", rest, re.S | re.M)
    return shown[1] if shown else "nothing is shown"


def is_right(page, line, printed):
    """Whether a call prints what stands beside it; of the tables of an auction the page shows the first."""
    if " auction " in line:
        return printed.startswith(shown_behind(page, line))
    return printed == statement_of(line)


def faults_of_calls(copy):
    lines = [(page, line) for page in PAGES for block in fenced(page, "sh") for line in block.splitlines() if line != "./test"]
    for page in set(PAGES) - {page for page, _ in lines}:
        yield f"{page} has no call"
    for page, line in lines:
        if "plot_day.py" in line and not has_matplotlib(copy):
            print(f"readme: not called, as there is no matplotlib: {line}")
            continue
        ran = call(copy, line)
        if ran.returncode != 0 or ran.stderr or not is_right(page, line, ran.stdout):
            yield f"{page}: {line}: status {ran.returncode}, it prints {ran.stdout}{ran.stderr}"
    for made, stored in WRITTEN.items():
        if not (copy / made).exists() or not filecmp.cmp(copy / made, ROOT / "examples" / stored, shallow=False):
            yield f"{made}, which the calls write, isn't examples/{stored}"
    if (copy / "out/xetra-day").exists():
        yield "a program was built"


def faults_of_readme():
    """What the README shows is what the examples have."""
    for language, number, name in (("toml", 0, "segment.toml"), ("csv", 0, "small_day.orders.csv"), ("text", 0, "small_day.statement")):
        if fenced("README.md", language)[number] != (ROOT / "examples" / name).read_text():
            yield f"README.md shows another file than examples/{name}"


def faults_of_help(copy, room):
    """The two files that the help shows, copied from it, are a day."""
    shown = call(copy, "./xetra-day run --help").stdout
    _, _, files = shown.partition("\nsegment.toml:\n\n")
    segment, _, rest = files.partition("\norders.csv:\n\n")
    orders, _, _ = rest.partition("\nUsage:")
    (room / "segment.toml").write_text(segment)
    (room / "orders.csv").write_text(orders)
    ran = call(copy, f"./xetra-day run {room}/segment.toml {room}/orders.csv")
    if ran.returncode != 0 or "TRADE 1 opening-call 10.0500 60 ALPHA 1 BETA 1\n" not in ran.stdout or not ran.stdout.endswith("ROWS 7 0\n"):
        yield f"the day of the help: status {ran.returncode}, it prints {ran.stdout}{ran.stderr}"


def faults_of_pipes(copy):
    day = "examples/segment.toml examples/small_day.orders.csv"
    segment, orders = day.split()
    stated = statement_of(day)
    for line in (
        f"cat {orders} | ./xetra-day run {segment} /dev/stdin",
        f"./xetra-day run {segment} <(gzip -c {orders} | zcat)",
        f"./xetra-day run <(cat {segment}) {orders} --answers >(gzip > answers.csv.gz); wait $!",
    ):
        ran = call(copy, line)
        if (ran.returncode, ran.stdout, ran.stderr) != (0, stated, ""):
            yield f"{line}: status {ran.returncode}, it prints {ran.stdout}{ran.stderr}"
    told = call(copy, "zcat answers.csv.gz").stdout
    if told != (ROOT / "examples/small_day.answers.csv").read_text():
        yield f"the answers through a pipe are {told}"


def names_of(name):
    """A file by its name, by a path, by a link and by a second name."""
    return name, f"./{name}", f"{name}.link", f"{name}.again"


def refused_calls():
    """Calls whose text would go to a file that is read, to the one that has another text, or to none."""
    for name in ("a.toml", "in.csv", "b.csv"):
        for out in names_of(name):
            yield f"carry a.toml in.csv b.csv {out}"
            yield from (f"carry a.toml in.csv b.csv made.csv {option} {out}" for option in ("--answers", "--trades", "--events", "--depth"))
    for name in ("a.toml", "b.csv"):
        yield from (f"run a.toml b.csv --threads 2 {option} {name}.link" for option in ("--answers", "--trades", "--events", "--depth"))
    yield "run a.toml b.csv --answers stated.csv > stated.csv"
    yield "run a.toml b.csv --depth stated.csv >> stated.csv"
    yield "run a.toml b.csv --answers made.csv >&-"
    yield "run a.toml b.csv --answers one.csv --depth one.csv.link"
    yield "run a.toml b.csv --trades b.csv/made.csv"


def faults_of_refused_calls(copy):
    """No text goes where it would be lost, or take what is read."""
    os.chdir(copy)
    for name, stored in (("a.toml", "second_day.segment.toml"), ("in.csv", "second_day.carry.csv"), ("b.csv", "second_day.orders.csv")):
        shutil.copy2(f"examples/{stored}", name)
        os.symlink(name, f"{name}.link")
        os.link(name, f"{name}.again")
    os.symlink("one.csv", "one.csv.link")
    before = {name: pathlib.Path(name).read_bytes() for name in ("a.toml", "in.csv", "b.csv")}
    for line in refused_calls():
        ran = call(copy, f"./xetra-day {line}")
        if (ran.returncode, ran.stdout, ran.stderr) != (1, "", "xetra-day: write failed\n"):
            yield f"{line}: status {ran.returncode}, it prints {ran.stdout}{ran.stderr}"
    if before != {name: pathlib.Path(name).read_bytes() for name in before}:
        yield "a file that is read was touched"
    unread = call(copy, "./xetra-day run b.csv/a.toml b.csv --answers new.csv")
    if (unread.returncode, unread.stderr) != (1, "xetra-day: segment: line 0: ReadFailed\n"):
        yield f"a segment file that can't be looked at: status {unread.returncode}, it prints {unread.stderr}"
    if pathlib.Path("made.csv").exists() or pathlib.Path("stated.csv").read_bytes():
        yield "a text went out, though another one is refused"


def faults_of_texts(copy):
    """Each text goes to its own file, which has nothing of what was there before."""
    texts = ("answers", "trades", "events", "depth")
    for text in texts:
        (copy / f"{text}.made.csv").write_text("what was there before\n" * 10_000)
    line = "./xetra-day run examples/segment.toml examples/cascade.orders.csv " + " ".join(f"--{text} {text}.made.csv" for text in texts)
    ran = call(copy, line)
    if ran.returncode != 0:
        yield f"{line}: status {ran.returncode}, it prints {ran.stderr}"
    for text in texts:
        if not filecmp.cmp(copy / f"{text}.made.csv", ROOT / f"examples/cascade.{text}.csv", shallow=False):
            yield f"{line}: its {text} are others than those of examples/"


def main():
    with tempfile.TemporaryDirectory() as name:
        room = pathlib.Path(name)
        copy = fresh_copy(room)
        faults = [*faults_of_readme(), *faults_of_calls(copy), *faults_of_help(copy, room), *faults_of_pipes(copy)]
        faults += [*faults_of_refused_calls(copy), *faults_of_texts(copy)]
    for fault in faults:
        print(f"readme: {fault}")
    return 1 if faults else 0


sys.exit(main())
