#!/usr/bin/env python3
"""The script examples/plot_day.py draws the day of each security of each example that has answers, as an .svg file and as a .png file, twice
with the same bytes, and with each of its options; what it reads of the answers agrees with the statement; what it can't draw it
refuses. The picture of docs/WHOLE_DAY.md is the one that it draws. Prints what is wrong, and ends with status 1 where something is.
Without matplotlib it says that nothing was tried."""
import csv
import importlib.util
import pathlib
import re
import subprocess
import sys
import tempfile
import tomllib

sys.dont_write_bytecode = True
ROOT = pathlib.Path(__file__).resolve().parent.parent
EXAMPLES = ROOT / "examples"
SCRIPT = EXAMPLES / "plot_day.py"
PICTURE = ROOT / "docs/whole_day.svg"
# The version that drew the picture. Another one draws other bytes.
DREW = "3.6.3"
# Pythons that may have it: Debian's package is of the system's own.
PYTHONS = ("python3", "/usr/bin/python3")


def with_matplotlib():
    """A Python that has matplotlib, and its version, or none."""
    for python in PYTHONS:
        ran = subprocess.run([python, "-c", "import matplotlib; print(matplotlib.__version__)"], capture_output=True, text=True, check=False)
        if ran.returncode == 0:
            return python, ran.stdout.strip()
    return None, None


def module():
    spec = importlib.util.spec_from_file_location("plot_day", SCRIPT)
    found = importlib.util.module_from_spec(spec)
    spec.loader.exec_module(found)
    return found


def days():
    """Each example with answers, and the segment file of its day."""
    for answers in sorted(EXAMPLES.glob("*.answers.csv")):
        own = answers.with_name(answers.name.replace(".answers.csv", ".segment.toml"))
        yield answers, own if own.exists() else EXAMPLES / "segment.toml"


def securities_of(segment):
    return [it["name"] for it in tomllib.loads(segment.read_text())["security"]]


def stated(answers):
    """The phase, the references and the units traded of each security, by the statement."""
    found = {}
    for line in answers.with_name(answers.name.replace(".answers.csv", ".statement")).read_text().splitlines():
        word, *fields = line.split(" ")
        if word == "SECURITY":
            here = found.setdefault(fields[0], {"phase": fields[1], "references": None, "units": 0})
        elif word == "REFERENCES":
            here["references"] = tuple(map(float, fields))
        elif word == "TOTAL":
            here["units"] = int(fields[0])
    return found


def faults_of_readings(plot_day):
    for answers, segment in days():
        wanted = stated(answers)
        for name in securities_of(segment):
            moments, trades = plot_day.read_day(answers, plot_day.read_settings(segment, name))
            last = moments[-1]
            read = {"phase": last.phase, "references": (last.last, last.auction), "units": sum(it.quantity for it in trades)}
            if read != wanted[name]:
                yield f"{answers.name}, {name}: it reads {read}, and the statement has {wanted[name]}"


class Pictures:
    """What the script draws."""

    def __init__(self, python, room):
        self.python, self.room = python, room

    def call(self, answers, segment, *words, ending="svg"):
        """The bytes of the picture, or what the script says where there is none."""
        out = self.room / f"day.{ending}"
        out.unlink(missing_ok=True)
        ran = subprocess.run([self.python, SCRIPT, answers, segment, "--out", out, *words], capture_output=True, text=True, check=False)
        return (out.read_bytes(), "") if ran.returncode == 0 else (None, ran.stderr)


def faults_of_pictures(pictures):
    for answers, segment in days():
        for name in securities_of(segment):
            drawn, said = pictures.call(answers, segment, "--security", name)
            if drawn is None:
                yield f"{answers.name}, {name}: {said}"
            elif f">{name} on ".encode() not in drawn or b">best buy<" not in drawn:
                yield f"{answers.name}, {name}: the picture has not its title and its lines"
            elif (drawn, "") != pictures.call(answers, segment, "--security", name):
                yield f"{answers.name}, {name}: two pictures differ"
            if not (pictures.call(answers, segment, "--security", name, ending="png")[0] or b"").startswith(b"\x89PNG"):
                yield f"{answers.name}, {name}: there is no .png picture"


def ticks_of(drawn):
    """The numbers beside the axes of a picture."""
    return [float(it) for it in re.findall(rb">(-?[0-9.]+)</text>", drawn.replace("\u2212".encode(), b"-"))]


def with_texts(room, name, text_of):
    """The answers of the whole day, each with the text that its record is given."""
    out = room / name
    with (EXAMPLES / "whole_day.answers.csv").open(newline="") as file, out.open("w", newline="", encoding="latin-1") as made:
        head, *rows = csv.reader(file)
        writer = csv.writer(made, lineterminator="\n")
        writer.writerows([head, *([*row[:-1], text_of(int(row[0]))] for row in rows)])
    return out


def faults_of_options(pictures):
    day = (EXAMPLES / "whole_day.answers.csv", EXAMPLES / "whole_day.segment.toml")
    whole, _ = pictures.call(*day)
    part, said = pictures.call(*day, "--from", "20", "--to", "30")
    if part is None or max(it for it in ticks_of(part) if it < 40) != 30 or 10 in ticks_of(part):
        yield f"--from and --to: the axis isn't that of 20 to 30: {said or ticks_of(part)}"
    prices, said = pictures.call(*day, "--fit", "prices")
    if prices is None or 52 in ticks_of(prices) or 52 not in ticks_of(whole):
        yield f"--fit prices: the axis isn't that of prices: {said or ticks_of(prices)}"
    times = with_texts(pictures.room, "times.csv", lambda record: f"{32_400_000 + 500_000 * record}")
    timed, said = pictures.call(times, day[1], "--text-is-time")
    if timed is None or b">time, as" not in timed or max(ticks_of(timed)) < 60_000_000:
        yield f"--text-is-time: the axis isn't that of times: {said or ticks_of(timed)}"
    odd = with_texts(pictures.room, "odd.csv", lambda record: '\xff"\n,')
    if pictures.call(odd, day[1])[0] is None:
        yield "texts of odd bytes: there is no picture"


def faults_of_refusals(pictures):
    day = (EXAMPLES / "whole_day.answers.csv", EXAMPLES / "whole_day.segment.toml")
    cut = pictures.room / "cut.csv"
    cut.write_bytes(day[0].read_bytes()[:-40])
    falls = with_texts(pictures.room, "falls.csv", lambda record: str(-record))
    named = with_texts(pictures.room, "named.csv", lambda record: "noon")
    for said, call in (
        ("isn't there", lambda: pictures.call(EXAMPLES / "cascade.orders.csv", day[1])),
        ("has no security", lambda: pictures.call(*day, "--security", "NONE")),
        ("there is nothing from 900", lambda: pictures.call(*day, "--from", "900")),
        ("is no number, ''", lambda: pictures.call(*day, "--text-is-time")),
        ("is no number, 'noon'", lambda: pictures.call(named, day[1], "--text-is-time")),
        ("below the one before it", lambda: pictures.call(falls, day[1], "--text-is-time")),
        ("is cut off", lambda: pictures.call(cut, day[1])),
    ):
        drawn, text = call()
        wanted = "holds no answers" if said == "isn't there" else said
        if drawn is not None or wanted not in text:
            yield f"where '{wanted}' is to be said, it says '{text.strip()}'"


def faults_of_page(pictures, version):
    if version != DREW:
        print(f"plot_day: docs/{PICTURE.name} was not compared, which matplotlib {DREW} drew: this is {version}")
    elif pictures.call(EXAMPLES / "whole_day.answers.csv", EXAMPLES / "whole_day.segment.toml", "--security", "AUTO")[0] != PICTURE.read_bytes():
        yield f"docs/{PICTURE.name} isn't what it draws"


def main():
    faults = list(faults_of_readings(module()))
    python, version = with_matplotlib()
    if python is None:
        print("plot_day: nothing was drawn, as there is no matplotlib: it is Debian's package python3-matplotlib")
    else:
        with tempfile.TemporaryDirectory() as room:
            pictures = Pictures(python, pathlib.Path(room))
            faults += [*faults_of_pictures(pictures), *faults_of_options(pictures), *faults_of_refusals(pictures), *faults_of_page(pictures, version)]
    for fault in faults:
        print(f"plot_day: {fault}")
    return 1 if faults else 0


sys.exit(main())
