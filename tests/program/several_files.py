#!/usr/bin/env python3
"""A day in several order files gives what its rows give in one file. Days are drawn, the same in each run, and cut anywhere into 1 to 20
files, on one thread and on three: statement and carry file are the same, and so are answers, trades, events and levels but for the number of
the record, which counts on over all files. So do workers whose members have securities of their own; a fault names its file; each file
has its own limits; and a day has at most 256 files. Prints what is wrong, and ends with status 1 where something is. With the path of a
program it tries that one."""
import csv
import dataclasses
import io
import pathlib
import random
import re
import subprocess
import sys
import tempfile
from collections.abc import Iterator

ROOT = pathlib.Path(__file__).resolve().parent.parent.parent
DAYS = 300
MOST_FILES = 256
# Of a file.
MOST_BYTES = 16_777_216
MOST_ROWS = 1_000_000
HEADER = "command,member,reference,security,side,kind,limit,trigger,quantity,validity,restriction,condition"
CARRY_HEADER = "security,member,reference,side,kind,limit,trigger,quantity,validity,restriction"
TEXTS = ("answers", "trades", "events", "depth")
SIDES = ("buy", "sell")
VALIDITIES = (*[""] * 6, "day", "gtc", "20260104", "20260105", "20260106")
RESTRICTIONS = (*[""] * 12, "free", "opening", "auctions", "closing")
CONDITIONS = (*[""] * 8, "plain", "ioc", "fok", "boc")
FREE_TEXTS = ("plain", "a, b", 'the "third"', "two\nlines", "\r", " ", "\x00\xff", "x" * 64)
PHASES = (*["uncross"] * 8, "open", "intraday", "intraday", "close", "end")
# A record of what is told, whose last field may be quoted.
RECORD = re.compile(rb'(?:[^"\n]|"[^"]*")*\n')
# A row: the twelve fields of version 1, and its free text.
Row = list[str]


@dataclasses.dataclass
class Day:
    """A day: its segment file, its rows, and the carry file that it opens with, if it does."""

    segment: str
    rows: list[Row]
    carried: str | None


@dataclasses.dataclass
class Ran:
    """What a call gave: its status, what it printed, the texts beside the statement, and the carry file of the next day."""

    status: int
    printed: bytes
    complained: str
    texts: list[bytes]
    left: bytes


def draw_segment(draw: random.Random, ticks: list[int], members: int) -> str:
    names = ", ".join(f'"M{number}"' for number in range(members))
    lines = ["date = 20260105", f"members = [{names}]"]
    for number, tick in enumerate(ticks):
        dynamic = draw.randint(10, 40)
        lines += ["[[security]]", f'name = "S{number}"', f"tick = {tick}", 'reference = "10.00"', f"dynamic = {dynamic}"]
        lines += [f"static = {draw.randint(20, 90)}", f"wide = {dynamic + draw.randint(1, 40)}", f"journal = {draw.choice((20, 1000, 1000))}"]
    return "\n".join(lines) + "\n"


def draw_price(draw: random.Random, tick: int) -> str:
    """A price of this tick, near ten euros."""
    price = 100_000 + round(draw.gauss(0, 600) / tick) * tick
    return f"{price // 10_000}.{price % 10_000:04}"


def draw_kind(draw: random.Random, tick: int) -> list[str]:
    """A kind with its limit and its trigger."""
    kind = draw.choice(("limit", "limit", "limit", "limit", "market", "stop-market", "stop-limit"))
    limit = draw_price(draw, tick) if kind in ("limit", "stop-limit") else ""
    return [kind, limit, draw_price(draw, tick) if kind.startswith("stop") else ""]


def spoil(draw: random.Random, row: Row, field: int, texts: tuple[str, ...]) -> None:
    """Gives a field that isn't empty, at times, a text for which the row is refused."""
    if row[field] and draw.random() < 0.02:
        row[field] = draw.choice(texts)


def draw_member_row(draw: random.Random, ticks: list[int], members: int, apart: bool) -> Row:
    """A row of a member, which is one alone for each security where members are to be apart."""
    place = draw.randrange(len(ticks))
    member = f"M{place % members if apart else draw.randrange(members)}"
    security = f"S{place}"
    if draw.random() < 0.03:
        member, security = draw.choice((("NOBODY", security), (member, "NOWHERE"), (member, "*")))
    command = draw.choice((*["enter"] * 12, "change", "change", "cancel", "cancel-all"))
    row = [command, member, "" if command == "cancel-all" else str(draw.randint(1, 40)), security, *[""] * 9]
    if command in ("enter", "change"):
        row[8] = str(draw.randint(1, 50))
    if command == "enter":
        row[4:8] = [draw.choice(SIDES), *draw_kind(draw, ticks[place])]
        row[9:12] = [draw.choice(VALIDITIES), draw.choice(RESTRICTIONS), draw.choice(CONDITIONS)]
    elif command == "change":
        row[6] = draw.choice(("", draw_price(draw, ticks[place])))
    spoil(draw, row, 8, ("0", "1000001"))
    spoil(draw, row, 6, ("0", "10.00001", "9999999"))
    return row


def phase_row(phase: str, security: str) -> Row:
    return [phase, "", "", security, *[""] * 9]


def draw_rows(draw: random.Random, ticks: list[int], members: int, apart: bool) -> list[Row]:
    """Rows of a day that mostly comes to trading, and at times to its end."""
    rows = []
    for _ in range(draw.choice((0, 1, 5, 40, 80, 80, 160, 160))):
        if draw.random() < 0.06:
            rows.append(phase_row(draw.choice(PHASES), draw.choice(("*", f"S{draw.randrange(len(ticks))}"))))
        else:
            rows.append(draw_member_row(draw, ticks, members, apart))
    for place, phase in ((len(rows) // 8, "open"), (len(rows) // 4, "uncross")):
        rows.insert(place, phase_row(phase, "*"))
    if draw.random() < 0.5:
        rows += [phase_row(phase, "*") for phase in ("close", "uncross", "end")]
    return rows


def draw_carried(draw: random.Random, ticks: list[int], members: int) -> str:
    """A carry file, whose references are those of no row."""
    lines = [CARRY_HEADER]
    for reference in range(100, 100 + draw.randint(0, 12)):
        place = draw.randrange(len(ticks))
        kind = draw_kind(draw, ticks[place])
        rest = [draw.choice(("gtc", "20260104", "20260106")), "free" if kind[2] else draw.choice(RESTRICTIONS[-4:])]
        fields = [f"S{place}", f"M{draw.randrange(members)}", str(reference), draw.choice(SIDES), *kind, str(draw.randint(1, 50)), *rest]
        lines.append(",".join(fields))
    return "\n".join(lines) + "\n"


def draw_day(draw: random.Random, apart: bool = False) -> Day:
    ticks = [draw.choice((50, 100, 500)) for _ in range(draw.choice((1, 1, 2, 3, 5, 8)))]
    members = draw.randint(1, 5)
    rows = draw_rows(draw, ticks, members, apart)
    carried = draw_carried(draw, ticks, members) if draw.random() < 0.4 else None
    return Day(draw_segment(draw, ticks, members), rows, carried)


def draw_version(draw: random.Random, rows: list[Row]) -> int:
    """The version of the file of these rows. Some of version 2 are given texts; in version 1 a book-or-cancel order is a plain one."""
    often = draw.choice((0.0, 0.0, 0.05, 0.5))
    if draw.random() < 0.3:
        for row in rows:
            row[11] = row[11].replace("boc", "plain")
        return 1
    for row in rows:
        row[12] = draw.choice(FREE_TEXTS) if draw.random() < often else ""
    return 2


def record_of(row: Row) -> str:
    text = io.StringIO(newline="")
    csv.writer(text, lineterminator="\r\n").writerow(row)
    return text.getvalue().removesuffix("\r\n")


def file_of(rows: list[Row], version: int, end: str = "\n", mark: str = "") -> bytes:
    """An order file of these rows, each of whose records ends so."""
    records = [HEADER + (",text" if version == 2 else ""), *(record_of(row[: 11 + version]) for row in rows)]
    return mark.encode() + "".join(record + end for record in records).encode("latin-1")


def cut(draw: random.Random, rows: list[Row]) -> list[list[Row]]:
    """The rows in 1 to 20 parts, some of which may be empty."""
    places = sorted(draw.randint(0, len(rows)) for _ in range(draw.randint(0, 19)))
    return [rows[start:end] for start, end in zip([0, *places], [*places, len(rows)])]


def draw_files(draw: random.Random, parts: list[list[Row]], version: int) -> list[bytes]:
    """The order files of these parts, as other systems may write them. Where versions are mixed, what version 1 can say is mostly of it."""
    files, mixed = [], draw.choice((0.0, 0.6))
    for part in parts:
        has_more = any(row[11] == "boc" or row[12] for row in part)
        own = 1 if not has_more and draw.random() < mixed else version
        file = file_of(part, own, draw.choice(("\n", "\n", "\r\n", "\r", "\n\n")), draw.choice(("", "", "", "\ufeff")))
        files.append(file.rstrip(b"\r\n") if draw.random() < 0.4 else file)
    return files


def renumbered(told: bytes, parts: list[list[Row]]) -> bytes:
    """The records of the uncut day as the cut one numbers them: behind each header but the first, one higher."""
    headers = [number for number, part in enumerate(parts) for _ in part]
    head, *records = RECORD.findall(told)
    fields = (record.split(b",", 1) for record in records)
    return head + b"".join(b"%d,%s" % (int(number) + headers[int(number) - 2], rest) for number, rest in fields)


class Room:
    """A folder in which the program is called."""

    def __init__(self, program: pathlib.Path, path: pathlib.Path) -> None:
        self.program = program
        self.path = path

    def write(self, name: str, content: bytes) -> pathlib.Path:
        path = self.path / name
        path.write_bytes(content)
        return path

    def call(self, *words: str | pathlib.Path, program: str | None = None) -> Ran:
        """Calls the program, or another one."""
        ran = subprocess.run([program or self.program, *words], capture_output=True, check=False, stdin=subprocess.DEVNULL)
        return Ran(ran.returncode, ran.stdout, ran.stderr.decode(), [], b"")

    def run(self, day: Day, files: list[bytes], *options: str, has_texts: bool = True, has_out: bool = True) -> Ran:
        """Runs a day in these order files. With a carry file, OUT stands behind `--out`, or behind the one order file."""
        paths = [self.write(f"orders.{number}.csv", file) for number, file in enumerate(files, 1)]
        words: list[str | pathlib.Path] = ["run", self.write("segment.toml", day.segment.encode()), *paths]
        made = [self.path / f"{text}.csv" for text in TEXTS if has_texts]
        out = self.write("out.csv", b"")
        if day.carried is not None:
            carried = self.write("in.csv", day.carried.encode())
            words = ["carry", words[1], carried, *paths, *(["--out", out] if has_out else [out])]
        asked = [word for path in made for word in (f"--{path.stem}", path)]
        ran = self.call(*words, *asked, *options)
        return dataclasses.replace(ran, texts=[path.read_bytes() for path in made], left=out.read_bytes())


def faults_of_drawn_days(room: Room, draw: random.Random) -> Iterator[str]:
    trades = refused = 0
    for number in range(DAYS):
        day = draw_day(draw)
        version = draw_version(draw, day.rows)
        parts = cut(draw, day.rows)
        files = draw_files(draw, parts, version)
        uncut = room.run(day, [file_of(day.rows, version)], has_out=False)
        if (uncut.status, uncut.complained) != (0, ""):
            yield f"day {number}: status {uncut.status}: {uncut.complained}"
            continue
        trades += uncut.printed.count(b"\nTRADE ")
        refused += int(uncut.printed.split()[-1])
        for options in ((), ("--threads", "3")):
            ran = room.run(day, files, *options)
            if (ran.status, ran.complained, ran.printed, ran.left) != (0, "", uncut.printed, uncut.left):
                yield f"day {number} in {len(files)} files {options}: status {ran.status}, {ran.complained}, another statement or OUT"
            for text, one, other in zip(TEXTS, ran.texts, uncut.texts):
                if one != renumbered(other, parts):
                    yield f"day {number} in {len(files)} files {options}: other {text}"
    if min(trades, refused) < 5 * DAYS:
        yield f"the days have {trades} trades and {refused} refused rows, and more are wanted"


def faults_of_workers(room: Room, draw: random.Random) -> Iterator[str]:
    """Where no two members meet, workers give what one gives. A round of theirs ends with its file."""
    for number in range(40):
        day = draw_day(draw, apart=True)
        parts = cut(draw, day.rows)
        alone = room.run(day, [file_of(day.rows, 2)], has_texts=False)
        ran = room.run(day, draw_files(draw, parts, 2), "--workers", "2", has_texts=False)
        if (ran.status, ran.complained, ran.printed, ran.left) != (0, "", alone.printed, alone.left):
            yield f"day {number} in {len(parts)} files by two workers: status {ran.status}, {ran.complained}, another statement or OUT"


def faults_of_faults(room: Room, draw: random.Random) -> Iterator[str]:
    """A fault has the number of its file behind the first one, and the line there; nothing is written. It comes before those of the
    opening, and the first one is told."""
    for number in range(60):
        day = draw_day(draw)
        parts = cut(draw, day.rows)
        file = draw.randrange(len(parts))
        place = draw.randint(0, len(parts[file]))
        parts[file] = [*parts[file][:place], ["leave", *[""] * 12], *parts[file][place:]]
        files = [file_of(part, 2) for part in parts] + [b"no header"] * draw.randint(0, 1)
        if draw.random() < 0.5:
            day.segment = day.segment.replace("wide = ", "wide = 0 # ")
        ran = room.run(day, files, *draw.choice(((), ("--threads", "3"))))
        told = f"xetra-day: orders{f' {file + 1}' if file else ''}: line {place + 2}: BadField\n"
        if ran != Ran(1, b"", told, [b""] * len(TEXTS), b""):
            yield f"day {number}, bad row {place} of file {file + 1}: status {ran.status}, {ran.complained} and not {told}"


def unlike(name: str, ran: Ran, status: int, complained: str, printed: bytes | None = b"") -> Iterator[str]:
    """What is wrong with a call that is to end so, and to print this, or whatever it may."""
    is_told = complained in ran.complained if complained else not ran.complained
    if ran.status != status or not is_told or printed not in (None, ran.printed):
        yield f"{name}: status {ran.status}, it prints {ran.printed.decode()}{ran.complained}"


class SmallDay:
    """The small day of the examples in one file and in two, a file of one row, which is refused, and a carry file without an entry."""

    def __init__(self, room: Room) -> None:
        self.segment, self.whole = ROOT / "examples/segment.toml", ROOT / "examples/small_day.orders.csv"
        self.stated = (ROOT / "examples/small_day.statement").read_bytes()
        head, *rows = self.whole.read_bytes().splitlines(keepends=True)
        self.first, self.second = (room.write(f"{len(part)}.csv", head + b"".join(part)) for part in (rows[:6], rows[6:]))
        self.first_twice = room.write("first_twice.csv", head + b"".join(rows[:6] * 2))
        self.one = room.write("one.csv", head + b"cancel,AAA,1,XYZ,,,,,,,,\n")
        self.none = room.write("none.csv", CARRY_HEADER.encode())
        self.answers, self.out = room.path / "answers.csv", room.path / "out.csv"


def faults_of_numbers(room: Room, day: SmallDay) -> Iterator[str]:
    """A day has 1 to 256 order files, and a command line with more is mistaken."""
    many = [day.one] * MOST_FILES
    ran = room.call("run", day.segment, *many, "--answers", day.answers)
    yield from unlike("256 files", ran, 0, "", None)
    numbers = [int(line.split(b",")[0]) for line in day.answers.read_bytes().splitlines()[1:]]
    if not ran.printed.endswith(b"\nROWS 0 256\n") or numbers != list(range(2, 2 * MOST_FILES + 1, 2)):
        yield f"256 files: {ran.printed.decode()} and the records {numbers}"
    yield from unlike("257 files", room.call("run", day.segment, *many, day.one), 2, "unexpected value")
    carried = ("carry", day.segment, day.none)
    yield from unlike("256 files behind a carry file", room.call(*carried, *many, "--out", day.out), 0, "", ran.printed)
    yield from unlike("257 files behind a carry file", room.call(*carried, *many, day.one, "--out", day.out), 2, "at most 256 order files")
    yield from unlike("two files without --out", room.call(*carried, day.first, day.second, day.out), 2, "--out OUT")
    yield from unlike("no OUT", room.call(*carried, day.whole), 2, "OUT is missing")


def faults_of_forms(room: Room, day: SmallDay) -> Iterator[str]:
    """The small day in each form of a call: in one file and in two, also by pipes, with OUT and with --out, and by two workers."""
    parts = (day.first, day.second)
    yield from unlike("two files", room.call("run", day.segment, *parts), 0, "", day.stated)
    line = f"{room.program} run {day.segment} <(cat {day.first}) <(cat {day.second})"
    yield from unlike("two pipes", room.call("-c", line, program="bash"), 0, "", day.stated)
    for words in ([day.whole, day.out], [day.whole, "--out", day.out], [*parts, "--out", day.out], ["--out", day.out, *parts]):
        day.out.unlink(missing_ok=True)
        yield from unlike(f"carry {words}", room.call("carry", day.segment, day.none, *words), 0, "", day.stated)
        if day.out.read_text().splitlines()[1:] != ["XYZ,AAA,2,buy,limit,9.9000,,15,gtc,free"]:
            yield f"carry {words} leaves {day.out.read_text()}"
    ran = room.call("run", day.segment, day.first_twice)
    yield from unlike("a file that is given twice", room.call("run", day.segment, day.first, day.first), 0, "", ran.printed)
    for files in ((day.whole,), parts):
        ran = room.call("run", day.segment, *files, "--workers", "2")
        yield from unlike(f"{len(files)} files by two workers", ran, 0, "", None)
        if not ran.printed.endswith(b"\nROWS 10 1\n"):
            yield f"{len(files)} files by two workers: {ran.printed.decode()}"


def faults_of_files_read(room: Room, day: SmallDay) -> Iterator[str]:
    """A second file that isn't there is one that can't be read, and no text goes to one that is."""
    ran = room.call("run", day.segment, day.first, room.path / "missing.csv", "--answers", day.answers)
    yield from unlike("a second file that isn't there", ran, 1, "xetra-day: orders 2: line 0: ReadFailed\n")
    if day.answers.read_bytes():
        yield "a second file that isn't there: answers are written"
    link, before = room.path / "link.csv", day.second.read_bytes()
    link.symlink_to(day.second)
    for path in (day.second, link):
        for text in TEXTS:
            ran = room.call("run", day.segment, day.first, day.second, f"--{text}", path)
            yield from unlike(f"--{text} to the second file", ran, 1, "xetra-day: write failed\n")
        ran = room.call("carry", day.segment, day.none, day.first, day.second, "--out", path)
        yield from unlike("--out to the second file", ran, 1, "xetra-day: write failed\n")
    if day.second.read_bytes() != before:
        yield "the second file was touched"


def faults_of_limits(room: Room, draw: random.Random) -> Iterator[str]:
    """Each file may have as many bytes and rows as a lone one. A row of a phase of eight securities is eight."""
    day = Day(draw_segment(draw, [100] * 8, 1), [], None)
    blank, head = b"\n" * (MOST_BYTES - len(HEADER) - 1), f"{HEADER}\n".encode()
    rows = head + b"end,,,*,,,,,,,,\n" * (MOST_ROWS // 8)
    for name, files, rows_taken, fault in (
        ("most bytes", [head + blank] * 2, 0, ""),
        ("most rows", [rows] * 2, 2 * MOST_ROWS, ""),
        ("a byte more", [head + blank, head + blank + b"\n"], 0, "xetra-day: orders 2: line 0: TooLong\n"),
        ("a row more", [rows, rows + b"end,,,S0,,,,,,,,\n"], 0, f"xetra-day: orders 2: line {MOST_ROWS // 8 + 2}: TooManyRows\n"),
    ):
        ran = room.run(day, files, has_texts=False)
        yield from unlike(f"two files of {name}", ran, 1 if fault else 0, fault, b"" if fault else None)
        if not fault and not ran.printed.endswith(b"\nROWS 0 %d\n" % rows_taken):
            yield f"two files of {name}: {ran.printed.decode()}"


def main() -> int:
    program = sys.argv[1] if sys.argv[1:] else subprocess.run([ROOT / "xetra-day", "--path"], capture_output=True, check=True, text=True).stdout.strip()
    draw = random.Random(20260105)
    with tempfile.TemporaryDirectory() as name:
        room = Room(pathlib.Path(program).resolve(), pathlib.Path(name))
        day = SmallDay(room)
        faults = [*faults_of_numbers(room, day), *faults_of_forms(room, day), *faults_of_files_read(room, day), *faults_of_limits(room, draw)]
        faults += [*faults_of_drawn_days(room, draw), *faults_of_workers(room, draw), *faults_of_faults(room, draw)]
    for fault in faults:
        print(f"several_files: {fault}")
    return 1 if faults else 0


if __name__ == "__main__":
    sys.exit(main())
