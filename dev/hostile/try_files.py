"""Runs the built program on files that are made to hurt, and on ordinary ones. Each must say what is promised, in at most twice the
processor time that the ordinary one takes for as many bytes, of three runs the least, or in so many times as stand beside it. Where
it takes more, both are run once more, one behind the other, since the speed of a machine may change.

Usage: try_files.py PROGRAM ROOM [WORD..]

ROOM is a folder for a while, with the program `collide` in it. Of the files those are tried whose titles have one of the words.
Prints a table, and adds a line with the counts to ROOM/table."""
import os
import pathlib
import subprocess
import sys

import hurtful_files as files

# What runs the program.
MEASURE = str(pathlib.Path(__file__).with_name("measure.py"))
# Seconds of processor time that are never too many, so that what else the machine does decides nothing.
FLOOR = 0.2
# Times the processor time of the ordinary file that a run may take, where no other bound stands beside it, and times the bound
# after which it is ended.
MOST_TIMES = 2
END_TIMES = 10


class Trial:
    """A file made to hurt: what makes it, the title of the ordinary one, how many times the time of this it may take, and how many
    megabytes, if that is bounded."""

    def __init__(self, title, make, ordinary="a day", most=MOST_TIMES, megabytes=None):
        self.title = title
        self.make = make
        self.ordinary = ordinary
        self.most = most
        self.megabytes = megabytes


class Run:
    """What a run took, of time and of memory, and the last line that it wrote."""

    def __init__(self, seconds, megabytes, line):
        self.seconds = seconds
        self.megabytes = megabytes
        self.line = line


ORDINARY = {
    "a day": files.ordinary,
    "a shared day": lambda: files.ordinary(words=["--workers", "8"]),
    "a day with answers": lambda: files.ordinary(words=files.ANSWERS),
    "25,000 securities": lambda: files.many_securities(25_000),
    "200,000 members": lambda: files.many_members(200_000),
    "190,000 keys": lambda: files.many_keys(190_000),
}


def order_files():
    """Files that are hardly order files."""
    bytes_of = {"letters": "A", "quotes": '"', "commas": ",", "line feeds": "\n", "carriage returns": "\r", "zeros": "\0"}
    for name, byte in bytes_of.items():
        behind = files.counts(0) if byte in "\r\n" else files.fault(2, "Syntax")
        yield Trial(f"{name} alone", lambda byte=byte: files.one_byte(byte, files.fault(1, "BadHeader")))
        yield Trial(f"{name} behind the header", lambda byte=byte, said=behind: files.one_byte(byte, said, files.HEADER))
    yield Trial("commas behind a quoted field", lambda: files.one_byte(",", files.fault(2, "Syntax"), files.HEADER + '""'), most=6)
    yield Trial("a quote that is never closed", lambda: files.one_byte("A", files.fault(2, "Syntax"), files.HEADER + '"'))
    yield Trial("an ordinary day, each record with a quote", files.quoted)
    yield Trial("125,000 records of eight securities", lambda: files.openings(125_000))
    yield Trial("more records of eight securities", lambda: files.openings(986_000))
    yield Trial("the most rows", files.shortest_rows)


def segment_files():
    """Segment files of many keys, members and securities, and those that are hardly any."""
    securities, members, keys = "25,000 securities", "200,000 members", "190,000 keys"
    yield Trial("segment: 200,000 securities", lambda: files.many_securities(200_000), securities)
    yield Trial("segment: the last of them again", lambda: files.many_securities(200_000, True), securities)
    yield Trial("segment: 1,600,000 members", lambda: files.many_members(1_600_000), members)
    yield Trial("segment: 1,520,000 keys", lambda: files.many_keys(1_520_000), keys)
    for name, byte in {"letters": "A", "quotes": '"', "brackets": "["}.items():
        said = files.fault(0, "Syntax", "segment")
        text = byte * files.MOST_BYTES
        yield Trial(f"segment: {name} alone", lambda text=text, said=said: files.check_of(text, said))
    yield Trial("segment: a long comment", lambda: files.padded("#"))
    yield Trial("segment: line feeds behind it", lambda: files.padded("\n"))


def name_files(collide):
    """Days whose names share places."""
    crowded = [f"{member:05}AAAAAAA" for member in range(1000)]
    names = subprocess.run([collide, "names", "1000"], capture_output=True, check=True, text=True).stdout.split()
    numbers = subprocess.run([collide, "references", "4000"], capture_output=True, check=True, text=True).stdout.split()
    references = [int(number) for number in numbers]
    yield Trial("1,000 members that share a hint", lambda: files.orders_of_members(crowded))
    yield Trial("1,000 members that share hint and hash", lambda: files.orders_of_members(names))
    yield Trial("orders whose references share a bucket", lambda: files.orders_of_references(references, files.enter))
    yield Trial("stops whose references share a bucket", lambda: files.orders_of_references(references, files.hold))


def days():
    """Days of rows that are to be dear."""
    yield Trial("all orders cancelled at once", lambda: files.cancelled_at_once(files.enter), most=3)
    yield Trial("all stops cancelled at once", lambda: files.cancelled_at_once(files.hold), most=3)
    yield Trial("orders cancelled, 4,000 at once", lambda: files.cancelled_in_portions(4000))
    yield Trial("orders cancelled, one at once", lambda: files.cancelled_in_portions(1))
    yield Trial("stops at one trigger", lambda: files.stops(lambda _number: 100_010, 100_010), most=3)
    many = lambda number: 100_001 + number * 7919 % 99_000
    yield Trial("stops at 99,000 triggers", lambda: files.stops(many, 199_500), most=4)
    yield Trial("calls of 100,000 levels without a price", lambda: files.calls_without_price(100_000))
    for levels in (1000, 50_000):
        title = f"answers in a call that {levels:,} levels cross"
        yield Trial(title, lambda levels=levels: files.call_that_crosses(levels, 300_000), "a day with answers", most=6)
    yield Trial("fill-or-kill over one limit", lambda: files.fill_or_kill(150_000, 1))
    yield Trial("changes of the first in a long queue", lambda: files.changes(100_000))
    yield Trial("levels far from each other", files.far_levels)
    yield Trial("unknown orders", lambda: files.unknown_orders(100_000))
    yield Trial("orders that end with the day", files.day_ended)
    yield Trial("an interruption at each order", files.interruptions)
    yield Trial("125,000 records of eight securities on threads", lambda: files.openings(125_000, 4), megabytes=40)
    yield Trial("a long last line on 64 threads", lambda: files.long_last_line(64))


def dear_days():
    """Days whose rows each ask for many levels, or for threads, in plain Rust as well."""
    for members, rounds, most in ((1, 200_000, MOST_TIMES), (2, 20_000, 60), (8, 5000, 120)):
        title = f"{rounds:,} rounds of {members} and a phase row"
        yield Trial(title, lambda members=members, rounds=rounds: files.rounds(members, rounds), "a shared day", most)
    yield Trial("1,000 calls that 100,000 levels cross", lambda: files.calls_without_trade(100_000, 1000), most=10)
    yield Trial("1,000 fill-or-kill over 40,000 limits", lambda: files.fill_or_kill(150_000, 40_000, 1000), most=30)


def last_line(path):
    """The last line of a file."""
    with open(path, "rb") as text:
        text.seek(max(0, os.path.getsize(path) - 300))
        lines = text.read().decode(errors="replace").splitlines()
    return lines[-1] if lines else ""


def run_once(words, room, most):
    """Runs the program, for at most so many seconds of processor time."""
    out, err = f"{room}/out", f"{room}/err"
    measured = subprocess.run([sys.executable, "-S", MEASURE, str(most), out, err, *words], capture_output=True, check=True, text=True)
    status, seconds, kilobytes = measured.stdout.split()
    status, seconds = int(status), float(seconds)
    if status >= 0:
        line = last_line(out if status == 0 else err)
    elif seconds > most - 1:
        line = f"no end after {most} seconds"
    else:
        line = f"an end by signal {-status}"
    return Run(seconds, int(kilobytes) / 1024, line)


def run_least(program, room, day, most):
    """Runs a day, three times where it is quick, and gives the run that took least."""
    segment, orders = f"{room}/hurtful.segment.toml", f"{room}/hurtful.orders.csv"
    with open(segment, "w", encoding="ascii", newline="") as text:
        text.write(day.segment)
    words = [program, "check", segment]
    if day.orders is not None:
        with open(orders, "w", encoding="ascii", newline="") as text:
            text.write(day.orders)
        one_thread = () if "--threads" in day.words or "--workers" in day.words else ("--threads", "1")
        words = [program, "run", segment, orders, *day.words, *one_thread]
    least = run_once(words, room, most)
    for _ in range(2):
        if least.seconds * 3 < most:
            other = run_once(words, room, most)
            least = other if other.seconds < least.seconds else least
    return least


def show(title, size, run, ordinary, wrong):
    """Prints a row of the table."""
    ratio = f"{run.seconds / ordinary:6.2f}" if ordinary else " " * 6
    print(f"{title:50} {size:>10,} {run.seconds:7.2f} {ratio}  {wrong}".rstrip(), flush=True)


def size_of(day):
    """The bytes of the file that matters."""
    return len(day.segment if day.orders is None else day.orders)


def ordinary_time(program, room, title):
    """The processor time that the ordinary file with this title takes for a byte."""
    day = ORDINARY[title]()
    run = run_least(program, room, day, 120)
    if run.line != day.promise:
        sys.exit(f"try_files.py: {title}: {run.line} in place of {day.promise}")
    show(title, size_of(day), run, None, "")
    return run.seconds / size_of(day)


def attempt(program, room, trial, time):
    """Tries a file, for a byte of which an ordinary one takes this time; answers whether it ended with status 0, and whether it is
    wrong."""
    day = trial.make()
    size = size_of(day)

    def most():
        return max(FLOOR, trial.most * time * size)

    def run_day():
        return run_least(program, room, day, 5 + round(END_TIMES * most()))

    run = run_day()
    if run.seconds > most():
        # The machine may have become slower since the ordinary file was run.
        time = ordinary_time(program, room, trial.ordinary)
        run = run_day()
    wrong = ""
    if run.seconds > most():
        wrong = f"wrong: more than {trial.most} times {trial.ordinary}"
    if trial.megabytes and run.megabytes > trial.megabytes:
        wrong = f"wrong: {run.megabytes:.0f} MB, and {trial.megabytes} are the most"
    if run.line != day.promise:
        wrong = f"wrong: {run.line} in place of {day.promise}"
    show(trial.title, size, run, time * size, wrong)
    return run.line.startswith(("ROWS", "OK")), bool(wrong)


def main(program, room, words):
    """Tries each file whose title has one of the words, or each one."""
    trials = [*order_files(), *segment_files(), *name_files(f"{room}/collide"), *days(), *dear_days()]
    trials = [trial for trial in trials if not words or any(word in trial.title for word in words)]
    print(f"{'File':50} {'bytes':>10} {'seconds':>7} {'times':>6}")
    needed = {trial.ordinary for trial in trials}
    times = {title: ordinary_time(program, room, title) for title in ORDINARY if title in needed}
    ends = [attempt(program, room, trial, times[trial.ordinary]) for trial in trials]
    wrong = sum(is_wrong for _, is_wrong in ends)
    whole = sum(is_whole and not is_wrong for is_whole, is_wrong in ends)
    with open(f"{room}/table", "a", encoding="ascii") as table:
        table.write(f"nothing, on a file made to hurt|{len(ends)}|{whole}|{len(ends) - whole - wrong}|{wrong}\n")


if __name__ == "__main__":
    main(sys.argv[1], sys.argv[2], sys.argv[3:])
