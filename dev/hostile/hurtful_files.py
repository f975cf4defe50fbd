"""Files that are made to hurt, and ordinary ones, each with what the program must say of it."""

MOST_BYTES = 16_777_216
HEADER = "command,member,reference,security,side,kind,limit,trigger,quantity,validity,restriction,condition\n"
NAMES = ["ABC", "DEF", "GHI", "JKL", "MNO", "PQR", "STU", "VWX"]
ANSWERS = ["--answers", "/dev/null"]


class Day:
    """The files of a run with the words behind them, and the last line that the program must write, of the statement or of a
    fault. Without orders it is the check of a segment file."""

    def __init__(self, segment, orders, promise, words=()):
        self.segment = segment
        self.orders = orders
        self.promise = promise
        self.words = list(words)


def fault(line, cause, file="orders"):
    """What the program says of a fault of a file."""
    return f"xetra-day: {file}: line {line}: {cause}"


def counts(accepted, refused=0):
    """The last line of a statement."""
    return f"ROWS {accepted} {refused}"


def segment(securities=1, members=("AAA", "BBB"), reference="10.00", dynamic=500, static=999, wide=998):
    """A segment file whose securities have a tick of a ten-thousandth of a euro."""
    names = ", ".join(f'"{name}"' for name in members)
    lines = [f"date = 20260105\nmembers = [{names}]\n"]
    for name in NAMES[:securities]:
        lines.append(
            f'[[security]]\nname = "{name}"\ntick = 1\nreference = "{reference}"\ndynamic = {dynamic}\n'
            f"static = {static}\nwide = {wide}\njournal = 1000000\n"
        )
    return "".join(lines)


def members_of(count):
    """So many members."""
    return [f"M{member:03}" for member in range(count)]


def price(ticks):
    """A price of so many ten-thousandths of a euro."""
    return f"{ticks // 10_000}.{ticks % 10_000:04}"


def enter(reference, side, limit, quantity=1, member="AAA", security="ABC", condition=""):
    """An order with a limit in ticks."""
    return f"enter,{member},{reference},{security},{side},limit,{price(limit)},,{quantity},,,{condition}\n"


def hold(reference, side, trigger, quantity=1, member="AAA"):
    """A stop that comes in as a market order."""
    return f"enter,{member},{reference},ABC,{side},stop-market,,{price(trigger)},{quantity},,,\n"


def cancel(reference, member="AAA", security="ABC"):
    """The cancellation of an order or a stop."""
    return f"cancel,{member},{reference},{security},,,,,,,,\n"


def cancel_all(member="AAA"):
    """The cancellation of all that a member has."""
    return f"cancel-all,{member},,ABC,,,,,,,,\n"


def phase(command, security="*"):
    """A row of a phase, for all securities or for one."""
    return f"{command},,,{security},,,,,,,,\n"


TRADING = phase("open") + phase("uncross")


class Rows:
    """An order file that is filled with rows up to a number of bytes, those first that it begins with."""

    def __init__(self, begin="", most=MOST_BYTES):
        self.texts = [HEADER, begin]
        self.left = most - len(HEADER) - len(begin)

    def add(self, rows):
        """Adds rows, or answers False where they don't fit any more."""
        if len(rows) > self.left:
            return False
        self.texts.append(rows)
        self.left -= len(rows)
        return True

    def text(self):
        """The file."""
        return "".join(self.texts)


def ten_rows(turn):
    """Rows of one member and security that are all accepted, two of which trade, and which leave one order."""
    member = f"M{turn % 100:03}"
    security = NAMES[turn // 100 % 4]
    first = 8 * (turn // 100)
    away = 100 + turn * 7919 % 5000
    name = {"member": member, "security": security}
    return "".join(
        (
            enter(first, "buy", 100_000 - away, 100, **name),
            enter(first + 1, "sell", 100_000 + away, 100, **name),
            enter(first + 2, "sell", 100_000, 10, **name),
            enter(first + 3, "buy", 100_000, 10, **name),
            f"enter,{member},{first + 4},{security},sell,stop-limit,{price(90_000 - away)},{price(90_000 - away)},10,,,\n",
            cancel(first + 4, **name),
            f"change,{member},{first},{security},,,,,50,,,\n",
            cancel(first + 1, **name),
            enter(first + 5, "buy", 99_900 - away, 100, **name),
            cancel(first, **name),
        )
    )


def filled(segment_text, rows, turn_of, promise_of, words=(), end="", most=MOST_BYTES):
    """A day whose order file is filled turn by turn, with at most so many, and then has an end, for which there is room."""
    turns = 0
    rows.left -= len(end)
    while turns < most and rows.add(turn_of(turns)):
        turns += 1
    return Day(segment_text, rows.text() + end, promise_of(turns), words)


def ordinary(most=MOST_BYTES, words=()):
    """A day of four securities and a hundred members."""
    return filled(segment(4, members_of(100)), Rows(TRADING, most), ten_rows, lambda turns: counts(8 + 10 * turns), words)


def quoted():
    """An ordinary day, each record of which has a quote."""

    def turn(number):
        return "".join('"' + row.replace(",", '",', 1) for row in ten_rows(number).splitlines(keepends=True))

    return filled(segment(4, members_of(100)), Rows(TRADING), turn, lambda turns: counts(8 + 10 * turns))


def one_byte(byte, promise, begin=""):
    """An order file of one byte over and over, behind a text."""
    return Day(segment(), begin + byte * (MOST_BYTES - len(begin)), promise)


def openings(records, threads=1):
    """Records of a phase for eight securities, of which the first is accepted, on so many threads."""
    promise = counts(8, 8 * (records - 1)) if records <= 125_000 else fault(125_002, "TooManyRows")
    return Day(segment(8), HEADER + phase("open") * records, promise, ["--threads", str(threads)])


def long_last_line(threads):
    """Rows, and then a line that is longer than all of them, and never ends, on so many threads."""
    rows = HEADER + phase("open") + "".join(enter(number, "buy", 100_000) for number in range(40_000))
    return Day(segment(), rows + "A" * (MOST_BYTES - len(rows)), fault(40_003, "Syntax"), ["--threads", str(threads)])


def shortest_rows():
    """As many rows as a file has room for."""
    return Day(segment(), HEADER + phase("end") * 1_048_569, fault(1_000_002, "TooManyRows"))


def orders_of_members(names):
    """Orders of these members in turn."""

    def turn(number):
        return enter(number // len(names), "buy", 100_000 - number % 1000, 1, names[number % len(names)])

    return filled(segment(1, names), Rows(), turn, counts)


def orders_of_references(references, row_of):
    """Orders or stops of these references, those of one member after those of another."""
    names = members_of(500)
    last = len(references) - 1

    def turn(number):
        return row_of(references[last - number % len(references)], "buy", 100_010, 1, names[number // len(references)])

    return filled(segment(1, names), Rows(), turn, counts)


def cancelled_at_once(row_of):
    """As many orders or stops of one member as a file holds, and one row that cancels all."""

    def turn(number):
        return row_of(number, "buy", 100_001 + number * 7919 % 90_000)

    return filled(segment(), Rows(TRADING), turn, lambda turns: counts(turns + 3), end=cancel_all())


def cancelled_in_portions(portion):
    """So many orders of one member, which one row cancels, again and again."""
    rows = "".join(enter(reference, "buy", 100_000 - reference % 1000) for reference in range(portion)) + cancel_all()
    return filled(segment(), Rows(), lambda _number: rows, lambda turns: counts(turns * (portion + 1)))


def stops(trigger_of, last):
    """As many stops as a file holds, all reached by one trade at a price in ticks, and met by one order."""
    end = enter(1, "sell", last, 1_000_000, "BBB") + enter(2, "buy", last, 1, "BBB")

    def turn(number):
        return hold(number, "buy", trigger_of(number))

    return filled(segment(dynamic=997), Rows(TRADING), turn, lambda turns: counts(turns + 4), end=end)


def rounds(members, most):
    """So many rounds of a row of each of so many members and a row of a phase, which is refused, taken by eight workers."""
    names = members_of(8)

    def turn(number):
        rows = [enter(number, "buy", 100_000 - number % 1000, 1, name) for name in names[:members]]
        return "".join(rows) + phase("open", "ABC")

    return filled(segment(1, names), Rows(TRADING), turn, lambda turns: counts(2 + turns * members, turns), ["--workers", "8"], most=most)


def calls_without_price(levels):
    """Calls of so many levels, none of which cross."""
    rows = [TRADING]
    for level in range(levels // 2):
        rows.append(enter(2 * level, "buy", 99_999 - level) + enter(2 * level + 1, "sell", 100_001 + level))
    turn = phase("intraday") + phase("uncross")
    return filled(segment(), Rows("".join(rows)), lambda _number: turn, lambda turns: counts(2 + levels + 2 * turns))


def calls_without_trade(levels, most):
    """So many calls in which so many levels cross, each interrupted, and at its end without the order that they crossed with."""
    begin = TRADING + "".join(enter(level, "buy", 1 + level) for level in range(levels))
    turn = phase("intraday") + enter(1, "sell", 1, levels, "BBB") + phase("uncross") + cancel(1, "BBB") + phase("uncross")
    return filled(segment(), Rows(begin), lambda _number: turn, lambda turns: counts(2 + levels + 5 * turns), most=most)


def call_that_crosses(levels, most):
    """So many orders of a call, on so many levels of each side that all cross, with answers."""

    def turn(number):
        away = number // 2 % levels
        return enter(number, "sell", 100_000 - away, 1, "BBB") if number % 2 else enter(number, "buy", 100_000 + away)

    return filled(segment(), Rows(phase("open")), turn, lambda turns: counts(1 + turns), ANSWERS, most=most)


def fill_or_kill(orders, limits, most=MOST_BYTES):
    """So many sells of a unit at so many limits, and at most so many fill-or-kill buys of more than all of them."""
    begin = TRADING + "".join(enter(order, "sell", 100_000 + order % limits) for order in range(orders))
    turn = enter(1, "buy", 145_000, 1_000_000, "BBB", condition="fok")
    return filled(segment(), Rows(begin), lambda _number: turn, lambda turns: counts(2 + orders + turns), most=most)


def changes(orders):
    """The first order of a long queue gets more units and goes to its end, again and again."""
    begin = TRADING + "".join(enter(order, "buy", 100_000) for order in range(orders))

    def turn(number):
        return f"change,AAA,{number % orders},ABC,,,,,{2 + number // orders},,,\n"

    return filled(segment(), Rows(begin), turn, lambda turns: counts(2 + orders + turns))


def far_levels():
    """A best level that comes and goes, with the next one as far away as can be."""
    turn = enter(1, "buy", 1_000_000) + cancel(1)
    begin = TRADING + enter(0, "buy", 1, 1, "BBB")
    return filled(segment(), Rows(begin), lambda _number: turn, lambda turns: counts(3 + 2 * turns))


def unknown_orders(orders):
    """Cancellations of orders that are not there, by a member with many."""
    begin = TRADING + "".join(enter(2 * order, "buy", 100_000) for order in range(orders))

    def turn(number):
        return cancel(1 + 2 * (number % orders))

    return filled(segment(), Rows(begin), turn, lambda turns: counts(2 + orders, turns))


def day_ended():
    """As many orders as a file holds, all of which end with the day."""
    end = TRADING + phase("close") + phase("uncross") + phase("end")

    def turn(number):
        return enter(number, "buy", 100_000 - number * 7919 % 90_000)

    return filled(segment(), Rows(), turn, lambda turns: counts(turns + 5), end=end)


def interruptions():
    """Orders that each interrupt trading."""
    turn = enter(1, "buy", 400_000) + cancel(1) + phase("uncross")
    begin = TRADING + enter(0, "sell", 400_000, 1, "BBB")
    return filled(segment(), Rows(begin), lambda _number: turn, lambda turns: counts(3 + 3 * turns))


def check_of(text, promise):
    """The check of a segment file."""
    return Day(text, None, promise)


def name_of(number):
    """A name of four characters, each number's own."""
    characters = "ABCDEFGHIJKLMNOPQRSTUVWXYZ0123456789"
    return "".join(characters[number // 36**place % 36] for place in range(4))


def many_securities(count, again=False):
    """The check of so many securities, the last one again where that is asked for."""
    keys = '"\ntick=1\nreference="1"\ndynamic=1\nstatic=1\nwide=2\njournal=1\n'
    tables = [f'[[security]]\nname="{name_of(number)}{keys}' for number in range(count)]
    promise = "xetra-day: open: TooMany"
    if again:
        tables.append(tables[-1])
        promise = fault(count + 1, "DuplicateName", "segment")
    return check_of("date=0\nmembers=[]\n" + "".join(tables), promise)


def many_members(count):
    """The check of so many members."""
    names = ",".join(f'"{member:07}"' for member in range(count))
    return check_of(f"date=0\nmembers=[{names}]\n" + segment().split("\n", 2)[2], "xetra-day: open: TooMany")


def many_keys(count):
    """The check of so many keys in one table."""
    return check_of("".join(f"k{key:07}=1\n" for key in range(count)), fault(0, "MissingKey", "segment"))


def padded(byte):
    """The check of a segment file with one byte over and over behind its text."""
    text = segment()
    return check_of(text + byte * (MOST_BYTES - len(text)), "OK 1 securities 2 members")
