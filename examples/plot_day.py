#!/usr/bin/env python3
"""Draws the day of one security as a picture, from the answers to the rows of an order file.

    xetra-day run SEGMENT ORDERS --answers ANSWERS
    examples/plot_day.py ANSWERS SEGMENT --security NAME --out day.svg

Over the numbers of the records it shows the phases as bands, the best limits, the trades of each row at their average
price, the last price and the last auction price, in calls the indicative price, and the ranges in the phases that ask
them: the dynamic and the static range in continuous trading and in ordinary calls, the wide range in interrupted calls.
What a record has led to stands to the right of its number; what the record met, to the left. With --text-is-time the axis
has the free texts of the records in place of their numbers, where all of them are numbers that never fall, as times.

It is a script of its own: it isn't proved, and nothing that is proved stands on it. It needs Python 3.11 and matplotlib,
Debian's package python3-matplotlib.

Exit status:
  0  the picture is written
  1  it isn't, and standard error says why
  2  the command line is mistaken
"""
import argparse
import csv
import itertools
import math
import pathlib
import sys
from typing import NamedTuple

# The columns of the answers (docs/FORMATS.md).
COLUMNS = (
    "record,security,answer,version,phase,first_trade,trades,quantity,money,rest,best_buy,buy_quantity,best_sell,"
    "sell_quantity,last,auction,indicative,indicative_quantity,text"
).split(",")
# The free texts are any bytes, each of which is a character here.
ENCODING = "latin-1"
WIDTHS = ("dynamic", "static", "wide")
# Of a phase the shade of its band, by the end of its word; in the strip above the prices it is stronger.
SHADES = {"-call": "#f7dc8c", "-interrupted": "#f5a86c", "-extended": "#e07878", "continuous": "#ffffff"}
NO_TRADING = "#cccccc"
# The part of the height that the strip of phases takes.
STRIP = 0.1
# The forms of what is drawn, in the order in which it is drawn over one another.
RANGES = {
    "static range": {"facecolor": "#2e8b5722", "edgecolor": "#2e8b57"},
    "dynamic range": {"facecolor": "#2e8b5740", "edgecolor": "#2e8b57"},
    "wide range": {"facecolor": "#00808030", "edgecolor": "#006060", "linestyle": (0, (4, 2))},
}
LINES = {
    "last auction price": {"color": "#a6a6a6", "linewidth": 4.5},
    "best buy": {"color": "#1f5fa8", "linewidth": 3.4},
    "best sell": {"color": "#d0381c", "linewidth": 2},
    "last price": {"color": "#000000", "linewidth": 0.9},
    "indicative price": {"color": "#a0148c", "linewidth": 1.8, "linestyle": (0, (1, 1))},
}
STAGES = {"-interrupted": "#c8500a", "-extended": "#980c0c"}
# Where more records traded than these, their markers are smaller, and have no units beside them.
FEW_TRADES = 12


class Fault(Exception):
    """Why there is no picture."""


class View(NamedTuple):
    """What of the day is shown: between which places of the axis, whether these are times, and whether prices alone fit in."""

    start: float
    end: float
    is_time: bool
    fits_prices: bool


class Settings(NamedTuple):
    """What the segment file says of a security: its prices in euros, its widths in thousandths."""

    name: str
    date: int
    reference: float
    dynamic: int
    static: int
    wide: int


class Moment(NamedTuple):
    """A security from a record up to its next one, at a place of the axis. A price that there isn't is no number (NaN)."""

    place: float
    phase: str
    best_buy: float
    best_sell: float
    last: float
    auction: float
    indicative: float


class Traded(NamedTuple):
    """What one record led to: units, their average price, and the price of the last trade."""

    place: float
    quantity: int
    average: float
    last: float


def read_settings(path, name):
    """The security of this name, or the first one, and the date."""
    try:
        import tomllib
    except ModuleNotFoundError:
        raise Fault("it needs Python 3.11, which reads TOML") from None
    try:
        segment = tomllib.loads(path.read_bytes().decode("utf-8-sig"))
        named = {it["name"]: it for it in segment["security"]}
        if not named:
            raise Fault(f"{path} has no security")
        if name not in (None, *named):
            raise Fault(f"{path} has no security {name}: it has {', '.join(named)}")
        found = named[name or next(iter(named))]
        widths = {it: int(found[it]) for it in WIDTHS}
        return Settings(found["name"], int(segment["date"]), float(found["reference"]), **widths)
    except OSError as error:
        raise Fault(f"{path}: {error.strerror}") from error
    except (ValueError, TypeError, LookupError) as error:
        why = "'xetra-day check' says whether it is a segment file, and this script reads TOML 1.0 alone"
        raise Fault(f"{path} can't be read ({error}): {why}") from error


def read_answers(path):
    """The records of the answers, each by its columns."""
    try:
        with path.open(newline="", encoding=ENCODING) as file:
            rows = csv.DictReader(file)
            if rows.fieldnames is None:
                raise Fault(f"{path} is empty, as answers are after a fault: run xetra-day again, and see what it says")
            if rows.fieldnames != COLUMNS:
                raise Fault(f"{path} holds no answers: its first line isn't {','.join(COLUMNS)}")
            records = list(rows)
    except OSError as error:
        raise Fault(f"{path}: {error.strerror}") from error
    except csv.Error as error:
        raise Fault(f"{path} holds no answers: {error}") from error
    if any(None in it.values() for it in records):
        raise Fault(f"{path} is cut off: a line has too few fields")
    return records


def price(text):
    return float(text) if text else math.nan


def times_of(rows):
    """The free texts of the records as numbers, which never fall."""
    times = []
    for row in rows:
        try:
            time = float(row["text"])
        except ValueError:
            raise Fault(f"the text of record {row['record']} is no number, {row['text']!r}: leave --text-is-time out") from None
        if not math.isfinite(time) or times and time < times[-1]:
            raise Fault(f"the text of record {row['record']}, {row['text']!r}, is no time: it is below the one before it")
        times.append(time)
    return times


def moments_of(rows, places, settings):
    """The security before the first record, after each of its own, and at the end."""
    opening = (math.nan, math.nan, settings.reference, settings.reference, math.nan)
    moments = [Moment(places[0], "pre-trading", *opening)]
    for row, place in zip(rows, places[1:]):
        if row["security"] == settings.name:
            phase = row["phase"] or moments[-1].phase
            prices = [price(row[it]) for it in ("best_buy", "best_sell", "last", "auction", "indicative")]
            moments.append(Moment(place, phase, *prices))
    return [*moments, moments[-1]._replace(place=places[-1])]


def trades_of(rows, places, settings):
    """The records of the security that led to trades."""
    trades = []
    for row, place in zip(rows, places[1:]):
        if row["security"] == settings.name and row["trades"] not in ("", "0"):
            quantity = int(row["quantity"])
            trades.append(Traded(place, quantity, float(row["money"]) / quantity, price(row["last"])))
    return trades


def places_of(rows, is_time):
    """Where the rows stand on the axis, with a place before the first one and one behind the last."""
    places = times_of(rows) if is_time else [int(row["record"]) for row in rows]
    margin = (places[-1] - places[0]) / 50 or 1 if is_time else 1
    return [places[0] - margin, *places, places[-1] + margin]


def read_day(path, settings, is_time=False):
    """The moments and the trades of the security."""
    rows = read_answers(path)
    if not any(it["security"] == settings.name for it in rows):
        raise Fault(f"{path} has no record of {settings.name}: was it made with this segment file?")
    try:
        places = places_of(rows, is_time)
        return moments_of(rows, places, settings), trades_of(rows, places, settings)
    except (ValueError, TypeError, ZeroDivisionError) as error:
        raise Fault(f"{path} holds no answers: {error}") from error


def part_of(moments, trades, view):
    """The moments and the trades between two places of the axis."""
    start, end = max(view.start, moments[0].place), min(view.end, moments[-1].place)
    shown = [here._replace(place=max(here.place, start)) for here, after in zip(moments, moments[1:]) if here.place < end and after.place > start]
    if not shown or start >= end:
        raise Fault(f"there is nothing from {view.start:g} to {view.end:g}: the day is from {moments[0].place:g} to {moments[-1].place:g}")
    return [*shown, shown[-1]._replace(place=end)], [it for it in trades if start <= it.place <= end]


def stepped(moments, value):
    """The points of a line that has each moment's value from its record up to the next."""
    pairs = list(zip(moments, moments[1:]))
    places = [place for here, after in pairs for place in (here.place, after.place)]
    return places, [height for here, _ in pairs for height in [value(here)] * 2]


def bands_of(moments):
    """Each phase with the places at which it begins and ends."""
    runs = [(phase, next(group).place) for phase, group in itertools.groupby(moments, lambda it: it.phase)]
    ends = [begin for _, begin in runs[1:]] + [moments[-1].place]
    return [(phase, begin, end) for (phase, begin), end in zip(runs, ends)]


def shade_of(phase):
    return next((SHADES[end] for end in SHADES if phase.endswith(end)), NO_TRADING)


def middle_of(name, moment):
    """The price that a range is around, or no number where the phase doesn't ask the range."""
    if name == "wide range":
        is_asked = moment.phase.endswith("-interrupted")
    else:
        is_asked = moment.phase == "continuous" or moment.phase.endswith("-call")
    around = moment.auction if name == "static range" else moment.last
    return around if is_asked else math.nan


def draw_ranges(axes, moments, settings):
    """Each range in the phases that ask it: around the last auction price the static one, around the last price the others."""
    for name, form in RANGES.items():
        width = getattr(settings, name.removesuffix(" range"))
        places, middles = stepped(moments, lambda it: middle_of(name, it))
        asked = [not math.isnan(it) for it in middles]
        if any(asked):
            low, high = ([it * (1000 + sign * width) / 1000 for it in middles] for sign in (-1, 1))
            label = f"{name}: {width} thousandths"
            axes.fill_between(places, low, high, where=asked, linewidth=0.6, label=label, zorder=1, **form)


def draw_lines(axes, moments):
    values = {
        "best buy": lambda it: it.best_buy,
        "best sell": lambda it: it.best_sell,
        "last price": lambda it: it.last,
        "last auction price": lambda it: it.auction,
        "indicative price": lambda it: it.indicative,
    }
    for name, form in LINES.items():
        axes.plot(*stepped(moments, values[name]), label=name, solid_capstyle="butt", zorder=3, **form)


def draw_trades(axes, trades):
    """A marker for each record that traded, its area by the units; few of them also have a line to their last price."""
    if not trades:
        return
    places, quantities, averages, lasts = zip(*trades)
    are_few = len(trades) <= FEW_TRADES
    largest = 180 if are_few else max(4, 180 * FEW_TRADES / len(trades))
    sizes = [max(largest / 18, largest * it / max(quantities)) for it in quantities]
    edge = {"edgecolor": "#000000", "linewidth": 0.8 if are_few else 0.2}
    label = "trades of a record: average price, area by units"
    axes.scatter(places, averages, s=sizes, color="#ffd24d", zorder=4, label=label, **edge)
    if are_few:
        axes.vlines(places, averages, lasts, color="#000000", linewidth=1.2, zorder=5)
        axes.scatter(places, lasts, s=30, marker="_", color="#000000", linewidth=1.4, zorder=5, label="their last price")
        write_units(axes, trades)


def write_units(axes, trades):
    """Beside each marker the units that were traded."""
    from matplotlib.patheffects import withStroke

    halo = [withStroke(linewidth=2.5, foreground="#ffffff")]
    place = {"xytext": (-2, -17), "textcoords": "offset points", "ha": "right"}
    for it in trades:
        axes.annotate(f"{it.quantity:,}", (it.place, it.average), **place, fontsize=8, zorder=6, path_effects=halo)


def word_in(phase, points):
    """The word of a phase as it fits into so many points: on a line, on one for each of its parts, or not at all."""
    for text in (phase, phase.replace("-", "-\n")):
        if points >= 4.6 * max(map(len, text.split("\n"))):
            return text
    return ""


def draw_bands(strip, axes, bands):
    """The phases as bands, with their words in the strip above where they fit."""
    box = strip.get_window_extent()
    scale = box.width * 72 / strip.figure.dpi / (bands[-1][2] - bands[0][1])
    for phase, begin, end in bands:
        strip.axvspan(begin, end, facecolor=shade_of(phase), edgecolor="#909090", linewidth=0.6)
        axes.axvspan(begin, end, facecolor=shade_of(phase), alpha=0.35, linewidth=0, zorder=0)
        word = word_in(phase, (end - begin) * scale)
        strip.text((begin + end) / 2, 0.5, word, ha="center", va="center", fontsize=7.5, linespacing=1)


def draw_stages(axes, bands):
    """A line where an interrupted or an extended call begins, which the first phase that is shown doesn't here."""
    for end, colour in STAGES.items():
        begins = [begin for phase, begin, _ in bands[1:] if phase.endswith(end)]
        for number, begin in enumerate(begins):
            label = f"an {end[1:]} call begins" if number == 0 else None
            axes.axvline(begin, color=colour, linewidth=1.8, linestyle=(0, (5, 2)), zorder=2, label=label)


def fit_prices(axes, moments, trades):
    """Has the axis end where the limits and the prices do, whatever ranges there are."""
    heights = [it for moment in moments for it in moment[2:]] + [it for trade in trades for it in trade[2:]]
    low, high = min(it for it in heights if not math.isnan(it)), max(it for it in heights if not math.isnan(it))
    margin = (high - low) / 12 or high / 100
    axes.set_ylim(low - margin, high + margin)


def picture_of(settings, moments, trades, view):
    """The figure: above the strip with the phases, below it the prices, and the legend last."""
    from matplotlib.figure import Figure
    from matplotlib.ticker import MaxNLocator

    figure = Figure(figsize=(9.6, 7), dpi=150)
    strip, axes = figure.subplots(2, sharex=True, gridspec_kw={"height_ratios": (STRIP, 1 - STRIP), "hspace": 0})
    figure.subplots_adjust(left=0.075, right=0.985, top=0.95, bottom=0.19)
    axes.set_xlim(moments[0].place, moments[-1].place)
    bands = bands_of(moments)
    draw_bands(strip, axes, bands)
    draw_stages(axes, bands)
    draw_ranges(axes, moments, settings)
    draw_lines(axes, moments)
    draw_trades(axes, trades)
    if view.fits_prices:
        fit_prices(axes, moments, trades)
    strip.set_yticks([])
    strip.tick_params(bottom=False)
    strip.set_title(f"{settings.name} on {settings.date:08}", fontsize=11)
    axes.set_xlabel("time, as the free texts have it" if view.is_time else "number of the record in the order file", fontsize=9)
    axes.set_ylabel("euros", fontsize=9)
    axes.ticklabel_format(useOffset=False, style="plain")
    axes.xaxis.set_major_locator(MaxNLocator(nbins=12, steps=(1, 2, 5, 10), integer=not view.is_time))
    axes.tick_params(labelsize=8)
    figure.legend(*axes.get_legend_handles_labels(), loc="lower center", ncol=3, fontsize=8, frameon=False)
    return figure


def write_picture(path, settings, moments, trades, view):
    """Two runs write the same bytes: no date, and names that are drawn from a fixed word. Texts stay texts."""
    try:
        import matplotlib
    except ModuleNotFoundError:
        why = "there is no matplotlib: install Debian's package python3-matplotlib, and call it by /usr/bin/python3"
        raise Fault(why) from None
    kind = path.suffix[1:].lower()
    with matplotlib.rc_context({"svg.hashsalt": "xetra-day", "svg.fonttype": "none"}):
        figure = picture_of(settings, moments, trades, view)
        try:
            figure.savefig(path, format=kind, metadata={"Date": None, "Creator": None} if kind == "svg" else None)
        except OSError as error:
            raise Fault(f"{path}: {error.strerror}") from error


def command_line():
    about, title, status = __doc__.partition("Exit status:")
    form = argparse.RawDescriptionHelpFormatter
    parser = argparse.ArgumentParser(description=about, epilog=title + status, formatter_class=form)
    parser.add_argument("answers", metavar="ANSWERS", type=pathlib.Path, help="the answers, which xetra-day wrote")
    parser.add_argument("segment", metavar="SEGMENT", type=pathlib.Path, help="the segment file of that run")
    parser.add_argument("--security", metavar="NAME", help="the security (default: the first one of the segment file)")
    place = {"metavar": "N", "type": float}
    parser.add_argument("--from", **place, dest="start", default=-math.inf, help="the first record that is shown, or the first time")
    parser.add_argument("--to", **place, dest="end", default=math.inf, help="the last one")
    fits = "what the axis of prices has room for: prices and ranges (default), or prices alone"
    parser.add_argument("--fit", choices=("ranges", "prices"), default="ranges", help=fits)
    parser.add_argument("--text-is-time", action="store_true", help="the axis has the free texts of the records, which are all numbers")
    parser.add_argument("--out", metavar="FILE", type=pathlib.Path, required=True, help="the picture, an .svg or a .png file")
    words = parser.parse_args()
    if words.out.suffix.lower() not in (".svg", ".png"):
        parser.error(f"the picture's name ends with .svg or .png, and {words.out} doesn't")
    return words


def main():
    words = command_line()
    try:
        settings = read_settings(words.segment, words.security)
        view = View(words.start, words.end, words.text_is_time, words.fit == "prices")
        moments, trades = part_of(*read_day(words.answers, settings, view.is_time), view)
        write_picture(words.out, settings, moments, trades, view)
    except Fault as fault:
        print(f"plot_day: {fault}", file=sys.stderr)
        return 1
    return 0


if __name__ == "__main__":
    sys.exit(main())
