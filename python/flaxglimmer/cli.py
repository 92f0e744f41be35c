"""The command flaxglimmer. Results go to standard output, all else to standard error; the exit tells how it ended."""
from __future__ import annotations

import json
import os
import sys
import threading
from contextlib import contextmanager
from dataclasses import asdict, dataclass, field, replace
from functools import wraps

import click
import numpy as np

from . import calls, faults, files, flips, jobs, lengths, logs, skins
from .diameter import of_skin
from .faults import counted, shown
from .header import LIMITS
from .refusals import FileFault, LibraryMissing, OurFault, Refused, UsageFault

DONE, REFUSED, USAGE, NO_FILE, NOT_SHOWN, OURS = range(6)
INTERRUPTED = 130  # as shells have it
PATIENCE = 2  # seconds before it is said that there is work
MOST_FAULTS = 10  # lines; --json has them all

EXITS = """
\b
Exit: 0  done; and, if a least mean diameter was asked, shown to be met
      1  the library refused: number, meaning, places, hint
      2  wrong usage: no unit, no such option, a limit that is no figure and unit,
         a log of another skin (for recover 1)
      3  the file cannot be turned into points and rows: line or byte, and why
      4  done, but the least mean diameter is not shown to be met
      5  our fault: no library or one of another version, places and number disagree
"""


@dataclass
class Outcome:
    """What a command came to: an object for --json; or lines for standard output, and for standard error words and notes."""

    answer: dict
    lines: list = field(default_factory=list)
    errors: list = field(default_factory=list)
    notes: list = field(default_factory=list)
    exit: int = DONE


def refusal(refused: Refused) -> Outcome:
    hint = refused.hint or faults.HINTS.get(refused.number)
    answer = {"status": refused.number, "meaning": refused.meaning, "faults": [asdict(fault) for fault in refused.faults], "hint": hint}
    lines = [str(refused)] + [f"  {fault.text}" for fault in refused.faults[:MOST_FAULTS]]
    lines += [f"  and {len(refused.faults) - MOST_FAULTS:,} more"] if len(refused.faults) > MOST_FAULTS else []
    kept = [note for note in refused.notes if note.startswith(("warning: ", skins.READ_IN))]
    return Outcome({**answer, "notes": refused.notes}, errors=lines, notes=kept + ([f"hint: {hint}"] if hint else []), exit=REFUSED)


def outcome(act) -> Outcome:
    """What an act comes to, each kind of fault by its exit."""
    line = None
    try:
        return act()
    except Refused as refused:
        return refusal(refused)
    except UsageFault as fault:
        text, ended = str(fault), USAGE
    except FileFault as fault:
        text, ended, line = str(fault), NO_FILE, fault.line
    except (LibraryMissing, OurFault) as fault:
        text, ended = f"our fault: {fault}", OURS
    except Exception as fault:  # no traceback for people: what it is, and that it is ours
        text, ended = f"our fault: {type(fault).__name__}: {fault}", OURS
    return Outcome({"status": None, "error": text, "line": line}, errors=[f"flaxglimmer: {text}"], exit=ended)


def tell(told: Outcome, as_json: bool, quiet: bool) -> None:
    if as_json:
        click.echo(json.dumps({"exit": told.exit, "notes": told.notes, **told.answer}))
        return
    for line in told.lines:
        click.echo(line)
    for line in told.errors + ([] if quiet else [f"  {note}" for note in told.notes]):
        click.echo(line, err=True)


def command(name: str, **settings):
    """A command of the group, with --json and --quiet, whose function gives an Outcome."""

    def made(function):
        @main.command(name, context_settings=settings)
        @click.option("--json", "as_json", is_flag=True, help="One object on standard output.")
        @click.option("--quiet", is_flag=True, help="No notes and no hints.")
        @wraps(function)
        def run(as_json, quiet, **words):
            working = threading.Timer(PATIENCE, click.echo, ["working"], {"err": True})
            working.daemon = True
            if not quiet:
                working.start()
            told = outcome(lambda: function(**words))
            working.cancel()
            tell(told, as_json, quiet)
            return told.exit

        return run

    return made


@click.group(epilog=EXITS)
def main():
    """Thins scanned skins of shafts by a proved library: checks them, says where a fault lies, and reports.

    FILE is a scan (.stl, .obj, .ply, .off), whose --unit has to be told, or a sheet (.sheet). LOG is a log sheet, LOG and K lines, or an answer of
    the desk, OK, R and K lines; for undo a flip log, FLIPS and F lines. JOB is a job sheet, JOB and J lines. EDGES is a list of edges, two corner
    numbers a line.
    In the repository `./flaxglimmer set-up` installs what is needed and builds the library."""


# Options that several commands share

WHICH_FEET = "; ".join(f"{unit}: {which}" for unit, which in lengths.FEET.items()) + "."


def known_unit(context, parameter, unit: str | None) -> str | None:
    """What is no unit is told with which feet there are."""
    try:
        return unit if unit is None else lengths.known(unit)
    except UsageFault as fault:
        raise click.BadParameter(str(fault))


def with_reading(function):
    """How a scan is read."""
    for option in (
        click.option("--turn", is_flag=True, help="Turn every row over."),
        click.option("--drop-flat", is_flag=True, help="Leave out rows that have one corner twice."),
        click.option("--weld", type=click.Choice(files.WELDS), default="auto", show_default=True, help="Join equal points; auto: those of an STL."),
        click.option("--origin", metavar="X,Y,Z|auto", help="Whole metres, taken off before rounding; auto: nearest the middle."),
        click.option("--unit", metavar="|".join(lengths.CENTIMETRES), callback=known_unit, help=f"The file's unit: no format tells it. {WHICH_FEET}"),
    ):
        function = option(function)
    return function


def with_file(function):
    return click.argument("file")(with_reading(function))


def to_write(name: str, what: str):
    return click.option(f"--{name}", type=click.Path(), help=what)


AS_IT_STANDS = {"unit": None, "origin": None, "weld": "auto", "drop_flat": False, "turn": False}  # no option of a scan


@contextmanager
def named(path):
    """Puts a file's name before what is wrong with it."""
    try:
        yield
    except FileFault as fault:
        named_fault = FileFault(f"{shown(path)}: {fault}")
        named_fault.line = fault.line
        raise named_fault from None


def opened(file, unit, origin, weld, drop_flat, turn) -> skins.Skin:
    with named(file):
        return files.read(file, unit, origin, weld, drop_flat, turn)


def opened_log(path, skin: skins.Skin) -> files.Log:
    """The log in a file. The counts of a log sheet have to be those of the skin that it is asked about with."""
    with named(path):
        log = files.read_log(path)
    if log.counts is not None:
        of_this_skin(path, log.counts, skin, logs.SAME)
    return log


def of_this_skin(path, counts: tuple[int, int], skin: skins.Skin, question: str) -> None:
    """The counts that a log tells, corners and rows, have to be the skin's."""
    here = len(skin.corners), len(skin.rows)
    if counts != here:
        raise UsageFault(f"{logs.of_another(shown(path), counts, skin.name, here)}: {question}")


def left(log: files.Log, skin: skins.Skin) -> np.ndarray:
    """The rows left by a log: an answer tells them, and a log sheet is replayed on the skin."""
    if log.rows is not None:
        return log.rows
    with placed(skin, skin.rows, log.log):
        return calls.replay(skin.rows, len(skin.corners), log.log)


def apart(reads: list, writes: list) -> None:
    """What is written is none of what is read, and no two are one."""
    paths = reads + [path for path in writes if path is not None]
    places = [_place(path) for path in paths]
    for path, place in zip(paths, places):
        if places.count(place) > 1:
            raise UsageFault(f"{shown(path)} is named twice: what is read is never written over")


def _place(path):
    """Which file a name means, by whatever name it goes."""
    try:
        there = os.stat(path)
        return there.st_dev, there.st_ino
    except (OSError, ValueError):
        return os.path.realpath(path)


def write(path, text: str) -> None:
    try:
        with open(path, "w", encoding="utf-8", newline="\n") as out:
            out.write(text)
    except (OSError, ValueError) as fault:
        raise UsageFault(f"{shown(path)} cannot be written: {getattr(fault, 'strerror', None) or fault}") from None


def told_of(skin: skins.Skin, figure: int) -> list:
    return skin.told() + (["the volume is below zero: the rows turn inward; --turn turns them over"] if figure < 0 else [])


# Scans


def with_order(function):
    """The order of a thinning, and what is written of it."""
    for option in (
        to_write("answer", "Write rows and log as the desk's answer."),
        to_write("log", "Write the log as a log sheet, which can be mailed."),
        to_write("sheet", "Write the scanned skin as a sheet."),
        click.option("--mean-at-least", help="As '3000 mm': whether the mean diameter is shown to be as much."),
        click.option("--length", help="The shaft's, as '30 m', in a unit of a file, for the mean diameter of the skin."),
        to_write("report", "Write the report, one HTML file."),
        click.option("--limit", required=True, help=f"As '0.8 m', '30 cm', '4.75 ft', '4.75 ift', or none. {WHICH_FEET}"),
    ):
        function = option(function)
    return function


@command("thin")
@with_file
@with_order
@click.option("--plain", is_flag=True, help="By the plain engine, which comes to the same; without a limit it takes longer.")
def thin(file, limit, plain, **asked):
    """Thin the skin in FILE under a limit."""
    return thinning([file], limit, lambda skin: skins.thin(skin, limit, plain), **asked)


@command("recover")
@with_file
@click.argument("cut", metavar="LOG")
@with_order
def recover(file, cut, limit, **asked):
    """Take the thinning of the skin in FILE up from LOG, a log sheet that was cut after any byte, and thin on under a limit.

    Lines of LOG that end in a newline are used, and an unfinished one behind them is dropped. Under the limit that wrote LOG the rows and the log are
    those of an unbroken run."""

    def taken_up(skin):
        with named(cut):
            sheet = files.log_bytes(cut)
        return skins.recover(skin, sheet, limit, cut)

    return thinning([file, cut], limit, taken_up, **asked)


def thinning(reads, limit, act, report, length, mean_at_least, sheet, log, answer, **prepared) -> Outcome:
    """Thins the skin in the first of the files that are read, by this act, and writes what was asked."""
    lengths.order(limit)
    for typed in filter(None, (length, mean_at_least)):
        lengths.millimetres(typed)
    if mean_at_least and not length:
        raise UsageFault("--mean-at-least needs --length, the shaft's, as '30 m'")
    apart(reads, [report, sheet, log, answer])
    skin = opened(reads[0], **prepared)
    thinned = act(skin)
    thinned.hold()
    first, last = thinned.volumes()
    diameter = of_skin(first, skin.move, length, mean_at_least) if length else None
    if report:
        from .report import page

        write(report, page(thinned, length, mean_at_least))
    if sheet:
        write(sheet, files.sheet_text(skin))
    if log:
        write(log, thinned.log_sheet().decode("ascii"))
    if answer:
        write(answer, files.answer_text(thinned.rows, thinned.log, first, last))
    return thinned_outcome(thinned, first, last, diameter)


def thinned_outcome(thinned: skins.Thinned, first: int, last: int, diameter) -> Outcome:
    """The table of facts."""
    skin, change, farthest = thinned.skin, thinned.change(), thinned.farthest()
    used = [len(np.unique(rows)) for rows in (skin.rows, thinned.rows)]
    lines = [f"{skin.name}: {thinned.under()}"]
    lines += facts("scanned", "thinned", [
        ("rows", len(skin.rows), len(thinned.rows)),
        ("corners used", *used),
        ("volume, cubic metres", first, last),
        ("change, cubic metres", None, change),
        ("records", None, len(thinned.log)),
    ])  # fmt: skip
    if farthest:
        corner, shift = farthest
        lines.append(f"farthest moved: corner {corner}; corner {shift.stand_in} stands in after {shift.count}, squared distance {shift.squared:,} square cm")
    answer = {
        "status": 0, "file": skin.name, "under": thinned.under(), "limit": thinned.limit, "rows": [len(skin.rows), len(thinned.rows)], "corners": used, "records": len(thinned.log),
        "volume": [first, last], "change": change, "farthest": {"corner": farthest[0], **farthest[1]._asdict()} if farthest else None, "mean_diameter": None,
    }  # fmt: skip
    if diameter:
        lines += [diameter.line(), "  it does not cover:"] + [f"    {what}" for what in diameter.not_covered()]
        answer["mean_diameter"] = {**asdict(diameter), "line": diameter.line(), "not_covered": diameter.not_covered()}
    met = diameter is None or diameter.verdict in (None, "met")
    told = Outcome(answer, lines, notes=told_of(skin, first), exit=DONE if met else NOT_SHOWN)
    return recovered_outcome(told, thinned) if isinstance(thinned, skins.Recovered) else told


def facts(before: str, after: str, table: list) -> list:
    """A table of facts, each before and after; None where there is nothing before."""
    lines = [f"{what:24}{'' if first is None else format(first, ','):>10}{last:>10,}" for what, first, last in table]
    return [f"{'':24}{before:>10}{after:>10}", *lines]


def recovered_outcome(told: Outcome, recovered: skins.Recovered) -> Outcome:
    """The same of a log that was taken up, which is told first."""
    told.lines.insert(0, recovered.line())
    told.answer.update(kept=recovered.kept, added=recovered.added, dropped=len(recovered.dropped), claimed=recovered.claimed())
    return compared(told, recovered.unbroken, recovered.claimed())


@command("check")
@with_file
def check(file, **prepared):
    """Say whether the skin in FILE is sound, or where it is not; nothing is written."""
    skin = opened(file, **prepared)
    skin.check()
    figure = skin.volume()
    answer = {"status": 0, "file": skin.name, "rows": len(skin.rows), "corners": len(skin.corners), "volume": figure}
    return Outcome(answer, [f"sound: {len(skin.rows):,} rows, {len(skin.corners):,} corners, volume {figure:,} cubic metres"], notes=told_of(skin, figure))


@command("sheet")
@with_file
@to_write("sheet", "Write it here, and not to standard output.")
def sheet(file, sheet, **prepared):
    """Write the skin in FILE as a sheet, for the desk."""
    apart([file], [sheet])
    skin = opened(file, **prepared)
    skin.check()
    return text_outcome(files.sheet_text(skin), sheet, "sheet", told_of(skin, skin.volume()))


def text_outcome(text: str, path, name: str, notes: list) -> Outcome:
    """A sheet or an answer, to a file or to standard output."""
    if path:
        write(path, text)
    return Outcome({"status": 0, name: None if path else text}, [] if path else text.splitlines(), notes=notes)


def compared(told: Outcome, same: bool, text: str) -> Outcome:
    """Tells whether rows are those expected: a note where they are, and where they are not a line that --quiet does not leave out."""
    told.answer["same"] = same
    (told.notes if same else told.errors).append(text)
    return told


# One call each


@contextmanager
def placed(skin: skins.Skin, rows, log, **asked):
    """Gives a refusal of a call on a stage and a log its places."""
    try:
        yield
    except Refused as refused:
        finder = faults.Finder(rows, skin.corners, skin.points, skin.unit, skin.file_rows if rows is skin.rows else None, skin.single)
        refused.faults, refused.notes = faults.in_log(refused.number, finder, log, refused.records, **asked), skin.told()
        raise


@command("volume")
@with_file
@click.argument("log", required=False)
def volume(file, log, **prepared):
    """The volume of the skin in FILE, or with LOG of the rows left by it."""
    skin = opened(file, **prepared)
    rows = left(opened_log(log, skin), skin) if log else skin.rows
    with placed(skin, rows, np.empty((0, 2))):
        figure = calls.volume(rows, skin.corners)
    return Outcome({"status": 0, "volume": figure}, [f"{figure} cubic metres"], notes=told_of(skin, figure))


@command("change")
@with_file
@click.argument("log")
def change(file, log, **prepared):
    """The change of volume from the skin in FILE to the rows left by LOG."""
    skin = opened(file, **prepared)
    later = left(opened_log(log, skin), skin)
    try:
        figure = calls.change(skin.rows, later, skin.corners)
    except Refused as refused:
        refused.faults, refused.notes = in_either(skin, later, refused.number), skin.told()
        raise
    return Outcome({"status": 0, "change": figure}, [f"{figure} cubic metres"], notes=told_of(skin, 0))


def in_either(skin: skins.Skin, later, number: int) -> tuple[Fault, ...]:
    """The places in the table that has the refusal: the skin's, or the log's."""
    try:
        return skin.finder().find(number)
    except OurFault:
        return faults.Finder(later, skin.corners, skin.points, skin.unit, None, skin.single).find(number)


@command("shift")
@with_file
@click.argument("log")
@click.argument("corner", type=click.IntRange(0, 2**32 - 1))
def shift(file, log, corner, **prepared):
    """The shift of CORNER by LOG: stand-in, count and squared distance."""
    skin = opened(file, **prepared)
    records = opened_log(log, skin).log
    with placed(skin, skin.rows, records, corner=corner):
        found = calls.shift(corner, skin.corners, records)
    line = f"corner {corner}: corner {found.stand_in} stands in after {found.count}, squared distance {found.squared:,} square cm"
    return Outcome({"status": 0, "corner": corner, **found._asdict()}, [line], notes=told_of(skin, 0))


@command("grow-back")
@with_file
@click.argument("log")
@click.option("--from", "start", metavar="ANSWER", help="Grow back from the rows left in this answer of the desk.")
@to_write("sheet", "Write the sheet here, and not to standard output.")
def grow_back(file, log, start, sheet, **prepared):
    """Grow LOG back from the rows left by it, over the corners of FILE; the grown skin is written as a sheet.

    An answer of the desk tells the rows left. A log sheet does not: they are those of --from, or else LOG is first replayed on the rows of FILE."""
    apart([file, log] + ([start] if start else []), [sheet])
    skin = opened(file, **prepared)
    read = opened_log(log, skin)
    if start:
        with named(start):
            read.rows = files.read_answer(start).rows
    rows = left(read, skin)
    with placed(skin, rows, read.log, backward=True):
        grown = calls.grow_back(rows, len(skin.corners), read.log)
    same = np.array_equal(grown, skin.rows)
    told = text_outcome(files.sheet_text(skins.Skin(grown, skin.corners)), sheet, "sheet", told_of(skin, 0))
    if read.rows is None:
        told.notes.append(f"{shown(log)} was replayed on {skin.name} first: a log sheet has no rows to grow back from, and --from tells some")
    return compared(told, same, f"the grown rows are {'those of' if same else 'NOT those of'} {skin.name}, number for number")


@command("replay")
@with_file
@click.argument("log")
@click.option("--answer", "--log", "answer", type=click.Path(), help="Write the answer here, and not to standard output.")
def replay(file, log, answer, **prepared):
    """Replay LOG on the skin in FILE; the rows reached and the log are written as the desk's answer."""
    apart([file, log], [answer])
    skin = opened(file, **prepared)
    read = opened_log(log, skin)
    with placed(skin, skin.rows, read.log):
        rows = calls.replay(skin.rows, len(skin.corners), read.log)
        first, last = skin.volume(), calls.volume(rows, skin.corners)
    told = text_outcome(files.answer_text(rows, read.log, first, last), answer, "log", told_of(skin, first))
    if read.rows is None:
        told.answer["same"] = None
        told.notes.append(f"{shown(log)} replays to its end, {counted(len(read.log), 'record')}; a log sheet has no rows to compare with")
        return told
    same = np.array_equal(rows, read.rows)
    return compared(told, same, f"the rows reached are {'those of' if same else 'NOT those of'} {shown(log)}, number for number")


@command("log")
@click.argument("log")
def log(log):
    """Say what the log sheet LOG holds, record by record; of a damaged one, what stands before the damage.

    It says what stands there. Whether a skin has such a log, `replay` says."""
    with named(log):
        data = files.log_bytes(log)
    name = shown(log)
    try:
        corners, rows, records = logs.read(data, log)
        told, summary = Outcome({"status": 0}), logs.summary(corners, rows, len(records))
    except Refused as refused:
        told = refusal(refused)
        corners, rows, records, bad = logs.held(data)
        summary = f"{counted(len(records), 'whole record')}, counted from 0; " + ("refused" if bad is None else f"then line {len(records) + 2}, which is none")
    told.answer.update(file=name, corners=corners, rows=rows, records=len(records), log=[logs.parts(record) for record in records])
    if corners is not None:
        told.lines = [f"{name}: the log of a skin of {corners:,} corners and {rows:,} rows", summary]
        told.lines += [logs.in_words(at, record) for at, record in enumerate(records)]
    return told


# Flips


@command("flip")
@with_file
@click.argument("edges")
@to_write("log", "Write the flip log, by which undo takes the flips back.")
@to_write("sheet", "Write the flipped skin as a sheet.")
def flip(file, edges, sheet, log, **prepared):
    """Flip the edges in the list EDGES, in its order, on the skin in FILE, up to the first that is refused.

    An edge is a line with the numbers of its two corners, from 0, parted by blanks, a tab or a comma; what follows a # is skipped. Where one is
    refused, the sheet and the log that are written have the flips before it and no others."""
    apart([file, edges], [sheet, log])
    skin = opened(file, **prepared)
    with named(edges):
        listed = flips.read_edges(files.bytes_of(edges, flips.MOST_LIST_BYTES))
    skin.check()
    led, done = flips.flip(skin, listed, edges)
    told = led_outcome(led, len(listed.numbers), "done", flips.Flip.in_words)
    texts = {log: flips.log_text(skin, done), sheet: files.sheet_text(led.left())}  # no flipped skin without its log
    return led_written(told, led, "the flips before it", texts)


@command("undo")
@with_file
@click.argument("log")
@to_write("sheet", "Write the skin without these flips as a sheet.")
def undo(file, log, sheet, **prepared):
    """Undo the flips of the flip log LOG, the last first, on the flipped skin in FILE, up to the first that is refused."""
    apart([file, log], [sheet])
    skin = opened(file, **prepared)
    with named(log):
        counts, listed = flips.read_log(files.bytes_of(log, flips.MOST_FLIP_LOG_BYTES), log)
    of_this_skin(log, counts, skin, flips.SAME)
    skin.check()
    led = flips.undo(skin, listed, log)
    told = led_outcome(led, len(listed.numbers), "undone", flips.Flip.undone_in_words)
    return led_written(told, led, "the flips behind it undone", {sheet: files.sheet_text(led.left())})


def led_outcome(led: flips.Led, listed: int, what: str, in_words) -> Outcome:
    """The flips one by one, and the volume before and after them; of a refused one also why."""
    skin, count, (first, last), change = led.skin, len(led.flips), led.volumes(), led.change()
    told = refusal(led.refused) if led.refused else Outcome({"status": 0}, notes=told_of(skin, first))
    of = f" of {listed:,}" if led.refused else ""
    told.lines = [f"{skin.name}: {counted(count, 'flip')} {what}{of}"]
    told.lines += [f"flip {at}: {in_words(one)}" for at, one in led.flips]
    told.lines += facts("before", "after", [("volume, cubic metres", first, last), ("change, cubic metres", None, change)])
    told.answer.update(file=skin.name, listed=listed, flips=count, log=[{"flip": at, **one.told()} for at, one in led.flips], volume=[first, last], change=change)
    return told


def led_written(told: Outcome, led: flips.Led, what: str, texts: dict) -> Outcome:
    """Writes what was asked, in this order; where a flip is refused, says which flips that has."""
    texts.pop(None, None)
    written = []
    for path, text in texts.items():
        try:
            write(path, text)
        except UsageFault as fault:
            raise UsageFault("; ".join([str(fault), *(f"{one} was written" for one in written)])) from None
        written.append(shown(path))
    if led.refused and written:
        told.notes.insert(0, f"{' and '.join(written)} {'has' if len(written) == 1 else 'have'} {what} and no others")
    return told


# Jobs: voids and solids that stand in each other


@command("job")
@with_reading
@click.argument("given", nargs=-1, required=True, metavar="JOB | KIND:IN:FILE...")
@to_write("make", "Make a job sheet from skins, write it here, and answer it.")
def job(given, make, **prepared):
    """The net of the job sheet JOB, and of each void and solid in it; or with --make of a job that is made from skins.

    An entry is typed as a line of the sheet with the skin's FILE in the place of its sum: KIND is V, a void, or S, a solid; IN is the number of the
    entry that it stands in, from 0 in the order typed, and - for the first. As:

    flaxglimmer job --make station.job V:-:station.stl S:0:pillar.stl V:1:room.stl --unit m"""
    if make is None:
        return answered_job(given, **prepared)
    typed = [jobs.typed_entry(one) for one in given]
    for _, _, file in typed:
        apart([file], [make])
    entries, notes = skins_of_job(typed, **prepared)
    net, sheet = jobs.made(entries, given)
    told = job_outcome(shown(make), net, entries, notes)
    write(make, sheet.decode("ascii"))
    return told


def answered_job(given, **prepared) -> Outcome:
    """The job sheet that alone may be given."""
    if len(given) > 1:
        raise UsageFault("one job sheet is answered at a time; --make OUT makes one from skins, each typed as KIND:IN:FILE")
    if prepared != AS_IT_STANDS:
        raise UsageFault("a job sheet has sums and no skins: unit, origin, weld, drop-flat and turn go with --make alone")
    (path,) = given
    with named(path):
        sheet = files.bytes_of(path, LIMITS.MOST_JOB_BYTES)
    return job_outcome(shown(path), *jobs.read(sheet, path), [])


def job_outcome(name: str, net: int, entries: list, notes: list) -> Outcome:
    """The net and the tree."""
    standing = jobs.tree(entries)
    if standing[0].net != net:
        raise OurFault("the net of the topmost entry is not the net of the job")
    answer = {"status": 0, "file": name, "net": net, "entries": [one.told() for one in sorted(standing)]}
    return Outcome(answer, jobs.in_words(name, net, standing), notes=notes + jobs.below_zero(entries))


def skins_of_job(typed: list, **prepared) -> tuple[list, list]:
    """The entries of a job with the exact sums of their skins, and what was done to the files. Options go to the scans; where there are sheets beside
    them, these are taken as they stand."""
    scans, entries, notes = [not files.is_sheet(file) for _, _, file in typed], [], []
    for (kind, within, file), scan in zip(typed, scans):
        with in_file(file):
            skin = opened(file, **(prepared if scan or not any(scans) else AS_IT_STANDS))
            with placed(skin, skin.rows, np.empty((0, 2))):
                total = calls.exact_sum(skin.rows, skin.corners)
        entries.append(jobs.Entry(kind, within, total, skin.name))
        notes += [f"{skin.name}: {note}" for note in skin.told()]
    return entries, list(dict.fromkeys(notes))


@contextmanager
def in_file(path):
    """Puts a file's name before the places of a refusal, where several are read."""
    try:
        yield
    except Refused as refused:
        refused.faults = tuple(replace(fault, text=f"{shown(path)}: {fault.text}") for fault in refused.faults)
        raise


@command("limit", ignore_unknown_options=True)  # a limit below zero is no option
@click.argument("typed", metavar="LIMIT")
def limit(typed):
    """A LIMIT as '0.3 m' in whole centimetres, as the library reads it; ft are survey feet, ift international feet."""
    try:
        whole = calls.limit(typed)
    except Refused as refused:
        refused.faults = (faults.unusable(typed),)
        raise
    return Outcome({"status": 0, "limit": whole}, [f"{whole} cm"], notes=[lengths.told(typed)] if lengths.which(typed) else [])


def entry(arguments: list | None = None) -> int:
    """Runs the command and gives its exit."""
    try:
        ended = main.main(arguments, prog_name="flaxglimmer", standalone_mode=False)
        sys.stdout.flush()
        return ended or DONE
    except click.ClickException as fault:
        fault.show()
        return USAGE
    except click.Abort:
        return INTERRUPTED
    except OSError as fault:
        sys.stdout = open(os.devnull, "w")  # what could not be written is not tried again at the end
        click.echo(f"flaxglimmer: the answer could not be written: {fault.strerror}", err=True)
        return USAGE


def start() -> None:
    for stream in (sys.stdout, sys.stderr):
        stream.reconfigure(errors="replace")
    sys.exit(entry())
