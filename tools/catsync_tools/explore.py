"""The command tools/explore."""
import argparse
import os
import re

from .arguments import MOST_ORDERS, Arguments, count_of
from .explored import played_text
from .faults import INTERRUPTED, Fault, check_file, make_folder, names_in, read_file, read_input, remove_file, write_file, write_output
from .outputs import read_output
from .parts import MOST_PARTS, Part, check_same, merged, part_text, read_part
from .picture import commands_shown, picture_of, span_of
from .program import own_program
from .progress import Progress
from .report import Extent, Serial, found_text, index_page, not_found, report, shown_sets
from .search import Exploration, Settings, processors, wanted_of
from .sources import read_source
from .stage import check_stage

NOT_FOUND = 1
NOT_WHOLE = 3
OF_SEARCHES = ("part", "find", "picture", "replay", "most", "random", "seed", "places", "jobs", "program")     # and not of --merge


def part_of(text):
    """A part on the command line: its number, and of how many."""
    found = re.fullmatch("([0-9]{1,6})/([0-9]{1,6})", text)
    if not found or not 1 <= int(found.group(1)) <= int(found.group(2)):
        raise argparse.ArgumentTypeError("not a part, as 3/64: %s" % text)
    if int(found.group(2)) > MOST_PARTS:
        raise argparse.ArgumentTypeError("a search has at most %d parts, and not those of %s" % (MOST_PARTS, text))
    return int(found.group(1)), int(found.group(2))


def arguments_of(words):
    """The command line."""
    parser = Arguments("explore", "[OPTION].. < SCRIPT, or explore --merge FILE..", "Runs a script under many schedules, and "
                       "prints each set of answers with the shortest schedule that leads to it.",
                       ((0, "the search came to its end, or found the texts"), (NOT_FOUND, "no schedule has the texts"),
                        (NOT_WHOLE, "of --merge: parts are missing, or were stopped; with --replay: nothing can be played here, or a set can't")))
    parser.option("--most", type=count_of, metavar="N",
                  help="all orders are run where there are at most N, else N random schedules (%d)" % MOST_ORDERS)
    parser.option("--random", type=count_of, metavar="N", help="N random schedules, without a search for all orders")
    parser.option("--seed", metavar="S", help="of the random schedules: any text (1)")
    parser.option("--find", action="append", default=[], metavar="TEXT",
                  help="stop at the first schedule with this text in an entry or an answer; * stands for any text, places "
                  "(as of N) don't count; given several times, one schedule has all of them")
    parser.option("--interleaved", action="store_true", help="pass over what a serial order of commands leads to")
    parser.option("--places", action="store_true", help="answers that name other entries (as of N) are other answers; then "
                  "no two schedules are the same order")
    parser.option("--picture", metavar="DIR", help="draw the schedule of each set, or the one that is found, in DIR, in "
                  "place of those of an earlier search; index.html there shows all sets")
    parser.option("--html", action="store_true", help="pictures are pages")
    parser.option("--replay", action="store_true", help="play the schedule of each set in a PostgreSQL server, as tools/replay does")
    parser.option("--jobs", type=count_of, metavar="N", help="use N processors (all; with --part one)")
    parser.option("--part", type=part_of, metavar="K/N", help="do part K of N parts of the search, and print it for --merge")
    parser.option("--out", metavar="FILE", help="with --part: write FILE, whole or not at all")
    parser.option("--merge", action="store_true", help="print what the parts in FILEs found; no script is read")
    parser.option("files", nargs="*", metavar="FILE", help=argparse.SUPPRESS)
    parser.option("--program", metavar="FILE", help="run FILE in place of the proved executable")
    options = parser.parse(words)
    check(parser, options)
    options.seed = "1" if options.seed is None else options.seed
    return options


def check(parser, options):
    """Refuses options that don't go together."""
    for one, other, is_bad in (
            ("--most", "--random", options.most and options.random), ("--most", "--part", options.most and options.part),
            ("--find", "--part", options.find and options.part), ("--picture", "--part", options.picture and options.part),
            ("--replay", "--part", options.replay and options.part), ("--replay", "--find", options.replay and options.find),
            ("--interleaved", "--part", options.interleaved and options.part)):
        if is_bad:
            parser.error("%s doesn't go with %s" % (one, other))
    for name in OF_SEARCHES:
        if options.merge and getattr(options, name) not in (None, False, []):
            parser.error("--%s doesn't go with --merge" % name)
    if options.merge and not options.files:
        parser.error("--merge needs FILEs")
    if options.files and not options.merge:
        parser.refuse(options.files)
    if "" in options.find:
        parser.error("--find needs a text")
    if options.out and not options.part:
        parser.error("--out is for --part")
    if options.html and not options.picture:
        parser.error("--html is for --picture")


def main(words):
    """Explores the script on standard input, or puts the parts of a search together."""
    options = arguments_of(words)
    if options.merge:
        return merge(options)
    if options.replay:
        check_stage()
    data = read_input()
    source = read_source(data)
    settings = Settings(options.places, tuple(wanted_of(text) for text in options.find), options.interleaved, options.seed,
                        options.jobs or (1 if options.part else processors()))
    exploration = Exploration(settings, source, options.program or own_program(), Progress("explore"))
    status = 0
    exploration.program.interrupts.hold()
    check_outputs(options)
    try:
        explore(options, exploration)
    except KeyboardInterrupt:
        status = INTERRUPTED
    exploration.program.interrupts.end()
    exploration.progress.clear()
    if options.part:
        write_part(options, part_text(part_found(options, exploration, data)))
        return status
    return tell_find(options, exploration, status) if options.find else tell_sets(options, exploration, status)


def check_outputs(options):
    """A Fault where what will be found can't be written."""
    if options.out:
        check_file(options.out)
    if options.picture:
        make_folder(options.picture)
        check_file(picture_path(options, "found" if options.find else "set1"))
        check_file(os.path.join(options.picture, "index.html"))


def explore(options, exploration):
    """Runs all orders, random schedules where there are too many or these are asked for, or a part of either; and before
    them the serial orders."""
    part, parts = options.part or (1, 1)
    if part == 1:
        exploration.run_serial()
    if exploration.found is not None:
        return
    if options.random:
        exploration.run_random(options.random, part, parts)
    elif options.part:
        exploration.run_part(part, parts)
    elif not exploration.run_orders(options.most or MOST_ORDERS):
        exploration.run_random(options.most or MOST_ORDERS)


def extent_of(options, exploration):
    """What was run."""
    most = None if options.random else options.most or MOST_ORDERS
    return Extent(exploration.schedules, exploration.is_random, options.seed, most, exploration.is_over, "",
                  exploration.guess if exploration.is_random and most else None, exploration.is_guessed)


def part_found(options, exploration, data):
    """What a part of a search found."""
    sets = [(shown.answers, shown.found) for shown in shown_sets(exploration)]
    serial = {"\n".join(key): kind for key, kind in exploration.serial.items()} if options.part[0] == 1 else None
    return Part(data.decode("utf-8", "surrogateescape"), options.places, options.random, options.seed, options.part[0],
                options.part[1], exploration.is_over, exploration.schedules, serial, exploration.is_serial_over, sets)


def write_part(options, text):
    """Writes what a part found."""
    if options.out:
        write_file(options.out, text)
    else:
        write_output(text)


def tell_sets(options, exploration, status):
    """Tells the sets of answers, and draws them if they are to be drawn; the exit status."""
    serial = Serial(exploration.serial, exploration.is_serial_over)
    sets = shown_sets(exploration)
    if options.interleaved:
        sets = [shown for shown in sets if serial.is_interleaved(shown.answers)]
    extent = extent_of(options, exploration)
    for number, shown in enumerate(sets, 1):
        draw(options, exploration, "set%d" % number, shown.run)
    remove_earlier(options, "set([0-9]+)", len(sets))
    if options.picture:
        write_file(os.path.join(options.picture, "index.html"), index_page(extent, serial, sets, options.html))
    write_output(report(extent, serial, sets))
    if options.replay and not status:
        played, status = played_text(exploration, sets)
        write_output(played)
    return status


def tell_find(options, exploration, status):
    """Tells what was found, and draws it if it is to be drawn; the exit status."""
    extent = extent_of(options, exploration)
    if exploration.found is None:
        remove_earlier(options, "found()", 0)
        write_output(not_found(extent, options.find))
        return status or NOT_FOUND
    run = exploration.runner.with_turns(exploration.found)
    draw(options, exploration, "found", run)
    write_output(found_text(extent, exploration.settings.wanted, exploration.found, run))
    return 0


def picture_path(options, name):
    """The file of a picture."""
    return os.path.join(options.picture, name + (".html" if options.html else ".svg"))


def draw(options, exploration, name, run):
    """Draws a run, if it is to be drawn."""
    if options.picture:
        output = read_output(run.output)
        commands = commands_shown(exploration.source)
        write_file(picture_path(options, name), picture_of(output, options.html, span_of(len(output.entries)), commands))


def remove_earlier(options, names, count):
    """Removes the pictures of an earlier search: those with such a name, beyond so many."""
    if options.picture:
        for name in names_in(options.picture):
            path = os.path.join(options.picture, name)
            found = re.fullmatch(names + "[.]" + ("html" if options.html else "svg"), name)
            if found and int(found.group(1) or 1) > count and os.path.isfile(path):
                remove_file(path)


def merge(options):
    """Prints what all parts of a search have found."""
    parts = [read_part(path, read_file(path)) for path in options.files]
    check_same(options.files, parts)
    extent, serial, sets = merged(parts)
    if options.interleaved:
        sets = [shown for shown in sets if serial.is_interleaved(shown.answers)]
    write_output(report(extent, serial, sets))
    return 0 if extent.is_over else NOT_WHOLE
