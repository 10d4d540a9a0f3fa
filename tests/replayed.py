#!/usr/bin/env python3
"""Plays all examples and races in a PostgreSQL server: tests/replayed.py [--program FILE] [SCRIPT..]

Each is played once, and the known hole 20 times. Nothing differs from here but as docs/PROFILE.md says, and nothing is stale for
good but where it has to be; a place that the server doesn't come to is one of those below. Where there is no server, or nothing
can be traced, one line says why, and the exit status is 3.
"""
import argparse
import glob
import os
import sys

TOP = os.path.dirname(os.path.dirname(os.path.abspath(__file__)))
sys.path.insert(0, os.path.join(TOP, "tools"))
sys.dont_write_bytecode = sys.pycache_prefix is None

from catsync_tools.beside_events import turns_text                                  # noqa: E402
from catsync_tools.counting import counted_script                                   # noqa: E402
from catsync_tools.faults import Fault, read_file                                   # noqa: E402
from catsync_tools.outcome import outcome_of                                        # noqa: E402
from catsync_tools.outputs import read_output                                       # noqa: E402
from catsync_tools.play import Play                                                 # noqa: E402
from catsync_tools.program import Program, own_program                              # noqa: E402
from catsync_tools.server_trace import Trace                                        # noqa: E402
from catsync_tools.sources import read_source                                       # noqa: E402
from catsync_tools.stage import Stage, check_stage, ended                            # noqa: E402
from catsync_tools.start import INTERRUPTED, take_signals                           # noqa: E402
from catsync_tools.story import story_of                                            # noqa: E402
from catsync_tools.tracing import Unplayable                                        # noqa: E402

HOLE, TIMES = "stale_in_the_server", 20
STALE = {HOLE: 1, "races/rebuild_overtaken_by_a_message": 1, "races/foreign_key_unchecked": 2,
         "races/insert_past_an_index": 1}            # how many fields are stale for good
# Where the server takes other locks (docs/PROFILE.md), and so doesn't come to a place.
NOT_MET = {"drops_that_cross": "1.3 is answered before it comes to 'lock 16384 ax': ",
           "races/key_validated_beside_an_alteration": "1.4 is answered before it comes to 'visible': "}


def name_of(path):
    """A script's name in the folder of examples."""
    return os.path.splitext(os.path.relpath(path, os.path.join(TOP, "examples")))[0]


def scripts():
    """The examples that have an output, and the races."""
    outputs = glob.glob(os.path.join(TOP, "examples", "*.output"))
    races = glob.glob(os.path.join(TOP, "examples", "races", "*.script"))
    return sorted(os.path.splitext(path)[0] + ".script" for path in outputs) + sorted(races)


def play(stage, program, path):
    """The play of a script; and it can be printed, and its trace drawn."""
    source = read_source(read_file(path))
    played = Play(stage, source, program.run(counted_script(source, lambda: program))).play()
    turns_text(played, False)
    story_of(read_output(Trace(played).text().encode("ascii")))
    return played


def fault_of(stage, program, path):
    """How often backends were held in a play, and what is wrong with it, or nothing."""
    name, expected = name_of(path), NOT_MET.get(name_of(path))
    try:
        with ended():
            outcome = outcome_of(play(stage, program, path))
    except Fault as fault:
        return 0, "" if expected and str(fault).startswith(expected) else str(fault)
    if expected:
        return 0, "the server comes to each place"
    new = ["%d.%d in %s" % (compared.command + (each.part,)) for compared, found in zip(outcome.compared, outcome.found)
           for each in found if each.is_new or each.is_stale and name not in STALE]
    if new or len(outcome.stale) != STALE.get(name, 0):
        return outcome.held, "; ".join(["differs: " + ", ".join(new)] * bool(new) + ["%d stale for good" % len(outcome.stale)])
    return outcome.held, ""


def all_faults(stage, program, paths, times):
    """Plays all; what is wrong."""
    faults, held = [], 0
    for path in paths:
        count, fault = fault_of(stage, program, path)
        held += count
        faults += ["%s: %s" % (name_of(path), fault)] * bool(fault)
    path = os.path.join(TOP, "examples", HOLE + ".script")
    stale = sum(bool(play(stage, program, path).stale) for _ in range(times))
    faults += ["%s: stale for good in %d of %d" % (HOLE, stale, times)] * (stale < times)
    print("PostgreSQL %s: %d scripts played, held %d times; %s stale for good in %d of %d" % (
        stage.version, len(paths), held, HOLE, stale, times))
    return faults


def main():
    """Plays them; the exit status."""
    parser = argparse.ArgumentParser(description=__doc__, formatter_class=argparse.RawDescriptionHelpFormatter)
    parser.add_argument("scripts", nargs="*", metavar="SCRIPT", help="only these")
    parser.add_argument("--program", metavar="FILE", help="run FILE in place of the proved executable")
    parser.add_argument("--times", type=int, default=TIMES, metavar="N", help="play the known hole N times (%d)" % TIMES)
    parser.add_argument("--can", action="store_true", help="only say why nothing can be played, if so")
    options = parser.parse_args()
    try:
        take_signals()
        if options.can:
            check_stage()
            return 0
        with Stage() as stage:
            program = Program(options.program or own_program())
            faults = all_faults(stage, program, [os.path.abspath(path) for path in options.scripts] or scripts(), options.times)
    except Unplayable as fault:
        print(fault)
        return fault.status
    except KeyboardInterrupt:
        return INTERRUPTED
    except Fault as fault:
        faults = [str(fault)]
    for fault in faults:
        print("replayed: " + fault)
    return 1 if faults else 0


sys.exit(main())
