"""The command tools/replay."""
import re

from .arguments import Arguments, count_of
from .beside_events import turns_text
from .counting import counted_script
from .faults import Fault, check_file, faults_of, read_file, write_file, write_output
from .outcome import answers_text, outcome_of, without_oids
from .play import Play
from .program import Program, own_program
from .server_trace import Trace
from .sources import read_source
from .stage import Stage
from .sweep import Sweep, sweep_text
from .tracing import Unplayable

DIFFERS = 1
TRACE_LACKS = "the trace has each scan, and not that a rebuild is put over one that was made inside of it"
TRACE_ENDS = "the trace ends early, where what the server made doesn't go with the rows of here: %s"


def command_of(text):
    """A command on the command line: its backend and its number."""
    found = re.fullmatch("([0-9]{1,9})[.]([0-9]{1,9})", text)
    if not found:
        raise Fault("not a command, as 2.3: %s" % text)
    return int(found.group(1)), int(found.group(2))


def arguments_of(words):
    """The command line."""
    parser = Arguments("replay", "[OPTION].. SCRIPT", "Plays a script's schedule in a PostgreSQL server of its own, whose backends "
                       "are held where their turns end, and prints what each does there beside what it does here.",
                       ((0, "played, and nothing differs but as docs/PROFILE.md says"), (1, "something differs, or is stale for good"),
                        (Unplayable.status, "it can't be played: one line on standard error says why; or a point of a sweep can't")))
    parser.option("script", metavar="SCRIPT", help="a script's file")
    parser.option("--times", type=count_of, metavar="N", help="play it N times, and print how often which answers came")
    parser.option("--all", action="store_true", help="print looks without a message too, and what isn't of the script's tables")
    parser.option("--brief", action="store_true", help="print the answers alone")
    parser.option("--trace", metavar="FILE", help="write what the server made as a history, which tools/picture draws")
    parser.option("--sweep", nargs=3, metavar=("B.C", "with", "D.E"), help="hold command C of backend B at each of its points, and "
                  "make command E of backend D there")
    parser.option("--programs", metavar="DIR", help="the folder of initdb and postgres (that of Debian's newest package)")
    parser.option("--program", metavar="FILE", help="run FILE in place of the proved executable")
    options = parser.parse(words)
    if options.sweep:
        if options.sweep[1].lower() != "with":
            parser.error("--sweep reads B.C with D.E")
        options.sweep = command_of(options.sweep[0]), command_of(options.sweep[2])
        for name in ("times", "all", "brief", "trace"):
            if getattr(options, name):
                parser.error("--%s doesn't go with --sweep" % name)
    if options.trace:
        check_file(options.trace)
    return options


def main(words):
    """Plays a script, or sweeps two of its commands."""
    options = arguments_of(words)
    program = Program(options.program or own_program())
    data = read_file(options.script)
    with faults_of(options.script):
        source = read_source(data)
        run = program.run(counted_script(source, lambda: program))
        if options.sweep:
            sweep = Sweep(source, *options.sweep)
    with Stage(options.programs, program.interrupts) as stage:
        program.interrupts.hold()
        if options.sweep:
            if not stage.offsets:
                raise Unplayable("a sweep reads descriptors: where they are in PostgreSQL %s isn't known" % stage.version)
            found = sweep.run(stage, program)
            write_output(sweep_text(stage, sweep, found))
            return Unplayable.status if any(point.fault for point in found.points) else DIFFERS if any(
                point.stale for point in found.points) else 0
        plays = [Play(stage, source, run).play() for _ in range(options.times or 1)]
    outcomes = [outcome_of(play) for play in plays]
    head = "beside " + stage.name
    lines = times_text(head, outcomes) if options.times else once_text(head, plays[0], outcomes[0], options)
    if options.trace:
        trace = Trace(plays[0])
        write_file(options.trace, trace.text())
        lines += ["", TRACE_ENDS % trace.fault] * bool(trace.fault)
    write_output("\n".join(lines) + "\n")
    return DIFFERS if any(outcome.differs for outcome in outcomes) else 0


def once_text(head, play, outcome, options):
    """One play."""
    lines = ["%s: %s" % (head, outcome.text)] + ([] if options.brief else turns_text(play, options.all)) + answers_text(outcome)
    return lines + ["", TRACE_LACKS] * bool(options.trace and any(made.event[0] == "inside" for made in play.log))


def times_text(head, outcomes):
    """Several plays: how many had which outcome, each with the oids of its first play."""
    found = {}
    for outcome in outcomes:
        found.setdefault(without_oids(outcome), []).append(outcome)
    lines = ["%s, %d times" % (head, len(outcomes))]
    for same in sorted(found.values(), key=lambda each: -len(each)):
        lines += ["", "%d of %d: %s" % (len(same), len(outcomes), same[0].text)] + answers_text(same[0])
    return lines
