"""The command tools/expect."""
import os
from typing import NamedTuple

from .arguments import MOST_ORDERS, Arguments, count_of
from .expected import places_in
from .faults import Fault, faults_of, names_in, read_file, read_input, write_output
from .program import Program, own_program
from .progress import Progress
from .search import processors
from .sources import Source, read_source
from .trial import BROKEN, EMPTY, MET, UNDECIDED, Result, results_of
from .vacuous import is_empty, said_of

# What became of a line; a script has the first of these that one of its lines has.
WORDS = ((BROKEN, "FAILED"), (EMPTY, "says nothing"), (UNDECIDED, "not decided"), (MET, "passed"))
FAILED = 1
NOT_DECIDED = 3
INPUT = "standard input"


class Named(NamedTuple):
    """A script and its name."""
    name: str
    source: Source


def arguments_of(words):
    """The command line."""
    parser = Arguments("expect", "[OPTION].. [PATH]..", "Runs scripts, or all scripts of a folder, and tells which of their "
                       "expectations are met; without PATH the script on standard input.",
                       ((0, "all expectations are met"), (FAILED, "an expectation isn't met"),
                        (NOT_DECIDED, "none fails, but one isn't decided within the orders that are run, or says nothing")))
    parser.option("paths", nargs="*", metavar="PATH")
    parser.option("--most", type=count_of, default=MOST_ORDERS, metavar="N",
                  help="'expect some' and 'expect never' run all orders of a script where there are at most N, else N random "
                  "schedules (%d)" % MOST_ORDERS)
    parser.option("--jobs", type=count_of, metavar="N", help="use N processors (all)")
    parser.option("--passed", action="store_true", help="list what is met too, with what came; each line says what became of it")
    parser.option("--program", metavar="FILE", help="run FILE in place of the proved executable")
    return parser.parse(words)


def scripts_at(path):
    """The scripts of a folder, or the file."""
    if not os.path.isdir(path):
        return [path]
    found = [os.path.join(path, name) for name in names_in(path) if name.endswith(".script")]
    if not found:
        raise Fault("%s: no file there ends with .script" % path)
    return found


def read_script(name, data):
    """A script that expects something."""
    with faults_of(name):
        source = read_source(data)
        if not source.expected:
            raise Fault("no line expects anything")
    return Named(name, source)


def judged(results, source):
    """The results, where an expectation that says nothing is neither met nor undecided."""
    return {one: Result(EMPTY, []) if is_empty(one, source, result.verdict == BROKEN) else result for one, result in results.items()}


def head_of(name, results):
    """What became of a script: it failed where an expectation isn't met, else it says nothing where one does, else it isn't
    decided where one isn't."""
    verdicts = [result.verdict for result in results.values()]
    return next((verdict, "%s: %s" % (word, name)) for verdict, word in WORDS if verdict in verdicts)


def lines_of(head, results, are_met_told, source):
    """What is printed of a script: each expectation that isn't met, or all, each with what became of it; and each of what no answer
    can have."""
    lines = [head]
    for one, result in sorted(results.items()):
        said = list(result.lines) if result.verdict != MET or are_met_told else []
        said += said_of(one, source, result.verdict == MET, result.verdict == BROKEN)
        said = said + ["places aren't compared: %s" % ", ".join(places_in(one))] if places_in(one) else said
        word = dict(WORDS)[result.verdict] + ": " if are_met_told else ""
        lines += ["  %sline %d: %s" % (word, one.line, one.text)] + ["    " + line for line in said] if said else []
    return lines


def summary(verdicts):
    """How many scripts passed."""
    more = ", ".join("%d %s" % (verdicts.count(verdict), words) for verdict, words in (
        (UNDECIDED, "not decided"), (EMPTY, "with a line that says nothing")) if verdict in verdicts)
    return "%d passed, %d failed" % (verdicts.count(MET), verdicts.count(BROKEN)) + (", " + more if more else "")


def main(words):
    """Runs the scripts, and prints which expectations are met."""
    options = arguments_of(words)
    paths = [path for named in options.paths for path in scripts_at(named)]
    scripts = [read_script(path, read_file(path)) for path in paths] or [read_script(INPUT, read_input())]
    program, progress = Program(options.program or own_program()), Progress("expect")
    lines, verdicts = [], []
    for number, named in enumerate(scripts, 1):
        progress.of = "%s (%d of %d): " % (named.name, number, len(scripts))
        with faults_of(named.name):
            results = judged(results_of(named.source, program, options.jobs or processors(), options.most, progress), named.source)
        verdict, head = head_of(named.name, results)
        verdicts.append(verdict)
        lines += lines_of(head, results, options.passed, named.source)
    progress.clear()
    write_output("\n".join(lines + [summary(verdicts)]) + "\n")
    return FAILED if BROKEN in verdicts else NOT_DECIDED if UNDECIDED in verdicts or EMPTY in verdicts else 0
