"""The command tools/spec."""
from typing import Dict, List, NamedTuple, Optional, Set

from .arguments import MOST_ORDERS, Arguments, count_of
from .compared import LeftOut, differences, expected_in
from .faults import Fault, faults_of, read_file, say, write_output
from .inside import explored
from .isolation import Placed, Spec, permutations_of, read_spec
from .permutation import SET_UP, TEARDOWN, UNKNOWN, Permutation, Played, alone
from .program import Program, own_program
from .progress import Progress
from .search import processors
from .sentences import counted, listed
from .statements import OF_ROWS, Sayer, is_silent
from .waits import Walker

DIFFERS = 1
MOST_SESSIONS = 63      # beside the one that makes the set-up


def arguments_of(words):
    """The command line."""
    parser = Arguments("spec", "[OPTION].. FILE.spec [FILE.out]", "Runs a test file of PostgreSQL's isolationtester and prints its "
                       "report, or what differs from the one that FILE.out expects.",
                       ((0, "all permutations were run, as expected where something is"),
                        (1, "a permutation differs from what is expected, or can't come to its end")))
    parser.option("spec", metavar="SPEC", help="a test file")
    parser.option("out", metavar="OUT", nargs="?", help="its expected report")
    parser.option("--explore", action="store_true", help="run all orders of the steps inside the statements, and print the "
                  "answers that no permutation of whole statements has")
    parser.option("--most", type=count_of, metavar="N",
                  help="with --explore: all orders are run where there are at most N, else N random schedules (%d)" % MOST_ORDERS)
    parser.option("--jobs", type=count_of, metavar="N", help="with --explore: use N processors (all)")
    parser.option("--program", metavar="FILE", help="run FILE in place of the proved executable")
    options = parser.parse(words)
    if options.explore and options.out:
        parser.error("--explore doesn't go with OUT")
    for name in ("most", "jobs"):
        if getattr(options, name) and not options.explore:
            parser.error("--%s is for --explore" % name)
    return options


def text_of(path):
    """A file's text."""
    return read_file(path).decode("utf-8", "surrogateescape")


class Whole(NamedTuple):
    """A spec, who says its statements, and the program that runs its commands."""
    spec: Spec
    sayer: Sayer
    walker: Walker


def whole_of(path, program) -> Whole:
    """The spec of a file."""
    with faults_of(path):
        spec = read_spec(text_of(path))
        if len(spec.sessions) > MOST_SESSIONS:
            raise Fault("there are %d sessions, and at most %d can be run" % (len(spec.sessions), MOST_SESSIONS))
    sayer = Sayer()
    for sql in spec.setup + [sql for session in spec.sessions for sql in session.setup + [step.sql for step in session.steps]]:
        sayer.note(sql)
    return Whole(spec, sayer, Walker(Program(program), len(spec.sessions) + 1))


def main(words):
    """Runs a spec."""
    options = arguments_of(words)
    read_file(options.spec)
    out = text_of(options.out) if options.out else None
    whole = whole_of(options.spec, options.program or own_program())
    with faults_of(options.spec):
        if options.explore:
            text, differs = explored(whole, options.most or MOST_ORDERS, options.jobs or processors())
            write_output(text + "".join(note + "\n" for note in notes_of(whole, None) + differing(differs)))
            return 0
        return tell(whole, expected_in(out, whole.spec) if out is not None else None)


def tell(whole: Whole, expected):
    """Runs all permutations and tells them, or what differs from those that are expected; the exit status."""
    progress, lines, differ, stuck, number = Progress("spec"), [], 0, 0, 0
    left_out = LeftOut(set(), set())
    unclear: List[str] = []
    unprinted: Set[str] = set()
    differs: Dict[str, List[str]] = {}
    for number, placed in enumerate(permutations_of(whole.spec), 1):
        progress.show(0, 1, counted(number, "permutation"))
        played = Permutation(whole.spec, whole.sayer, whole.walker).run(placed)
        stuck += played.stuck is not None
        for how, places in played.differs.items():
            differs.setdefault(how, []).extend(places)
        if expected is None:
            lines += report(played)
            unprinted |= {item.step or item.alone for item in played.items if item.kind == UNKNOWN}
            continue
        found = compared(whole, placed, played, expected[number - 1] if number <= len(expected) else [], left_out)
        if found and rows_meet(whole, placed):
            unclear.append(played.items[0].text)
        elif found:
            differ += 1
        lines += [""] + [played.items[0].text] + found if found else []
    progress.clear()
    if expected is None:
        head = ["Parsed test spec with %d sessions" % len(whole.spec.sessions)]
    else:
        differ += max(0, len(expected) - number)
        head = [summary(number, len(expected), differ, len(unclear))]
    notes = notes_of(whole, left_out if expected is not None else None) + rows_unprinted(whole, unprinted)
    notes += differing(differs)
    write_output("\n".join(head + lines + (notes if expected is not None else [])) + "\n")
    for note in notes if expected is None else []:      # a report has no other lines than isolationtester's
        say(note)
    return DIFFERS if differ or stuck and expected is None else 0


def summary(count, expected, differ, unclear):
    """What came of a comparison, in one line."""
    text = "%s: %d as expected" % (counted(count, "permutation"), count - differ - unclear + max(0, expected - count))
    text += ", %d %s" % (differ, "differs" if differ == 1 else "differ") if differ else ""
    if unclear:
        text += ", %d %s where two sessions change rows of one table" % (unclear, "differs" if unclear == 1 else "differ")
    return text + (", of %d expected" % expected if expected != count else "")


def report(played: Played):
    """The lines of a permutation's report."""
    lines = [""] + [item.text for item in played.items if item.kind != UNKNOWN]
    return lines + (["# it ends here: %s" % played.stuck] if played.stuck else [])


def compared(whole: Whole, placed: List[Placed], played: Played, expected, left_out: LeftOut):
    """What differs from what is expected."""
    found = differences(played.items, expected, silent_steps(whole, placed), left_out)
    return found + (["# it ends here: %s" % played.stuck] if played.stuck and found else [])


def silent_steps(whole: Whole, placed: List[Placed]):
    """The steps of a permutation of which nothing can be said."""
    return {each.step.name for each in placed if is_silent(whole.sayer.step(each.step.sql))}


def rows_meet(whole: Whole, placed: List[Placed]):
    """Whether two sessions change or lock rows of one table, so that they may wait for rows."""
    sessions: Dict[str, set] = {}
    for each in placed:
        for statement in whole.sayer.step(each.step.sql):
            for command in statement.commands if statement.unsaid == OF_ROWS else ():
                sessions.setdefault(command.split(" ")[2], set()).add(each.step.session)
    return any(len(each) > 1 for each in sessions.values())


def notes_of(whole: Whole, left_out: Optional[LeftOut]):
    """What isn't said, and what of an expected report wasn't compared."""
    spec, lines, unsaid = whole.spec, [], {}
    parts = [(SET_UP, sql) for sql in spec.setup]
    for session in spec.sessions:
        parts += [(alone(SET_UP, session.name), sql) for sql in session.setup]
        parts += [("step " + step.name, step.sql) for step in session.steps]
    for place, sql in parts:
        for statement in whole.sayer.step(sql):
            if statement.reason:
                lines.append("# left out: %s: %s: %s" % (place, shortened(statement.text), statement.reason))
            elif statement.unsaid:
                unsaid.setdefault(statement.unsaid, []).append(place)
    lines += ["# not said: %s: %s" % (what, listed(dict.fromkeys(places))) for what, places in unsaid.items()]
    if left_out is not None and left_out.results:
        lines.append("# not compared: results of %s" % listed(sorted(left_out.results)))
    return lines


def rows_unprinted(whole: Whole, steps: Set[str]):
    """Whose results aren't in a report, as the rows of their tables aren't known."""
    sessions = [session.name for session in whole.spec.sessions]
    set_ups = [SET_UP] + [alone(SET_UP, name) for name in sessions]
    teardowns = [alone(TEARDOWN, name) for name in sessions] + [TEARDOWN]
    places = [name for name in [*set_ups, *whole.spec.steps, *teardowns] if name in steps]
    return ["# not printed: rows of %s" % listed(places, len(places))] if places else []


def differing(differs: Dict[str, List[str]]):
    """How the server differs, each with the places."""
    return ["# differs from the server: %s: %s" % (listed(dict.fromkeys(places)), how) for how, places in differs.items()]


def shortened(text):
    """The beginning of a statement."""
    return text if len(text) <= 50 else text[:47] + "..."
