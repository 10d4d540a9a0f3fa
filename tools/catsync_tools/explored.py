"""What tools/explore has found, played in a server: the shortest schedule of each set of answers."""
from .faults import Fault
from .interrupts import Interrupts
from .outcome import Outcome, outcome_of
from .play import Play
from .stage import Stage, ended
from .tracing import Unplayable


def played_text(exploration, sets):
    """What a server makes of each set's schedule; and 0, or the exit status where one of them can't be played."""
    runner, lines, status = exploration.runner, [], 0
    with Stage(interrupts=Interrupts()) as stage:
        stage.interrupts.hold()
        lines.append("in %s:" % stage.name)
        for number, shown in enumerate(sets, 1):
            try:
                with ended():
                    run = runner.runs.with_turns(runner.setup + shown.found.turns)
                    said = verdict(outcome_of(Play(stage, exploration.source, run).play()))
            except Fault as fault:
                said, status = "can't be played: %s" % fault, Unplayable.status
            lines.append("set %d: %s" % (number, said))
    return "\n".join([""] + lines + [""]), status


def verdict(outcome: Outcome):
    """What an outcome says of a set of answers, and what wasn't looked at."""
    return "; ".join([came_or_not(outcome)] + [each.text for each in outcome.unread])


def came_or_not(outcome: Outcome):
    """Whether a set of answers came, and what differs."""
    differ = [(compared.command, each) for compared, found in zip(outcome.compared, outcome.found) for each in found]
    if outcome.stale:
        return "differs: " + "; ".join(each.text for each in outcome.stale)
    if outcome.differs:
        return "differs: " + ", ".join("%d.%d in %s" % (command + (each.part,)) for command, each in differ if each.is_new or each.is_stale)
    if not differ:
        return "came"
    words = ("%d.%d in %s%s" % (command + (each.part, ": " + each.words if each.words else "")) for command, each in differ)
    return "came, with a difference that docs/PROFILE.md names: " + "; ".join(words)
