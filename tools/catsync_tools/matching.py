"""Whether a script can be an output's: its commands and its schedule are held against what the output's lines say. Where only a
run would tell, as with a schedule by name, nothing is said."""
from .faults import Fault
from .spellings import respelled, tokens_of

TYPES = {"boolean": "bool", "smallint": "int2", "integer": "int4", "int": "int4", "bigint": "int8"}
MODES = {"access share": "as", "row share": "rs", "row exclusive": "rx", "share update exclusive": "su", "share": "sh",
         "share row exclusive": "sr", "exclusive": "ex", "access exclusive": "ax"}
NAMED = {"class": (1,), "att": (2, 3), "con": (2,), "trg": (2,)}        # of a row that is new, the columns that its command has
OF_NO_COMMAND = ("gone", "release", "stop")
ANSWERED_BY_WORD = ("columns", "column", "regclass")
SHOWS_FIELDS = ("show", "peek")


def check_script(path, source, output):
    """A Fault where the output can't be of the script of this file; whether its steps are in the order of the script's schedule."""
    check_places(path, source, output)
    for number, line in lines_of(output):
        text = source.commands.get((line.backend, line.command))
        if text is not None and not can_be_of([token for token in tokens_of(respelled(text)) if token != ";"], line):
            raise Fault("%s: not the script of this output: line %d can't be of '%d: %s': %s" % (
                path, number, line.backend, " ".join(text.split()), line.line))
    check_stops(path, source, output)
    return is_in_order(path, source, output)


def lines_of(output):
    """The entries and answers of an output with the numbers of their lines."""
    return list(enumerate(output.entries + output.answers, 1))


def check_places(path, source, output):
    """A Fault where a line is of a command that the script hasn't."""
    for number, line in lines_of(output):
        is_of_one = line in output.answers or line.command > 0 and line.event.kind not in OF_NO_COMMAND
        if is_of_one and (line.backend, line.command) not in source.commands:
            raise Fault("%s: line %d of the output is of command %d of backend %d, which the script hasn't" % (
                path, number, line.command, line.backend))


def can_be_of(words, line):
    """Whether an entry or an answer can be of a command with these words."""
    if line.line.startswith("l "):
        return answer_can_be_of(words, line.text)
    parts = line.event.parts
    if line.event.kind in ("lock ok", "lock held") and words[:2] == ["lock", "table"]:
        return MODES.get(" ".join(words[4:-1])) == parts["mode"]
    return set(named_by(line.event)) <= set(words) | {TYPES.get(word) for word in words}


def named_by(event):
    """What an entry names that its command names too."""
    if event.kind == "scan":
        return [event.parts["name"]] if event.parts["purpose"] in ("relname", "attname") else []
    if event.kind.startswith("clash"):
        return [event.parts["name"]]
    return [change.columns[place] for change in event.parts.get("changes", ()) if change.sign == "+"
            for place in NAMED.get(change.catalog, ())]


def answer_can_be_of(words, text):
    """Whether a command with these words can be answered so: only `show` and `peek` have fields, and those that were asked for;
    and three commands begin their answers with their own word."""
    if text.startswith("error "):
        return True
    if words[0] in ANSWERED_BY_WORD:
        return text.startswith(words[0] + " ")
    if words[0] not in SHOWS_FIELDS:
        return text in ("ok", "rolled back")
    fields = [field.split(" ")[0] for field in text.split("; ")]
    return "ok" not in fields and (len(words) == 2 or fields == words[2:])


def check_stops(path, source, output):
    """A Fault where a backend stops before it has answered all commands of the script."""
    for entry in output.entries:
        if entry.event.kind == "stop":
            answered = sum(answer.backend == entry.backend for answer in output.answers)
            commands = sum(backend == entry.backend for backend, _ in source.commands)
            if answered != commands:
                raise Fault("%s: not the script of this output: backend %d has %d commands there, and stops in line %d after %d" % (
                    path, entry.backend, commands, entry.number, answered))


def is_in_order(path, source, output):
    """Whether the steps are in the order of the script's schedule. Where they aren't and all backends stop it may be an output of
    `run`, or a trace of a server, whose order is its own; else it is a Fault."""
    try:
        check_steps(path, source, output)
    except Fault:
        stopped = {entry.backend for entry in output.entries if entry.event.kind == "stop"}
        if stopped != {entry.backend for entry in output.entries}:
            raise
        return False
    return True


def check_steps(path, source, output):
    """A Fault where the steps aren't in the order of the script's schedule."""
    items = source.items
    if source.has_names:
        return
    if not items:
        for entry, following in zip(output.entries, output.entries[1:]):
            if entry.backend != following.backend and entry.event.kind != "stop":
                refuse_schedule(path, entry.backend, following)
        return
    stopped = set()
    wanted = [item.backend for item in items for _ in range(min(item.until.count, len(output.entries)))]
    entries = iter(output.entries)
    for backend in wanted:
        if backend in stopped:
            continue
        entry = next(entries, None)
        if entry is None or entry.backend != backend:
            refuse_schedule(path, backend, entry)
        if entry.event.kind == "stop":
            stopped.add(backend)
    left = next(entries, None)
    if left is not None:
        raise Fault("%s: not the script of this output: its steps end before line %d: %s" % (path, left.number, left.line))


def refuse_schedule(path, backend, entry):
    """Says where the output leaves the schedule."""
    if entry is None:
        raise Fault("%s: not the script of this output, which ends before a step of backend %d" % (path, backend))
    raise Fault("%s: not the script of this output: its steps have backend %d in line %d, and not %s" % (
        path, backend, entry.number, entry.line))
