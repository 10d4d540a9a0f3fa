"""The command tools/server."""
from .arguments import Arguments
from .beside import compare
from .counting import counted_script
from .differences import all_differences, profile
from .faults import faults_of, read_file, write_output
from .postgres import Server
from .program import Program, own_program
from .sentences import counted
from .sources import read_source

DIFFERS = 1


def arguments_of(words):
    """The command line."""
    parser = Arguments("server", "[OPTION].. SCRIPT", "Runs a script's commands one after the other in the program and in a "
                       "PostgreSQL server of its own, and prints answer beside answer. What a killed run has left is removed.",
                       ((0, "no answers differ but as docs/PROFILE.md says"), (1, "others differ")))
    parser.option("script", metavar="SCRIPT", help="a script's file")
    parser.option("--programs", metavar="DIR", help="the folder of initdb and postgres (that of Debian's newest package)")
    parser.option("--program", metavar="FILE", help="run FILE in place of the proved executable")
    return parser.parse(words)


def main(words):
    """Compares a script's answers with those of a server."""
    options = arguments_of(words)
    data, program = read_file(options.script), Program(options.program or own_program())
    with faults_of(options.script):
        source = read_source(data)
        program.run(counted_script(source, lambda: program))    # what is faulty in it needs no server
    with Server(options.programs) as server:
        with faults_of(options.script):
            all_compared = compare(source, program, server)
        version = server.version()
    found = all_differences(all_compared, profile())
    write_output(report(version, all_compared, found))
    return DIFFERS if any(each.is_new for differences in found for each in differences) else 0


def report(version, all_compared, found):
    """Each command with both answers, and what differs."""
    count, new = sum(map(bool, found)), sum(any(each.is_new for each in differences) for differences in found)
    differ = "none differs" if not count else "1 differs" if count == 1 else "%d differ" % count
    lines = ["beside PostgreSQL %s: %s, of which %s%s" % (
        version, counted(len(all_compared), "command"), differ,
        ", %d in a way that docs/PROFILE.md doesn't name" % new if new else "")]
    for compared, differences in zip(all_compared, found):
        lines += ["", "%d.%d %s" % (compared.command + (compared.text,))] + answers(compared)
        lines += ["    " + said(each) for each in differences] + made_alike(compared)
    return "\n".join(lines) + "\n"


def answers(compared):
    """Both answers; one line where they are one text."""
    server = [compared.server.text] + ["warning " + warning for warning in compared.server.warnings]
    if server == [compared.here]:
        return ["    both    " + compared.here]
    return ["    here    " + compared.here] + ["    server  " + text for text in server]


def made_alike(compared):
    """How both were made alike after the command, and what of it wasn't compared."""
    lines = ["    not compared: " + what for what in compared.left_out]
    refused = [text.startswith("error ") for text in (compared.here, compared.server.text)]
    if refused[0] != refused[1]:
        lines.append("    from here on it counts as refused in both")
    return lines


def said(difference):
    """What is said of a difference."""
    if difference.words is not None:
        return "differs in %s, as docs/PROFILE.md says: %s" % (difference.part, difference.words)
    return "differs in %s, and docs/PROFILE.md doesn't say so" % difference.part
