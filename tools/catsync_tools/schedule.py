"""The command tools/schedule."""
from .arguments import Arguments
from .counting import counted_script
from .faults import read_input, write_output
from .program import Program, found_program, own_program
from .sources import read_source


def arguments_of(words):
    """The command line."""
    parser = Arguments("schedule", "[OPTION].. < SCRIPT > SCRIPT",
                       "Turns a schedule by commands and entries into counts, and usual spellings into the grammar's forms.",
                       ((0, "the script is printed"),))
    parser.option("--program", metavar="FILE", help="run FILE in place of the proved executable")
    return parser.parse(words)


def check(script, program):
    """A script in which nothing had to be counted is run too, where there is a program: a Fault says what that refuses."""
    program = program or found_program()
    if program:
        Program(program).run(script)


def main(words):
    """Rewrites the script on standard input."""
    options = arguments_of(words)
    source = read_source(read_input())
    script = counted_script(source, lambda: Program(options.program or own_program()))
    if not source.has_names:
        check(script, options.program)
    write_output(script.decode("utf-8", "surrogateescape"))
    return 0
