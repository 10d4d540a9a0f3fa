"""The command line of a tool, and its --help, which has one form in all tools."""
import argparse
import re
import textwrap

from .faults import Fault, write_output

MOST_ORDERS = 5000      # that are run, where the command line doesn't say another number
WIDTH = 100
FAULTY = (2, "a fault of the input or the command line: one line on standard error, and nothing is printed")
STOPPED = (130, "after Ctrl-C, SIGTERM or SIGHUP")


def count_of(text):
    """A count on the command line."""
    if not re.fullmatch("0*[1-9][0-9]{0,8}", text):
        raise argparse.ArgumentTypeError("not a count: %s" % text)
    return int(text)


def _form(prog):
    """How --help is set: lines of at most 100 characters, options in a column."""
    return argparse.RawDescriptionHelpFormatter(prog, max_help_position=22, width=WIDTH)


class Arguments(argparse.ArgumentParser):
    """A command line: `usage` is what follows the tool's name, `purpose` one sentence, and `statuses` pairs of an exit
    status and when it comes, without those for faults and Ctrl-C, which all tools have. A fault of the command line is a
    fault as any other, and not several lines."""

    def __init__(self, prog, usage, purpose, statuses):
        rows = ["  %-5d%s" % status for status in sorted(statuses + (FAULTY, STOPPED))]
        super().__init__(prog=prog, usage="%s %s" % (prog, usage), description=textwrap.fill(purpose, WIDTH),
                         allow_abbrev=False, add_help=False, epilog="\n".join(["exit status:"] + rows), formatter_class=_form)
        self.options = self.add_argument_group("options")

    def option(self, name, **settings):
        """One more option; options are shown in this order."""
        self.options.add_argument(name, **settings)

    def parse(self, words):
        """What the command line says, after one more option: --help. A file or a folder has a name."""
        self.options.add_argument("-h", "--help", action="help", help="prints this text")
        found, others = self.parse_known_args(words)
        for action in self._actions:
            if action.metavar in ("FILE", "DIR") and getattr(found, action.dest, None) == "":
                self.error("argument %s: an empty name" % action.option_strings[0])
        if others:
            self.refuse(others)
        return found

    def refuse(self, others):
        """Refuses arguments that no option takes."""
        if "<" in self.usage and not others[0].startswith("-"):
            self.error("it reads its standard input: %s < %s" % (self.prog, others[0]))
        self.error("unrecognized arguments: " + " ".join(others))

    def error(self, message):
        """Called by argparse for a faulty command line."""
        raise Fault("%s; %s --help says more" % (message, self.prog))

    def print_help(self, file=None):
        """Called by argparse for --help."""
        write_output(self.format_help())
