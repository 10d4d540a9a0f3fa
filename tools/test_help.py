#!/usr/bin/env python3
"""Tests of the tools' --help, man page and completion: python3 tools/test_help.py"""
import os
import re
import shutil
import signal
import subprocess
import sys
import tempfile
import time
import unittest

from testing import CAN_WAIT, TOOLS, TOP, call, content_of, hear_signals

NAMES = sorted(name for name in os.listdir(TOOLS) if "." not in name and os.path.isfile(os.path.join(TOOLS, name)))
MAN = os.path.join(TOP, "man", "catsync.1")
UNREADABLE = b"schedule: %s: what it prints isn't an output of catsync\n"


def options_of(text):
    """The options in a text."""
    return set(re.findall(r"(?<![\w-])--[a-z][a-z-]*", text))


def in_shell(command):
    """What bash prints for a command."""
    return subprocess.run(["bash", "-c", command], cwd=TOP, stdout=subprocess.PIPE, check=True).stdout.decode().split()


class Help(unittest.TestCase):
    """What the tools say of themselves."""

    def test_form(self):
        """Each tool's --help has one form, and comes though nothing else is given."""
        for name in NAMES:
            with self.subTest(name):
                status, text, said = call(name, "--help")
                self.assertEqual((status, said), (0, ""))
                lines = text.decode().splitlines()
                self.assertTrue(lines[0].startswith("usage: %s " % name))
                self.assertIn("options:", lines)
                self.assertIn("  -h, --help", text.decode())
                statuses = [line.split(None, 1) for line in lines[lines.index("exit status:") + 1:]]
                numbers = [int(status) for status, _ in statuses]
                self.assertEqual(numbers, sorted(numbers))
                self.assertLessEqual({0, 2, 130}, set(numbers))
                self.assertEqual(statuses[-1][1], "after Ctrl-C, SIGTERM or SIGHUP")
                self.assertLessEqual(max(map(len, lines)), 120)

    def test_wrong_option(self):
        """A wrong option is a fault, in one line."""
        for name in NAMES:
            with self.subTest(name):
                status, text, said = call(name, "--sideways", "x")
                self.assertEqual((status, text, said.count("\n")), (2, b"", 1))
                self.assertTrue(said.startswith(name + ": "), said)

    def test_names(self):
        """A name that is empty is a fault, and so is a file on the command line of a tool that reads its standard input."""
        for words, said in ((["explore", "x"], "explore: it reads its standard input: explore < x; explore --help says more\n"),
                            (["schedule", "x"], "schedule: it reads its standard input: schedule < x; schedule --help says more\n"),
                            (["picture", "x", "y"], "picture: it reads its standard input: picture < x; picture --help says more\n"),
                            (["picture", "--script", ""], "picture: argument --script: an empty name; picture --help says more\n"),
                            (["expect", "--program", ""], "expect: argument --program: an empty name; expect --help says more\n"),
                            (["server", ""], "server: \'\': reading failed: No such file or directory\n")):
            with self.subTest(words):
                self.assertEqual(call(*words), (2, b"", said))

    def test_closed_streams(self):
        """No tool ends in a traceback where its standard streams are closed."""
        for name in NAMES:
            for redirection in ("<&-", "<&- >&-", "<&- 2>&-", "</dev/null >/dev/full", "--help >&-", "--help >/dev/full"):
                with self.subTest((name, redirection)):
                    command = "exec %s %s %s" % (sys.executable, os.path.join(TOOLS, name), redirection)
                    done = subprocess.run(["sh", "-c", command], stdin=subprocess.DEVNULL, stdout=subprocess.PIPE,
                                          stderr=subprocess.STDOUT)
                    self.assertNotIn(b"Traceback", done.stdout)
                    self.assertEqual(done.returncode, 2)

    def test_directory_as_input(self):
        """Nor where standard input is a directory: one line, if the tool reads it, and --help all the same."""
        for name in NAMES:
            tool, given = os.path.join(TOOLS, name), os.open("/", os.O_RDONLY)
            with self.subTest(name):
                done = subprocess.run([tool], stdin=given, stdout=subprocess.PIPE, stderr=subprocess.PIPE)
                self.assertEqual((done.returncode, done.stdout), (2, b""))
                self.assertTrue(done.stderr.decode().startswith(name + ": "), done.stderr)
                if name not in ("server", "spec", "replay"):
                    self.assertEqual(done.stderr.decode(), "%s: reading failed: Is a directory\n" % name)
                self.assertEqual(subprocess.run([tool, "--help"], stdin=given, stdout=subprocess.PIPE).returncode, 0)
            os.close(given)
            with self.subTest((name, "closed")):
                done = subprocess.run(["sh", "-c", "exec %s <&-" % tool], stdout=subprocess.PIPE, stderr=subprocess.PIPE)
                self.assertEqual((done.returncode, done.stdout, done.stderr.count(b"\n")), (2, b"", 1))

    @unittest.skipUnless(CAN_WAIT, "no env that makes signals wait")
    def test_signal_at_the_start(self):
        """A signal before a tool reads its first line, or as it ends, is told in one line too, and with the tool's own status. Only
        the shell, in its first milliseconds, ends as any program does."""
        for at, number in enumerate((signal.SIGINT, signal.SIGTERM, signal.SIGHUP) * 15):
            name = NAMES[at % len(NAMES)]
            with self.subTest((at, name, number)):
                tool = subprocess.Popen([os.path.join(TOOLS, name), "--help"], stdout=subprocess.PIPE, stderr=subprocess.PIPE,
                                        preexec_fn=hear_signals)
                time.sleep(at * 0.005)
                tool.send_signal(number)
                said = tool.communicate()[1].decode()
                self.assertIn((tool.returncode, said), ((-number, ""), (0, ""), (130, name + ": interrupted\n")))

    def test_help_of_the_gate(self):
        """./prove --help is usage too; and what ./catsync runs is said."""
        done = subprocess.run([os.path.join(TOP, "prove"), "--help"], stdout=subprocess.PIPE, stderr=subprocess.PIPE)
        self.assertEqual((done.returncode, done.stderr), (0, b""))
        self.assertIn(b"\n  ./prove --quick ", done.stdout)
        done = subprocess.run([os.path.join(TOP, "catsync"), "--version"], stdout=subprocess.PIPE, stderr=subprocess.PIPE)
        self.assertEqual((done.returncode, done.stderr), (0, b""))
        self.assertRegex(done.stdout, rb"^catsync \S+: runs (the program built without proof|crates/catsync/out/catsync), ")

    def test_program(self):
        """Without a program that fault says how one is built; the one that ./catsync has built without proof is taken by the sum of
        the sources, and not that of others; and before any that which CATSYNC_PROGRAM names."""
        with tempfile.TemporaryDirectory() as top:
            shutil.copytree(TOOLS, os.path.join(top, "tools"))
            for folder in ("src", "out"):
                os.makedirs(os.path.join(top, "crates", "catsync", folder))
            for name in ("crates.txt", "crates/catsync/src/main.rt", "crates/catsync/src/a b.rt"):
                with open(os.path.join(top, name), "w") as file:
                    file.write(name)
            command = "find crates.txt crates/*/src -type f -print0 | LC_ALL=C sort -z | xargs -0 sha256sum | sha256sum | head -c 16"
            self.assertIn(command.split(" | ", 1)[1].split(" | sha256sum |")[0], content_of(os.path.join(TOP, "catsync")).decode())
            total = subprocess.run(["bash", "-c", command], cwd=top, stdout=subprocess.PIPE, check=True).stdout.decode()
            tool = [sys.executable, os.path.join(top, "tools", "schedule")]
            given = b"backends 1\n1: begin\nsteps 1 to end\nend\n"
            for name, said in (("unproved-" + "0" * 16, b"schedule: no executable that is up to date: './catsync make 1' builds one "),
                               ("unproved-" + total, UNREADABLE)):
                path = os.path.join(top, "crates", "catsync", "out", name)
                os.symlink(shutil.which("echo"), path)
                for named, program in (("", os.path.realpath(top) + path[len(top):]), (shutil.which("true"), shutil.which("true"))):
                    done = subprocess.run(tool, input=given, stdout=subprocess.PIPE, stderr=subprocess.PIPE,
                                          env=dict(os.environ, CATSYNC_PROGRAM=named))
                    self.assertEqual((done.returncode, done.stdout, done.stderr.count(b"\n")), (2, b"", 1))
                    expected = UNREADABLE % program.encode() if named or b"%s" in said else said
                    self.assertTrue(done.stderr.startswith(expected), done.stderr)

    def test_man_page(self):
        """The man page has each tool with all of its options, and no others."""
        text = content_of(MAN).decode().replace("\\-", "-")
        parts = dict(re.findall(r"\n\.SS (\S+)\n(.*?)(?=\n\.S[HS] )", text, re.DOTALL))
        for name in NAMES:
            with self.subTest(name):
                own = options_of(call(name, "--help")[1].decode()) - {"--help", "--program"}
                self.assertEqual(options_of(parts[name]), own)

    @unittest.skipUnless(shutil.which("man"), "no man")
    def test_man_page_is_formatted(self):
        """The man page is set without a warning."""
        done = subprocess.run(["man", "--warnings", "-l", MAN], stdout=subprocess.PIPE, stderr=subprocess.PIPE)
        self.assertEqual((done.returncode, done.stderr), (0, b""))

    @unittest.skipUnless(shutil.which("bash"), "no bash")
    def test_completion(self):
        """All options are completed, and where one takes a folder, folders."""
        complete = ". tools/completion.bash; COMP_WORDS=(%s); COMP_CWORD=%d; _catsync %s; echo ${COMPREPLY[*]}"
        for name in NAMES:
            with self.subTest(name):
                tool = "tools/" + name
                own = options_of(call(name, "--help")[1].decode())
                self.assertEqual(set(in_shell(complete % (tool + " --", 1, tool))), own)
                self.assertTrue(in_shell(". tools/completion.bash; complete -p " + tool))
        self.assertEqual(in_shell(complete % ("./catsync ''", 1, "./catsync")), ["walk", "run", "check", "make", "--help", "--version"])
        self.assertEqual(in_shell(complete % ("tools/explore --picture too", 2, "tools/explore")), ["tools"])
        self.assertEqual(in_shell(complete % ("tools/explore --most ''", 2, "tools/explore")), [])


if __name__ == "__main__":
    unittest.main()
