"""A PostgreSQL server of one's own: in a temporary folder, with a local socket alone, and gone afterwards."""
import glob
import os
import pwd
import re
import shutil
import signal
import subprocess
import tempfile
import time

from .faults import Fault
from .folder import Folder, remove_left
from .interrupts import SIGNALS, waiting
from .session import Session

FOLDERS = "/usr/lib/postgresql/*/bin"       # of Debian's packages
USER = "postgres"
OTHER_USERS = ("postgres", "nobody")        # who runs it where this is root, for whom it doesn't start
SETTINGS = {"listen_addresses": "", "fsync": "off", "autovacuum": "off", "lock_timeout": "20ms", "max_connections": "80",
            "shared_buffers": "16MB", "client_min_messages": "notice", "max_wal_senders": "0"}
PATIENCE = 60           # seconds for the start, and for the end
IN_ORDER = 10           # seconds for an end in order, to which a server that is asked for it amid a crash of its own doesn't come


def folder_of_programs():
    """The folder with the newest server's programs, or None."""
    found = [path for path in glob.glob(FOLDERS) if os.access(os.path.join(path, "initdb"), os.X_OK)]
    found.sort(key=lambda path: [int(number) for number in re.findall("[0-9]+", path)])
    beside = shutil.which("initdb")
    return found[-1] if found else os.path.dirname(os.path.realpath(beside)) if beside else None


def account():
    """The user and group who run the server where this is root; None elsewhere."""
    if os.geteuid() != 0:
        return None
    for name in OTHER_USERS:
        try:
            entry = pwd.getpwnam(name)
            return entry.pw_uid, entry.pw_gid
        except KeyError:
            continue
    raise Fault("no user to run the server, which doesn't run as root: none of %s" % ", ".join(OTHER_USERS))


def become(user):
    """Called in a child before it runs a program of this account."""
    if user:
        os.setgroups([])
        os.setgid(user[1])
        os.setuid(user[0])


class Server:
    """A running server; `with Server() as server` stops it at the end."""

    def __init__(self, programs=None):
        self.programs = programs or folder_of_programs()
        if self.programs is None or not os.access(os.path.join(self.programs, "postgres"), os.X_OK):
            raise Fault("no PostgreSQL server in %s: 'apt-get install postgresql' brings one, --programs DIR names another" % (
                self.programs or FOLDERS))
        self.account, self.process, self.databases, self.own, self.said = account(), None, 0, None, None
        remove_left(self.account)
        try:
            with waiting():
                self.make_folder()
            self.start()
        except BaseException:
            self.stop()
            raise

    def make_folder(self):
        """Makes the folder, and a file for what the server's programs say."""
        try:
            self.own, self.said = Folder(self.account), tempfile.TemporaryFile()
        except OSError as error:
            raise Fault("no folder can be made for the server: %s" % error.strerror)

    @property
    def folder(self):
        """The path of its folder."""
        return self.own.path

    def __enter__(self):
        return self

    def __exit__(self, *_):
        self.stop()

    def become(self):
        """Called in a child before it runs a program of the server. Ctrl-C is this process's to hear."""
        os.setpgid(0, 0)
        signal.pthread_sigmask(signal.SIG_UNBLOCK, SIGNALS)
        become(self.account)

    def begin(self, program, *words):
        """Begins a program of the server, which is this one's process then."""
        try:
            with waiting():
                self.process = subprocess.Popen([os.path.join(self.programs, program)] + list(words), stdin=subprocess.DEVNULL,
                                                stdout=self.said, stderr=self.said, cwd="/", preexec_fn=self.become)
        except (OSError, subprocess.SubprocessError) as error:
            raise Fault("%s doesn't start: %s" % (program, error))

    def start(self):
        """Fills the folder, starts the server and waits until it takes sessions."""
        data = os.path.join(self.folder, "data")
        self.begin("initdb", "-D", data, "-U", USER, "-A", "trust", "-E", "UTF8", "--locale=C", "--no-sync")
        if self.process.wait() != 0:
            raise Fault("initdb failed: %s" % self.last_said())
        settings = dict(SETTINGS, unix_socket_directories=self.folder)
        self.begin("postgres", "-D", data, *["--%s=%s" % setting for setting in settings.items()])
        until = time.monotonic() + PATIENCE
        while True:
            try:
                self.session("postgres").close()
                return
            except OSError:
                if self.process.poll() is not None or time.monotonic() > until:
                    raise Fault("the server didn't start: %s" % self.last_said())
                time.sleep(0.05)

    def last_said(self):
        """The last line that a program of the server wrote."""
        self.said.seek(0)
        lines = self.said.read().decode("utf-8", "replace").split("\n")
        return next((line.strip() for line in reversed(lines) if line.strip()), "no word")

    def session(self, database):
        """A new session."""
        return Session(os.path.join(self.folder, ".s.PGSQL.5432"), USER, database)

    def version(self):
        """The server's version, as 15.3."""
        session = self.session("postgres")
        version = session.ask("show server_version").rows[0][0].split(" ")[0]
        session.close()
        return version

    def new_database(self):
        """A new empty database: its name."""
        self.databases += 1
        name = "catsync%d" % self.databases
        session = self.session("postgres")
        reply = session.ask("create database %s" % name)
        session.close()
        if reply.error:
            raise Fault("the server: %s" % reply.error[1])
        return name

    def drop_database(self, name):
        """Drops a database, once the sessions that had it have ended."""
        session = self.session("postgres")
        session.ask("drop database %s with (force)" % name)
        session.close()

    def stop(self):
        """Stops the server and removes its folder, whatever signals come."""
        with waiting():
            self.stop_process()
            if self.own is not None:
                self.own.remove()
            if self.said is not None:
                self.said.close()

    def stop_process(self):
        """Stops what runs in the folder."""
        if self.process is not None and self.process.poll() is None:
            for how, patience in ((signal.SIGINT, IN_ORDER), (signal.SIGQUIT, PATIENCE), (signal.SIGKILL, PATIENCE)):
                self.process.send_signal(how)
                try:
                    self.process.wait(patience)
                    break
                except subprocess.TimeoutExpired:
                    continue
