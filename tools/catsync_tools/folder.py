"""The folder of a server of one's own, and what was left of those whose tool was killed.

A tool holds the lock of the file OWNER in its folder as long as it lives, however it ends.
"""
import fcntl
import glob
import os
import shutil
import signal
import tempfile
import time

PREFIX = "catsync"
OWNER = "tool.pid"
PATIENCE = 10           # seconds for the end of a server that was left


class Folder:
    """A new folder of a user; None as the user stands for this process's own."""

    def __init__(self, user):
        self.path = tempfile.mkdtemp(prefix=PREFIX)
        try:
            self.owner = self.owned()
            if user:
                os.chown(self.path, *user)
        except OSError:
            shutil.rmtree(self.path, ignore_errors=True)
            raise

    def owned(self):
        """The file OWNER, which is there once it is locked."""
        path = os.path.join(self.path, OWNER)
        owner = open(path + ".new", "w")
        fcntl.flock(owner, fcntl.LOCK_EX)
        owner.write("%d\n" % os.getpid())
        owner.flush()
        os.rename(path + ".new", path)
        return owner

    def remove(self):
        """Removes it with all that it has."""
        shutil.rmtree(self.path, ignore_errors=True)
        self.owner.close()


def remove_left(user):
    """Removes the folders whose tools are gone, and ends the servers that still run in them."""
    users = (os.geteuid(), user[0] if user else os.geteuid())
    for owner in glob.glob(os.path.join(glob.escape(tempfile.gettempdir()), PREFIX + "*", OWNER)):
        try:
            folder = os.path.dirname(owner)
            if os.lstat(folder).st_uid in users:
                with open(owner) as file:
                    fcntl.flock(file, fcntl.LOCK_EX | fcntl.LOCK_NB)
                    remove(folder)
        except OSError:         # its tool lives, or another has removed it
            continue


def remove(folder):
    """Removes a folder that was left. An initdb that goes on in it ends once its files are gone; what still writes into the
    folder after PATIENCE lets it be until the next time.
    """
    data = os.path.join(folder, "data")
    until = time.monotonic() + PATIENCE
    while os.path.exists(data) and time.monotonic() < until:
        end_server(data)
        shutil.rmtree(data, ignore_errors=True)
        time.sleep(0.05)
    if not os.path.exists(data):
        shutil.rmtree(folder, ignore_errors=True)


def end_server(data):
    """Ends the server that runs in a folder, if one does, or a single process of initdb's, whose number has a minus sign: it
    is there at home.
    """
    try:
        with open(os.path.join(data, "postmaster.pid")) as file:
            process = abs(int(file.readline()))
        home = "/proc/%d/cwd" % process
        if os.path.samefile(home, data):
            os.kill(process, signal.SIGQUIT)
            until = time.monotonic() + PATIENCE
            while os.path.exists(home) and time.monotonic() < until:
                time.sleep(0.05)
    except (OSError, ValueError):
        pass
