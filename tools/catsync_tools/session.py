"""A session with a PostgreSQL server, by its wire protocol over a local socket.

The messages are those of the chapter 'Frontend/Backend Protocol' of PostgreSQL's manual: a byte that says the kind, four
bytes with the length, and the fields. Only simple queries are sent.
"""
import socket
import struct
from typing import List, NamedTuple, Optional, Tuple

from .faults import Fault

PROTOCOL = 196608       # version 3.0
PATIENCE = 60           # seconds for an answer

Said = Tuple[str, str]  # an SQLSTATE and a message


class Reply(NamedTuple):
    """What a query was answered."""
    rows: List[Tuple[Optional[str], ...]]
    tag: str                    # of the last command
    error: Optional[Said]
    warnings: List[Said]


def fields_of(body):
    """The SQLSTATE and the message of an error or a notice, and how severe it is."""
    fields = {part[:1]: part[1:].decode("utf-8", "replace") for part in body.split(b"\0") if part}
    return fields.get(b"V", ""), (fields.get(b"C", ""), fields.get(b"M", ""))


def row_of(body):
    """The values of a row."""
    count, at, values = struct.unpack("!H", body[:2])[0], 2, []
    for _ in range(count):
        length = struct.unpack("!i", body[at:at + 4])[0]
        at += 4
        values.append(None if length < 0 else body[at:at + length].decode("utf-8"))
        at += max(length, 0)
    return tuple(values)


class Session:
    """A session, which has a process of its own in the server."""

    def __init__(self, path, user, database):
        self.socket = socket.socket(socket.AF_UNIX)
        self.socket.settimeout(PATIENCE)
        try:
            self.socket.connect(path)
            words = ("user", user, "database", database, "application_name", "catsync")
            body = struct.pack("!I", PROTOCOL) + b"".join(word.encode() + b"\0" for word in words) + b"\0"
            self.socket.sendall(struct.pack("!I", len(body) + 4) + body)
            reply = self.reply()
        except OSError:
            self.socket.close()
            raise
        if reply.error:
            self.socket.close()
            raise ConnectionError(reply.error[1])

    def receive(self, count):
        """So many bytes."""
        data = b""
        while len(data) < count:
            more = self.socket.recv(count - len(data))
            if not more:
                raise ConnectionError("the server has ended the session")
            data += more
        return data

    def reply(self):
        """All messages up to the one that says that the next query may come."""
        rows, tag, error, warnings = [], "", None, []
        while True:
            kind, length = struct.unpack("!cI", self.receive(5))
            body = self.receive(length - 4)
            if kind == b"D":
                rows.append(row_of(body))
            elif kind == b"C":
                tag = body.rstrip(b"\0").decode()
            elif kind == b"E":
                severity, error = fields_of(body)
                if severity in ("FATAL", "PANIC"):
                    return Reply(rows, tag, error, warnings)
            elif kind == b"N":
                warnings.append(fields_of(body)[1])
            elif kind == b"R" and body[:4] != b"\0\0\0\0":
                raise ConnectionError("the server asks for a password")
            elif kind == b"Z":
                return Reply(rows, tag, error, warnings)

    def ask(self, query):
        """What a query is answered."""
        body = query.encode() + b"\0"
        try:
            self.socket.sendall(b"Q" + struct.pack("!I", len(body) + 4) + body)
            return self.reply()
        except OSError as error:
            raise Fault("the server: %s" % (error.strerror or error))

    def close(self):
        """Ends the session."""
        try:
            self.socket.sendall(b"X\0\0\0\4")
        except OSError:
            pass
        self.socket.close()
