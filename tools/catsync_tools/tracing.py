"""Breakpoints in running processes by ptrace: Linux on x86-64, by ctypes alone, without a debugger.

All calls for one process have to come from one thread. A process that is traced is killed by the kernel where this one ends
without having let it go (PTRACE_O_EXITKILL); it would die of a breakpoint left in it anyway.
"""
import contextlib
import ctypes
import errno
import os
import platform
import signal
import struct
import subprocess

from .faults import Fault

SEIZE, INTERRUPT, CONT, SINGLESTEP, GETREGS, SETREGS, DETACH = 0x4206, 0x4207, 7, 9, 12, 13, 17
EXITKILL, WALL, EVENT_STOP = 0x00100000, 0x40000000, 128
REGISTERS = ("r15 r14 r13 r12 rbp rbx r11 r10 r9 r8 rax rcx rdx rsi rdi orig_rax rip cs eflags rsp ss fs_base gs_base ds es fs "
             "gs").split()
PLACES = {name: place for place, name in enumerate(REGISTERS)}
ARGUMENTS = ("rdi", "rsi", "rdx", "rcx", "r8", "r9")
BREAKPOINT, PUSH = b"\xcc", b"\x55"
SCOPE = "/proc/sys/kernel/yama/ptrace_scope"
DYNAMIC_SYMBOLS, FIXED, X86_64 = 11, 2, 62      # of ELF: a kind of section, a kind of program, a machine


class Unplayable(Fault):
    """Nothing can be played here, or not this."""
    status = 3


class Gone(Exception):
    """A traced process has ended."""


def _library():
    """The C library, with ptrace's form."""
    library = ctypes.CDLL(None, use_errno=True)
    library.ptrace.restype = ctypes.c_long
    library.ptrace.argtypes = [ctypes.c_long, ctypes.c_long, ctypes.c_void_p, ctypes.c_void_p]
    return library


_LIBRARY = _library() if platform.system() == "Linux" else None


def ptrace(request, pid, address=0, data=0):
    """One call; an OSError where it is refused."""
    ctypes.set_errno(0)
    if _LIBRARY.ptrace(request, pid, address, data) < 0:
        code = ctypes.get_errno()
        raise OSError(code, os.strerror(code))


def check_tracing(become=None):
    """Says why no process can be traced here, if so, by tracing one. `become` is called in it, and makes it another account's."""
    if platform.system() != "Linux" or platform.machine() != "x86_64":
        raise Unplayable("no process can be traced: this is %s on %s, and not Linux on x86_64" % (platform.system(), platform.machine()))
    try:
        child = subprocess.Popen(["sleep", "9"], stdin=subprocess.DEVNULL, stdout=subprocess.DEVNULL, cwd="/", preexec_fn=become)
    except (OSError, subprocess.SubprocessError) as error:
        raise Unplayable("no process can be traced: none can be begun: %s" % error)
    try:
        ptrace(SEIZE, child.pid, 0, EXITKILL)
    except OSError as error:
        raise Unplayable("no process can be traced: %s%s" % (error.strerror, scope()))
    finally:
        child.kill()
        child.wait()


def scope():
    """What the kernel's setting says of who may trace, where it has one."""
    try:
        with open(SCOPE) as file:
            return "; kernel.yama.ptrace_scope is %s" % file.read().strip()
    except OSError:
        return ""


class Binary:
    """A program's file: its global symbols, each with its address and size, from the table of the dynamic linker, which a
    stripped program keeps."""

    def __init__(self, path):
        self.path = os.path.realpath(path)
        with open(self.path, "rb") as file:
            data = file.read()
        if data[:5] != b"\x7fELF\x02" or struct.unpack_from("<H", data, 18)[0] != X86_64:
            raise Unplayable("%s is no program for x86_64" % path)
        self.is_fixed = struct.unpack_from("<H", data, 16)[0] == FIXED
        self.symbols = self.symbols_in(data)

    @staticmethod
    def symbols_in(data):
        """The symbols in a program's bytes."""
        offset, size, count = (struct.unpack_from("<Q", data, 40)[0],) + struct.unpack_from("<HH", data, 58)
        sections = [struct.unpack_from("<IIQQQQIIQQ", data, offset + size * at) for at in range(count)]
        table = next((each for each in sections if each[1] == DYNAMIC_SYMBOLS), None)
        found = {}
        if table is not None:
            texts = sections[table[6]][4]
            for at in range(table[4], table[4] + table[5], 24):
                name, _, _, section, value, length = struct.unpack_from("<IBBHQQ", data, at)
                if section and value:
                    found[data[texts + name:data.index(b"\0", texts + name)].decode()] = value, length
        return found

    def base(self, pid):
        """Where a process has the program."""
        if self.is_fixed:
            return 0
        with open("/proc/%d/maps" % pid) as maps:
            for line in maps:
                parts = line.split(None, 5)
                if len(parts) > 5 and parts[5].rstrip("\n") == self.path and int(parts[2], 16) == 0:
                    return int(parts[0].split("-")[0], 16)
        raise OSError(errno.ENOENT, "process %d doesn't run %s" % (pid, self.path))


class Memory:
    """The memory and the registers of a process that is stopped."""

    def __init__(self, pid):
        self.pid, self.registers, self.is_changed = pid, None, False
        self.file = os.open("/proc/%d/mem" % pid, os.O_RDWR)

    def close(self):
        """Closes the memory."""
        if self.file is not None:
            os.close(self.file)
        self.file = None

    def read(self, address, count):
        """Bytes; an OSError where there are none, as the process has ended."""
        data = os.pread(self.opened_file(), count, address)
        if not data:
            raise ProcessLookupError(errno.ESRCH, os.strerror(errno.ESRCH))
        return data

    def write(self, address, data):
        """Writes bytes."""
        os.pwrite(self.opened_file(), data, address)

    def opened_file(self):
        """The memory's file, while it is open."""
        if self.file is None:
            raise ProcessLookupError(errno.ESRCH, os.strerror(errno.ESRCH))
        return self.file

    def u32(self, address):
        """A number of 32 bits."""
        return struct.unpack("<I", self.read(address, 4))[0]

    def i32(self, address):
        """The same with a sign."""
        return struct.unpack("<i", self.read(address, 4))[0]

    def u64(self, address):
        """A number of 64 bits."""
        return struct.unpack("<Q", self.read(address, 8))[0]

    def text(self, address, most=64):
        """A text up to its zero."""
        return self.read(address, most).split(b"\0")[0].decode("ascii", "replace")

    def load(self):
        """Reads the registers."""
        buffer = ctypes.create_string_buffer(len(REGISTERS) * 8)
        ptrace(GETREGS, self.pid, 0, ctypes.cast(buffer, ctypes.c_void_p))
        self.registers, self.is_changed = list(struct.unpack("<27Q", buffer.raw)), False

    def store(self):
        """Writes them, if they were changed."""
        if self.is_changed:
            buffer = ctypes.create_string_buffer(struct.pack("<27Q", *self.registers))
            ptrace(SETREGS, self.pid, 0, ctypes.cast(buffer, ctypes.c_void_p))
        self.is_changed = False

    def register(self, name):
        """One of them."""
        return self.registers[PLACES[name]]

    def move(self, address):
        """Makes it go on from there, once the registers are written."""
        self.registers[PLACES["rip"]], self.is_changed = address, True

    def argument(self, at):
        """An argument of the function at whose entry it is stopped."""
        return self.register(ARGUMENTS[at])

    def number(self, at):
        """An argument of 32 bits."""
        return self.argument(at) & 0xffffffff

    @property
    def answer(self):
        """What a function has returned, as an int."""
        return ctypes.c_int32(self.register("rax") & 0xffffffff).value

    @property
    def caller(self):
        """Where the function was called from at whose entry it is stopped."""
        return self.u64(self.register("rsp"))


class Traced(Memory):
    """A traced process. `points` has for each address what is called as it is stopped there; what that answers is whether it is
    to stay stopped."""

    def __init__(self, pid, program: Binary):
        self.base = program.base(pid)
        ptrace(SEIZE, pid, 0, EXITKILL)
        super().__init__(pid)
        self.old = {}               # for each breakpoint the byte that it is written over
        self.points = {}
        self.returns = {}           # for each address the calls that come back to it: (stack pointer then, what is called)
        self.is_running, self.pending = True, 0
        self.stops = self.steps = 0
        self.stop()

    def insert(self, address):
        """A breakpoint."""
        if address not in self.old:
            self.old[address] = self.read(address, 1)
            self.write(address, BREAKPOINT)

    def remove(self, address):
        """Takes a breakpoint away."""
        self.write(address, self.old.pop(address))

    def on_return(self, call):
        """Calls this as the function returns at whose entry it is stopped."""
        address = self.caller
        self.returns.setdefault(address, []).append((self.register("rsp") + 8, call))
        self.insert(address)

    def wait(self, hang):
        """Its next status, or None."""
        pid, status = os.waitpid(self.pid, WALL | (0 if hang else os.WNOHANG))
        if pid == 0:
            return None
        if not os.WIFSTOPPED(status):
            self.is_running = False
            self.close()
            raise Gone("process %d has ended" % self.pid)
        return status

    def go(self):
        """Lets it go on from where it is stopped."""
        pending, self.pending = self.pending, 0
        if self.registers is not None and self.register("rip") in self.old and not self.push():
            self.step_over(self.register("rip"))
        self.store()
        self.registers = None
        ptrace(CONT, self.pid, 0, pending)
        self.is_running = True

    def push(self):
        """Makes the instruction under a breakpoint by its registers where that is the one by which most functions begin, `push
        %rbp`: whether it is."""
        if self.old[self.register("rip")] != PUSH:
            return False
        stack = self.register("rsp") - 8
        self.write(stack, struct.pack("<Q", self.register("rbp")))
        self.registers[PLACES["rsp"]] = stack
        self.move(self.register("rip") + 1)
        return True

    def step_over(self, address):
        """Makes the one instruction under a breakpoint. A signal that comes meanwhile is sent anew."""
        self.store()
        self.write(address, self.old[address])
        again = []
        while True:
            ptrace(SINGLESTEP, self.pid)
            status = self.wait(True)
            self.steps += 1
            if os.WSTOPSIG(status) == signal.SIGTRAP and status >> 16 == 0:
                break
            if os.WSTOPSIG(status) != signal.SIGTRAP:
                again.append(os.WSTOPSIG(status))
        self.registers = None
        self.write(address, BREAKPOINT)
        for number in again:
            os.kill(self.pid, number)

    def poll(self):
        """Handles what it was stopped by: whether it stays stopped. None while it runs."""
        status = self.wait(False)
        if status is None:
            return None
        self.is_running = False
        if status >> 16 or os.WSTOPSIG(status) != signal.SIGTRAP:
            self.pending, self.registers = 0 if status >> 16 else os.WSTOPSIG(status), None
            self.go()
            return False
        self.stops += 1
        self.load()
        stays = self.meet(self.register("rip") - 1)
        if not stays:
            self.go()
        return stays

    def meet(self, address):
        """Calls what there is to call at a breakpoint: whether it stays stopped there. Calls whose frames an error has left are
        dropped."""
        if address not in self.old:             # taken away meanwhile
            if self.read(address, 1) != BREAKPOINT:
                self.move(address)
            return False
        self.move(address)
        stays, stack = False, self.register("rsp")
        for other in list(self.returns):
            kept = [each for each in self.returns[other] if each[0] >= stack]
            for each in [each for each in kept if other == address and each[0] == stack]:
                kept.remove(each)
                stays = each[1]() or stays
            self.keep_returns(other, kept)
        return self.points[address]() or stays if address in self.points else stays

    def keep_returns(self, address, kept):
        """The calls that come back to an address; the breakpoint goes with the last one."""
        if kept:
            self.returns[address] = kept
            return
        del self.returns[address]
        if address not in self.points and address in self.old:
            self.remove(address)

    def stop(self):
        """Stops it wherever it is."""
        if not self.is_running:
            return
        ptrace(INTERRUPT, self.pid)
        while True:
            status = self.wait(True)
            if status >> 16 == EVENT_STOP:
                self.is_running, self.registers = False, None
                return
            if os.WSTOPSIG(status) == signal.SIGTRAP:       # a breakpoint came first: it meets that again, or the interrupt
                self.load()
                if self.register("rip") - 1 in self.old:
                    self.move(self.register("rip") - 1)
                self.store()
                ptrace(CONT, self.pid)
            else:
                ptrace(CONT, self.pid, 0, os.WSTOPSIG(status))

    def let_go(self):
        """Takes all breakpoints away and ends the tracing. Where that can't be done, as it was interrupted in a step, the process
        is ended."""
        if self.file is None:
            return
        try:
            self.stop()
            for address in list(self.old):
                self.remove(address)
            self.store()
            ptrace(DETACH, self.pid, 0, self.pending)
        except Gone:
            pass
        except OSError:
            with contextlib.suppress(Gone, OSError):
                os.kill(self.pid, signal.SIGKILL)
                while True:
                    self.wait(True)         # its parent isn't told before
        self.close()
