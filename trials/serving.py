"""A server on a port of this machine, and connections to it."""

import os
import random
import select
import signal
import socket
import subprocess
import sys
import time
from pathlib import Path

sys.path.insert(0, str(Path(__file__).resolve().parent.parent / "clients" / "python"))
import hemwaziq  # noqa: E402

# How long a start, a reply or an end may take, in seconds.
PATIENCE = 60
HOST = "127.0.0.1"


def free_port():
    """A port that nothing has. It is below those that the system gives to clients, so that none of them gets it meanwhile."""
    while True:
        port = random.randrange(12_000, 32_000)
        with socket.socket() as door:
            door.setsockopt(socket.SOL_SOCKET, socket.SO_REUSEADDR, 1)
            try:
                door.bind((HOST, port))
            except OSError:
                continue
        return port


def wait_for(condition, what, patience=PATIENCE):
    end = time.monotonic() + patience
    while not condition():
        assert time.monotonic() < end, what
        time.sleep(0.01)


class Server:
    """A server over devices in a folder. What starts it is the program or the start script; it is halted by a pipe, as the script does it, or by a signal."""

    def __init__(self, starter, folder, *words, names=("d0",), port=None, before=(), **more):
        self.port = port or free_port()
        self.halt_by, self._hold = os.pipe()
        words = [*before, starter, "serve", "--port", str(self.port), *words, *names]
        more = {"stdin": subprocess.DEVNULL, "start_new_session": True} | more
        environment = os.environ | {"HEMWAZIQ_HALT_BY": str(self.halt_by)}
        self.process = subprocess.Popen(
            words, cwd=folder, stdout=subprocess.DEVNULL, stderr=subprocess.PIPE, pass_fds=[self.halt_by], env=environment, **more
        )
        os.close(self.halt_by)
        self.note = self._first_note()
        wanted = f"serving {' '.join(names)} on {HOST}:{self.port}"
        if self.note != wanted:
            status, rest = self.end()
            raise AssertionError(f"a server told {self.note!r} and {rest!r} where {wanted!r} was expected; its status is {status}")

    def _first_note(self):
        if not select.select([self.process.stderr], [], [], PATIENCE)[0]:
            self.kill()
            raise AssertionError("a server doesn't tell that it serves")
        return self.process.stderr.readline().decode().rstrip("\n")

    def connect(self):
        """A client of it."""
        return hemwaziq.connect(HOST, self.port, timeout=PATIENCE)

    def link(self, timeout=PATIENCE):
        """A connection to it."""
        link = socket.create_connection((HOST, self.port), timeout)
        link.setsockopt(socket.IPPROTO_TCP, socket.TCP_NODELAY, 1)
        return link

    def begin_halt(self):
        """Closes the pipe, which ends it."""
        os.close(self._hold)
        self._hold = None

    def halt(self):
        """Ends it by the pipe, and answers its status and its notes."""
        self.begin_halt()
        return self.end()

    def end(self):
        """Waits for its end, and answers its status and its notes."""
        try:
            status = self.process.wait(PATIENCE)
        except subprocess.TimeoutExpired:
            self.kill()
            raise AssertionError(f"a server doesn't end in {PATIENCE} seconds") from None
        return status, self.close()

    def kill(self):
        """Kills the program and the script, if one started it."""
        try:
            os.killpg(self.process.pid, signal.SIGKILL)
        except ProcessLookupError:
            pass
        self.process.wait()

    def close(self):
        """What is left of its notes. It has ended."""
        notes = "" if self.process.stderr.closed else self.process.stderr.read().decode().strip()
        self.process.stderr.close()
        if self._hold is not None:
            os.close(self._hold)
            self._hold = None
        return notes

    def __enter__(self):
        return self

    def __exit__(self, *_error):
        self.kill()
        self.close()


def answer(link, count=1):
    """So many lines from a connection, fewer where it ends."""
    data = b""
    while data.count(b"\n") < count:
        piece = link.recv(1 << 20)
        if not piece:
            break
        data += piece
    return data.decode().splitlines()


def ask(link, *lines):
    """Sends lines and answers their replies."""
    link.sendall("".join(f"{line}\n" for line in lines).encode())
    return answer(link, len(lines))


def is_ended(link, patience=PATIENCE):
    """Whether the other side ends the connection meanwhile, with nothing more to be read."""
    link.settimeout(patience)
    try:
        return link.recv(1) == b""
    except ConnectionResetError:
        return True
    except socket.timeout:
        return False


class Use:
    """What a process takes of memory, of open files and of threads."""

    def __init__(self, number):
        told = dict(line.split(":", 1) for line in Path(f"/proc/{number}/status").read_text().splitlines())
        self.kilobytes = int(told["VmRSS"].split()[0])
        self.files = len(os.listdir(f"/proc/{number}/fd"))
        self.threads = int(told["Threads"])

    def __str__(self):
        return f"{self.kilobytes:,} KB, {self.files} files, {self.threads} threads"
