"""A client of Hemwaziq: it sends the lines of docs/PROTOCOL.md and reads the replies. It needs Python 3.8 and its standard library alone.

    client = connect()                                    over TCP to `./hemwaziq serve d0`: connect("127.0.0.1", 3000)
    client = Client.start(["./hemwaziq", "run", "d0"])    over the streams of a program that it starts, or over any: Client(reader, writer)
    client.put("user:7", b"hello")                        Stamp(generation=1, time=1795855907390)
    client.get("user:7")                                  Record(data=b'hello', generation=1, time=1795855907390, void=0), or None
    client.put("user:7", b"world", expect=1)              only where the generation is 1; else it raises WrongGeneration
    client.bury("user:7")                                 a durable delete; `delete` writes nothing where it needn't
    with client.batch() as batch:                         all lines in one write, the replies in their order behind it
        batch.put("user:8", b"a")
        seen = batch.get("user:8")
    seen.value()

A key is a text or bytes, in a set. Its digest is the first 20 bytes of a hash over the set and the key, of which no two pairs give the same
text: a byte for the kind of key, the length of the set in 4 bytes, the set, the key. The hash is SHA-1, where Aerospike takes RIPEMD-160, which
isn't in every Python; so the digests aren't those of Aerospike. Who has digests of their own passes them as `Digest(20 bytes)`.

One client is one connection, and is for one thread at a time: take one for each thread. A server serves so many at a time as it has seats, and
ends one that sends nothing for a minute (`--seats`, `--idle`); that client's next command raises Closed, and a new one goes on.
"""

import collections
import hashlib
import socket
import subprocess

__all__ = [
    "Batch", "Client", "Closed", "Damaged", "DeviceFault", "Digest", "HemwaziqError", "LineRefused", "ModeRefused", "NoMemory", "NoSpace",
    "Overloaded", "Pending", "Record", "RecordTooBig", "ReplyNotUnderstood", "Spent", "Stamp", "WrongGeneration", "connect", "digest_of",
]

Stamp = collections.namedtuple("Stamp", "generation time")
Record = collections.namedtuple("Record", "data generation time void")
Meta = collections.namedtuple("Meta", "generation time void units")
Counts = collections.namedtuple("Counts", "records tombstones covered free pending queued held")
Defragmented = collections.namedtuple("Defragmented", "moved vacated")
Raided = collections.namedtuple("Raided", "removed cleared")
Restarted = collections.namedtuple("Restarted", "records tombstones")


class Digest(bytes):
    """20 bytes that name a record."""

    def __new__(cls, value):
        if len(value) != 20:
            raise ValueError(f"a digest has 20 bytes, and not {len(value)}")
        return super().__new__(cls, value)


def digest_of(key, within=""):
    """The digest of a key in a set; that of a Digest is itself."""
    if isinstance(key, Digest):
        return key
    kind, text = (b"t", key.encode()) if isinstance(key, str) else (b"b", bytes(key))
    name = within.encode()
    return Digest(hashlib.sha1(kind + len(name).to_bytes(4, "big") + name + text).digest())


class HemwaziqError(Exception):
    """What went wrong with a command, a reply or a connection."""


class Closed(HemwaziqError):
    """The connection ended before the reply: whether the command was carried out isn't known."""


class ReplyNotUnderstood(HemwaziqError):
    """A reply that no command has."""


class LineRefused(HemwaziqError):
    """err line: the line is no command."""


class ModeRefused(HemwaziqError):
    """err mode: a server of many clients doesn't carry this out."""


class RecordTooBig(HemwaziqError):
    """err big: the record is longer than a block."""


class WrongGeneration(HemwaziqError):
    """err gen: another generation was expected than the one that is seen, which is `generation`, 0 where no record is."""

    def __init__(self, generation):
        super().__init__(f"generation {generation} is seen")
        self.generation = generation


class Spent(HemwaziqError):
    """err spent: times or numbers are used up."""


class Overloaded(HemwaziqError):
    """err load: too many write buffers wait to be flushed. Try again."""


class NoSpace(HemwaziqError):
    """err space: too few blocks are free. Delete, or try again."""


class NoMemory(HemwaziqError):
    """err memory: the server has no memory for it."""


class DeviceFault(HemwaziqError):
    """err fault: a disk failed. Of a write with commit on a get tells whether it stands."""


class Damaged(HemwaziqError):
    """err damaged: what the device holds isn't what was written."""


_ERRORS = {
    "line": LineRefused, "mode": ModeRefused, "big": RecordTooBig, "spent": Spent, "load": Overloaded, "space": NoSpace,
    "memory": NoMemory, "fault": DeviceFault, "damaged": Damaged,
}


def _data(text):
    return b"" if text == "-" else bytes.fromhex(text)


def _numbers(make):
    return lambda parts: make(*map(int, parts))


def _nothing(value):
    def read(parts):
        if parts:
            raise ValueError(parts)
        return value
    return read


def _record(parts):
    generation, time, void, data = parts
    return Record(_data(data), int(generation), int(time), int(void))


# How the replies to each command are read, by their first word.
_STAMP = {"ok": _numbers(Stamp)}
_NUMBER = {"ok": _numbers(lambda number: number)}
_GONE = {"gone": _nothing(True), "none": _nothing(False)}
_RECORD = {"val": _record, "none": _nothing(None)}
_META = {"meta": _numbers(Meta), "none": _nothing(None)}
_COUNTS = {"stat": _numbers(Counts)}
_BYE = {"bye": _nothing(None)}


def _answer(line, forms):
    """What a reply says, or an exception for what it refuses."""
    word, *parts = line.split(" ")
    try:
        if word == "err" and len(parts) == 2 and parts[0] == "gen":
            return WrongGeneration(int(parts[1]))
        if word == "err" and len(parts) == 1 and parts[0] in _ERRORS:
            return _ERRORS[parts[0]]("err " + parts[0])
        if word in forms:
            return forms[word](parts)
    except (TypeError, ValueError):
        pass
    return ReplyNotUnderstood(line[:100])


class Pending:
    """The reply to a command that was sent, or will be."""

    def __init__(self, forms):
        self._forms = forms
        self._answer = None
        self.is_there = False

    def _settle(self, answer):
        self._answer = answer
        self.is_there = True

    def value(self):
        """What the reply says. A refusal is raised, by its name."""
        if not self.is_there:
            raise HemwaziqError("the reply isn't there yet: it comes when the batch is sent")
        if isinstance(self._answer, HemwaziqError):
            raise self._answer
        return self._answer


class _Commands:
    """The commands, each of which is a line. What becomes of the line `_ask` says."""

    set_name = ""

    def _name(self, key, within):
        return digest_of(key, self.set_name if within is None else within).hex()

    def put(self, key, data, ttl=0, expect=None, within=None):
        """Writes a record, and answers its Stamp. `ttl` is its life in seconds, 0 for ever; `expect` the generation that has to be there, 0 for
        no record."""
        if expect is not None and not 0 <= expect <= 65_535:
            raise ValueError(f"a generation is from 0 to 65535, and not {expect}")
        expected = "*" if expect is None else str(int(expect))
        return self._ask(f"put {self._name(key, within)} {int(ttl)} {expected} {bytes(data).hex() or '-'}", _STAMP)

    def get(self, key, within=None):
        """The Record, or None."""
        return self._ask(f"get {self._name(key, within)}", _RECORD)

    def meta(self, key, within=None):
        """The Meta of the record, which isn't read for that, or None."""
        return self._ask(f"meta {self._name(key, within)}", _META)

    def delete(self, key, within=None):
        """Deletes the record, and answers whether there was one. Behind a crash it may be there again."""
        return self._ask(f"del {self._name(key, within)}", _GONE)

    def bury(self, key, within=None):
        """Deletes durably, by a tombstone, and answers its Stamp."""
        return self._ask(f"bury {self._name(key, within)}", _STAMP)

    def flush(self):
        """Brings what waits in write buffers to the devices, and answers how many buffers that were."""
        return self._ask("flush", _NUMBER)

    def heal(self):
        """Closes the gates of which it isn't known whether they are closed, and answers how many. Behind a `flush` the next `raid` is exact then."""
        return self._ask("heal", _NUMBER)

    def expire(self):
        """Removes what is expired, and answers how many records."""
        return self._ask("expire", _NUMBER)

    def defrag(self):
        """Vacates the blocks that wait for it."""
        return self._ask("defrag", {"ok": _numbers(Defragmented)})

    def raid(self):
        """Removes tombstones that are old enough and have no older copy left."""
        return self._ask("raid", {"ok": _numbers(Raided)})

    def counts(self):
        """The Counts of a `stat`."""
        return self._ask("stat", _COUNTS)

    def restart(self):
        """Drops what waits in write buffers, and starts again from the devices."""
        return self._ask("restart", {"ok": _numbers(Restarted)})


class Batch(_Commands):
    """Commands that are sent in one write. Each call answers a Pending, whose value is there once the batch was sent."""

    def __init__(self, client):
        self._client = client
        self.set_name = client.set_name
        self._lines = []
        self._pending = []

    def _ask(self, line, forms):
        pending = Pending(forms)
        self._lines.append(line)
        self._pending.append(pending)
        return pending

    def send(self):
        """Sends all lines, reads all replies, and answers the Pendings in order."""
        lines, pending = self._lines, self._pending
        self._lines, self._pending = [], []
        self._client._exchange(lines, pending)
        return pending

    def __enter__(self):
        return self

    def __exit__(self, kind, _value, _trace):
        if kind is None:
            self.send()


class Client(_Commands):
    """A session over a pair of binary streams: one that the replies are read from, and one that the lines are written to."""

    # So many bytes of lines are sent before their replies are read, and the session takes pieces of this length: so neither side waits
    # for the other to read.
    MOST_AT_ONCE = 65_536
    # A reply has at most 2,088,800 hex digits.
    LONGEST_REPLY = 2_200_000

    def __init__(self, reader, writer, set_name="", closes=()):
        self._reader = reader
        self._writer = writer
        self._closes = closes
        self._is_closed = False
        self.set_name = set_name

    @classmethod
    def start(cls, words, set_name=""):
        """A session over the standard streams of a program that is started with these words."""
        return cls.over(subprocess.Popen(words, stdin=subprocess.PIPE, stdout=subprocess.PIPE), set_name)

    @classmethod
    def over(cls, process, set_name=""):
        """A session over the standard streams of a process, which are pipes. `close` waits for its end."""
        return cls(process.stdout, process.stdin, set_name, (process.stdin.close, process.wait, process.stdout.close))

    def batch(self):
        """Commands that are sent together."""
        return Batch(self)

    def _ask(self, line, forms):
        pending = Pending(forms)
        self._exchange([line], [pending])
        return pending.value()

    def _exchange(self, lines, pending):
        """Sends lines and reads their replies, some at a time. Where the connection ends or times out, what has no reply is Closed, and so is
        the client: a late reply would be taken for the next one."""
        first = 0
        try:
            while first < len(lines):
                end, size = first, 0
                while end < len(lines) and (end == first or size + len(lines[end]) < self.MOST_AT_ONCE):
                    size += len(lines[end]) + 1
                    end += 1
                self._send(lines[first:end])
                while first < end:
                    pending[first]._settle(_answer(self._receive(), pending[first]._forms))
                    first += 1
        except Closed as closed:
            for one in pending[first:]:
                one._settle(closed)
            self.close()
            raise

    def _send(self, lines):
        if self._is_closed:
            raise Closed("the client was closed")
        try:
            self._writer.write("".join(line + "\n" for line in lines).encode("ascii"))
            self._writer.flush()
        except (OSError, ValueError) as error:
            raise Closed(str(error)) from error

    def _receive(self):
        try:
            line = self._reader.readline(self.LONGEST_REPLY)
        except (OSError, ValueError) as error:
            raise Closed(str(error)) from error
        if not line.endswith(b"\n"):
            raise Closed("the connection ended")
        return line[:-1].decode("ascii", "replace")

    def quit(self):
        """Ends the session by its own line, and closes the connection."""
        self._ask("quit", _BYE)
        self.close()

    def close(self):
        """Closes the connection; of a program that was started this is the end of its input, and the program's end is waited for."""
        if not self._is_closed:
            self._is_closed = True
            for close in self._closes:
                try:
                    close()
                except OSError:
                    pass

    def __enter__(self):
        return self

    def __exit__(self, *_error):
        self.close()


def connect(host="127.0.0.1", port=3000, set_name="", timeout=None):
    """A client over TCP. Where a reply takes longer than the timeout, in seconds, the client is closed; so it is where all seats are taken for
    longer. Where nothing serves the port it raises ConnectionRefusedError."""
    link = socket.create_connection((host, port), timeout)
    link.setsockopt(socket.IPPROTO_TCP, socket.TCP_NODELAY, 1)
    reader, writer = link.makefile("rb"), link.makefile("wb")
    return Client(reader, writer, set_name, (writer.close, reader.close, link.close))
