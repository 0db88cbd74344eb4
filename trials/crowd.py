"""Clients of a server that send random commands at the same time, and keep what was sent and answered when."""

import multiprocessing
import random
import socket
import threading
import time

from orders import Op
from serving import HOST, PATIENCE

# No batch has more commands that change one digest.
MOST_OF_ONE = 2


def random_digests(source, count):
    """Digests of different partitions, whose times have nothing to do with one another."""
    return [f"{partition % 256:02x}{partition // 256:02x}{source.getrandbits(144):036x}" for partition in source.sample(range(4_096), count)]


class Commands:
    """Random commands of one client, in batches. Each payload is put once, so a record tells which put it is of."""

    def __init__(self, seed, client, digests, lengths, batches=(1, 1, 1, 2, 6), lives=(0, 0, 0, 1, 2, 3), first=0):
        self.source = random.Random(f"{seed} {client} {first}")
        self.client, self.digests, self.lengths, self.batches, self.lives = client, digests, lengths, batches, lives
        self.count = first
        self.seen = {}

    def payload(self):
        self.count += 1
        length = 2 * self.source.choice(self.lengths)
        number = f"{self.client:02x}{self.count:08x}"
        return (number + f"{self.source.getrandbits(64):016x}" * (length // 16))[:length].ljust(length, "0")

    def expected(self, digest):
        """Mostly any generation, and now and then none, or the one that was seen last."""
        return self.source.choices(["*", "0", str(self.seen.get(digest, 1))], [60, 10, 30])[0]

    def line(self, digest):
        kind = self.source.choices(["put", "get", "meta", "del", "bury"], [40, 35, 8, 10, 7])[0]
        if kind == "put":
            return f"put {digest} {self.source.choice(self.lives)} {self.expected(digest)} {self.payload()}"
        return f"{kind} {digest}"

    def batch(self):
        lines, changes = [], {}
        for _ in range(self.source.choice(self.batches)):
            other = self.source.choices(["", "flush", "stat", "expire", "defrag", "heal"], [964, 20, 10, 3, 2, 1])[0]
            # Half of the commands are of an eighth of the digests.
            few = self.digests[: max(1, len(self.digests) // 8)]
            digest = self.source.choice(few if self.source.random() < 0.5 else self.digests)
            if not other and changes.get(digest, 0) < MOST_OF_ONE:
                changes[digest] = changes.get(digest, 0) + 1
                lines.append(self.line(digest))
            else:
                lines.append(other or f"get {digest}")
        return lines

    def note(self, op):
        """The generation of a digest as a reply tells it."""
        if len(op.words) > 1 and op.reply[0] in ("ok", "val", "meta"):
            self.seen[op.words[1]] = int(op.reply[1]) if op.reply[1].isdigit() else 0


def now_ms():
    return time.time_ns() // 1_000_000


class Talk:
    """A connection, and all that goes over it."""

    def __init__(self, client, port):
        self.client = client
        self.link = socket.create_connection((HOST, port), PATIENCE)
        self.link.setsockopt(socket.IPPROTO_TCP, socket.TCP_NODELAY, 1)
        self.ops = []
        self.rest = b""

    def say(self, lines):
        """Sends a batch, and reads its replies. It answers whether all came."""
        begun, early = time.monotonic_ns(), now_ms()
        ops = [Op(self.client, len(self.ops) + at, line, begun, early) for at, line in enumerate(lines)]
        self.ops += ops
        try:
            self.link.sendall("".join(f"{line}\n" for line in lines).encode())
            return self.hear(ops)
        except OSError:
            return False

    def hear(self, ops):
        waiting = 0
        while waiting < len(ops):
            piece = self.link.recv(1 << 18)
            ended, late = time.monotonic_ns(), now_ms()
            *replies, self.rest = (self.rest + piece).split(b"\n")
            for reply in replies:
                ops[waiting].answer(reply.decode(), ended, late)
                waiting += 1
            if not piece:
                return False
        return True

    def close(self):
        self.link.close()


def talk(commands, port, count, stop=None):
    """Sends so many commands, or until something comes between; what was sent and answered."""
    try:
        line = Talk(commands.client, port)
    except OSError:
        return []
    while len(line.ops) < count and not (stop and stop.is_set()):
        begin = len(line.ops)
        if not line.say(commands.batch()):
            break
        for op in line.ops[begin:]:
            commands.note(op)
    line.close()
    return line.ops


def all_in_processes(clients, port, count):
    """Each client in a process of its own; all that was sent and answered."""
    with multiprocessing.Pool(len(clients)) as pool:
        return sum(pool.starmap(talk, [(commands, port, count) for commands in clients], chunksize=1), [])


def all_in_threads(clients, port, count, stop):
    """Each client in a thread, begun; what it says is had behind its end."""
    said = [[] for _ in clients]

    def work(at):
        said[at] = talk(clients[at], port, count, stop)

    threads = [threading.Thread(target=work, args=(at,)) for at in range(len(clients))]
    for thread in threads:
        thread.start()

    def ended():
        for thread in threads:
            thread.join()
        return sum(said, [])

    return ended


def read_all(client, port, digests):
    """Reads digests one after another, as a client of its own, as far as the server goes."""
    try:
        line = Talk(client, port)
    except OSError:
        return []
    for begin in range(0, len(digests), 50):
        if not line.say([f"get {digest}" for digest in digests[begin: begin + 50]]):
            break
    line.close()
    return line.ops
