"""Random lines, and runs of the program that are fed with them batch by batch."""

import argparse
import subprocess
import threading
from pathlib import Path

PROGRAM = Path(__file__).resolve().parent.parent / "build" / "node_prog"

# No batch has more writes and deletes of one digest, since each that has no reply doubles the histories.
MOST_OF_ONE = 5


def options(text):
    """The options that each trial has."""
    parser = argparse.ArgumentParser(description=text, formatter_class=argparse.RawDescriptionHelpFormatter)
    parser.add_argument("--program", type=Path, default=PROGRAM, help="the program (build/node_prog, which a start by ./hemwaziq makes)")
    return parser


def need_program(parser, chosen):
    """The whole path of the program, which has to be there."""
    program = chosen.program.resolve()
    if not program.is_file():
        parser.error(f"{program} isn't there; ./hemwaziq try </dev/null builds it")
    return program


class Lines:
    """Random lines over some digests. Each payload is put once, so a record tells which put it is of."""

    def __init__(self, source, digests, profile):
        self.source = source
        self.digests = digests
        self.profile = profile
        self.count = 0

    def payload(self):
        self.count += 1
        length = self.source.choice({"small": [4, 20, 300], "mixed": [4, 300, 3_000, 9_000], "large": [3_000, 8_000, 12_208]}[self.profile])
        number = f"{self.count:08x}"
        return (number + f"{self.source.getrandbits(64):016x}" * (length // 8))[: 2 * length]

    def line(self, digest):
        """A line that may change this digest."""
        kind = self.source.choices(["put", "bury", "del"], [80, 9, 11])[0]
        if kind != "put":
            return f"{kind} {digest}"
        expect = self.source.choices(["*", "0", str(self.source.randrange(1, 6))], [88, 7, 5])[0]
        return f"put {digest} 0 {expect} {self.payload()}"

    def batch(self):
        """A few lines, and now and then a flush, a reading or a restart among them."""
        lines = []
        writes = {}
        for _ in range(self.source.choice([1, 2, 5, 12, 25])):
            digest = self.source.choice(self.digests)
            other = self.source.choices(["write", "flush", "get", "meta", "restart", "heal"], [69, 12, 10, 6, 2, 1])[0]
            if other == "write" and writes.get(digest, 0) < MOST_OF_ONE:
                writes[digest] = writes.get(digest, 0) + 1
                lines.append(self.line(digest))
            elif other in ("flush", "restart", "heal"):
                lines.append(other)
            else:
                lines.append(f"{'meta' if other == 'meta' else 'get'} {digest}")
        return lines


def random_digests(source, count):
    return [f"{source.getrandbits(160):040x}" for _ in range(count)]


def start(words, folder):
    """Starts the program in a folder."""
    return subprocess.Popen(words, cwd=folder, stdin=subprocess.PIPE, stdout=subprocess.PIPE, stderr=subprocess.PIPE)


def make_devices(program, folder, names, blocks):
    """New devices of blocks of 16,384 bytes."""
    words = [program, "format", "--block-size", "16384", "--blocks", str(blocks), *names]
    subprocess.run(words, cwd=folder, check=True, stdin=subprocess.DEVNULL, stdout=subprocess.DEVNULL)


def close_input(process):
    try:
        process.stdin.close()
    except BrokenPipeError:
        pass


def converse(process, batches, read, before=lambda number: None):
    """Feeds a run with batches of lines, each when the one in front of it is answered, and gives each line with its reply to `read`.
    The lines that went in and have no reply are answered. `before` is called in front of each batch with its number."""
    answered = threading.Semaphore(0)
    sent = []
    wanted = []
    over = threading.Event()

    def feed():
        try:
            for number, batch in enumerate(batches):
                if over.is_set():
                    break
                before(number)
                sent.extend(batch)
                wanted.append(len(sent))
                process.stdin.write("".join(f"{line}\n" for line in batch).encode())
                process.stdin.flush()
                answered.acquire()
        except BrokenPipeError:
            pass
        close_input(process)

    feeder = threading.Thread(target=feed, daemon=True)
    feeder.start()
    replies = 0
    try:
        for text in process.stdout:
            if not text.endswith(b"\n"):
                break
            read(sent[replies], text[:-1].decode())
            replies += 1
            if replies == wanted[-1]:
                answered.release()
    except BaseException:
        process.kill()
        raise
    finally:
        over.set()
        answered.release()
        feeder.join()
    return sent[replies:]
