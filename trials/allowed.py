"""What the replies of runs allow to be on the devices.

Of each digest there is a set of histories: the writes and ordinary deletes in their order, and which of the writes were flushed
for sure. Each reply leaves those of which it is true. What a run leaves that was cut off is a front of a history that ends in a
write, or nothing: one that has the last flushed write, unless an ordinary delete followed it, and, unless it is nothing, every
flushed tombstone. Lines without a reply may have been carried out up to any one of them.
"""

from collections import namedtuple

# A put or a tombstone. The time is none where no reply has told it.
Write = namedtuple("Write", "kind generation time data cover flushed")
DROP = "drop"


class Refuted(Exception):
    """No history allows a reply."""


def top(history):
    """The last write, unless a delete took it out of the index."""
    return history[-1] if history and history[-1] != DROP else None


def seen(history):
    last = top(history)
    return last if last and last.kind == "put" else None


def flushed(history):
    """All of it is flushed. What is older than a flushed tombstone can't come back, so it goes."""
    tombs = [at for at, item in enumerate(history) if item != DROP and item.kind == "tomb"]
    kept = history[tombs[-1]:] if tombs else history
    return tuple(item if item == DROP else item._replace(flushed=True) for item in kept)


def fronts(history):
    """What a start may make of it."""
    writes = [at for at, item in enumerate(history) if item != DROP]
    sure = [at for at in writes if history[at].flushed]
    least = sure[-1] if sure and DROP not in history[sure[-1]:] else -1
    tombs = [at for at in sure if history[at].kind == "tomb"]
    kept = {()} if least < 0 else set()
    for at in writes:
        if at >= least and (not tombs or at >= tombs[-1]):
            kept.add(flushed(history[: at + 1]))
    return kept


def with_write(history, kind, time, data, sure):
    """The history with one more write, whose generation follows from it; none where the time doesn't."""
    last = top(history)
    generation = last.generation % 65_535 + 1 if last else 1
    if last and time is not None and last.time is not None:
        if time < last.time or (generation == 1 and time == last.time):
            return None
    cover = kind == "tomb" or bool(last and last.cover)
    return history + (Write(kind, generation, time, data, cover, sure),)


def is_expected(history, words):
    """Whether a put may be carried out: what it expects is what is seen."""
    last = seen(history)
    return words[3] == "*" or int(words[3]) == (last.generation if last else 0)


def outcomes(history, words):
    """What the history may be behind a line whose reply isn't there."""
    last = seen(history)
    if words[0] == "put" and is_expected(history, words):
        return {history, with_write(history, "put", None, words[4], False)}
    if words[0] == "bury":
        return {history, with_write(history, "tomb", None, "", False)}
    if words[0] == "del" and last and last.cover:
        return {history, with_write(history, "tomb", None, "", False)}
    if words[0] == "del" and last:
        return {history + (DROP,)}
    return {history}


class Allowed:
    """The histories of all digests. `commit` says whether the run that is read has commit on."""

    def __init__(self):
        self.histories = {}
        self.commit = False

    def copy(self):
        other = Allowed()
        other.histories = dict(self.histories)
        other.commit = self.commit
        return other

    def digests(self):
        return list(self.histories)

    def of(self, digest):
        return self.histories.setdefault(digest, frozenset({()}))

    def keep(self, digest, gives, line, reply):
        """Leaves the histories of which the reply is true, as they are behind it."""
        before = self.of(digest)
        after = frozenset(new for history in before if (new := gives(history)) is not None)
        if not after:
            shown = "\n".join(f"    {history}" for history in sorted(before, key=len)[-6:])
            raise Refuted(f"{line[:90]}\n  was answered {reply[:90]}\n  which none of {len(before)} histories allows, as\n{shown}")
        self.histories[digest] = after

    def read(self, line, reply):
        """Takes a line with its reply."""
        words = line.split()
        if words[0] == "flush":
            self.want(reply.startswith("ok "), line, reply)
            self.change_all(lambda history: {flushed(history)})
        elif words[0] == "restart":
            self.want(reply.startswith("ok "), line, reply)
            self.cut_off([])
        elif words[0] == "heal":
            # No device fails, so there is no gate to close.
            self.want(reply == "ok 0", line, reply)
        elif words[0] == "quit":
            self.want(reply == "bye", line, reply)
        else:
            self.keep(words[1], lambda history: self.behind(history, words, reply.split()), line, reply)

    @staticmethod
    def want(right, line, reply):
        if not right:
            raise Refuted(f"{line} was answered {reply}")

    def behind(self, history, words, reply):
        """The history behind a line of one digest with this reply, or none where it doesn't allow that."""
        kind = {"put": self.put, "bury": self.buried, "del": self.deleted, "get": self.got, "meta": self.told}
        return kind[words[0]](history, words, reply)

    def put(self, history, words, reply):
        if reply[:2] == ["err", "gen"]:
            last = seen(history)
            generation = last.generation if last else 0
            return history if not is_expected(history, words) and reply[2:] == [str(generation)] else None
        if not is_expected(history, words):
            return None
        if reply in (["err", "space"], ["err", "load"]):
            return history
        return self.written(history, "put", words[4], reply)

    def buried(self, history, _words, reply):
        if reply in (["err", "space"], ["err", "load"]):
            return history
        return self.written(history, "tomb", "", reply)

    def written(self, history, kind, data, reply):
        if len(reply) != 3 or reply[0] != "ok":
            return None
        new = with_write(history, kind, int(reply[2]), data, self.commit)
        return new if new and new[-1].generation == int(reply[1]) else None

    def deleted(self, history, _words, reply):
        last = seen(history)
        if reply in (["err", "space"], ["err", "load"]):
            return history if last and last.cover else None
        if not last:
            return history if reply == ["none"] else None
        if reply != ["gone"]:
            return None
        return with_write(history, "tomb", None, "", self.commit) if last.cover else history + (DROP,)

    @staticmethod
    def got(history, _words, reply):
        last = seen(history)
        if not last:
            return history if reply == ["none"] else None
        if len(reply) != 5 or [reply[0], reply[1], reply[3], reply[4]] != ["val", str(last.generation), "0", last.data]:
            return None
        if last.time is not None and last.time != int(reply[2]):
            return None
        return history[:-1] + (last._replace(time=int(reply[2])),)

    @staticmethod
    def told(history, _words, reply):
        last = seen(history)
        if not last:
            return history if reply == ["none"] else None
        units = (48 + (0 if last.data == "-" else len(last.data) // 2) + 15) // 16
        if len(reply) != 5 or [reply[0], reply[1], reply[3], reply[4]] != ["meta", str(last.generation), "0", str(units)]:
            return None
        return history if last.time in (None, int(reply[2])) else None

    def change_all(self, gives):
        for digest, histories in self.histories.items():
            self.histories[digest] = frozenset().union(*map(gives, histories))

    def cut_off(self, unanswered):
        """The run was cut off, and these lines went in without a reply. What a start may find is allowed then."""
        for line in unanswered:
            words = line.split()
            if len(words) > 1:
                self.of(words[1])
        for digest in self.histories:
            self.histories[digest] = self.left_of(digest, unanswered)

    def left_of(self, digest, unanswered):
        now = set(self.histories[digest])
        left = set().union(*map(fronts, now))
        for line in unanswered:
            words = line.split()
            if words[0] == "restart":
                now = set().union(*map(fronts, now))
            elif words[0] == "flush":
                now = set(map(flushed, now))
            elif words[1:2] == [digest]:
                now = set().union(*(outcomes(history, words) for history in now))
            else:
                continue
            left.update(*map(fronts, now))
        return frozenset(left)

    def closed(self):
        """The run ended well, so all is flushed."""
        self.change_all(lambda history: {flushed(history)})
        self.cut_off([])
