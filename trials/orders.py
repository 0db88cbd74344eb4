"""Whether the replies to several clients at the same time fit one order, and what they then allow to be on the devices.

Of each digest there is a set of histories, as in allowed.py: its writes and removals in their order. A command is carried out at one moment
between when it was sent and when its reply was received; so of the commands that are under way any may come first, those of one client in
their own order. Each reply leaves the histories of which it is true. Beside the clients the workers of a server change a history at any moment:
what is expired is removed, a raid removes a tombstone of which no older copy is left, and clears a cover likewise.

A flush that was answered makes durable what was answered before the flush was sent; with commit on each answer says that.
"""

import multiprocessing
from collections import namedtuple

from allowed import DROP, Refuted, flushed, fronts, top

__all__ = ["Op", "Orders", "Refuted"]

# A put or a tombstone. The time is none where no reply has told it. The void time is one of a range, whose ends are 0 for a record that never
# expires. A cover is cleared only in memory. `at` is when its reply was received, none where that didn't happen.
Item = namedtuple("Item", "kind generation time least_void most_void data cover flushed at")
OPEN, COVERED, CLEARED = 0, 1, 2

REFUSED = (["err", "space"], ["err", "load"])


class Op:
    """A command of a client with its reply, none where it has none: when it was sent and answered, in any unit, and by the clock in milliseconds."""

    __slots__ = ("client", "number", "words", "reply", "begun", "ended", "early", "late")

    def __init__(self, client, number, line, begun, early):
        self.client, self.number, self.words = client, number, line.split()
        self.reply = self.ended = self.late = None
        self.begun, self.early = begun, early

    def answer(self, reply, ended, late):
        self.reply, self.ended, self.late = reply.split(), ended, late

    def __str__(self):
        shown = "?" if self.reply is None else " ".join(self.reply)[:90]
        return f"client {self.client}, {' '.join(self.words)[:90]} -> {shown} (from {self.begun} to {self.ended})"


def is_expired(item, now):
    """Whether it may be expired at this time, and whether it may not be."""
    if item.most_void == 0:
        return False, True
    return now // 1000 >= item.least_void, now // 1000 < item.most_void


def views(history, op):
    """What may be seen by a command: the last put, or nothing."""
    last = top(history)
    if not last or last.kind != "put":
        return [None]
    late = float("inf") if op.late is None else op.late
    if last.most_void == 0 or late // 1000 < last.least_void:
        return [last]
    return [last, None] if op.early // 1000 < last.most_void else [None]


def is_behind(item, time, generation, last):
    """Whether an earlier write of a history would be the later one. Where there is no entry, the new time is later than all before."""
    return (time, generation) <= (item.time, item.generation) if last else time <= item.time


def written(history, op, kind, stamp, data="", life=0):
    """The history with one more write of this generation and time, if these follow."""
    last = top(history)
    generation = last.generation % 65_535 + 1 if last else 1
    told, time = stamp or (generation, None)
    if told != generation:
        return []
    if time is not None:
        if time < op.early or any(item.time is not None and is_behind(item, time, generation, last) for item in history if item != DROP):
            return []
        # Ahead of the clock it is only where the entry's time is, or that of the sprig of a new entry.
        if time > op.late + 1_000 or (time > op.late and last and last.time is not None and time > last.time):
            return []
    least = op.early // 1000 + life if life else 0
    most = (least + 3_600 if op.late is None else op.late // 1000 + life) if life else 0
    cover = COVERED if kind == "tomb" or (last and last.cover == COVERED) else OPEN
    return [history + (Item(kind, generation, time, least, most, data, cover, False, op.ended),)]


def removed(history, op):
    """The history behind an ordinary delete of what is seen."""
    if top(history).cover == COVERED:
        return written(history, op, "tomb", None)
    return [history + (DROP,)]


def put(history, seen, op):
    expected = op.words[3] == "*" or int(op.words[3]) == (seen.generation if seen else 0)
    life, data, reply = int(op.words[2]), op.words[4], op.reply
    if reply is None:
        return written(history, op, "put", None, data, life) if expected else [history]
    if reply[:2] == ["err", "gen"]:
        return [history] if not expected and reply[2:] == [str(seen.generation if seen else 0)] else []
    if not expected:
        return []
    if reply in REFUSED:
        return [history]
    return written(history, op, "put", (int(reply[1]), int(reply[2])), data, life) if reply[0] == "ok" else []


def bury(history, _seen, op):
    reply = op.reply
    if reply is None:
        return written(history, op, "tomb", None)
    if reply in REFUSED:
        return [history]
    return written(history, op, "tomb", (int(reply[1]), int(reply[2]))) if reply[0] == "ok" else []


def delete(history, seen, op):
    reply = op.reply
    if reply == ["none"] or (reply is None and not seen):
        return [] if seen else [history]
    if not seen:
        return []
    if reply in REFUSED:
        return [history] if seen.cover == COVERED else []
    return removed(history, op) if reply in (None, ["gone"]) else []


def narrowed(history, time, void):
    """The history whose last put has this time and void time, if it may."""
    last = history[-1]
    if last.time not in (None, time) or not last.least_void <= void <= last.most_void:
        return []
    return [history[:-1] + (last._replace(time=time, least_void=void, most_void=void),)]


def get(history, seen, op):
    reply = op.reply
    if reply is None:
        return [history]
    if not seen or reply == ["none"]:
        return [history] if not seen and reply == ["none"] else []
    if [reply[0], reply[1], reply[4]] != ["val", str(seen.generation), seen.data]:
        return []
    return narrowed(history, int(reply[2]), int(reply[3]))


def meta(history, seen, op):
    reply = op.reply
    if reply is None:
        return [history]
    if not seen or reply == ["none"]:
        return [history] if not seen and reply == ["none"] else []
    units = (48 + (0 if seen.data == "-" else len(seen.data) // 2) + 15) // 16
    if [reply[0], reply[1], reply[4]] != ["meta", str(seen.generation), str(units)]:
        return []
    return narrowed(history, int(reply[2]), int(reply[3]))


KINDS = {"put": put, "bury": bury, "del": delete, "get": get, "meta": meta}


def behind(history, op):
    """The histories behind a command, none where they don't allow its reply."""
    carried_out = KINDS[op.words[0]]
    return {new for seen in views(history, op) for new in carried_out(history, seen, op)}


def is_reading(op):
    """Whether it changes nothing, by its reply."""
    return op.words[0] in ("get", "meta") or (op.reply is not None and op.reply[0] in ("none", "err"))


def beside(history, late):
    """What the workers may make of a history up to this time, itself among it."""
    found = {history}
    left = [history]
    while left:
        for new in one_beside(left.pop(), late):
            if new not in found:
                found.add(new)
                left.append(new)
    return found


def one_beside(history, late):
    last = top(history)
    if not last:
        return
    if last.kind == "tomb":
        yield (last._replace(flushed=True), DROP)
        return
    if last.cover == COVERED:
        yield (last._replace(cover=CLEARED),)
    if is_expired(last, late)[0]:
        if last.cover == COVERED:
            yield history + (Item("tomb", last.generation % 65_535 + 1, None, 0, 0, "", COVERED, False, None),)
        else:
            yield history + (DROP,)


class Story:
    """One digest: what may be of it, each with the commands that are carried out and not answered yet; and the commands that are under way."""

    def __init__(self, histories):
        self.choices = {(history, frozenset()) for history in histories}
        self.pending = {}
        self.most = 0

    def begin(self, op):
        self.pending[op.client, op.number] = op

    def next_ones(self, done):
        """The first command of each client that is under way and not carried out yet."""
        first = {}
        for key, op in self.pending.items():
            if key not in done and (op.client not in first or op.number < first[op.client].number):
                first[op.client] = op
        return first.values()

    def with_readings(self, history, done):
        """A reading that fits is carried out at once: it changes nothing, so none behind it fits the less."""
        again = True
        while again:
            again = False
            for op in self.next_ones(done):
                if is_reading(op) and op.reply is not None:
                    for new in behind(history, op):
                        history, done, again = new, done | {(op.client, op.number)}, True
                        break
        return history, done

    def reach(self, late, wanted=None):
        """All that may be by now; where a command is wanted, up to where it is carried out."""
        start = {self.with_readings(history, done) for history, done in self.choices}
        found, left, reached = set(start), list(start), set()
        while left:
            history, done = left.pop()
            if wanted is None or wanted in done:
                reached.add((history, done))
                if wanted is not None:
                    continue
            for new in self.followers(history, done, late):
                if new not in found:
                    found.add(new)
                    left.append(new)
        self.most = max(self.most, len(found))
        return reached

    def followers(self, history, done, late):
        for other in beside(history, late):
            if other != history:
                yield self.with_readings(other, done)
        for op in self.next_ones(done):
            for new in behind(history, op):
                yield self.with_readings(new, done | {(op.client, op.number)})

    def end(self, op, sure, commit):
        """The command is answered. What was sure before it was sent is durable."""
        key = (op.client, op.number)
        reached = self.reach(op.late, key)
        if not reached:
            self.refute(op)
        self.choices = {(shortened(history, sure, commit), done - {key}) for history, done in reached}
        del self.pending[key]

    def refute(self, op):
        choices = "".join(f"\n    {shown(history)}; carried out {sorted(done)}" for history, done in list(self.choices)[:6])
        others = "".join(f"\n    {other}" for other in self.pending.values() if other is not op)
        raise Refuted(f"{op}\n  fits none of {len(self.choices)} histories, as{choices}" + (f"\n  beside{others}" if others else ""))


def shown(history):
    """The end of a history in words."""
    texts = []
    for item in history[-6:]:
        if item == DROP:
            texts.append("removed")
            continue
        text = f"{item.kind} {item.generation} at {item.time or '?'} of {item.data[:20] or '-'}"
        if item.most_void:
            text += f", expired from {item.least_void} to {item.most_void}"
        texts.append(text + ("", ", covered", ", its cover cleared")[item.cover] + (", flushed" if item.flushed else ""))
    return "; ".join(texts) or "nothing"


def with_sure(history, sure, commit, now):
    """The history with what is flushed for sure: what was answered by then, or with commit by now."""
    return tuple(
        item._replace(flushed=True) if item != DROP and item.at is not None and (item.at < sure or (commit and item.at <= now)) else item
        for item in history
    )


def shortened(history, sure, commit):
    """The history without what is older than a tombstone that is durable, where it is long."""
    if len(history) < 16:
        return history
    tombs = [at for at, item in enumerate(history) if item != DROP and item.kind == "tomb" and item.at is not None and (commit or item.at < sure)]
    return history[tombs[-1]:] if tombs else history


def found_at_start(history):
    """What a start may make of a history. A cover that was cleared may be there again, or a move has written it so."""
    for front in fronts(history):
        if front and front[-1].cover == CLEARED:
            yield front[:-1] + (front[-1]._replace(cover=COVERED),)
            yield front[:-1] + (front[-1]._replace(cover=OPEN),)
        else:
            yield front


class Orders:
    """All digests. `commit` says whether the server that is read has commit on."""

    def __init__(self, commit=False):
        self.stories = {}
        self.commit = commit
        # Before when what was answered is flushed.
        self.sure = float("-inf")

    def copy(self):
        other = Orders(self.commit)
        other.sure = self.sure
        for digest, story in self.stories.items():
            other.stories[digest] = new = Story(())
            new.choices, new.pending = set(story.choices), dict(story.pending)
        return other

    def of(self, digest):
        return self.stories.setdefault(digest, Story([()]))

    def begin(self, op):
        if op.words[0] in KINDS:
            self.of(op.words[1]).begin(op)

    def end(self, op):
        word, reply = op.words[0], op.reply
        if word in KINDS:
            self.of(op.words[1]).end(op, self.sure, self.commit)
        elif word == "flush":
            self.want(reply[0] == "ok", op)
            self.sure = max(self.sure, op.begun)
        elif word == "heal":
            # No disk fails, so there is no gate to close.
            self.want(reply == ["ok", "0"], op)
        elif word in ("expire", "defrag"):
            self.want(reply[0] == "ok" or reply in REFUSED, op)
        else:
            self.want(reply[0] in ("stat", "bye"), op)

    @staticmethod
    def want(right, op):
        if not right:
            raise Refuted(f"{op}, which isn't expected")

    def read(self, ops):
        """Takes commands, by the times at which they were sent and answered. What has no reply stays under way."""
        moments = [(op.begun, 0, op) for op in ops] + [(op.ended, 1, op) for op in ops if op.ended is not None]
        moments.sort(key=lambda moment: moment[:2])
        for _, is_end, op in moments:
            (self.end if is_end else self.begin)(op)

    def read_side_by_side(self, ops):
        """Takes many commands as `read` does, some digests in each process."""
        parts = {}
        for op in ops:
            if op.words[0] in KINDS:
                parts.setdefault(op.words[1], []).append(op)
        rest = [op for op in ops if op.words[0] not in KINDS]
        with multiprocessing.Pool(initializer=take_parts, initargs=(self, parts, rest)) as pool:
            for digest, story, trouble in pool.imap_unordered(read_part, parts):
                if trouble:
                    raise Refuted(trouble)
                self.stories[digest] = story
        self.read(rest)

    def cut_off(self, now, clock):
        """The server was cut off then. What a start may find is allowed."""
        for digest, story in self.stories.items():
            reached = {with_sure(history, self.sure, self.commit, now) for history, _ in story.reach(clock)}
            self.stories[digest] = Story({front for history in reached for front in found_at_start(history)})
        self.sure = float("-inf")

    def closed(self, clock):
        """The server ended well, so all is flushed."""
        for digest, story in self.stories.items():
            reached = {flushed(history) for history, _ in story.reach(clock)}
            self.stories[digest] = Story({front for history in reached for front in found_at_start(history)})
        self.sure = float("-inf")

    def most_choices(self):
        return max((story.most for story in self.stories.values()), default=0)


# What a process that reads some digests begins with.
_begun = None


def take_parts(*given):
    global _begun
    _begun = given


def read_part(digest):
    """The story of a digest, or why its replies don't fit."""
    orders, parts, rest = _begun
    own = Orders(orders.commit)
    own.sure = orders.sure
    own.stories[digest] = orders.of(digest)
    try:
        own.read(parts[digest] + rest)
    except Refuted as error:
        return digest, None, str(error)
    return digest, own.stories[digest], None
