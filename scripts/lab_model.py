"""A plain model of the four primitives, for `scripts/check_lab`: what `saa-lab explain` must say of a script, line by line.

Written apart from the program and from the specification's files, from what docs/DEFINITIONS.md and docs/LANGUAGES.md say. A script's lines are good.
"""


class Pager:
    """Idle, or waiting, or answered; what it asked, how it was registered, and whether it has a slot."""

    def __init__(self):
        self.is_idle, self.answer, self.asks, self.is_sync, self.has_slot, self.takes = True, None, None, False, False, None


class Model:
    """What all four have in common: pagers, a queue of their numbers, and room."""

    def __init__(self, room):
        self.room, self.queue, self.pagers, self.answered = room, [], {}, []

    def pager(self, number):
        return self.pagers.setdefault(number, Pager())

    def give(self, number, answer):
        """Answers a waiter."""
        self.queue.remove(number)
        self.pager(number).answer = answer
        self.answered.append(number)

    def give_front(self, most, answer):
        """Answers at most so many waiters, the oldest first, and returns how many they were."""
        front = self.queue[:most]
        for number in front:
            self.give(number, answer)
        return len(front)

    def give_all(self, answer):
        return self.give_front(len(self.queue), answer)

    def register(self, number, asks, how):
        one = self.pager(number)
        if not one.is_idle or self.is_too_much(asks):
            return "false"
        answer = self.at_once(asks)
        if answer is None and sum(it.has_slot for it in self.pagers.values()) >= self.room:
            return "full"
        one.is_idle, one.answer, one.asks, one.is_sync, one.has_slot = False, answer, asks, how == "sync", answer is None
        if answer is None:
            self.queue.append(number)
        return "true"

    def poll(self, number, how):
        one = self.pager(number)
        if one.is_idle:
            return "not_registered"
        if how is not None and one.is_sync != (how == "sync"):
            return "wrong_mode"
        if one.answer is None:
            return "not_ready"
        answer = one.answer
        self.pagers[number] = Pager()
        return answer

    def drop(self, number, is_quiet=False):
        one = self.pager(number)
        self.pagers[number] = Pager()
        if number in self.queue:
            self.queue.remove(number)
            self.left(is_quiet)
        elif not one.is_idle and one.answer in self.GRANTED:
            self.undo(one.asks)
        return "dropped"

    GRANTED = ()

    def is_too_much(self, asks):
        return False

    def left(self, is_quiet):
        pass

    def undo(self, asks):
        pass

    def settle(self):
        while self.queue and self.fits(self.pager(self.queue[0]).asks):
            number = self.queue[0]
            self.take(self.pager(number).asks)
            self.give(number, self.GRANTED[0])

    def line(self, words):
        """Does what a line says, and answers its reply."""
        self.answered = []
        word, rest = words[0], words[1:]
        if word == "reg":
            return self.register(int(rest[0]), rest[1] if len(rest) == 3 else "", rest[-1])
        if word in ("try_poll", "poll_sync", "poll_async"):
            return self.poll(int(rest[0]), {"try_poll": None, "poll_sync": "sync", "poll_async": "async"}[word])
        if word == "registered":
            return "false" if self.pager(int(rest[0])).is_idle else "true"
        if word == "drop":
            return self.drop(int(rest[0]))
        if word == "leave":
            return self.drop(int(rest[0]), is_quiet=True)
        return self.call(word, *rest)


def truth(is_so):
    return "true" if is_so else "false"


class Semaphore(Model):
    GRANTED = ("ok",)

    def __init__(self, bound, free, room):
        super().__init__(room)
        self.bound, self.free, self.is_shut = bound, min(free, bound), False

    def held(self):
        return f"{self.free} of {self.bound} free" + (", shut" if self.is_shut else "")

    def fits(self, asks):
        return not self.is_shut and int(asks) <= self.free

    def take(self, asks):
        self.free -= int(asks)

    def is_too_much(self, asks):
        return int(asks) > self.bound

    def at_once(self, asks):
        if self.is_shut:
            return "closed"
        if self.queue or not self.fits(asks):
            return None
        self.take(asks)
        return "ok"

    def left(self, is_quiet):
        self.settle()

    def undo(self, asks):
        """Takes permits back; none where fewer are out."""
        if int(asks) > self.bound - self.free:
            return "false"
        self.free += int(asks)
        self.settle()
        return "true"

    def call(self, word, count="0"):
        if word == "try":
            return truth(self.at_once(count) == "ok")
        if word == "release":
            return self.undo(count)
        if word == "shut":
            was, self.is_shut = self.is_shut, True
            self.give_all("closed")
            return truth(not was)
        return {"available": str(self.free), "is_open": truth(self.free > 0), "is_closed": truth(self.free == 0), "is_shut": truth(self.is_shut)}[word]


class Lock(Model):
    GRANTED = ("true",)

    def __init__(self, room):
        super().__init__(room)
        # (63 for one owner, else the sharers; None where it is poisoned)
        self.count = 0

    def held(self):
        return {None: "poisoned", 0: "free", 63: "one owner", 1: "1 sharer"}.get(self.count, f"{self.count} sharers")

    def fits(self, asks):
        return self.count is not None and (self.count == 0 if asks.endswith("exclusive") else self.count < 62)

    def take(self, asks):
        self.count += {"exclusive": 63, "shared": 1}.get(asks, 0)

    def at_once(self, asks):
        if self.count is None:
            return "false"
        if self.queue or not self.fits(asks):
            return None
        self.take(asks)
        return "true"

    def left(self, is_quiet):
        self.settle()

    def undo(self, asks):
        if asks in ("exclusive", "shared"):
            self.release(asks)

    def release(self, asks):
        if self.count is None or (self.count != 63 if asks == "exclusive" else self.count in (0, 63)):
            return "false"
        self.count -= 63 if asks == "exclusive" else 1
        self.settle()
        return "true"

    def call(self, word):
        if word in ("try_lock", "try_share"):
            answer = self.at_once("exclusive" if word == "try_lock" else "shared")
            return {"true": "ok", "false": "poisoned", None: "would_block"}[answer]
        if word in ("release_lock", "release_share"):
            return self.release("exclusive" if word == "release_lock" else "shared")
        if word in ("downgrade", "poison_lock"):
            if self.count != 63:
                return "false"
            if word == "downgrade":
                self.count = 1
                self.settle()
            else:
                self.count = None
                self.give_all("false")
            return "true"
        if word == "clear_poison":
            was = self.count is None
            self.count = 0 if was else self.count
            return truth(was)
        return truth({"is_free": self.count == 0, "is_locked": self.count == 63, "is_shared": self.count not in (None, 0, 63), "is_poisoned": self.count is None}[word])


class Gate(Model):
    def __init__(self, room):
        super().__init__(room)
        self.state = "controlled"

    def held(self):
        return self.state

    def at_once(self, asks):
        return {"controlled": None, "sealed": "sealed", "open": "ok open"}[self.state]

    def left(self, is_quiet):
        if not is_quiet:
            self.give_all("spurious")

    def call(self, word, *rest):
        before = self.state
        if word == "state":
            return before
        if word == "reset":
            self.state = "controlled"
            return "none" if before == "controlled" else before
        if word in ("permit", "reject"):
            if before != "controlled":
                return f"err {before}"
            return f"ok {self.give_all('ok controlled' if word == 'permit' else 'rejected')}"
        if word == "permit_many":
            return f"err {before}" if before != "controlled" else f"ok {self.give_front(int(rest[0]), 'ok controlled')}"
        self.state = {"open": "open", "seal": "sealed"}[word]
        return f"{before} {self.give_all({'open': 'ok open', 'seal': 'sealed'}[word])}"


class Barrier(Model):
    def __init__(self, size, room):
        super().__init__(room)
        # (arrivals of the round that don't wait, and rounds that are complete)
        self.size, self.arrived, self.rounds = min(size, 63), 0, 0

    def missing(self):
        return max(self.size - self.arrived - len(self.queue), 0)

    def held(self):
        return "1 arrival to come" if self.missing() == 1 else f"{self.missing()} arrivals to come"

    def resize(self, size, arrived):
        """Whether the round is complete at this size, with so many arrivals that don't wait."""
        self.size, self.arrived = size, arrived
        is_complete = max(size, 1) <= arrived + len(self.queue)
        if is_complete:
            self.give_all("false")
            self.arrived = 0
            self.rounds += 1
        return truth(is_complete)

    def at_once(self, asks):
        if self.arrived + len(self.queue) + 1 != self.size:
            return None
        self.resize(self.size, self.arrived + 1)
        return "true"

    def call(self, word):
        if word in ("count", "round"):
            return str(self.missing() if word == "count" else self.rounds)
        if self.size == (63 if word == "join" else 0):
            return "false"
        if word == "join":
            self.resize(self.size + 1, self.arrived)
            return "true"
        return self.resize(self.size, self.arrived + 1) if word == "arrive" else self.resize(self.size - 1, self.arrived)


def made(words):
    """Returns the model that a first line makes."""
    numbers = [int(it) for it in words[1:]]
    if words[0] == "semaphore":
        return Semaphore(63, *numbers)
    return {"bounded": Semaphore, "lock": Lock, "gate": Gate, "barrier": Barrier}[words[0]](*numbers)


def explained(lines):
    """Returns what explain must say of good lines: of each its reply, what is held, the waiters with what they ask, and who was answered."""
    model = made(lines[0].split())
    said = []
    for line in lines:
        reply = "" if not said else model.line(line.split())
        waiting = [{"pager": it, "asks": model.pager(it).asks} for it in model.queue]
        said.append({"reply": reply, "held": model.held(), "waiting": waiting, "answered": list(model.answered)})
    return said
