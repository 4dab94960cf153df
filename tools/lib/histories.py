"""Whether the calls of one key, as their clients recorded them, are those of one register: a sequence of the calls in which each
stands at a moment between its start and its end, and each read has what the write before it brought.

A write's value comes with no other write, but for GONE, which is a deletion's. A write that was cut or refused has no end: it may
take place at any moment behind its start, or never. A register begins with GONE.

The search goes from state to state, and never back to one that it has seen. In a state there is little to choose from, since each of
these moves takes no way to the end away:
  - A read of the present value is made as soon as no call that isn't made yet ended before it began.
  - A value that is still to be read isn't replaced. Once it is, it doesn't come back.
  - A write that no read has seen is made as soon as it may be and the value may be replaced: it can stand right before the next write.
  - Of two deletions that may be made the one that ended first is made first.
So all that is tried are the orders of writes which reads have seen, and of deletions.
"""

import itertools
import math
import random

GONE = None
# The value of a register behind a write that no read has seen.
UNSEEN = ("a value that no read has seen",)


class Call:
    """A call: a write or a read of a value, when it began, and when it ended; without an end where it was cut or refused."""

    def __init__(self, is_write, value, start, end=math.inf):
        self.is_write, self.value, self.start, self.end = is_write, value, start, end

    def __str__(self):
        what = "deletes" if self.is_write and self.value is GONE else "writes" if self.is_write else "reads"
        return f"{what} {self.value} from {self.start:.6f} to {self.end:.6f}"


class Search:
    """A search for a sequence of the calls of a key."""

    def __init__(self, calls):
        sure = [call for call in calls if call.end < math.inf]
        self.read = {call.value for call in sure if not call.is_write}
        self.calls = sorted(sure, key=lambda call: call.start)
        self.maybe = [call for call in calls if call.end == math.inf and call.is_write and call.value in self.read]
        self.maybe.sort(key=lambda call: call.start)
        # The reads of each value, by their places.
        self.readers = {}
        for place, call in enumerate(self.calls):
            if not call.is_write:
                self.readers.setdefault(call.value, []).append(place)
        self.most, self.furthest = -1, None

    def wrong(self):
        """Why there is no such sequence, or None where there is one."""
        written = {call.value for call in (*self.calls, *self.maybe) if call.is_write} | {GONE}
        for call in self.calls:
            if not call.is_write and call.value not in written:
                return f"{call}, which no call wrote"
        # A state: all calls before a place are made, and which behind it are, which of those that are cut, and the value.
        states = [(0, frozenset(), frozenset(), GONE)]
        seen = set(states)
        while states:
            state = self.settled(*states.pop())
            if state[0] == len(self.calls):
                return None
            for after in self.moves(*state):
                if after not in seen:
                    seen.add(after)
                    states.append(after)
        return self.furthest

    def open_calls(self, first, made):
        """The places of the calls that may be made next, and the moment when the first of those ended that aren't made."""
        places, until = [], math.inf
        for place in range(first, len(self.calls)):
            call = self.calls[place]
            if call.start > until:
                break
            if place not in made:
                places.append(place)
                until = min(until, call.end)
        return [place for place in places if self.calls[place].start <= until], until

    def with_made(self, first, made, more):
        made = made.union(more)
        while first in made:
            made = made - {first}
            first += 1
        return first, made

    def settled(self, first, made, tried, value):
        """The state behind all reads and writes that take no way away."""
        while True:
            places, until = self.open_calls(first, made)
            calm = [place for place in places if not self.calls[place].is_write and self.calls[place].value == value]
            if not calm and not self.is_held(first, made, value):
                calm = [place for place in places if self.calls[place].is_write and self.calls[place].value not in self.read | {GONE}]
                value = UNSEEN if calm else value
            if not calm:
                self.note(first, made, places, until, value)
                return first, made, tried, value
            first, made = self.with_made(first, made, calm)

    def is_held(self, first, made, value):
        """Whether a value is still to be read that doesn't come back."""
        if value is GONE or value is UNSEEN:
            return False
        return any(place >= first and place not in made for place in self.readers.get(value, ()))

    def moves(self, first, made, tried, value):
        """The states behind one write more."""
        if self.is_held(first, made, value):
            return
        places, until = self.open_calls(first, made)
        writes = sorted((self.calls[place].end, place) for place in places if self.calls[place].is_write)
        is_deleting = False
        ways = []
        for _, place in writes:
            call = self.calls[place]
            if call.value is GONE:
                if is_deleting:
                    continue
                is_deleting = True
            ways.append((*self.with_made(first, made, [place]), tried, call.value))
        is_deleting = False
        for place, call in enumerate(self.maybe):
            if place in tried or call.start > until:
                continue
            if call.value is GONE:
                if is_deleting or value is GONE:
                    continue
                is_deleting = True
            ways.append((first, made, tried | {place}, call.value))
        # The write that ended first is tried first.
        yield from reversed(ways)

    def note(self, first, made, places, until, value):
        """Keeps how far the search came, and what it could not make there."""
        if first + len(made) <= self.most or first == len(self.calls):
            return
        self.most = first + len(made)
        last = next(self.calls[place] for place in places if self.calls[place].end == until)
        self.furthest = f"behind {self.most} of {len(self.calls)} calls the value is {value}, and then one {last}"


def wrong_of(calls):
    """Why these calls of a key are not those of a register, or None where they are."""
    return Search(calls).wrong()


# The check of the search itself.


def write(value, start, end=math.inf):
    return Call(True, value, start, end)


def read(value, start, end):
    return Call(False, value, start, end)


RIGHT = {
    "a read behind a write": [write("a", 0, 1), read("a", 2, 3)],
    "nothing is there yet": [read(GONE, 0, 1), write("a", 2, 3)],
    "a read beside a write has the old value": [write("a", 0, 1), write("b", 2, 5), read("a", 3, 4)],
    "a read beside a write has the new value": [write("a", 0, 1), write("b", 2, 5), read("b", 3, 4)],
    "two writes at once, in either order": [write("a", 0, 5), write("b", 0, 5), read("b", 1, 2), read("a", 3, 4), read("a", 6, 7)],
    "a deletion": [write("a", 0, 1), write(GONE, 2, 3), read(GONE, 4, 5)],
    "a write that was cut is seen late": [write("a", 0, 1), write("b", 2), read("a", 3, 4), read("b", 5, 6)],
    "a write that was cut is never seen": [write("a", 0, 1), write("b", 2), read("a", 3, 4)],
    "a deletion that was cut is seen": [write("a", 0, 1), write(GONE, 2), read("a", 3, 4), read(GONE, 5, 6)],
    "a deletion at the right one of two moments": [write("a", 0, 1), write(GONE, 2, 9), read("a", 3, 4), write("b", 5, 6), read(GONE, 7, 8)],
}
WRONG = {
    "a stale read": [write("a", 0, 1), write("b", 2, 3), read("a", 4, 5)],
    "a value that was never written": [write("a", 0, 1), read("c", 2, 3)],
    "a read of a key that was deleted": [write("a", 0, 1), write(GONE, 2, 3), read("a", 4, 5)],
    "a read before the write began": [read("a", 0, 1), write("a", 2, 3)],
    "the new value and then the old one": [write("a", 0, 1), write("b", 2, 9), read("b", 3, 4), read("a", 5, 6)],
    "a write that was acknowledged and lost": [write("a", 0, 1), read(GONE, 2, 3)],
    "a deletion that was acknowledged, and nothing wrote since": [write("a", 0, 1), write(GONE, 2, 3), read("a", 2.5, 3.5), read("a", 4, 5)],
    "a write that was cut is seen, and not any more": [write("a", 0, 1), write("b", 2), read("b", 3, 4), read("a", 5, 6)],
    "one deletion at two moments": [write("a", 0, 1), write(GONE, 2, 9), read(GONE, 3, 4), read("a", 5, 6)],
}


def is_history(calls):
    """The same by trying each order of the calls, which is slow."""
    sure = [call for call in calls if call.end < math.inf]
    maybe = [call for call in calls if call.end == math.inf and call.is_write]
    for count in range(len(maybe) + 1):
        for chosen in itertools.combinations(maybe, count):
            if any(fits(order) for order in itertools.permutations([*sure, *chosen])):
                return True
    return False


def fits(order):
    value, latest = GONE, -math.inf
    for call in order:
        # No call before it began later than it ended.
        if call.end < latest or (not call.is_write and call.value != value):
            return False
        latest = max(latest, call.start)
        value = call.value if call.is_write else value
    return True


def some_calls(dice):
    """A few calls at random, most of them beside one another."""
    calls, values = [], [GONE, "v0", "v1", "v2"]
    for number in range(dice.randint(3, 6)):
        start = dice.randrange(12)
        end = start + dice.randint(1, 6)
        kind = dice.random()
        if kind < 0.4:
            calls.append(write(f"v{number}" if dice.random() < 0.7 else GONE, start, math.inf if dice.random() < 0.2 else end))
        else:
            calls.append(read(dice.choice(values), start, end))
    return calls


def look_at_search():
    """What is wrong with the search, or None: it knows right and wrong calls, also some at random."""
    for name, calls in RIGHT.items():
        if why := wrong_of(calls):
            return f"{name}: it is refused: {why}"
    for name, calls in WRONG.items():
        if not wrong_of(calls):
            return f"{name}: it is not refused"
    dice = random.Random(1)
    for number in range(400):
        calls = some_calls(dice)
        if (wrong_of(calls) is None) != is_history(calls):
            return f"calls at random, {number}: " + "; ".join(map(str, calls))
    return None
