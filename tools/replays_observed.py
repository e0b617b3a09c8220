"""What `replay` has to print of a link, told by the tables of IEEE Std 802.1Q-2018 and docs/CAPTURES.md alone.

An event is (name, key, content). A key is (kind, number), a content what stands behind `IN`, with a Talker's values in it.
"""
EVENTS = ["new", "joinin", "in", "joinmt", "mt", "lv"]
JOINS = ("new", "joinin", "joinmt")  # which declare
ENDS = ("a", "b")
KINDS = {"mvrp": ("vlan",), "msrp": ("talker", "listener", "domain"), "mmrp": ("group",)}
DIGITS = {"talker": 16, "listener": 16, "group": 12}
# The Registrar (Table 10-4): its state behind an event, and whether its leave timer starts. The rest leaves it as it is.
REGISTRAR = {
    ("MT", "rNew"): ("IN", False),
    ("LV", "rNew"): ("IN", False),
    ("IN", "rNew"): ("IN", False),
    ("MT", "rJoin"): ("IN", False),
    ("LV", "rJoin"): ("IN", False),
    ("IN", "rJoin"): ("IN", False),
    ("IN", "rLv"): ("LV", True),
    ("IN", "LA"): ("LV", True),
    ("LV", "leavetimer"): ("MT", False),
}
# What is received with each attribute event (10.7.5), of the Registrar's concern.
RECEIVED = {"new": "rNew", "joinin": "rJoin", "joinmt": "rJoin", "lv": "rLv"}
# The classes by the priorities of their streams, and how many frames a second each of `frames` is (6.9.4, 34.4)
CLASSES = {3: ("A", 8000), 2: ("B", 4000)}


class Talker:
    """What a Talker declares, with a refusal where it is a Talker Failed."""

    def __init__(self, values, failure=None):
        self.values, self.failure = values, failure

    def __eq__(self, other):
        return isinstance(other, Talker) and (self.values, self.failure) == (other.values, other.failure)

    def __str__(self):
        dest, vid, octets, frames, priority, rank, latency = self.values
        first = f"failed bridge {self.failure[0]:016x} code {self.failure[1]}" if self.failure else "advertise"
        return (
            f"{first} dest {dest:012x} vid {vid} octets {octets} frames {frames} priority {priority} rank {rank}"
            f" latency {latency}"
        )


def other(end):
    """The other end."""
    return "b" if end == "a" else "a"


def moment(at):
    """A moment, in cs, as it is printed."""
    return f"{at // 100}.{at % 100:02}"


def named(key):
    """A key as it is printed."""
    kind, number = key
    return f"{kind} {number:0{DIGITS[kind]}x}" if kind in DIGITS else f"{kind} {number}"


def talkers_declared(events):
    """The Talkers that the events of a PDU declare, as often as they do: each stream, and whether as a Talker Failed."""
    return [(key[1], bool(content.failure)) for event, key, content in events if event in JOINS and key[0] == "talker"]


def without_replaced(events):
    """The events of a PDU without each Lv of a value of a Talker or a Domain of which it declares another: the value changes, and
    is told as what is declared. A Listener's kind is no part of the attribute (35.2.2.7.2)."""
    declared = {}
    for event, key, content in events:
        if event in JOINS:
            declared.setdefault(key, []).append(content)

    def is_replaced(event, key, content):
        changes = any(other != content for other in declared.get(key, []))
        return event == "lv" and key[0] in ("talker", "domain") and changes

    return [event for event in events if not is_replaced(*event)]


class Way:
    """What an end declares in one application, as it stands at the other end: of each key that isn't MT the state of its Registrar,
    the content, and until when the leave timer runs."""

    def __init__(self, app, speaker, leave_time):
        self.app, self.speaker, self.leave_time = app, speaker, leave_time
        self.rows, self.withdrawn, self.known = {}, set(), False

    def keys(self):
        """The keys that aren't MT, in the order in which they are printed."""
        return sorted(self.rows, key=lambda key: (KINDS[self.app].index(key[0]), key[1]))

    def state(self, key):
        """The state of a key's Registrar."""
        return self.rows[key][0] if key in self.rows else "MT"

    def steps(self, at, key, what, content=None):
        """Steps the Registrar of a key, and gives its new state; None where it stays as it is."""
        if (self.state(key), what) not in REGISTRAR:
            return None
        state, starts = REGISTRAR[self.state(key), what]
        _, before, _ = self.rows.pop(key, (None, None, None))
        if state != "MT":
            self.rows[key] = (state, content if state == "IN" else before, at + self.leave_time if starts else None)
        return state

    def line(self, at, key, text):
        """A line on how a key stands."""
        return f"{moment(at)} {self.speaker}>{other(self.speaker)} {named(key)} {text}"

    def until(self, at):
        """How a Registrar stands whose leave timer starts now."""
        return f"LV until {moment(at + self.leave_time)}"

    def leave_all(self, at):
        """Takes a LeaveAll of either end."""
        self.known = True
        for key in self.keys():
            if self.steps(at, key, "LA"):
                yield self.line(at, key, self.until(at))
                yield f"{moment(at)} {self.speaker} owes {named(key)} until {moment(at + self.leave_time)}"

    def hears(self, at, event, key, content):
        """Takes what the speaker says of a key."""
        if event in JOINS:
            self.withdrawn.discard(key)
            stood = self.state(key) == "IN" and self.rows[key][1] == content
            self.steps(at, key, RECEIVED[event], content)
            if not stood:
                yield self.line(at, key, "IN" + (f" {content}" if self.app == "msrp" else ""))
        elif event == "lv":
            self.withdrawn.add(key)
            if self.steps(at, key, "rLv"):
                yield self.line(at, key, self.until(at))

    def timers(self):
        """When the leave timers end that run."""
        return {until for _, _, until in self.rows.values() if until is not None}

    def passes(self, at):
        """Fires the leave timers that end now."""
        for key in self.keys():
            if self.rows[key][2] == at:
                self.steps(at, key, "leavetimer")
                yield self.line(at, key, "MT")
                if key not in self.withdrawn:
                    yield f"{moment(at)} {self.speaker} let {named(key)} go"

    def disagrees(self, event, key):
        """Whether what the other end says of its Registrar of a key isn't what is here."""
        if event in ("joinin", "in"):
            return self.state(key) != "IN" and self.known
        return event in ("joinmt", "mt") and self.state(key) == "IN"


class Watch:
    """Both ways of one application, what is on its way, and the words that disagreed when they were said."""

    def __init__(self, app, leave_time):
        self.ways = {end: Way(app, end, leave_time) for end in ENDS}
        self.on_way, self.doubted = [], []

    def says(self, at, who, leave_all, events):
        """Takes a PDU of an end at the end itself."""
        heard = self.ways[other(who)]
        if leave_all:
            yield from heard.leave_all(at)
        self.doubted += [(who, event, key) for event, key, _ in events if heard.disagrees(event, key)]
        self.on_way.append((who, leave_all, events))

    def arrives(self, at):
        """Takes what is on its way at the other ends."""
        for who, leave_all, events in self.on_way:
            if leave_all:
                yield from self.ways[who].leave_all(at)
            for event in events:
                yield from self.ways[who].hears(at, *event)
        self.on_way = []

    def judges(self, at):
        """Judges the words that disagreed, behind what has arrived."""
        for who, event, key in self.doubted:
            heard = self.ways[other(who)]
            if heard.disagrees(event, key):
                how = "it stands" if heard.state(key) == "IN" else "none stands"
                yield f"{moment(at)} {who} says {event} {named(key)}, {how}"
        self.doubted = []


class Link:
    """What was seen of a link between two addresses, end a's first."""

    def __init__(self, rate, delta_a, delta_b, leave_time, addresses):
        self.names = dict(zip(addresses, ENDS))
        self.caps = (delta_a * rate * 10_000, (delta_a + delta_b) * rate * 10_000)
        self.watches = {app: Watch(app, leave_time) for app in KINDS}
        self.at = self.owed = self.broken = self.frames = self.others = 0
        self.lines = []

    def ways(self):
        """All ways."""
        return [way for watch in self.watches.values() for way in watch.ways.values()]

    def booked(self, who):
        """The streams that are booked at an end, with their classes and slopes."""
        ways, found = self.watches["msrp"].ways, {}
        for (kind, stream), (_, talker, _) in ways[who].rows.items():
            asked = ways[other(who)].rows.get(("listener", stream))
            if kind != "talker" or talker.failure or not asked or asked[1] not in ("ready", "ready-failed"):
                continue
            _, _, octets, frames, priority, _, _ = talker.values
            if priority in CLASSES:
                name, intervals = CLASSES[priority]
                found[stream] = (name, frames * (octets + 42) * 8 * intervals)
        return found

    def happens(self, at, lines):
        """Puts down lines with what follows of them for the streams."""
        before = {who: self.booked(who) for who in ENDS}
        self.lines += lines
        for who in ENDS:
            old, new = before[who], self.booked(who)
            front = f"{moment(at)} {who}>{other(who)}"
            self.lines += [f"{front} dropped {s:016x}" for s in sorted(old) if new.get(s) != old[s]]
            booked = [s for s in sorted(new) if old.get(s) != new[s]]
            self.lines += [f"{front} booked {s:016x} {new[s][0]} slope {new[s][1]}" for s in booked]
            sums = (sum(slope for name, slope in new.values() if name == "A"), sum(slope for _, slope in new.values()))
            for cap, total in zip(self.caps, sums):
                if booked and total > cap:
                    self.lines.append(f"{front} passes cap {cap} by {total - cap}")

    def settles(self):
        """Takes that what was said has arrived."""
        self.happens(self.at + 1, (line for watch in self.watches.values() for line in watch.arrives(self.at + 1)))
        said = [line for watch in self.watches.values() for line in watch.judges(self.at)]
        self.lines += said
        self.broken += len(said)

    def reaches(self, at):
        """Lets time go on to a moment."""
        if at <= self.at:
            return
        self.settles()
        for due in sorted({until for way in self.ways() for until in way.timers() if until <= at}):
            first = len(self.lines)
            self.happens(due, (line for way in self.ways() for line in way.passes(due)))
            self.owed += sum(line.endswith(" go") for line in self.lines[first:])
        self.at = at

    def takes(self, at, frame):
        """Takes a captured frame."""
        self.reaches(at)
        who = self.names.get(frame.address) if frame.is_mrp else None
        if who:
            self.frames += 1
            self.takes_of(who, f"{moment(self.at)} {who}", frame)
        else:
            self.others += 1
            if frame.is_mrp:
                self.lines.append(f"{moment(self.at)} other {frame.address}")

    def takes_of(self, who, front, frame):
        """Takes a frame of MRP of an end."""
        if frame.got < frame.whole:
            self.lines.append(f"{front} {frame.app} cut {frame.got} of {frame.whole}")
        elif frame.malformed is not None:
            self.broken += 1
            self.lines.append(f"{front} {frame.app} malformed {frame.malformed}")
        else:
            # a Listener that is ignored says nothing (35.2.2.7.2)
            events = [event for event in frame.events if event[2] != "ignored"]
            self.doubles(front, events)
            self.lines += self.watches[frame.app].says(self.at, who, frame.leave_all, without_replaced(events))

    def doubles(self, front, events):
        """Looks for streams with a Talker Advertise and a Talker Failed in one PDU (35.2.2.8)."""
        declared = talkers_declared(events)
        both = [stream for stream, is_failed in declared if is_failed and (stream, False) in declared]
        self.lines += [f"{front} says talker {stream:016x} advertise and failed" for stream in both]
        self.broken += len(both)

    def ends(self, place):
        """Takes that the capture ends, or breaks off at a place, and gives all lines."""
        self.settles()
        if place is not None:
            self.lines.append(f"broken at {place}")
        return self.lines + [f"owed {self.owed}", f"broken {self.broken}", f"frames {self.frames} other {self.others}"]
