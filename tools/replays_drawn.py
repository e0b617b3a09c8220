"""The links that tools/replays draws, each by a seed and its number.

Two ends talk to each other over a link of all three applications, each with what it declares and with Registrars of its own, which
take what comes over the link. Each says JoinIn or JoinMt by them, says anew what a LeaveAll asks of it, and withdraws with Lv,
also, now and then, the old value of a Talker or a Domain beside the new one. In some links

    lost      PDUs don't arrive, or the capture lacks them
    forged    PDUs of no participant are there from an end's address, with any events of any keys in any order
    silent    an end says nothing for a while
    strange   frames of a third station, frames that aren't MRP's, cut frames, and malformed PDUs are between, the capture's clock
              is set back now and then, and the capture may break off in its last record
"""
import struct

from replays_observed import EVENTS, KINDS, Link, Talker, Way, other, without_replaced

ETHERTYPES = {"mvrp": 0x88F5, "msrp": 0x22EA, "mmrp": 0x88F6}
GROUPS = {"mvrp": "0180c2000021", "msrp": "0180c200000e", "mmrp": "0180c2000020"}
LISTENERS = ["ignored", "asking-failed", "ready", "ready-failed"]
ADDRESSES = {"a": "0200000000aa", "b": "02000000000b", "c": "020000000c0c"}
START_CS = 170_000_000_000  # in 2023


class Draws:
    """Numbers that are drawn one after the other, the same on every machine."""

    def __init__(self, seed):
        self.state = seed
        self.below(2)

    def below(self, bound):
        """The next number, below a bound."""
        self.state = (self.state * 6364136223846793005 + 1442695040888963407) % 2**64
        return (self.state >> 33) % bound

    def one_of(self, choices):
        """One of some."""
        return choices[self.below(len(choices))]

    def one_in(self, number):
        """Whether it is the one of so many."""
        return self.below(number) == 0

    def mixed(self, items):
        """The same in another order."""
        items = list(items)
        for last in range(len(items) - 1, 0, -1):
            swapped = self.below(last + 1)
            items[last], items[swapped] = items[swapped], items[last]
        return items


# PDUs (10.8, 11.2.3.1, 35.2.2, 10.12.1)


def first_value(key, content):
    """The AttributeType of an event's attribute, and its FirstValue."""
    kind, number = key
    if kind == "vlan":
        return 1, struct.pack(">H", number)
    if kind == "group":
        return 2, number.to_bytes(6, "big")
    if kind == "listener":
        return 3, struct.pack(">Q", number)
    if kind == "domain":
        _, priority, _, vid = content.split()
        return 4, struct.pack(">BBH", number, int(priority), int(vid))
    dest, vid, octets, frames, priority, rank, latency = content.values
    value = struct.pack(">Q", number) + dest.to_bytes(6, "big")
    value += struct.pack(">HHHBI", vid, octets, frames, priority << 5 | rank << 4, latency)
    if content.failure:
        return 2, value + struct.pack(">QB", *content.failure)
    return 1, value


def are_next(one, two):
    """Whether an event's attribute has the value behind another's, so that one vector may have both."""
    (_, (kind, number), content), (_, (next_kind, next_number), next_content) = one, two
    if kind != next_kind or next_number != number + 1:
        return False
    if kind == "talker":
        values = (content.values[0] + 1, *content.values[1:])
        return (values, content.failure) == (next_content.values, next_content.failure)
    if kind == "domain":
        _, priority, _, vid = content.split()
        return next_content == f"priority {int(priority) + 1} vid {vid}"
    return True


def packed(numbers, base, size):
    """Numbers below a base, packed into octets, so many in each."""
    octets = b""
    for i in range(0, len(numbers), size):
        value = 0
        for number in (numbers[i : i + size] + [0] * size)[:size]:
            value = value * base + number
        octets += bytes([value])
    return octets


def vector_of(events, leave_all):
    """A vector of events of values one behind the other; without any a LeaveAll alone, behind the value of the first."""
    octets = struct.pack(">H", leave_all << 13 | len(events)) + first_value(*events[0][1:])[1]
    octets += packed([EVENTS.index(event) for event, _, _ in events], 6, 3)
    if events[0][1][0] == "listener":
        octets += packed([LISTENERS.index(content) for _, _, content in events], 4, 4)
    return octets


def vectors_of(draws, events):
    """Events, in their order, in runs that a vector each has."""
    runs = []
    for event in events:
        if runs and are_next(runs[-1][-1], event) and not draws.one_in(4):
            runs[-1].append(event)
        else:
            runs.append([event])
    return runs


def message_of(app, kind, size, vectors):
    """A Message of vectors, with their EndMark."""
    body = b"".join(vectors) + b"\0\0"
    length = struct.pack(">H", len(body)) if app == "msrp" else b""
    return bytes([kind, size]) + length + body


def pdu_of(draws, app, leave_all, events):
    """A PDU, with a LeaveAll in one of its vectors or in more."""
    runs = vectors_of(draws, events)
    marked = [leave_all and draws.one_in(2) for _ in runs]
    if leave_all and runs and not any(marked):
        marked[draws.below(len(runs))] = True
    messages, last = [], None
    for run, mark in zip(runs, marked):
        kind, value = first_value(*run[0][1:])
        if kind != last or draws.one_in(6):
            messages.append((kind, len(value), []))
        messages[-1][2].append(vector_of(run, mark))
        last = kind
    if app == "mmrp" and draws.one_in(5):
        # a service requirement, of all groups or of those without filters
        messages.append((1, 1, [b"\0\1" + bytes([draws.below(2)]) + packed([draws.below(6)], 6, 3)]))
    if leave_all and not runs:
        kind, value = {"mvrp": (1, b"\0\1"), "msrp": (3, bytes(8)), "mmrp": (2, bytes(6))}[app]
        messages.append((kind, len(value), [struct.pack(">H", 1 << 13) + value]))
    return b"\0" + b"".join(message_of(app, *message) for message in messages) + b"\0\0"


# Captures


class Frame:
    """A captured frame: whether it is MRP's, its source address, its application, and what its PDU says."""

    def __init__(self, name, app, pdu, leave_all=False, events=(), malformed=None, is_mrp=True):
        self.address, self.is_mrp, self.app = ADDRESSES[name], is_mrp, app
        self.leave_all, self.events, self.malformed = leave_all, list(events), malformed
        kind = ETHERTYPES[app] if is_mrp else 0x88CC
        self.octets = bytes.fromhex(GROUPS[app] + self.address) + struct.pack(">H", kind) + pdu + bytes(max(0, 46 - len(pdu)))
        self.whole = self.got = len(self.octets)

    def cut_at(self, size):
        """The same with so many octets alone."""
        self.got = min(size, self.whole)
        self.octets = self.octets[: self.got]
        return self


def size_of(frames):
    """How many octets a file of pcap has of frames with their moments."""
    return 24 + sum(16 + frame.got for _, frame in frames)


def file_of(draws, frames):
    """A capture file of pcap of frames with their moments in ns, which are rounded down where its clock is coarser."""
    order, clock = draws.one_of("<>"), draws.one_of([1, 1000])
    magic = 0xA1B23C4D if clock == 1 else 0xA1B2C3D4
    octets = struct.pack(order + "IHHIIII", magic, 2, 4, 0, 0, 262144, 1)
    for ns, frame in frames:
        octets += struct.pack(order + "IIII", ns // 10**9, ns % 10**9 // clock, frame.got, frame.whole) + frame.octets
    return octets


# Ends


def some_number(draws, kind):
    """The number of a key: VIDs, streams, classes and groups that lie side by side."""
    first = {"vlan": 2, "talker": 0x0200000000AA0000, "listener": 0x0200000000AA0000, "domain": 5, "group": 0x01005E000001}[kind]
    return first + draws.below({"domain": 2, "talker": 3, "listener": 3}.get(kind, 5))


def some_content(draws, key):
    """What may be declared of a key."""
    kind, number = key
    if kind == "listener":
        return draws.one_of(LISTENERS[1:] + ["ready"])
    if kind == "domain":
        return f"priority {draws.one_of([number - 3, number - 3, 1])} vid {draws.one_of([2, 2, 7])}"
    if kind != "talker":
        return None
    values = (
        0x91E0F0000000 + number % 65536,
        2,
        draws.one_of([80, 80, 1000]),
        draws.one_of([1, 1, 3]),
        draws.one_of([3, 3, 2, 4]),
        draws.below(2),
        draws.one_of([0, 0, 500]),
    )
    return Talker(values, draws.one_of([None, None, (0x8000020000000002, draws.one_of([1, 8, 19]))]))


def some_key(draws, app):
    """A key of an application."""
    kind = draws.one_of(["talker", "talker", "listener", "listener", "domain"] if app == "msrp" else KINDS[app])
    return kind, some_number(draws, kind)


class End:
    """An end in one application: what it declares, its own Registrars, and what it has to say."""

    def __init__(self, app, name, leave_time):
        self.app, self.name = app, name
        self.heard = Way(app, other(name), leave_time)
        self.declared, self.contents, self.to_say, self.said = {}, {}, {}, {}

    def changes(self, draws):
        """Declares something, anew or otherwise, or withdraws it."""
        key = some_key(draws, self.app)
        if key in self.declared and draws.one_in(2):
            del self.declared[key]
            self.to_say[key] = 1
        else:
            content = self.declared.get(key)
            self.declared[key] = content if content and draws.one_in(2) else some_content(draws, key)
            self.contents[key] = self.declared[key]
            self.to_say[key] = 2

    def says_anew(self):
        """Has to say all that it declares."""
        for key in self.declared:
            self.to_say[key] = 2

    def word(self, draws, key):
        """How it declares a key, by its Registrar."""
        if draws.one_in(9):
            return "new"
        return "joinin" if self.heard.state(key) == "IN" else "joinmt"

    def events(self, draws):
        """What it says now; a key that it withdraws has the content that it declared last."""
        keys = draws.mixed(sorted(self.to_say)) if draws.one_in(2) else sorted(self.to_say)
        said = [event for key in keys for event in self.events_of(draws, key)]
        self.to_say = {key: left - 1 for key, left in self.to_say.items() if left > 1 and key in self.declared}
        return said

    def events_of(self, draws, key):
        """What it says of a key: where a Talker's or a Domain's value is another than it said last, maybe an Lv of that too."""
        if key not in self.declared:
            self.said.pop(key, None)
            return [("lv", key, self.contents[key])]
        new, old = self.contents[key], self.said.get(key)
        self.said[key] = new
        joins = [(self.word(draws, key), key, new)]
        if key[0] not in ("talker", "domain") or old in (None, new) or draws.one_in(3):
            return joins
        leaves = [("lv", key, old)]
        return draws.one_of([leaves + joins, joins + leaves])

    def takes(self, at, leave_all, events):
        """Takes a PDU of the other end."""
        if leave_all:
            list(self.heard.leave_all(at))
            self.says_anew()
        for event in without_replaced(events):
            list(self.heard.hears(at, *event))


# A link


class Drawn:
    """A link that is drawn: its head, and the frames of its capture in order, with their moments in ns."""

    def __init__(self, seed, number):
        self.draws = Draws(seed * 1_000_003 + number)
        draws = self.draws
        self.rate, self.leave_time = draws.one_of([100, 1000]), draws.one_of([60, 60, 77, 100])
        self.delta_a, self.delta_b = draws.one_of([(75, 0), (5, 0), (1, 3), (20, 30)])
        self.is_named = not draws.one_in(3)
        # of these trouble none, one or more
        trouble = ["lost", "forged", "silent", "strange"]
        self.trouble = [] if draws.one_in(3) else draws.mixed(trouble)[: 1 + draws.below(4)]
        self.at, self.frames = START_CS + draws.below(100), []
        self.silent = {"a": 0, "b": 0}
        self.on_way = []
        self.ends = {(app, name): End(app, name, self.leave_time) for app in KINDS for name in "ab"}
        for _ in range(20 + draws.below(80)):
            self.goes_on()
            self.acts()
        # so many octets of the last record are missing
        breaks_off = self.frames and "strange" in self.trouble and draws.one_in(3)
        self.missing = 1 + draws.below(15 + self.frames[-1][1].got) if breaks_off else 0

    def goes_on(self):
        """Time goes on by some cs, tick by tick: what was sent arrives, and then timers fire."""
        draws = self.draws
        due = [self.leave_time + more for more in (-1, 0, 1, 2)]
        for _ in range(draws.one_of([0, 0, 1, 1, 2, 19, 20, 40, 200, *due])):
            self.at += 1
            for end, leave_all, events in self.on_way:
                end.takes(self.at, leave_all, events)
            self.on_way = []
            for end in self.ends.values():
                list(end.heard.passes(self.at))

    def captured(self, frame):
        """Puts a frame into the capture, somewhere in this cs, or where the capture's clock was set back."""
        back = self.draws.below(300) if "strange" in self.trouble and self.draws.one_in(8) else 0
        self.frames.append(((self.at - back) * 10**7 + self.draws.below(10**7), frame))

    def acts(self):
        """An end does something, or a frame of no participant comes."""
        draws = self.draws
        app, name = draws.one_of(["mvrp", "msrp", "msrp", "mmrp"]), draws.one_of("ab")
        end = self.ends[app, name]
        what = draws.below(10)
        if what < 4:
            end.changes(draws)
        elif what == 4 and "silent" in self.trouble:
            self.silent[name] = self.at + draws.one_of([30, 150, 1000])
        elif what == 5 and "strange" in self.trouble:
            self.captured(self.strange(app, name))
        elif what == 6 and "forged" in self.trouble:
            self.forges(app, name)
        elif self.silent[name] <= self.at:
            self.sends(app, name, draws.one_in(5))

    def sends(self, app, name, leave_all):
        """An end sends its PDU."""
        draws, end = self.draws, self.ends[app, name]
        if leave_all:
            list(end.heard.leave_all(self.at))
            if draws.one_in(2):
                end.says_anew()
        events = end.events(draws)
        if leave_all:
            end.says_anew()
        if not events and not leave_all:
            return
        came, seen = True, True
        if "lost" in self.trouble and draws.one_in(4):
            came, seen = draws.one_of([(False, True), (True, False), (False, False)])
        if came:
            self.on_way.append((self.ends[app, other(name)], leave_all, events))
        if seen:
            self.captured(Frame(name, app, pdu_of(draws, app, leave_all, events), leave_all, events))

    def forges(self, app, name):
        """A PDU that no participant sent: any events of any keys, in any order."""
        draws = self.draws
        keys = [some_key(draws, app) for _ in range(draws.below(8))]
        contents = ["ignored" if key[0] == "listener" and draws.one_in(5) else some_content(draws, key) for key in keys]
        events = [(draws.one_of(EVENTS), key, content) for key, content in zip(keys, contents)]
        leave_all = not events or draws.one_in(3)
        frame = Frame(name, app, pdu_of(draws, app, leave_all, events), leave_all, events)
        self.captured(frame)
        if draws.one_in(2):
            said = [event for event in events if event[2] != "ignored"]
            self.on_way.append((self.ends[app, other(name)], leave_all, said))

    def strange(self, app, name):
        """A frame that says nothing of the link's ends."""
        draws = self.draws
        what = draws.below(4)
        key = some_key(draws, app)
        events = [("joinin", key, some_content(draws, key))]
        pdu = pdu_of(draws, app, False, events)
        if what == 0:
            return Frame("c", app, pdu, events=events)
        if what == 1:
            return Frame(name, app, pdu, is_mrp=False)
        if what == 2:
            return Frame(name, app, pdu).cut_at(14 + draws.below(46))
        # 216 is no three events: it stands behind header, FirstValue and what is before these
        return Frame(name, "mvrp", bytes.fromhex("00010200010005d800000000"), malformed=7)

    def is_sound(self):
        """Whether all that was said came over and stands in the capture, and nothing else does."""
        return not set(self.trouble) - {"silent"}

    def addresses(self):
        """The addresses of the link's ends: those of its head, or the first two of frames of MRP."""
        if self.is_named:
            return [ADDRESSES["a"], ADDRESSES["b"]]
        return list(dict.fromkeys(frame.address for _, frame in self.read() if frame.is_mrp))[:2]

    def read(self):
        """The frames whose records are whole."""
        return self.frames[:-1] if self.missing else self.frames

    def head(self):
        """The head of the file."""
        lines = [f"rate = {self.rate}", f"delta_a = {self.delta_a}", f"delta_b = {self.delta_b}", f"leave_time = {self.leave_time}"]
        if self.is_named:
            lines += [f'a = "{ADDRESSES["a"]}"', f'b = "{ADDRESSES["b"]}"']
        return ("\n".join(lines) + "\n").encode()

    def file(self):
        """The file that is replayed."""
        octets = file_of(self.draws, self.frames)
        return self.head() + b"=== capture\n" + octets[: len(octets) - self.missing]

    def replayed(self):
        """What is printed of it."""
        link = Link(self.rate, self.delta_a, self.delta_b, self.leave_time, self.addresses())
        for ns, frame in self.read():
            link.takes(ns // 10**7, frame)
        place = size_of(self.read()) if self.missing else None
        return "".join(line + "\n" for line in link.ends(place))
