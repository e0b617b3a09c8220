"""A network with its streams and frames, and a plain model of the flow of the frames, for tools/delays.

The model goes port by port, each behind those that send into its node, and in a port from event to event. By
the rules of IEEE Std 802.1Q-2018, 8.6.8 and 8.6.8.2, in whole bit times of the port: first the frames that
arrive join the queues of class A, class B and the rest. On a free line starts the head of A where A's credit
isn't negative, else that of B alike, else that of the rest. Then the credits, in units of 1/rate bit, take a
step: idleSlope less the rate for a class that is on the line; idleSlope for one that waits; else idleSlope up
to 0, and what is positive is set to 0. A moment is rounded up to the next bit time of the port, and a copy is
at the next node at the bit time behind its last.
"""
from collections import deque

BIT_PS = {100: 10_000, 1000: 1_000, 10000: 100}  # the length of a bit time, by the rate in Mb/s
TICK_NS = 10_000_000
SECOND_PS = 10**12
A, B, OTHER = 0, 1, 2


def bits_of(octets):
    """The bits of a frame with so many octets of data, with what surrounds it."""
    return (octets + 42) * 8


def rounded_up(number, by):
    """How many times a number has another one, rounded up."""
    return -(-number // by)


class Link:
    """A link, as it is in the file."""

    def __init__(self, a, b, rate, delta_a, delta_b):
        self.a, self.b, self.rate, self.delta_a, self.delta_b = a, b, rate, delta_a, delta_b


class Port:
    """The egress port of a node towards a peer."""

    def __init__(self, node, peer, link):
        self.node, self.peer, self.name = node, peer, f"{node}>{peer}"
        self.bit = BIT_PS[link.rate]
        self.rate = link.rate * 1_000_000
        self.cap_a = self.rate * link.delta_a // 100
        self.cap_ab = self.rate * (link.delta_a + link.delta_b) // 100
        self.behind = set()  # the nodes behind its link
        self.vids = set()  # the VIDs that are registered
        self.streams = set()  # the streams that are booked while frames come
        self.slopes = [0, 0]  # and what those of class A and of class B have booked together
        self.fed = set()  # the streams that are booked at the run's end, here and from the Talker to here

    def fed_in_order(self):
        """The streams that are fed here, in the order of the StreamIDs."""
        return sorted(self.fed, key=lambda stream: stream.id)


class Stream:
    """A stream, as it is in the file."""

    def __init__(self, name, identifier, talker, octets, frames, kind):
        self.name, self.id, self.talker, self.vid = name, identifier, talker, 2
        self.octets, self.frames, self.kind = octets, frames, kind
        self.listeners = []  # the stations that listen at the run's end
        self.reached = []  # and those of them to which the stream is booked then
        self.most = bits_of(octets)
        self.burst = frames * self.most
        self.slope = self.burst * (8_000, 4_000, 0)[kind]


class Entry:
    """An entry of frames: of a stream, or of other traffic from a station to another; `at` and `every` are in
    ns."""

    def __init__(self, stream, source, to, vid, octets, at, count, every):
        self.stream, self.source, self.to, self.vid = stream, source, to, vid
        self.octets, self.at, self.count, self.every = octets, at, count, every


class Frame:
    """A copy of an entry; its number is its place among all copies of the file, and its moment is in ps."""

    def __init__(self, number, entry, moment):
        self.number, self.moment, self.bits = number, moment, bits_of(entry.octets)
        self.stream, self.source, self.to, self.vid = entry.stream, entry.source, entry.to, entry.vid
        self.kind = entry.stream.kind if entry.stream else OTHER


class Network:
    """A network with its streams, events and frames. The name of a station begins with an s."""

    def __init__(self):
        self.nodes, self.links, self.streams, self.events, self.entries = [], [], [], [], []
        self.ticks, self.steady = 0, True
        self.ports, self.peers = {}, {}

    def join(self):
        """Makes the ports, once nodes and links are there."""
        self.peers = {name: [] for name in self.nodes}
        for link in self.links:
            for node, peer in ((link.a, link.b), (link.b, link.a)):
                self.ports[node, peer] = Port(node, peer, link)
                self.peers[node].append(peer)
        for port in self.ports.values():
            found = [(port.node, port.peer)]
            for before, node in found:
                port.behind.add(node)
                found.extend((node, further) for further in self.peers[node] if further != before)

    def stations(self):
        """The names of the stations."""
        return [name for name in self.nodes if name[0] == "s"]

    def path(self, start, end):
        """The ports from one node to another."""
        ports = []
        while start != end:
            ways = [self.ports[start, peer] for peer in self.peers[start]]
            ports += [port for port in ways if end in port.behind]
            start = ports[-1].peer
        return ports

    def ports_to(self, stream, listeners):
        """The ports from a stream's Talker to these Listeners."""
        return {port for listener in listeners for port in self.path(stream.talker, listener)}

    def add_stream_frames(self, stream, octets, at, count=1, every=0):
        """An entry of frames of a stream."""
        self.entries.append(Entry(stream, stream.talker, None, stream.vid, octets, at, count, every))

    def add_other_frames(self, source, to, octets, at, count=1, every=0):
        """An entry of other traffic."""
        self.entries.append(Entry(None, source, to, 2, octets, at, count, every))

    def frames(self):
        """All copies of the frames."""
        copies = ((entry, copy) for entry in self.entries for copy in range(entry.count))
        return [
            Frame(number, entry, (entry.at + copy * entry.every) * 1_000)
            for number, (entry, copy) in enumerate(copies, 1)
        ]

    def ways(self):
        """Each stream of an SR class with each station that gets it, and the ports from its Talker there."""
        for stream in self.streams:
            for listener in sorted(stream.reached, key=self.nodes.index):
                yield stream, listener, self.path(stream.talker, listener)

    def end(self, port):
        """The bit time of a port at which the run ends."""
        return self.ticks * TICK_NS * 1_000 // port.bit

    def text(self):
        """The file."""
        tables = []
        for name in self.nodes:
            tables.append(("node", {"name": name, "kind": "station" if name[0] == "s" else "bridge"}))
        for link in self.links:
            tables.append(("link", vars(link)))
        for number, it in enumerate(self.streams):
            keys = {"name": it.name, "id": it.id, "talker": it.talker, "dest": f"91e0f000fe{number:02x}"}
            keys.update(octets=it.octets, frames=it.frames, vid=it.vid, priority=(3, 2, 5)[it.kind])
            tables.append(("stream", keys))
        for tick, kind, keys in sorted(self.events, key=lambda event: event[0]):
            tables.append(("event", {"tick": tick, "kind": kind, **keys}))
        for it in self.entries:
            other = {"from": it.source, "to": it.to, "vid": it.vid}
            keys = {"stream": it.stream.name} if it.stream else other
            keys.update(octets=it.octets, at=it.at, count=it.count, every=it.every)
            tables.append(("frame", keys))
        lines = [f"ticks = {self.ticks}"]
        for name, keys in tables:
            lines.append(f"[[{name}]]")
            for key, value in keys.items():
                lines.append(f'{key} = "{value}"' if isinstance(value, str) else f"{key} = {value}")
        return "\n".join(lines) + "\n"


def starts_of(port, end, arrivals):
    """The bit time in which each frame starts, by its number; arrivals are (bit, number, frame), in order."""
    queues, credits, slopes = (deque(), deque(), deque()), [0, 0], port.slopes
    starts, line, free, now, come = {}, None, 0, 0, 0
    while now < end:
        while come < len(arrivals) and arrivals[come][0] <= now:
            frame = arrivals[come][2]
            queues[frame.kind].append(frame)
            come += 1
        if free <= now:
            line = None
            for kind in (A, B, OTHER):
                if queues[kind] and (kind == OTHER or credits[kind] >= 0):
                    frame = queues[kind].popleft()
                    starts[frame.number], free, line = now, now + frame.bits, kind
                    break
        # the next bit time in which a frame may arrive or start
        then = arrivals[come][0] if come < len(arrivals) else end
        if free > now:
            then = min(then, free)
        else:
            for kind in (A, B):
                if queues[kind] and slopes[kind]:
                    then = min(then, now + rounded_up(-credits[kind], slopes[kind]))
        for kind in (A, B):
            if line == kind:
                credits[kind] += (slopes[kind] - port.rate) * (then - now)
            elif queues[kind]:
                credits[kind] += slopes[kind] * (then - now)
            else:
                credits[kind] = min(0, credits[kind] + slopes[kind] * (then - now))
        now = then
    return starts


class Flow:
    """The flow of a network's frames. A port is gone over when it is asked for, and those before it first."""

    def __init__(self, network):
        self.network, self.gone_over, self.sent = network, {}, {}
        for frame in network.frames():
            self.sent.setdefault(frame.source, []).append(frame)

    def reaching(self, port):
        """The frames that reach a port's node, each with the moment."""
        yield from ((frame, frame.moment) for frame in self.sent.get(port.node, ()))
        for peer in self.network.peers[port.node]:
            if peer != port.peer:
                before = self.network.ports[peer, port.node]
                for frame, _, start in self.copies(before):
                    if start is not None:
                        yield frame, (start + frame.bits) * before.bit

    def copies(self, port):
        """The copies that a port may send: (frame, arrival, start), with None for one that is left."""
        if port.name not in self.gone_over:
            end, arrivals = self.network.end(port), []
            for frame, moment in self.reaching(port):
                bit = rounded_up(moment, port.bit)
                if self.goes_by(frame, port) and bit < end:
                    arrivals.append((bit, frame.number, frame))
            arrivals.sort(key=lambda arrival: arrival[:2])
            starts = starts_of(port, end, arrivals)
            self.gone_over[port.name] = [(frame, bit, starts.get(number)) for bit, number, frame in arrivals]
        return self.gone_over[port.name]

    @staticmethod
    def goes_by(frame, port):
        """Whether a frame at a port's node goes by the port. In the run's first tick nothing is booked."""
        if frame.vid not in port.vids:
            return False
        if frame.stream:
            return frame.stream in port.streams and frame.moment >= TICK_NS * 1_000
        return frame.to in port.behind

    def seen(self, stream, path):
        """How long the longest frame of a stream took over a path, in ps, and how many arrived."""
        port = path[-1]
        times = [
            (start + frame.bits) * port.bit - frame.moment
            for frame, _, start in self.copies(port)
            if frame.stream is stream and start is not None
        ]
        return max(times, default=0), len(times)


def conforms(stream, frames):
    """`yes`, `no`, or `none` where no frame is of the stream: by each two frames, and each one twice."""
    mine = [frame for frame in frames if frame.stream is stream]
    mine.sort(key=lambda frame: (frame.moment, frame.number))
    for first, one in enumerate(mine):
        bits = 0
        for other in mine[first:]:
            bits += other.bits
            if bits * SECOND_PS > stream.burst * SECOND_PS + stream.slope * (other.moment - one.moment):
                return "no"
        if one.bits > stream.most:
            return "no"
    return "yes" if mine else "none"
