"""The networks that tools/delays draws, each by a seed and its number; what is drawn stands there."""
from delays_flow import A, B, OTHER, SECOND_PS, TICK_NS, Flow, Link, Network, Stream, bits_of, rounded_up

LONGEST = 12_336  # the bits of the longest frame with what surrounds it
INTERVAL_NS = (125_000, 250_000)  # the class measurement intervals
INTERVALS = (8_000, 4_000)  # and how many a second has


class Draws:
    """Numbers that are drawn one after the other, the same on every machine."""

    def __init__(self, seed):
        self.state = seed

    def below(self, bound):
        """The next number, below a bound."""
        self.state = (self.state * 6364136223846793005 + 1442695040888963407) % (1 << 64)
        return (self.state >> 33) % bound

    def one_of(self, choices):
        """One of some."""
        return choices[self.below(len(choices))]

    def one_in(self, number):
        """Whether it is the one of so many."""
        return self.below(number) == 0

    def mixed(self, items):
        """The same in another order."""
        items = list(items)
        for last in range(len(items) - 1, 0, -1):
            other = self.below(last + 1)
            items[last], items[other] = items[other], items[last]
        return items


# The tree


RATES = ((100,), (100,), (1000,), (10000,), (100, 1000), (1000, 10000), (100, 1000, 10000))
DELTAS = ((75, 0), (50, 25), (40, 35), (10, 80), (0, 75), (90, 0), (25, 50), (10, 10), (60, 30), (1, 60))


def draw_tree(draws, network):
    """Draws the nodes and links, and gives the two stations at the ends of the longest way."""
    bridges = draws.one_of((0, 1, 1, 1, 2, 2, 2, 3, 3, 4, 5, 6, 7))
    chain = ["s0", *(f"b{number}" for number in range(1, bridges + 1)), "s1"]
    names, pairs = list(chain), list(zip(chain, chain[1:]))
    for bridge in chain[1:-1]:
        for _ in range(draws.one_of((0, 1, 1, 1, 2, 2, 3) if bridges < 3 else (0, 0, 1, 1, 1, 2))):
            names.append(f"s{len(names)}")
            pairs.append((names[-1], bridge))
    if 0 < bridges < 7 and draws.one_in(4):
        names += [f"b{bridges + 1}", f"s{len(names) + 1}"]
        pairs += [(names[-2], draws.one_of(chain[1:-1])), (names[-1], names[-2])]
    rates, deltas = draws.one_of(RATES), draws.one_of(DELTAS)
    network.nodes = draws.mixed(names)
    for ends in draws.mixed(pairs):
        a, b = draws.mixed(ends)
        delta_a, delta_b = draws.one_of(DELTAS) if draws.one_in(3) else deltas
        network.links.append(Link(a, b, draws.one_of(rates), delta_a, delta_b))
    network.join()
    return chain[0], chain[-1]


# The streams and events


def room_of(port, kind):
    """What is left at a port for another stream of a class, so that every stream goes on to fit."""
    left_a, left_ab = port.cap_a - port.slopes[A], port.cap_ab - sum(port.slopes)
    if kind == B:
        return left_ab
    return min(left_a, left_ab) if port.slopes[B] else left_a


def draw_stream(draws, network, kind, talker, listeners):
    """Draws a stream that fits at each port to its Listeners, and books it; none where no frame fits."""
    ports = {port for listener in listeners for port in network.path(talker, listener)}
    room = min(room_of(port, kind) for port in ports) // INTERVALS[kind]
    room = draws.one_of((room, room, room // 2, room // 3, draws.below(max(room, 1))))
    frames = min(draws.one_of((1, 1, 1, 2, 3, 4, 8, 12)), room // bits_of(0))
    if frames == 0:
        return
    octets = min(1500, room // frames // 8 - 42)
    if draws.one_in(4):
        octets = min(octets, draws.one_of((0, 30, 58, 80, 400)))
    number = len(network.streams)
    identifier = f"02000000{draws.below(1 << 24):06x}{number:02x}"
    stream = Stream(f"k{number}", identifier, talker, octets, frames, kind)
    stream.listeners = stream.reached = listeners
    network.streams.append(stream)
    for port in ports:
        port.slopes[kind] += stream.slope
        port.streams.add(stream)


def draw_streams(draws, network, first, last):
    """Draws the streams: one over the longest way, and more whose ways meet it or don't."""
    stations = network.stations()
    for number in range(draws.one_of((1, 2, 3, 4, 5, 6))):
        talker = first if number == 0 or draws.one_in(3) else draws.one_of(stations)
        others = [station for station in stations if station != talker]
        listeners = draws.mixed(others)[: draws.one_of((1, 1, 2, 3))]
        if last in others and last not in listeners and (number == 0 or draws.one_in(2)):
            listeners[0] = last
        draw_stream(draws, network, draws.one_of((A, A, B)), talker, listeners)


class Exceptions:
    """What is otherwise than it mostly is: one stream is listened to late; the Talker of one leaves early,
    and the PDU that says so is lost; to one nobody listens; a station has forgotten to declare the VIDs."""

    def __init__(self, draws, network):
        of_class = draws.mixed(network.streams)
        self.late = of_class.pop() if draws.one_in(12) and of_class[1:] else None
        self.left = of_class.pop() if draws.one_in(12) and of_class[1:] else None
        self.unheard = of_class.pop() if draws.one_in(12) and of_class[1:] else None
        self.forgetful = draws.one_of(network.stations()) if draws.one_in(12) else None


def draw_classless(draws, network, talker, listener):
    """Draws, in some networks, a stream that has no SR class."""
    if draws.one_in(10):
        number = len(network.streams)
        stream = Stream(f"k{number}", f"0300000000000{draws.below(4096):03x}", talker, 200, 2, OTHER)
        stream.listeners = [listener]
        network.streams.append(stream)


def unbook(stream, ports):
    """Takes a stream's booking back at some ports."""
    for port in ports:
        if stream in port.streams:
            port.streams.remove(stream)
            port.slopes[stream.kind] -= stream.slope


def draw_declarations(draws, network, forgetful):
    """Draws when stations declare the VIDs."""
    for station in network.stations():
        vids = {2, *(stream.vid for stream in network.streams if station in stream.listeners)}
        for vid in sorted(vids) if station != forgetful else ():
            network.events.append((draws.below(20), "declare", {"station": station, "vid": vid}))
            for port in network.ports.values():
                if station in port.behind:
                    port.vids.add(vid)


def draw_events(draws, network, exceptions):
    """Draws what is declared, talked and listened to, and gives a tick from which on nothing changes while
    frames come."""
    stations = network.stations()
    longest = max(len(network.path(one, other)) for one in stations for other in stations)
    settled = 20 + 40 * longest + 25
    if exceptions.left is not None:
        # (a station has something to say every twentieth tick, and its peer takes it in the next)
        leave = settled // 20 * 20 + 40
        settled = leave + 5
        leave_unnoticed(network, exceptions.left, leave)
    for stream in network.streams:
        stream.vid = 7 if draws.one_in(8) else 2
        network.events.append((draws.below(20), "talk", {"stream": stream.name}))
        if stream is exceptions.unheard:
            stream.listeners = stream.reached = []
        if stream is exceptions.late or stream is exceptions.unheard:
            unbook(stream, network.ports.values())
        for listener in stream.listeners:
            tick = settled + 10 if stream is exceptions.late else draws.below(20)
            network.events.append((tick, "listen", {"station": listener, "stream": stream.name}))
        for port in network.ports_to(stream, stream.reached):
            port.fed.add(stream)
    draw_declarations(draws, network, exceptions.forgetful)
    # (some 40 ticks after all is booked nothing is pending any more)
    network.ticks, network.steady = settled + 100, exceptions.late is None
    if exceptions.late is not None:
        network.ticks += settled + 10
    return settled


def leave_unnoticed(network, stream, tick):
    """Has the Talker of a stream leave so that the PDU of a tick says so, which is lost: behind the Talker's
    own port the stream stays booked."""
    own = network.path(stream.talker, stream.listeners[0])[0]
    network.events.append((tick - 10, "hush", {"stream": stream.name}))
    network.events.append((tick + 1, "lose", {"from": own.node, "to": own.peer, "index": 0}))
    unbook(stream, [own])
    stream.reached = []


# The frames


def draw_conforming(draws, network, stream, at):
    """Draws frames of a stream that conform, from a moment in ns on, and gives one behind the last."""
    pattern, interval = draws.below(4), INTERVAL_NS[stream.kind]
    most, level = stream.burst * SECOND_PS, stream.burst * SECOND_PS
    count = min(2 * stream.frames + draws.below(8), 36)
    if pattern == 0:
        intervals = 1 + count // stream.frames
        for number in range(intervals):
            network.add_stream_frames(stream, stream.octets, at + number * interval, stream.frames)
        return at + intervals * interval
    for _ in range(count):
        octets = stream.octets
        if pattern == 2 and draws.one_in(2):
            octets = draws.below(octets + 1)
        need = bits_of(octets) * SECOND_PS
        wait = rounded_up(rounded_up(max(0, need - level), stream.slope), 1_000)
        if pattern == 3 and draws.one_in(3):
            wait += draws.below(2 * interval)
        at += wait
        level = min(most, level + stream.slope * wait * 1_000) - need
        network.add_stream_frames(stream, octets, at)
    return at + interval


def draw_breach(draws, network, stream, at, behind):
    """Draws what doesn't conform: a frame more in the first burst, one too long, or one 1 ns too early."""
    kind, then = draws.below(3), behind + 10 * INTERVAL_NS[stream.kind]
    if kind == 0:
        network.add_stream_frames(stream, stream.octets, at)
    elif kind == 1 and stream.octets < 1500:
        network.add_stream_frames(stream, stream.octets + 1, then)
    else:
        early = rounded_up(10**9, INTERVALS[stream.kind] * stream.frames) - 1
        network.add_stream_frames(stream, stream.octets, then, stream.frames)
        network.add_stream_frames(stream, stream.octets, then + early)


def begin_of(draws, network, stream, way, base):
    """The moment of a stream's first frame, so that the streams meet at a port of a way, where they do."""
    common = [port for port in way if port in network.ports_to(stream, stream.reached)]
    if not common:
        return base
    before = network.path(stream.talker, draws.one_of(common).node)
    return base - sum(port.bit for port in before) * stream.most // 1_000


def draw_stream_frames(draws, network, late, way, base):
    """Draws the frames of the streams, which conform but for some."""
    manner = draws.one_of(("one moment", "one port", "anywhere"))
    for stream in network.streams:
        if stream.kind == OTHER:
            network.add_stream_frames(stream, 200, base, 3, 1_000)
        elif stream is not late:
            at = base
            if manner == "one port":
                at = begin_of(draws, network, stream, way, base)
            elif manner == "anywhere":
                at += draws.below(400_000)
            behind = draw_conforming(draws, network, stream, at)
            if draws.one_in(40):
                draw_breach(draws, network, stream, at, behind)
    if draws.one_in(40):
        stream = network.streams[0]
        network.add_stream_frames(stream, stream.octets, 0)
        network.steady = not any(port.fed for port in network.ports.values())


def draw_other_frames(draws, network, base):
    """Draws other traffic at line rate, from before the streams' first frames on."""
    stations = network.stations()
    for station in stations:
        if draws.one_in(3):
            to = draws.one_of([other for other in stations if other != station])
            octets = draws.one_of((1500, 1500, 1500, draws.below(1501)))
            every = rounded_up(bits_of(octets) * network.path(station, to)[0].bit, 1_000)
            at = base - draws.below(3 * every) - draws.one_of((0, 0, 300_000))
            network.add_other_frames(station, to, octets, at, draws.one_of((1, 2, 10, 20)), every)


# The probes


def copies_of(network, stream, port):
    """All copies at a port, and of the stream's those that started: (wait, start, frame)."""
    copies = Flow(network).copies(port)
    started = [copy for copy in copies if copy[0].stream is stream and copy[2] is not None]
    return copies, [(start - arrival, start, frame) for frame, arrival, start in started]


def begin_of_line(copies, start):
    """The start of the first of the frames that have the line right up to the start of one."""
    starts = {begin + frame.bits: begin for frame, _, begin in copies if begin is not None}
    while start in starts:
        start = starts[start]
    return start


def sources_of(network, port):
    """The stations whose frames come to a port straight, each with the port that it sends by, where that is
    another one."""
    if port.node in network.stations():
        return [(port.node, None)]
    peers = [peer for peer in network.peers[port.node] if peer in network.stations() and peer != port.peer]
    return [(peer, network.ports[peer, port.node]) for peer in peers]


def moment_for(port, via, bits, bit):
    """The moment in ns at which a frame is to be sent so that it comes to a port in a bit time, or up to 1 ns
    before."""
    moment = bit * port.bit
    if via is not None:
        moment = (moment // via.bit - bits) * via.bit
    return moment // 1_000


def goes_on_to(network, port, station):
    """Whether other traffic goes by a port to a station."""
    return station in port.behind and all(2 in it.vids for it in [port, *network.path(port.peer, station)])


def probe(draws, network, stream, port, chosen):
    """Puts a longest frame of other traffic in the way of one of a stream's frames at a port, which is chosen
    of those that there are; where the stream is of class B, mostly with a burst of class A behind it."""
    copies, mine = copies_of(network, stream, port)
    sources = sources_of(network, port)
    ends = [station for station in network.stations() if goes_on_to(network, port, station)]
    if not mine or not sources or not ends:
        return
    begin = begin_of_line(copies, chosen(mine)[1])
    station, via = draws.one_of(sources)
    at = moment_for(port, via, LONGEST, begin - 1)
    network.add_other_frames(station, draws.one_of(ends), 1500, at)
    if stream.kind == B and not draws.one_in(3):
        burst_of_a(draws, network, port, sources, begin)


def burst_of_a(draws, network, port, sources, bit):
    """Puts a burst of class A at a port: what the credit of a longest frame's time lets go, and a longest
    frame behind that."""
    near = dict(sources)
    streams = [stream for stream in network.streams if stream in port.streams and stream.kind == A]
    streams = [stream for stream in streams if stream.talker in near]
    if streams:
        stream = draws.one_of(streams)
        full, rest = divmod(LONGEST * port.slopes[A] // (port.rate - port.slopes[A]), LONGEST)
        sizes = [LONGEST] * full + [rest // 8 * 8] * (rest >= bits_of(0)) + [LONGEST]
        for bits in sizes:
            at = moment_for(port, near[stream.talker], bits, bit)
            network.add_stream_frames(stream, bits // 8 - 42, at)


def meet(draws, network, stream, port, others, moment):
    """Moves other streams so that frames of theirs stand at a port before the stream's frame of a moment."""
    copies, _ = copies_of(network, stream, port)
    arrivals = [bit for frame, bit, _ in copies if frame.stream is stream and frame.moment == moment]
    for other in others:
        theirs = [bit for frame, bit, _ in copies if frame.stream is other]
        if arrivals and theirs:
            last = draws.one_of((min(other.frames, len(theirs)) - 1, draws.below(len(theirs))))
            shift = (arrivals[0] - theirs[last]) * port.bit // 1_000
            for entry in network.entries:
                if entry.stream is other and entry.at >= TICK_NS:
                    entry.at += shift


def hurt_one_frame(draws, network, stream, way, mine):
    """Hurts one frame of a stream at each port of a way, and moves the streams that come in there in front of
    it."""
    last_of_burst = mine[min(stream.frames, len(mine)) - 1]
    moment = draws.one_of((max(mine, key=lambda it: it[:2]), draws.one_of(mine), last_of_burst))[2].moment

    def the_one(mine):
        return next((it for it in mine if it[2].moment == moment), mine[0])

    met = {stream}
    for port in way:
        others = [other for other in network.streams if other in port.streams and other not in met]
        met.update(others)
        meet(draws, network, stream, port, [other for other in others if other.kind <= stream.kind], moment)
        probe(draws, network, stream, port, the_one)


def hurt_a_port(draws, network, stream, way):
    """Hurts early frames of a stream before a port of a way, so that others come up with them, and from that
    port on the frame that waits longest."""
    aim = draws.below(len(way))
    for place, port in enumerate(way):
        early = draws.below(4)
        if place < aim:
            probe(draws, network, stream, port, lambda mine: mine[min(early, len(mine) - 1)])
        else:
            probe(draws, network, stream, port, lambda mine: max(mine, key=lambda it: it[:2]))


def draw_probes(draws, network, stream, way):
    """Puts other traffic in the way of a stream, port by port."""
    _, mine = copies_of(network, stream, way[0])
    if mine and draws.one_in(2):
        hurt_one_frame(draws, network, stream, way, mine)
    elif mine:
        hurt_a_port(draws, network, stream, way)


def drawn(seed, number):
    """The network of a number."""
    draws, network = Draws((seed << 32) + number), Network()
    draws.below(2)
    first, last = draw_tree(draws, network)
    while not network.streams:
        draw_streams(draws, network, first, last)
    exceptions = Exceptions(draws, network)
    draw_classless(draws, network, first, last)
    settled = draw_events(draws, network, exceptions)
    target, way = draws.one_of([(stream, path) for stream, _, path in network.ways()])
    base = settled * TICK_NS + 5_000_000 + draws.below(1_000_000)
    draw_stream_frames(draws, network, exceptions.late, way, base)
    draw_other_frames(draws, network, base)
    if not draws.one_in(4):
        draw_probes(draws, network, target, way)
    return network
