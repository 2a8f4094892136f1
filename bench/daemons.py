#!/usr/bin/env python3
"""Compares the databases of routing daemons with those of a recording that `abr capture` makes of their packets.

    bench/daemons.py [--program FILE] [--keep FOLDER] [--again] [-v]

Five routers, FRR and BIRD, run in network namespaces of their own. r1, r2 and r3 are on an Ethernet segment of the backbone; r1 is
the border router, with r4 in the stub area 0.0.0.1 and r5 in area 0.0.0.2. r3 and r5 are AS boundary routers. What r1 and the bridge
of the segment hear is captured from before the daemons start. Then a metric changes, interfaces go down and come back, external
routes are withdrawn and come back, and a daemon is killed and started again. When all is at rest behind such a change, the daemons
are asked for their databases. Each has to be what `abr replay --show lsdb` prints of the recording of the packets up to then, LSA by
LSA: scope, LS type, Link State ID, Advertising Router, sequence number and checksum. Of r1's, ages may differ by 3 seconds, and the
recording's may be higher by as much as passed from the first packet to the first LSA; other routers heard the LSAs at other times,
and ages that differ by less than 15 minutes are those of one instance (RFC 2328, 13.1). A
daemon may have an LSA at MaxAge that has left the recording. Where r1 has no neighbour in an area, nothing of that is compared. The
first capture is recorded behind each change, all of them behind the first and the last.

It takes some five minutes and little of a processor, and needs root's rights on a Linux with the packages frr, bird2, iproute2 and
tcpdump. With --keep, captures, configurations, recordings and what the daemons said stay in FOLDER; with --again it is they that are
compared, and no daemon runs. With -v the commands that are run are printed. The program is the script `abr`, unless FILE is another.
The last line counts; the status is 1 where any differs, and 2 where something could not be run.
"""
import argparse
import collections
import math
import os
import re
import shutil
import struct
import subprocess
import sys
import tempfile
import time

TOP = os.path.dirname(os.path.dirname(os.path.realpath(__file__)))
FRR = "/usr/lib/frr"
# By how many seconds ages may differ: InfTransDelay (appendix B) is added to that of an LSA which is sent, and daemon, wire and
# recording each round.
AGES = 3
MAX_AGE = 3600
# For so many seconds nothing may change before the daemons count as at rest: MinLSInterval (RFC 2328, appendix B) and more.
REST = 8
# When to give up.
MOST_SECONDS = 180

# A router: its daemon, its Router ID, and the external networks of an AS boundary router.
Router = collections.namedtuple("Router", "daemon id externals")
ROUTERS = {
    "r1": Router("frr", "10.0.0.1", []),
    "r2": Router("bird", "10.0.0.2", []),
    "r3": Router("frr", "10.0.0.3", ["203.0.113.0/24", "198.18.0.0/15"]),
    "r4": Router("bird", "10.0.0.4", []),
    "r5": Router("bird", "10.0.0.5", ["192.88.99.0/24"]),
}
# An interface: its router, its name, where the other end of its pair is, its address, area, cost, and kind: that of a network with
# more routers, of a point-to-point link, or of a stub network.
Interface = collections.namedtuple("Interface", "router name other address area cost kind")
INTERFACES = [
    Interface("r1", "segment", ("hub", "r1"), "192.0.2.1/24", "0.0.0.0", 10, "broadcast"),
    Interface("r2", "segment", ("hub", "r2"), "192.0.2.2/24", "0.0.0.0", 10, "broadcast"),
    Interface("r3", "segment", ("hub", "r3"), "192.0.2.3/24", "0.0.0.0", 10, "broadcast"),
    Interface("r1", "to4", ("r4", "to1"), "198.51.100.1/30", "0.0.0.1", 5, "point-to-point"),
    Interface("r4", "to1", ("r1", "to4"), "198.51.100.2/30", "0.0.0.1", 5, "point-to-point"),
    Interface("r1", "to5", ("r5", "to1"), "198.51.100.5/30", "0.0.0.2", 5, "point-to-point"),
    Interface("r5", "to1", ("r1", "to5"), "198.51.100.6/30", "0.0.0.2", 5, "point-to-point"),
    Interface("r1", "stub", ("r1", "far"), "10.1.1.1/24", "0.0.0.0", 1, "stub"),
    Interface("r2", "stub", ("r2", "far"), "10.1.2.1/24", "0.0.0.0", 2, "stub"),
    Interface("r3", "stub", ("r3", "far"), "10.1.3.1/24", "0.0.0.0", 3, "stub"),
    Interface("r4", "stub", ("r4", "far"), "10.1.4.1/24", "0.0.0.1", 4, "stub"),
    Interface("r5", "stub", ("r5", "far"), "10.1.5.1/24", "0.0.0.2", 5, "stub"),
]
STUB_AREA = "0.0.0.1"
BORDER = "r1"
# The LS types that each scope has to have before the first comparison.
TYPES = {"0.0.0.0": {1, 2, 3, 4}, "0.0.0.1": {1, 3}, "0.0.0.2": {1, 3, 4}, "as": {5}}
# A capture: its name, where it is made, at which interface, by which link type of tcpdump, and whose scopes' LSAs it has. The bridge
# hears each packet several times: as it comes in, on the bridge, and as it goes out of each other port.
Capture = collections.namedtuple("Capture", "name place interface link scopes")
CAPTURES = [
    Capture("any", BORDER, "any", "LINUX_SLL2", set(TYPES)),
    Capture("any1", BORDER, "any", "LINUX_SLL", set(TYPES)),
    Capture("ethernet", BORDER, "segment", "EN10MB", {"0.0.0.0", "as"}),
    Capture("bridge", "hub", "any", "LINUX_SLL2", {"0.0.0.0", "as"}),
]
# How much the kernel keeps of packets that tcpdump has not written yet: a busy machine lets it wait.
KILOBYTES = "16384"
# How many bytes a link type has before the IPv4 header.
LINK_HEADERS = {"LINUX_SLL2": 20, "LINUX_SLL": 16, "EN10MB": 14}
# The type of a Link State Update (RFC 2328, A.3.1).
UPDATE = 4
FRR_TITLES = {
    "Router Link States": 1,
    "Net Link States": 2,
    "Summary Link States": 3,
    "ASBR-Summary Link States": 4,
    "AS External Link States": 5,
}
# An LSA of a database, whose key is scope, LS type, Link State ID and Advertising Router.
Instance = collections.namedtuple("Instance", "sequence checksum age")


class Failure(Exception):
    """What could not be done."""


# ---- configurations


def interfaces_of(router):
    return [it for it in INTERFACES if it.router == router]


def areas_of(router):
    return sorted({it.area for it in interfaces_of(router)})


def frr_interface(it):
    lines = [f"interface {it.name}", f" ip ospf area {it.area}", f" ip ospf cost {it.cost}"]
    if it.kind == "stub":
        return lines + [" ip ospf passive"]
    timers = [" ip ospf hello-interval 2", " ip ospf dead-interval 8", " ip ospf retransmit-interval 3"]
    return lines + [f" ip ospf network {it.kind}", *timers]


def frr_configuration(router):
    lines = [line for it in interfaces_of(router) for line in frr_interface(it)]
    lines += ["router ospf", f" ospf router-id {ROUTERS[router].id}"]
    if STUB_AREA in areas_of(router):
        lines.append(f" area {STUB_AREA} stub")
    if ROUTERS[router].externals:
        lines.append(" redistribute static metric 20 metric-type 2")
    return "\n".join(lines) + "\n"


def static_routes(router):
    return "".join(f"ip route {network} blackhole\n" for network in ROUTERS[router].externals)


def bird_interface(it):
    if it.kind == "stub":
        return f'  interface "{it.name}" {{ stub yes; cost {it.cost}; }};'
    kind = {"broadcast": "broadcast", "point-to-point": "pointopoint"}[it.kind]
    timers = "hello 2; dead 8; wait 8; retransmit 3;"
    return f'  interface "{it.name}" {{ type {kind}; {timers} cost {it.cost}; priority 9; }};'


def bird_area(router, area):
    stub = ["  stub yes;"] if area == STUB_AREA else []
    return [f" area {area} {{", *stub, *(bird_interface(it) for it in interfaces_of(router) if it.area == area), " };"]


def bird_configuration(router, withdrawn=()):
    lines = [f"router id {ROUTERS[router].id};", "protocol device { }", "protocol static {", " ipv4;"]
    lines += [f" route {network} blackhole;" for network in ROUTERS[router].externals if network not in withdrawn]
    exported = "where source = RTS_STATIC" if ROUTERS[router].externals else "none"
    lines += ["}", "protocol ospf v2 {", f" ipv4 {{ import all; export {exported}; }};"]
    lines += [line for area in areas_of(router) for line in bird_area(router, area)]
    return "\n".join(lines + ["}"]) + "\n"


def area_line(area):
    return f"area {area} stub 1 all" if area == STUB_AREA else f"area {area} normal"


def interface_line(number, it):
    peers = [other.address for other in INTERFACES if (other.router, other.name) == it.other]
    peer = peers[0] if peers else "0.0.0.0"
    return f"interface {number} {it.area} {it.address.split('/')[0]} {peer.split('/')[0]} up"


def head():
    """Returns the lines that a recording of the border router begins with."""
    lines = ["abr 1", f"router {ROUTERS[BORDER].id}", *map(area_line, areas_of(BORDER))]
    lines += [interface_line(number, it) for number, it in enumerate(interfaces_of(BORDER), 1)]
    return "\n".join(lines) + "\n"


# ---- what daemons and programs print


def frr_database(text):
    """Returns the LSAs of `show ip ospf database`."""
    found, scope, kind = {}, None, None
    for line in text.splitlines():
        title = re.match(r"\s+(.*Link States)(?: \(Area ([0-9.]+))?", line)
        words = line.split()
        if title:
            scope, kind = title[2] or "as", FRR_TITLES[title[1]]
        elif len(words) > 4 and words[3].startswith("0x"):
            found[(scope, kind, words[0], words[1])] = Instance(words[3][2:], words[4][2:], int(words[2]))
    return found


def bird_database(text):
    """Returns the LSAs of `show ospf lsadb`."""
    found, scope = {}, None
    for line in text.splitlines():
        words = line.split()
        if line.startswith("Global"):
            scope = "as"
        elif line.startswith("Area"):
            scope = words[1]
        elif len(words) == 6 and re.fullmatch("[0-9a-f]{4}", words[0]):
            found[(scope, int(words[0], 16), words[1], words[2])] = Instance(words[3], words[5], int(words[4]))
    return found


def replayed_database(text):
    """Returns the LSAs of `abr replay --show lsdb`."""
    words = [line.split(" ") for line in text.splitlines() if line.startswith("lsa ")]
    return {(it[1], int(it[2]), it[3], it[4]): Instance(it[5], it[6], int(it[7])) for it in words}


def packets_of(data):
    """Yields of each packet of a capture its time, where it begins, and where it ends."""
    order = "<" if data[:4] == b"\xd4\xc3\xb2\xa1" else ">"
    at = 24
    while at + 16 <= len(data):
        seconds, micros, length = struct.unpack(order + "III", data[at : at + 12])
        if at + 16 + length > len(data):
            break
        yield seconds + micros / 1e6, at + 16, at + 16 + length
        at += 16 + length


def cut(data, end):
    """Returns the packets of a capture up to a time, as a capture."""
    return data[: max((to for when, _, to in packets_of(data) if when <= end), default=24)]


def quiet(data, link):
    """Returns how many seconds passed in a capture before its first Link State Update."""
    first = None
    for when, begin, _ in packets_of(data):
        ip = begin + LINK_HEADERS[link]
        first = first or when
        if data[ip + 4 * (data[ip] & 15) + 1] == UPDATE:
            return when - first
    return 0


# ---- the routers


class Lab:
    """The namespaces, and what runs in them."""

    def __init__(self, folder, is_verbose):
        self.folder = folder
        self.is_verbose = is_verbose
        # The names of sockets are short, and FRR's daemons reach them as a user of their own.
        self.sockets = tempfile.mkdtemp(prefix="abr", dir="/tmp")
        os.chmod(self.sockets, 0o755)
        self.places = []
        self.running = []
        self.captures = []
        self.birds = {}

    def place(self, name):
        """Returns the name of a namespace."""
        return f"abr{os.getpid()}{name}"

    def say(self, words):
        if self.is_verbose:
            print("+", " ".join(words), flush=True)

    def run(self, *words, stdin=None):
        """Runs a command, and returns what it prints."""
        self.say(words)
        ended = subprocess.run(words, input=stdin, capture_output=True, text=True, check=False)
        if ended.returncode:
            raise Failure(f"{' '.join(words)}: {ended.stderr.strip() or ended.stdout.strip()}")
        return ended.stdout

    def start(self, name, log, *words):
        """Starts a command in a namespace."""
        words = ["ip", "netns", "exec", self.place(name), *words]
        self.say(words)
        with open(os.path.join(self.folder, log), "ab") as out:
            process = subprocess.Popen(words, stdin=subprocess.DEVNULL, stdout=out, stderr=out)
        self.running.append(process)
        return process

    def write(self, name, text):
        """Writes a file into the folder, and returns its path."""
        path = os.path.join(self.folder, name)
        with open(path, "w", encoding="ascii") as out:
            out.write(text)
        return path

    def read(self, name):
        with open(os.path.join(self.folder, name), encoding="ascii") as it:
            return it.read()

    def socket(self, name):
        return os.path.join(self.sockets, name)

    # -- networks

    def add_places(self):
        for name in ["hub", *ROUTERS]:
            self.run("ip", "netns", "add", self.place(name))
            self.places.append(name)
            self.run("ip", "-n", self.place(name), "link", "set", "lo", "up")

    def add_bridge(self):
        self.run("ip", "-n", self.place("hub"), "link", "add", "bridge", "type", "bridge")
        self.run("ip", "-n", self.place("hub"), "link", "set", "bridge", "up")

    def add_pair(self, it):
        place, end = it.other
        peer = ["peer", "name", end, "netns", self.place(place)]
        self.run("ip", "-n", self.place(it.router), "link", "add", it.name, "type", "veth", *peer)

    def raise_interface(self, it):
        self.run("ip", "-n", self.place(it.router), "address", "add", it.address, "dev", it.name)
        self.set_state(it.router, it.name, "up")
        place, end = it.other
        if place == "hub":
            self.run("ip", "-n", self.place(place), "link", "set", end, "master", "bridge")
        self.set_state(place, end, "up")

    def set_state(self, router, interface, state):
        self.run("ip", "-n", self.place(router), "link", "set", interface, state)

    def build(self):
        self.add_places()
        self.add_bridge()
        made = set()
        for it in INTERFACES:
            if (it.router, it.name) not in made:
                self.add_pair(it)
                made.add(it.other)
        for it in INTERFACES:
            self.raise_interface(it)

    # -- captures

    def start_capture(self, it):
        path = os.path.join(self.folder, f"{it.name}.pcap")
        words = ["-Z", "root", "-U", "--immediate-mode", "-B", KILOBYTES, "-n", "-i", it.interface, "-y", it.link, "-w", path, "proto", "89"]
        self.captures.append(self.start(it.place, f"{it.name}.log", "tcpdump", *words))
        wait_until(lambda: os.path.exists(path) and os.path.getsize(path) >= 24, 10, f"the capture {it.name} does not begin")

    def end_captures(self):
        """Ends them, and says where one lacks packets: LSAs that were in these may differ."""
        for process in self.captures:
            end(process)
        for it in CAPTURES:
            with open(os.path.join(self.folder, f"{it.name}.log"), encoding="utf-8") as log:
                dropped = re.search(r"^([1-9]\d*) packets? dropped by kernel", log.read(), re.MULTILINE)
            if dropped:
                print(f"{it.name}: the kernel dropped {dropped[1]} packets, so the capture lacks them", flush=True)

    # -- daemons

    def start_frr(self, router):
        """Starts zebra and ospfd, and staticd where there are static routes."""
        folder = self.socket(router)
        os.mkdir(folder)
        shutil.chown(folder, "frr", "frrvty")
        daemons = {"zebra": "", "ospfd": frr_configuration(router), "staticd": static_routes(router)}
        for name, text in daemons.items():
            if name != "staticd" or text:
                file = shutil.copy(self.write(f"{router}.{name}.conf", text), folder)
                self.start_frr_daemon(router, name, file, folder)

    def start_frr_daemon(self, router, name, file, folder):
        paths = ["-f", file, "-i", f"{folder}/{name}.pid", "-z", f"{folder}/zserv.api", "--vty_socket", folder]
        words = [*paths, "-P", "0", "-u", "frr", "-g", "frr", "--log", "stdout"]
        self.start(router, f"{router}.{name}.log", f"{FRR}/{name}", *words)
        wait_until(lambda: os.path.exists(f"{folder}/{name}.vty"), 10, f"{name} of {router} does not start")

    def start_bird(self, router):
        file = self.write(f"{router}.bird.conf", bird_configuration(router))
        socket = self.socket(f"{router}.ctl")
        words = ["-f", "-c", file, "-s", socket, "-P", self.socket(f"{router}.pid")]
        self.birds[router] = self.start(router, f"{router}.bird.log", "bird", *words)
        wait_until(lambda: os.path.exists(socket), 10, f"bird of {router} does not start")

    def start_daemons(self):
        for name, router in ROUTERS.items():
            start = self.start_frr if router.daemon == "frr" else self.start_bird
            start(name)

    def ask(self, router, *commands):
        """Gives commands to the daemon of a router."""
        if ROUTERS[router].daemon == "bird":
            return self.run("birdc", "-s", self.socket(f"{router}.ctl"), *commands)
        words = [word for command in commands for word in ("-c", command)]
        return self.run("vtysh", "--vty_socket", self.socket(router), *words)

    def database_text(self, router):
        words = {"frr": "show ip ospf database", "bird": "show ospf lsadb"}
        return self.ask(router, words[ROUTERS[router].daemon])

    def end(self):
        for process in reversed(self.running):
            end(process)
        for name in self.places:
            subprocess.run(["ip", "netns", "del", self.place(name)], check=False)
        shutil.rmtree(self.sockets)

    # -- changes

    def set_cost(self, router, interface, cost):
        self.ask(router, "configure terminal", f"interface {interface}", f"ip ospf cost {cost}")

    def withdraw(self, router, networks):
        """Has the router redistribute all its external networks but these."""
        if ROUTERS[router].daemon == "bird":
            self.write(f"{router}.bird.conf", bird_configuration(router, networks))
            self.ask(router, "configure")
            return
        for network in ROUTERS[router].externals:
            self.ask(router, "configure terminal", f"{'no ' * (network in networks)}ip route {network} blackhole")

    def kill_bird(self, router):
        """Ends the daemon so that it tells nobody, and starts it again before its neighbours have noticed."""
        self.birds[router].kill()
        self.birds[router].wait()
        os.remove(self.socket(f"{router}.ctl"))
        self.start_bird(router)


def end(process):
    """Ends a process that was started here."""
    if process.poll() is None:
        process.terminate()
        try:
            process.wait(5)
        except subprocess.TimeoutExpired:
            process.kill()
            process.wait()


def wait_until(is_so, seconds, fault):
    until = time.monotonic() + seconds
    while not is_so():
        if time.monotonic() > until:
            raise Failure(fault)
        time.sleep(0.2)


# ---- coming to rest

# What the daemons had when they were asked: the time behind that, and of each router what it said, when, and its LSAs at their ages
# at the former time.
Answers = collections.namedtuple("Answers", "time texts times databases")


def answers_of(lab):
    texts, times = {}, {}
    for router in ROUTERS:
        texts[router] = lab.database_text(router)
        times[router] = time.time()
    return answers_from(texts, times)


def answers_from(texts, times):
    last = max(times.values())
    databases = {router: aged(database_of(router, text), round(last - times[router])) for router, text in texts.items()}
    return Answers(last, texts, times, databases)


def database_of(router, text):
    return {"frr": frr_database, "bird": bird_database}[ROUTERS[router].daemon](text)


def aged(database, seconds):
    return {key: it if it.age >= MAX_AGE else it._replace(age=it.age + seconds) for key, it in database.items()}


def without_ages(database):
    return {key: (it.sequence, it.checksum, it.age >= MAX_AGE) for key, it in database.items()}


def living(database):
    return {key: (it.sequence, it.checksum) for key, it in database.items() if it.age < MAX_AGE}


def scopes_of(router):
    """Returns whose LSAs the router has: those of its areas, and AS-external-LSAs unless its area is a stub area."""
    areas = areas_of(router)
    return {*areas} if areas == [STUB_AREA] else {*areas, "as"}


def of_scopes(database, scopes):
    return {key: it for key, it in database.items() if key[0] in scopes}


def heard(databases, apart):
    """Returns what is left where the border router has no neighbour in an area."""
    return {router: of_scopes(it, scopes_of(router) - {apart}) for router, it in databases.items() if areas_of(router) != [apart]}


def are_alike(databases):
    """Whether the routers have the same LSAs as the border router in the scopes that they share, but for those at MaxAge."""
    border = databases[BORDER]
    return all(living(it) == living(of_scopes(border, scopes_of(router))) for router, it in databases.items() if router != BORDER)


def are_whole(databases):
    """Whether the routers are alike, and the border router has LSAs of each type."""
    found = {scope: {key[1] for key in databases[BORDER] if key[0] == scope} for scope in TYPES}
    return are_alike(databases) and found == TYPES


def are_without(*keys):
    """Returns whether the routers are alike, and none has the LSAs any more, not even at MaxAge."""
    return lambda databases: are_alike(databases) and not any(key in it for key in keys for it in databases.values())


def rest(lab, change):
    """Waits until nothing has changed for a while, and returns what the daemons have then."""
    last, since, began = None, time.monotonic(), time.monotonic()
    while True:
        answers = answers_of(lab)
        now = {router: without_ages(it) for router, it in answers.databases.items()}
        if now != last or not change.is_done(heard(answers.databases, change.apart)):
            last, since = now, time.monotonic()
        if time.monotonic() - since >= REST:
            return answers
        if time.monotonic() - began > MOST_SECONDS:
            raise Failure(f"{change.name}: the daemons do not come to rest")
        time.sleep(2)


# ---- comparison


def differences(said, recorded, ages):
    """Yields the key of each LSA that differs, with both its instances."""
    for key in sorted({*said, *recorded}):
        one, other = said.get(key), recorded.get(key)
        if not (is_same(one, other, ages) or is_leaving(one, other)):
            yield key, one, other


def is_same(one, other, ages):
    return None not in (one, other) and one[:2] == other[:2] and abs(one.age - other.age) <= ages


def is_leaving(one, other):
    """Whether the daemon keeps the LSA at MaxAge, until all neighbours have acknowledged it or some time longer."""
    return one is not None and one.age >= MAX_AGE and (other is None or other.age >= MAX_AGE)


def words_of(instance):
    return " ".join(map(str, instance)) if instance else "none"


# How many LSAs were compared.
Counts = collections.namedtuple("Counts", "same differ leaving")


def compare(place, said, recorded, ages):
    """Prints a line for each LSA that differs, and returns counts."""
    found = list(differences(said, recorded, ages))
    for key, one, other in found:
        print(f"{place}: {' '.join(map(str, key))}: the daemon has {words_of(one)}, the recording {words_of(other)}")
    leaving = sum(is_leaving(one, recorded.get(key)) for key, one in said.items())
    return Counts(len({*said, *recorded}) - len(found) - leaving, len(found), leaving)


class Judge:
    """Compares what daemons said with recordings of the captures."""

    def __init__(self, lab, program):
        self.lab = lab
        self.program = program
        self.head = lab.write("head.rec", head())

    def recorded(self, capture, name, until):
        """Returns the database of the recording of a capture up to a time."""
        piece = os.path.join(self.lab.folder, f"{name}.pcap")
        with open(piece, "wb") as out:
            out.write(cut(self.data(capture), until))
        text = self.lab.run(self.program, "capture", piece, "--begin", self.head)
        recording = self.lab.write(f"{name}.rec", text)
        return replayed_database(self.lab.run(self.program, "replay", recording, "--show", "lsdb"))

    def data(self, capture):
        with open(os.path.join(self.lab.folder, f"{capture.name}.pcap"), "rb") as it:
            return it.read()

    def judge(self, capture, change, answers):
        """Compares what each router said with a recording, and yields counts."""
        late = math.ceil(quiet(self.data(capture), capture.link))
        recorded = self.recorded(capture, f"{change.name}.{capture.name}", answers.time)
        for router, database in heard(answers.databases, change.apart).items():
            scopes = capture.scopes & scopes_of(router) - {change.apart}
            ages = AGES + late if router == BORDER else MAX_AGE
            place = f"{change.name} {capture.name} {router}"
            yield compare(place, of_scopes(database, scopes), of_scopes(recorded, scopes), ages)

    def judge_all(self, said):
        for change, answers in said:
            for capture in CAPTURES if change in (said[0][0], said[-1][0]) else CAPTURES[:1]:
                yield from self.judge(capture, change, answers)


# ---- the whole

# What happens: its name, what is done, the area in which the border router has no neighbour then, and what has to be so behind it.
Change = collections.namedtuple("Change", "name make apart is_done")


def changes(lab):
    first, second = ROUTERS["r3"].externals
    own = ROUTERS["r5"].externals
    return [
        Change("start", lab.start_daemons, None, are_whole),
        Change("metric", lambda: lab.set_cost("r1", "segment", 25), None, are_alike),
        Change("down", lambda: lab.set_state("r2", "far", "down"), None, are_alike),
        Change("up", lambda: lab.set_state("r2", "far", "up"), None, are_alike),
        Change("apart5", lambda: lab.set_state("r5", "to1", "down"), "0.0.0.2", are_alike),
        Change("withdrawn", lambda: lab.withdraw("r3", [first, second]), "0.0.0.2", are_alike),
        Change("gone", lambda: None, "0.0.0.2", are_without(external("r3", first), external("r3", second))),
        # FRR begins again with the first sequence number: the LSA has the bytes that it had before.
        Change("back", lambda: lab.withdraw("r3", [second]), "0.0.0.2", are_alike),
        # r5 still has the LSA that is gone.
        Change("together5", lambda: lab.set_state("r5", "to1", "up"), None, are_alike),
        Change("withdrawn5", lambda: lab.withdraw("r5", own), None, are_alike),
        Change("back5", lambda: lab.withdraw("r5", []), None, are_alike),
        Change("apart4", lambda: lab.set_state("r4", "to1", "down"), "0.0.0.1", are_alike),
        Change("together4", lambda: lab.set_state("r4", "to1", "up"), None, are_alike),
        Change("restarted", lambda: lab.kill_bird("r2"), None, are_alike),
    ]


def external(router, network):
    return "as", 5, network.split("/")[0], ROUTERS[router].id


def run_changes(lab):
    """Makes each change, and yields it with what the daemons said behind it."""
    for change in changes(lab):
        began = time.monotonic()
        change.make()
        answers = rest(lab, change)
        keep(lab, change, answers)
        print(f"{change.name}: at rest after {time.monotonic() - began:.0f} s", flush=True)
        yield change, answers


def keep(lab, change, answers):
    for router, text in answers.texts.items():
        lab.write(f"{change.name}.{router}.txt", f"{answers.times[router]}\n{text}")


def kept(lab):
    """Yields each change, and what the daemons said behind it, as an earlier run kept it."""
    for change in changes(lab):
        found = {router: lab.read(f"{change.name}.{router}.txt").split("\n", 1) for router in ROUTERS}
        texts = {router: text for router, (_, text) in found.items()}
        yield change, answers_from(texts, {router: float(said) for router, (said, _) in found.items()})


def run_all(lab):
    lab.build()
    for it in CAPTURES:
        lab.start_capture(it)
    said = list(run_changes(lab))
    lab.end_captures()
    return said


def work(lab, program, is_again):
    said = list(kept(lab)) if is_again else run_all(lab)
    same, differ, leaving = map(sum, zip(*Judge(lab, program).judge_all(said)))
    print(f"{same} same, {differ} differ, {leaving} at MaxAge in a daemon alone")
    return 1 if differ else 0


def main():
    words = argparse.ArgumentParser()
    words.add_argument("--program", default=f"{TOP}/abr")
    words.add_argument("--keep")
    words.add_argument("--again", action="store_true")
    words.add_argument("-v", action="store_true", dest="verbose")
    given = words.parse_args()
    if given.again and not given.keep:
        words.error("--again needs --keep")
    folder = given.keep or tempfile.mkdtemp(prefix="abr")
    os.makedirs(folder, exist_ok=True)
    lab = Lab(os.path.realpath(folder), given.verbose)
    try:
        return work(lab, given.program, given.again)
    except (Failure, OSError) as failure:
        print(f"daemons: {failure}", file=sys.stderr)
        return 2
    finally:
        lab.end()
        if not given.keep:
            shutil.rmtree(folder)


if __name__ == "__main__":
    sys.exit(main())
