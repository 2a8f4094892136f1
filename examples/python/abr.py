"""Routes of an OSPFv2 area border router (RFC 2328), by the library libabr.so.

    import abr
    router = abr.load("examples/border_router.rec")     # replays a recording
    print(*router.routes(), sep="\\n")
    print(router.lookup("203.0.113.9"))                 # the longest match, or "none"
    router.take("interface", "2", "0.0.0.0", "198.51.100.1", "198.51.100.2", "down")

A router is for one thread at a time. Lines, words and numbers are those of docs/FORMATS.md.
"""
import ctypes
import os
import pathlib
from ctypes import byref, c_bool, c_size_t, c_uint8, c_uint32
from ipaddress import IPv4Address

__version__ = "0.1.0"
# The answer to an event after which the table is current.
CURRENT = 0
KINDS, HOPS = ("none", "discard", "intra", "inter", "ext1", "ext2"), ("direct", "peer", "router")
# The words with which the lines of a configuration, or of a base, begin.
FRONT = b"abr router compat serial area range has".split()


def struct(**fields):
    return type("Struct", (ctypes.Structure,), {"_fields_": [*fields.items()]})


Core = struct(at=ctypes.c_void_p, is_open=c_bool)
Scope = struct(is_as=c_bool, area=c_uint32)
Key = struct(type=c_uint8, id=c_uint32, router=c_uint32)
Prefix = struct(address=c_uint32, length=c_uint8)
Item = struct(kind=c_uint8, prefix=Prefix, area=c_uint32, cost=c_uint32, cost2=c_uint32, paths=c_uint32)
Hop = struct(kind=c_uint8, interface=c_uint8, has_advertiser=c_bool, address=c_uint32, advertiser=c_uint32)


class Router:
    """A router, opened with the first lines of a recording, up to the first event. Raises a `ValueError` with the number if they
    are refused."""

    def __init__(self, front, library=None):
        self.core = Core()
        self.library = ctypes.CDLL(library or str(pathlib.Path(__file__).with_name("libabr.so")))
        call = self.library["abr_open_base_bytes" if front.startswith(b"abr 3") else "abr_open_bytes"]
        answer = call(front, c_size_t(len(front)), os.urandom(16), c_size_t(16), byref(self.core))
        if answer:
            raise ValueError(f"no core is opened: {answer}")

    def __del__(self):
        if hasattr(self, "library"):
            self.library.abr_close(self.core)

    def take(self, verb, *words):
        """Takes an event, by the words of its line, and returns the number of the answer: `CURRENT`, or why not."""
        if verb == "install":
            lsa = bytes.fromhex(words[1])
            return self._call("install_bytes", _scope(words[0]), lsa, c_size_t(len(lsa)))
        if verb in ("flush", "purge"):
            words = [_scope(words[0]), Key(int(words[1]), *map(_number, words[2:]))]
        elif verb == "interface":
            words = [c_uint8(int(words[0])), *(c_uint32(_number(it)) for it in words[1:4]), c_bool(words[4] == "up")]
        elif verb in ("range-set", "range-drop"):
            words = [c_uint32(_number(words[0])), _prefix(words[1]), *(c_bool(it == "advertise") for it in words[2:])]
        return self._call(verb.replace("-", "_"), *words)

    def lookup(self, address):
        """Returns what the table has for an address: the line of its longest match, or "none"."""
        item = Item()
        self._call("lookup", c_uint32(_number(address)), byref(item), answers=None)
        return self._line(item) if item.kind else "none"

    def routes(self):
        """Returns the table, a line for each network, as `abr replay` prints it."""
        items = (Item * self._call("items", answers=c_size_t))()
        self._call("items_from", c_size_t(0), items, c_size_t(len(items)), answers=c_size_t)
        return [self._line(it) for it in items]

    def _call(self, name, *words, answers=c_uint32):
        function = self.library[f"abr_{name}"]
        function.restype = answers
        return function(byref(self.core), *words)

    def _line(self, item):
        network = f"{IPv4Address(item.prefix.address)}/{item.prefix.length}"
        if KINDS[item.kind] == "discard":
            return f"discard {network}"
        area = IPv4Address(item.area) if KINDS[item.kind] in ("intra", "inter") else "-"
        hops = ",".join(self._hop(item.prefix, n) for n in range(item.paths))
        return f"route {network} {KINDS[item.kind]} {area} {item.cost} {item.cost2} {hops}"

    def _hop(self, prefix, n):
        hop = Hop()
        self._call("path", prefix, c_size_t(n), byref(hop), answers=c_bool)
        address = f":{IPv4Address(hop.address)}" if HOPS[hop.kind] == "router" else ""
        return f"{HOPS[hop.kind]}:{hop.interface}{address}{f'@{IPv4Address(hop.advertiser)}' if hop.has_advertiser else ''}"


def load(file, library=None):
    """Replays a recording, and returns its router. Events that are refused change nothing."""
    lines = pathlib.Path(file).read_bytes().splitlines(keepends=True)
    front = [it for it in lines if it.split()[0] in FRONT]
    router = Router(b"".join(front), library)
    for verb, *words in (it.decode().split() for it in lines[len(front) :]):
        if verb != "lookup":
            router.take(verb, *words)
    return router


def _number(word):
    return int(IPv4Address(word))


def _scope(word):
    return Scope(word == "as", 0 if word == "as" else _number(word))


def _prefix(word):
    address, length = word.split("/")
    return Prefix(_number(address), int(length))
