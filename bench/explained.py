#!/usr/bin/env python3
"""Checks what `abr explain` says of a recording's routes against the databases that the recording leaves.

    bench/explained.py [--program FILE] [--most N] RECORDING..

Of each network in the routing table an address is explained, and of some addresses that are in none; of a recording with many
networks, N of them. Each time:

    the match is the longest one among the routes that `abr replay` prints, and each network has its route;
    the paths of what is taken are those of the network's route, each once or more;
    each path begins at the router, each of its links where the one before ended, and the last one ends at the network;
    the costs of its links add up to the cost (of a type 2 external metric without the last link, whose cost is that metric);
    each LSA that is named is in `abr replay --show lsdb`, and, by its bytes in `--show journal`, says what the link says.

The program is what `./abr build` built, unless FILE is another. The last line counts, and the status is 1 where anything differs.
"""
import argparse
import ipaddress
import os
import subprocess
import sys

TOP = os.path.dirname(os.path.dirname(os.path.realpath(__file__)))
# The LS types (RFC 2328, A.4.1) and the types of a router's links (A.4.2).
ROUTER_LSA, NETWORK_LSA, SUMMARY_LSA, ASBR_SUMMARY_LSA, EXTERNAL_LSA = range(1, 6)
POINT_TO_POINT, TRANSIT, STUB, VIRTUAL = range(1, 5)
HEADER = 20


def main():
    words = argparse.ArgumentParser()
    words.add_argument("--program", default=f"{TOP}/crates/abr/out/abr")
    words.add_argument("--most", type=int, default=1000)
    words.add_argument("recordings", nargs="+")
    given = words.parse_args()
    addresses = paths = wrong = 0
    for file in given.recordings:
        run = Run(given.program, file)
        for address in run.addresses(given.most):
            addresses += 1
            try:
                paths += run.check(address)
            except (Wrong, ValueError, IndexError) as why:
                wrong += 1
                print(f"{file}, {address}: {why!r}")
    print(f"{addresses} addresses, {paths} paths, {wrong} wrong")
    return 1 if wrong else 0


class Wrong(Exception):
    pass


class Run:
    """A recording, and what the program prints of it."""

    def __init__(self, program, file):
        self.program, self.file = program, file
        self.items = {}
        for words in self.lines("replay", file):
            if words[0] in ("route", "discard"):
                self.items[network(words[1])] = words
        self.shown = {tuple(it[1:6]) for it in self.lines("replay", file, "--show", "lsdb") if it[0] == "lsa"}
        self.bodies = {}
        self.root = ""
        for words in self.lines("replay", file, "--show", "journal"):
            if words[0] == "router":
                self.root = words[1]
            lsa = words[-1] if words[:2] == ["has", "lsa"] or words[0] in ("install", "originate") else ""
            if lsa:
                scope, body = words[-2], bytes.fromhex(lsa)
                self.bodies.setdefault((scope, *name_of(body)), []).append(body)

    def lines(self, *words):
        done = subprocess.run([self.program, *words], capture_output=True, check=False)
        if done.returncode:
            sys.exit(f"{' '.join(words)}: {done.stderr.decode()}")
        return [line.split(" ") for line in done.stdout.decode().splitlines()]

    def addresses(self, most):
        """Returns an address of each network, its last one, and some that are in none."""
        networks = sorted(self.items)
        step = max(1, len(networks) // most)
        return [str(it[-1]) for it in networks[::step]] + ["0.0.0.0", "255.255.255.255", "192.0.2.255"]

    def check(self, address):
        """Raises `Wrong` where the explanation is wrong, and else returns how many paths it has."""
        lines = self.lines("explain", self.file, address)
        self.check_match(address, lines[0])
        count, at = 0, 1
        has = [it for it in self.items if ipaddress.ip_address(address) in it]
        told = []
        while at < len(lines):
            expect(lines[at][0] in ("route", "discard", "none"), lines[at])
            end = at + 1
            while end < len(lines) and lines[end][0] not in ("route", "discard", "none"):
                end += 1
            told.append(network(lines[at][1]))
            count += self.check_network(lines[at], lines[at + 1 : end])
            at = end
        expect(told == sorted(told, key=lambda it: -it.prefixlen), "order")
        expect(set(has) <= set(told), "a network is missing")
        return count

    def check_match(self, address, line):
        expect(line[:2] == ["lookup", address], line)
        has = [it for it in self.items if ipaddress.ip_address(address) in it]
        longest = max(has, key=lambda it: it.prefixlen, default=None)
        expect(line[3:] == (self.items[longest] if has else ["none"]), line)

    def check_network(self, item, lines):
        """Checks what is said of a network, and returns how many paths."""
        where = network(item[1])
        wanted = self.items.get(where, ["none", item[1]])
        expect(item == wanted, item)
        told, at = [], 0
        while at < len(lines):
            candidate = lines[at]
            expect(candidate[0] in ("taken", "lost"), candidate)
            self.check_lsa(lsa_of(candidate))
            at += 1
            while at < len(lines) and lines[at][0] == "path":
                expect(candidate[0] == "taken", candidate)
                end = at + 1
                while end < len(lines) and lines[end][0] == "link":
                    end += 1
                told.append(lines[at][1])
                self.check_path(candidate, item[1], lines[at + 1 : end])
                at = end
        paths = item[6].split(",") if item[0] == "route" else []
        expect(set(told) == set(paths), f"{told} of {item}")
        return len(told)

    def check_path(self, candidate, prefix, links):
        expect(links, "no links")
        expect(links[0][1] == f"router:{self.root}", links[0])
        expect(links[-1][2] == prefix, links[-1])
        for one, next_one in zip(links, links[1:]):
            expect(one[2] == next_one[1], next_one)
        costs = [int(it[3]) for it in links]
        if candidate[2] == "external" and candidate[3] == "2":
            costs.pop()
        expect(sum(costs) == int(candidate[1]), f"{costs} for {candidate}")
        expect(lsa_of(links[-1]) == lsa_of(candidate), links[-1])
        for link in links:
            self.check_lsa(lsa_of(link))
            bodies = self.bodies.get(lsa_of(link), [])
            expect(any(says(body, link) for body in bodies), link)

    def check_lsa(self, lsa):
        expect(lsa in self.shown, lsa)


def expect(holds, what):
    if not holds:
        raise Wrong(what)


def network(text):
    return ipaddress.ip_network(text)


def lsa_of(line):
    at = line.index("lsa")
    return tuple(line[at + 1 : at + 6])


def name_of(body):
    """Returns LS type, Link State ID, Advertising Router and sequence number, as they are printed."""
    return str(body[3]), dotted(body[4:8]), dotted(body[8:12]), body[12:16].hex()


def dotted(octets):
    return ".".join(map(str, octets))


def number(octets):
    return int.from_bytes(octets, "big")


def prefix_of(address, mask):
    length = bin(number(mask)).count("1")
    return str(ipaddress.ip_network((number(address) & number(mask), length)))


def says(body, link):
    """Whether the LSA has the link."""
    tail, head, cost = link[1], link[2], int(link[3])
    kind, rest = body[3], body[HEADER:]
    if kind == ROUTER_LSA:
        return tail == f"router:{dotted(body[8:12])}" and (head, cost) in links_of(rest)
    if kind == NETWORK_LSA:
        heads = [f"router:{dotted(rest[at : at + 4])}" for at in range(4, len(rest), 4)]
        heads.append(prefix_of(body[4:8], rest[:4]))
        return tail == f"network:{dotted(body[4:8])}" and head in heads and cost == 0
    if cost != number(rest[5:8]):
        return False
    if kind == ASBR_SUMMARY_LSA:
        return (tail, head) == (f"router:{dotted(body[8:12])}", f"router:{dotted(body[4:8])}")
    if head != prefix_of(body[4:8], rest[:4]):
        return False
    if kind == SUMMARY_LSA:
        return tail == f"router:{dotted(body[8:12])}"
    forwarding = rest[8:12]
    if number(forwarding):
        return ipaddress.ip_address(dotted(forwarding)) in network(tail)
    return tail == f"router:{dotted(body[8:12])}"


def links_of(rest):
    """Returns where the links of a router-LSA lead, and their metrics."""
    found, at = [], 4
    for _ in range(number(rest[2:4])):
        name, data, kind, others = rest[at : at + 4], rest[at + 4 : at + 8], rest[at + 8], rest[at + 9]
        heads = {POINT_TO_POINT: f"router:{dotted(name)}", TRANSIT: f"network:{dotted(name)}"}
        if kind == STUB:
            heads[STUB] = prefix_of(name, data)
        found.append((heads.get(kind), number(rest[at + 10 : at + 12])))
        at += 12 + 4 * others
    return found


if __name__ == "__main__":
    sys.exit(main())
