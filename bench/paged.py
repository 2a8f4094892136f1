#!/usr/bin/env python3
"""Checks the page that `abr page` makes of a recording against what other commands print of it.

    bench/paged.py [--program FILE] RECORDING..

    the routing table has the lines of `abr replay`, and the due summaries those of `--show due`;
    each range has just the networks that the table has in it, of its area and with an intra-area route;
    the last changes are the lines of `abr changes` for the last ten lines of the recording;
    each picture has just the vertices that a search of its own reaches in the LSAs of `--show lsdb` and `--show journal`, each
    at its distance, and just the links between them that both ends have (RFC 2328, 16.1 (2)), each with its cost, those of
    the tree apart from the others; no two vertices stand in one place, and none stands to the left of a nearer one;
    nothing is loaded from elsewhere, and no text has a `<` of its own.

The program is what `./abr build` built, unless FILE is another. The last line counts, and the status is 1 where anything differs.
"""
import argparse
import collections
import heapq
import html.parser
import os
import re
import subprocess
import sys

from explained import HEADER, NETWORK_LSA, POINT_TO_POINT, ROUTER_LSA, TRANSIT, Run, Wrong, dotted, expect, network, number

TOP = os.path.dirname(os.path.dirname(os.path.realpath(__file__)))
# How the page names what `abr replay` names in a word.
TYPES = {"intra-area": "intra", "inter-area": "inter", "type 1 external": "ext1", "type 2 external": "ext2"}
# What may stand in the text of a page: words, numbers, addresses and their marks.
PLAIN = re.compile(r"[\w\s.,:;/@()'!?+*-]*")
LAST_LINES = 10
HEADINGS = ("h1", "h2", "h3", "h4")
# The age at which an LSA is no longer used, in seconds (RFC 2328, appendix B).
MAX_AGE = 3600


def main():
    words = argparse.ArgumentParser()
    words.add_argument("--program", default=f"{TOP}/crates/abr/out/abr")
    words.add_argument("recordings", nargs="+")
    given = words.parse_args()
    counts, wrong = collections.Counter(), 0
    for file in given.recordings:
        try:
            counts.update(Page(given.program, file).check())
        except (Wrong, ValueError, IndexError, KeyError) as why:
            wrong += 1
            print(f"{file}: {why!r}")
    told = ", ".join(f"{counts[it]} {it}" for it in ("routes", "summaries", "vertices", "links", "changes"))
    print(f"{len(given.recordings)} pages, {told}, {wrong} wrong")
    return 1 if wrong else 0


class Reader(html.parser.HTMLParser):
    """Takes a page apart: its tables under their headings, and the elements of its pictures."""

    def __init__(self):
        super().__init__()
        self.heading, self.headings, self.tables, self.lists, self.pictures = [], [], [], [], []
        self.texts, self.pre, self.open = [], "", []

    def handle_starttag(self, tag, attrs):
        given = dict(attrs)
        expect(not any(name in given for name in ("src", "srcset", "background", "action")), given)
        expect(given.get("href", "#").startswith("#") and tag not in ("link", "iframe", "object", "embed", "base"), (tag, given))
        if tag in ("tr", "td", "th", "li"):
            # Their ends may be left out.
            if tag == "tr":
                self.tables[-1][1].append([])
            elif tag == "li":
                self.lists[-1][1].append("")
            else:
                self.tables[-1][1][-1].append("")
            return
        if tag not in ("meta", "br", "input", "col"):
            self.open.append((tag, given))
        if tag == "svg" and "viewbox" in given:
            self.pictures.append((self.heading[-1], []))
        if tag in ("circle", "rect", "path") and any(it[0] == "svg" and "viewbox" in it[1] for it in self.open):
            self.pictures[-1][1].append([tag, given, ""])
        if tag == "table":
            self.tables.append((list(self.heading), []))
        if tag == "ul":
            self.lists.append((list(self.heading), []))
        if tag in HEADINGS:
            self.heading = [it for it in self.heading if it[0] < tag] + [(tag, given.get("id", ""), "")]
            self.headings.append(self.heading)

    def handle_endtag(self, tag):
        while self.open and self.open.pop()[0] != tag:
            pass

    def handle_data(self, data):
        inside = [it[0] for it in self.open]
        if "style" in inside or "script" in inside:
            return
        self.texts.append(data)
        if "svg" in inside:
            if "title" in inside:
                self.pictures[-1][1][-1][2] += data
        elif "table" in inside:
            if self.tables[-1][1] and self.tables[-1][1][-1]:
                self.tables[-1][1][-1][-1] += data
        elif "ul" in inside:
            if self.lists[-1][1]:
                self.lists[-1][1][-1] += data
        elif "pre" in inside:
            self.pre += data
        elif inside and inside[-1] in HEADINGS:
            tag, name, text = self.heading.pop()
            self.heading.append((tag, name, text + data))


class Page(Run):
    """A recording, its page, and what other commands print of it."""

    def __init__(self, program, file):
        super().__init__(program, file)
        done = subprocess.run([program, "page", file], capture_output=True, check=False)
        expect(done.returncode == 0, done.stderr)
        self.text = done.stdout.decode()
        self.page = Reader()
        self.page.feed(self.text)
        self.page.close()

    def check(self):
        """Raises `Wrong` where the page is wrong, and else returns how many things it has."""
        for text in self.page.texts:
            expect(PLAIN.fullmatch(text), text)
        counts = {"routes": self.check_routes(), "summaries": self.check_summaries(), "changes": self.check_changes()}
        self.check_ranges()
        counts.update(self.check_pictures())
        return counts

    def tables_of(self, section):
        return [it for it in self.page.tables if any(name == section for _, name, _ in it[0])]

    def check_routes(self):
        rows = [row for _, table in self.tables_of("routes") for row in table if "/" in row[0]]
        told = [[*row[:5], row[5].split()] for row in rows]
        wanted = [self.row_of(words) for words in self.items.values()]
        expect(told == wanted, [it for it in zip(told, wanted) if it[0] != it[1]][:2] or (len(told), len(wanted)))
        return len(rows)

    def row_of(self, words):
        if words[0] == "discard":
            return [words[1], "discard", "-", "-", "-", ["-"]]
        kinds = {short: long for long, short in TYPES.items()}
        _, prefix, kind, area, cost, cost2, paths = words
        return [prefix, kinds[kind], area, cost, cost2 if kind == "ext2" else "-", paths.split(",")]

    def check_ranges(self):
        """Compares the networks of each range with those that the table has in it."""
        told = {}
        for heading in self.page.headings:
            if any(name == "ranges" for _, name, _ in heading) and heading[-1][0] == "h4":
                prefix, advertised, count = re.fullmatch(r"([\d./]+), (advertised|not advertised): (no|\d+) networks?", heading[-1][2]).groups()
                told[heading[-2][2].split(" ")[1], prefix] = (advertised == "advertised", 0 if count == "no" else int(count), [])
        for heading, rows in self.page.lists:
            told[heading[-2][2].split(" ")[1], heading[-1][2].split(",")[0]][2].extend(row.split() for row in rows)
        wanted = {}
        for area, prefix, state in self.ranges():
            inside = [
                [words[1], words[4]]
                for words in self.items.values()
                if words[0] == "route" and words[2] == "intra" and words[3] == area and network(words[1]).subnet_of(network(prefix))
            ]
            wanted[area, prefix] = (state == "advertise", len(inside), inside)
        expect(told == wanted, (told, wanted))

    def ranges(self):
        """Returns the ranges that are configured in the end."""
        found = {}
        for words in self.lines("replay", self.file, "--show", "journal"):
            if words[0] in ("range", "range-set"):
                found[words[1], words[2]] = words[3]
            if words[0] == "range-drop":
                del found[words[1], words[2]]
        return [(*key, state) for key, state in found.items()]

    def check_summaries(self):
        told = []
        for heading, table in self.tables_of("summaries"):
            area = heading[-1][2].split(" ")[1]
            told += [["due", area, *map(str.strip, row)] for row in table if row[0].isdigit()]
        wanted = [it for it in self.lines("replay", self.file, "--show", "due") if it[0] == "due"]
        expect(told == wanted, [it for it in zip(told, wanted) if it[0] != it[1]][:2] or (len(told), len(wanted)))
        return len(told)

    def check_changes(self):
        with open(self.file, encoding="ascii") as it:
            last = len(it.read().splitlines())
        told = [line.split(" ") for line in self.page.pre.splitlines()]
        first = last - LAST_LINES
        wanted = [it for it in self.lines("changes", self.file) if int(it[0]) > max(first, self.front())]
        expect(told == wanted, [it for it in zip(told, wanted) if it[0] != it[1]][:2] or (len(told), len(wanted)))
        return len(told)

    def front(self):
        """Returns how many lines stand before the first that says what happened."""
        with open(self.file, encoding="ascii") as it:
            lines = it.read().splitlines()
        base = 0
        for at, line in enumerate(lines, 1):
            word = line.split(" ")[0]
            if word in ("abr", "router", "compat", "serial", "area", "range", "has"):
                base = at
            else:
                break
        return base

    def check_pictures(self):
        counts = collections.Counter()
        areas = self.areas()
        named = [heading[2].split(" ")[1] for heading, _ in self.page.pictures]
        expect(set(named) <= set(areas) and len(named) == len(set(named)), named)
        for area in areas:
            distances, links = self.search(area)
            found = [it for heading, it in self.page.pictures if heading[2].split(" ")[1] == area]
            if not found:
                expect(f"The graph has {len(distances)} routers and transit networks." in self.text, (area, len(distances)))
                continue
            counts.update(self.check_picture(found[0], distances, links))
        return counts

    def check_picture(self, shapes, distances, links):
        """Compares the shapes with the distances of the vertices and the links between them."""
        told, places = [], []
        for tag, given, title in shapes:
            if tag == "path":
                continue
            name, cost = re.match(r"([\d.]+), cost (\d+)", title).groups()
            kind = "network" if tag == "rect" else "router"
            told.append((f"{kind}:{name}", int(cost)))
            x = int(given["cx"]) if tag == "circle" else int(given["x"]) + int(given["width"]) // 2
            y = int(given["cy"]) if tag == "circle" else int(given["y"]) + int(given["height"]) // 2
            places.append((x, y, int(cost)))
        expect(sorted(told) == sorted(distances.items()), (told, distances))
        expect(len({it[:2] for it in places}) == len(places), "two vertices in one place")
        by_column = collections.defaultdict(set)
        for x, _, cost in places:
            by_column[x].add(cost)
        expect(all(len(it) == 1 for it in by_column.values()), by_column)
        costs = [by_column[x].pop() for x in sorted(by_column)]
        expect(costs == sorted(costs), costs)
        drawn = collections.Counter()
        for tag, given, title in shapes:
            if tag == "path":
                tail, head, cost = re.fullmatch(r"([\d.]+) to ([\d.]+), cost (\d+)", title).groups()
                drawn[tail, head, int(cost), given["class"] == "tree"] += 1
        wanted = {(bare(tail), bare(head), cost, distances[tail] + cost == distances[head]) for tail, head, cost in links}
        expect(set(drawn) == wanted, set(drawn) ^ wanted)
        return {"vertices": len(told), "links": sum(drawn.values())}

    def areas(self):
        return [words[1] for words in self.lines("replay", self.file, "--show", "journal") if words[0] == "area"]

    def interfaces(self, area):
        """Returns the addresses of the area's interfaces that are up."""
        states = {}
        for words in self.lines("replay", self.file, "--show", "journal"):
            if "interface" in words[:2]:
                words = words[words.index("interface") :]
                states[words[1]] = words[2:]
        return {address for scope, address, _, state in states.values() if scope == area and state == "up"}

    def search(self, area):
        """Returns the distances of the vertices that are reached in the area, and the links between these."""
        routers, networks = {}, {}
        for words in self.lines("replay", self.file, "--show", "lsdb"):
            if words[0] != "lsa" or words[1] != area or int(words[7]) >= MAX_AGE:
                continue
            body = self.bodies[tuple(words[1:6])][-1]
            if body[3] == ROUTER_LSA:
                routers[words[4]] = ends_of(body[HEADER:])
            elif body[3] == NETWORK_LSA:
                # Of several network-LSAs of one network, that of the greatest Advertising Router stands for it.
                networks[words[3]] = greater(networks.get(words[3]), words[4], body[HEADER + 4 :])
        links, up = set(), self.interfaces(area)
        for router, ends in routers.items():
            for kind, name, data, cost in ends:
                if not cost or (router == self.root and data not in up):
                    continue
                if kind == POINT_TO_POINT and any(it[:2] == (kind, router) for it in routers.get(name, [])):
                    links.add((f"router:{router}", f"router:{name}", cost))
                if kind == TRANSIT and router in networks.get(name, ("", []))[1]:
                    links.add((f"router:{router}", f"network:{name}", cost))
        for name, (_, listed) in networks.items():
            for router in listed:
                if any(it[:2] == (TRANSIT, name) for it in routers.get(router, [])):
                    links.add((f"network:{name}", f"router:{router}", 0))
        root = f"router:{self.root}"
        distances = {root: 0} if self.root in routers else {}
        found = collections.defaultdict(list)
        for tail, head, cost in links:
            found[tail].append((head, cost))
        queue = [(0, root)] if distances else []
        while queue:
            distance, vertex = heapq.heappop(queue)
            if distance > distances[vertex]:
                continue
            for head, cost in found[vertex]:
                if distance + cost < distances.get(head, 1 << 32):
                    distances[head] = distance + cost
                    heapq.heappush(queue, (distance + cost, head))
        return distances, [it for it in links if it[0] in distances and it[1] in distances]


def greater(known, router, rest):
    """Returns the network-LSA of the greater Advertising Router: that, and the routers which it lists."""
    listed = [dotted(rest[at : at + 4]) for at in range(0, len(rest), 4)]
    octets = lambda text: [int(it) for it in text.split(".")]
    return known if known and octets(known[0]) > octets(router) else (router, listed)


def ends_of(rest):
    """Returns the type, Link ID, Link Data and metric of each link of a router-LSA."""
    found, at = [], 4
    for _ in range(number(rest[2:4])):
        found.append((rest[at + 8], dotted(rest[at : at + 4]), dotted(rest[at + 4 : at + 8]), number(rest[at + 10 : at + 12])))
        at += 12 + 4 * rest[at + 9]
    return found


def bare(vertex):
    return vertex.split(":")[1]


if __name__ == "__main__":
    sys.exit(main())
