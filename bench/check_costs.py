#!/usr/bin/env python3
"""Times what the prover does for each function of some crates.

    check_costs.py [--tests] [--most N] CRATES

proves each crate once more, in one process, and prints its dearest functions: the processor seconds that each takes in all, for its
states and exits (`Lts` in the prover's words), for its proof, and for the rest. Rows in parentheses are no functions: `(start)` is what
comes before the first of them, `(types)` what the crate declares, `(lemmas)` its files of lemmas, `(end)` what comes after the last.
With several crates, the dearest functions of all stand below. With `--tests` the crates are proved with their tests.

The libraries below are built first, if they are not.
"""
import argparse
import bisect
import collections
import os
import subprocess
import sys
import tempfile
import threading
import time

TOP = os.path.dirname(os.path.dirname(os.path.realpath(__file__)))
sys.dont_write_bytecode = True
sys.path[:0] = [f"{TOP}/tools"]
import proving

# The modules that the prover makes of a function: its states and exits, and what its proof is made of.
STATES, PROOF = "Lts", {"Proof", "Answers", "Invariants", "Goals"}
# What it makes of an impl.
TYPES = {"Statement", "Met", "Laws", "Given"}
TICK = 1 / os.sysconf("SC_CLK_TCK")

Cost = collections.namedtuple("Cost", "seconds states proof")


def main():
    reads = argparse.ArgumentParser(description=__doc__, formatter_class=argparse.RawDescriptionHelpFormatter)
    reads.add_argument("--most", type=int, default=12, help="how many functions of a crate are printed (12)")
    reads.add_argument("--tests", action="store_true", help="prove the crates with their tests")
    reads.add_argument("crates", nargs="+", metavar="CRATES")
    words = reads.parse_args()
    every = {}
    for crate in words.crates:
        found = costs_of(crate, words.tests)
        show(crate, found, words.most)
        every.update({f"{crate}::{name}": it for name, it in found.items()})
    if len(words.crates) > 1:
        show("all of them", every, 4 * words.most)


def show(title, costs, most):
    print(f"{'all':>8}{'states':>8}{'proof':>8}{'rest':>8}")
    rows = sorted(costs.items(), key=lambda it: -it[1].seconds)[:most]
    for name, it in [(title, Cost(*map(sum, zip(*costs.values())))), *rows]:
        print(f"{it.seconds:8.1f}{it.states:8.1f}{it.proof:8.1f}{it.seconds - it.states - it.proof:8.1f}  {name}")
    sys.stdout.flush()


def costs_of(crate, tests):
    """Proves the crate, or its tests. Returns what each function cost, by its name."""
    folder = f"{TOP}/crates/{crate}"
    built = subprocess.run(["rt", "check", "--only", ""], cwd=folder, stdout=subprocess.PIPE, stderr=subprocess.STDOUT, text=True, check=False)
    with tempfile.TemporaryDirectory() as kept:
        ran = subprocess.Popen([*command_for(crate, tests), "--incremental", kept], cwd=folder, stdout=subprocess.PIPE, stderr=subprocess.STDOUT, text=True)
        clock = Clock(ran.pid)
        lines = ran.stdout.read()
        clock.end()
        if ran.wait():
            sys.exit(f"{built.stdout}{lines}{crate} was not proved")
        return by_function(crate, clock, modules(kept))


def command_for(crate, tests):
    """Returns the command that proves the crate as the gate does."""
    rt = proving.load_rt()
    os.chdir(TOP)
    rt.Crate.cuts_libraries = True
    rt.Crate.allowed = rt.rtlib.Crate.allowed = rt.handles_of(TOP)
    found = next((it for it in rt.crates_of(TOP) if it.name == crate), None)
    if not found:
        sys.exit(f"{crate} is no crate of crates.txt")
    return [rt.rtlib.RATTLE, "check", *found.words(["--jobs", "1"], tests=tests, keeps=False)]


class Clock:
    """Notes, again and again, how much processor time a process has used."""

    def __init__(self, number):
        self.number, self.times, self.used = number, [time.time()], [0.0]
        self.thread = threading.Thread(target=self.run)
        self.thread.start()

    def run(self):
        while self.note():
            time.sleep(0.05)

    def note(self):
        try:
            with open(f"/proc/{self.number}/stat", encoding="utf-8") as it:
                words = it.read().rpartition(")")[2].split()
        except OSError:
            return False
        # (a process that has ended is there until it is waited for)
        if words[0] == "Z":
            return False
        self.times.append(time.time())
        self.used.append((int(words[11]) + int(words[12])) * TICK)
        return True

    def end(self):
        self.thread.join()

    def at(self, when):
        """Returns the processor seconds that were used by then."""
        after = min(max(bisect.bisect(self.times, when), 1), len(self.times) - 1)
        start, stop = self.times[after - 1], self.times[after]
        part = min(max((when - start) / (stop - start), 0), 1) if stop > start else 0
        return self.used[after - 1] + part * (self.used[after] - self.used[after - 1])


def modules(kept):
    """Returns when each module was done, earliest first, with its name."""
    found = [f"{at}/{name}" for at, _, names in os.walk(kept) for name in names if name.endswith(".oantt") and os.path.basename(at) != "records"]
    return sorted((os.stat(it).st_mtime, os.path.basename(it)[: -len(".oantt")]) for it in found)


def by_function(crate, clock, done):
    functions = {it[: -len(".Code")] for _, it in done if it.endswith(".Code")}
    costs, before = collections.defaultdict(lambda: [0.0, 0.0, 0.0]), clock.at(done[0][0])
    costs["(start)"][0] = before
    for when, module in done:
        seconds = clock.at(when) - before
        before += seconds
        name, part = function_of(crate, module, functions)
        cost = costs[name]
        cost[0] += seconds
        cost[1] += seconds if part == STATES else 0
        cost[2] += seconds if part in PROOF else 0
    costs["(end)"][0] = clock.used[-1] - before
    return {name: Cost(*it) for name, it in costs.items()}


def function_of(crate, module, functions):
    """Returns the function that the prover made the module for, and which part of it this is."""
    library, *parts = module.split(".")
    for count in range(len(parts), 0, -1):
        if ".".join([library, *parts[:count]]) in functions:
            return "::".join(parts[:count]), ".".join(parts[count:]).partition("-")[0]
    is_lemmas = library == f"Rattle-{crate}-proofs" and parts and not any(it.startswith("The") or "+" in it for it in parts)
    return "(lemmas)" if is_lemmas and parts[-1] not in TYPES else "(types)", ""


if __name__ == "__main__":
    main()
