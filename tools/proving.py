"""`rt ci`, and how far it is: what `check` and `tools/build` share. As a program it runs `rt ci`, or `rt try`, in the current folder."""
import contextlib
import functools
import importlib.machinery
import importlib.util
import os
import re
import shutil
import signal
import subprocess
import sys
import time

TOP = os.path.dirname(os.path.dirname(os.path.realpath(__file__)))
# How many of a crate's last lines are shown if its proof fails.
SHOWN = 20
# What `rt ci` says of a crate: that it is proved, or not, or that an earlier run proved it.
SAID = re.compile(r"rt: (\w+)(: its tests are)? (proved|NOT PROVED|is kept)\b")
# A line of a crate's log that says what is wrong.
FAULT = re.compile(r"\berror\b|: no proof|: not proved")


def uses():
    """Returns the libraries that each crate of crates.txt names, by the crate's name, in the order of the file."""
    found = {}
    with open(f"{TOP}/crates.txt", encoding="utf-8") as lines:
        for line in lines:
            name, _, libraries = line.partition("#")[0].partition(":")
            if name.strip():
                found[name.split()[0]] = libraries.replace(",", " ").split()
    return found


def crates_below(names):
    """Returns the crates that these stand on, and themselves, lowest first. (crates.txt has a crate after those.)"""
    found, libraries = {*names}, uses()
    for name in reversed([*libraries]):
        if name in found:
            found.update(it for it in libraries[name] if it in libraries)
    return [it for it in libraries if it in found]


def length_of(seconds):
    return f"{int(seconds)} s" if seconds < 60 else f"{round(seconds / 60)} min"


def load_rt():
    """Returns the command `rt` as a module that works out once what a crate stands on. (By itself it follows each of 310,000 paths
    from a crate down to another: that takes two minutes before the first proof.)"""
    sys.dont_write_bytecode = True
    loader = importlib.machinery.SourceFileLoader("rt_command", os.path.realpath(shutil.which("rt")))
    rt = importlib.util.module_from_spec(importlib.util.spec_from_loader(loader.name, loader))
    loader.exec_module(rt)
    rt.rtlib.Crate.below = functools.lru_cache(maxsize=None)(rt.rtlib.Crate.below)
    return rt


def build_library(rt, crate, flags):
    """Proves a static library and builds it, and returns a status."""
    words = [*crate.words(flags, keeps=False), "--toolchain", f"{rt.rtlib.KIT}/toolchain", "--backend", "llvm"]
    os.makedirs(f"{crate.folder}/out", exist_ok=True)
    return crate.prove(["build", *words, "-o", f"out/lib{crate.name}.a"])


def lanes():
    """Returns how many proofs or tests may run side by side: one a processor, as long as each has 3 GB of memory."""
    processors = len(os.sched_getaffinity(0))
    with contextlib.suppress(OSError):
        with open("/proc/meminfo", encoding="utf-8") as it:
            free = re.search(r"MemAvailable:\s+(\d+) kB", it.read())
        return max(1, min(processors, int(free[1]) // 3_000_000))
    return processors


class Progress:
    """What is proved so far, of all crates of a repository."""

    def __init__(self, crates, say):
        self.crates, self.say, self.libraries = crates, say, uses()
        self.proved, self.started = set(), time.time()

    def note(self, name, is_kept):
        """Says how many crates are proved, and which may be under way."""
        self.proved.add(name)
        if is_kept and len(self.proved) % 10 and len(self.proved) < len(self.crates):
            # (what earlier runs proved comes many a second)
            return
        is_ready = lambda it: all(below in self.proved for below in self.libraries[it] if below in self.libraries)
        left = [it for it in self.crates if it not in self.proved and is_ready(it)]
        how = "by an earlier run" if is_kept else f"after {length_of(time.time() - self.started)}"
        under_way = f"; under way or next: {', '.join(left[:4])}{' ..' if left[4:] else ''}" if left else ""
        self.say(f"proved {len(self.proved)} of {len(self.crates)}: {name}, {how}{under_way}")


def prove(folder, crates, say, log=os.devnull, jobs=""):
    """Runs `rt ci` at the top of a repository that has these crates. Returns its status, and what it prints of programs and tests. Says
    a line for each crate that is proved, and the last lines of one that is not. All lines go to the log. With jobs, so many proofs run
    side by side; else `rt` plans them."""
    progress, lines = Progress(crates, say), []
    for it in (signal.SIGINT, signal.SIGTERM, signal.SIGHUP):
        signal.signal(it, lambda number, _: sys.exit(128 + number))
    environment = {"RT_JOBS": jobs, "PYTHONUNBUFFERED": "1", **os.environ}
    pipes = {"stdin": subprocess.DEVNULL, "stdout": subprocess.PIPE, "text": True, "errors": "replace"}
    ran = subprocess.Popen([sys.executable, os.path.realpath(__file__), "ci"], cwd=folder, env=environment, start_new_session=True, **pipes)
    try:
        with open(log, "w", encoding="utf-8", errors="replace") as to:
            for line in ran.stdout:
                to.write(line)
                lines = [] if line.startswith("== ") else [*lines, line]
                said = SAID.match(line)
                if said and said[3] == "NOT PROVED":
                    say("".join(worth_showing(lines)).strip())
                elif said and not said[2]:
                    progress.note(said[1], said[3] == "is kept")
                lines = [] if said else lines
        return ran.wait(), "".join(lines)
    finally:
        # (`rt` ends what it started)
        ran.terminate()
        ran.wait()


def worth_showing(lines):
    """Returns the last lines, and before them those that say what is wrong."""
    faults = [it for it in lines[:-SHOWN] if FAULT.search(it)]
    return faults[:SHOWN] + lines[-SHOWN:]


def main(words):
    rt = load_rt()
    if words[0] == "try":
        # (`rt` looks for names that a check will refuse as well, which takes half as long again: the gate finds those)
        rt.rtlib.RATTLE = shutil.which("true")
    # (`rt ci` proves a static library and leaves it unbuilt, so that `./abr install` would prove it once more)
    proved = rt.Crate.ci
    rt.Crate.ci = lambda it, flags, tests: build_library(rt, it, flags) if it.is_static and not tests else proved(it, flags, tests)
    return rt.main(words)


if __name__ == "__main__":
    sys.exit(main(sys.argv[1:]))
