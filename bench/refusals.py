"""Runs a program many times, and refuses it one allocation in each run: the first, the second, and so on."""

import os
import subprocess
import sys
import tempfile

BENCH = os.path.dirname(os.path.abspath(__file__))
TOP = os.path.dirname(BENCH)
# A run of these programs takes milliseconds.
SECONDS = 60
# A replay and an engine ask for memory more often than that.
FEWEST_REQUESTS = 100


def library(folder):
    """The library that refuses, compiled into the folder."""
    name = os.path.join(folder, "refuse.so")
    words = ["cc", "-O2", "-shared", "-fPIC", "-o", name, os.path.join(BENCH, "refuse.c"), "-ldl"]
    try:
        subprocess.run(words, check=True)
    except (OSError, subprocess.CalledProcessError) as error:
        sys.exit(f"refuse.c was not compiled: {error}")
    return name


def run(words, folder, number=0):
    """The status, the output and the fault lines of a run whose allocation of this number is refused, and its count of allocations."""
    counted = os.path.join(folder, "counted")
    more = {"LD_PRELOAD": os.path.join(folder, "refuse.so"), "REFUSED": str(number), "COUNTED": counted}
    done = subprocess.run(words, capture_output=True, timeout=SECONDS, env={**os.environ, **more}, check=False)
    with open(counted, "rb") as file:
        count = int.from_bytes(file.read(), sys.byteorder)
    return done.returncode, done.stdout, done.stderr, count


def each_refusal(words, folder):
    """Each run that was refused an allocation: its number, and what `run` gives of it. It ends with the last allocation."""
    number = 1
    while True:
        status, output, faults, count = run(words, folder, number)
        if count < number:
            return
        yield number, status, output, faults
        number += 1


def fault_of(words, wanted):
    """Returns how many allocations a program asks for, and what is wrong if it prints something else without one of them."""
    count = 0
    with tempfile.TemporaryDirectory() as folder:
        library(folder)
        for number, status, output, faults in each_refusal(words, folder):
            count = number
            if status or output != wanted:
                return count, f"{words[0]}, refused its request {number} for memory, ends with {status}: {output!r} {faults!r}"
    return count, "" if count >= FEWEST_REQUESTS else f"{words[0]} has {count} requests for memory: too few for a replay and an engine"
