#!/usr/bin/env python3
"""Runs `abr replay` on networks of bench/network.py and prints what it takes, as a table.

For each network: its LSAs, the events of the whole recording, the processor time of a replay, events a second over
all of it, microseconds for each of the changes at the end (the time of the whole recording less that of one without
the changes, the least of some runs each), of these the median, the 90th and the 99th percentile (as the program
`event_speed` times them in one run, the reading of lines left out), and the greatest memory. Give names of recordings to
measure these instead; then the last 200 lines are taken for the changes. The programs are what `./abr build` built, and `rt run` in
crates/event_speed, or those that `--program` and `--speed` name. Nothing here asserts a time.
"""

import argparse
import os
import re
import subprocess
import sys
import tempfile

TOP = os.path.dirname(os.path.dirname(os.path.abspath(__file__)))
TIME = "/usr/bin/time"
PROGRAM = os.path.join(TOP, "crates", "abr", "out", "abr")
SPEED = os.path.join(TOP, "crates", "event_speed", "out", "event_speed")
NETWORKS = [("grid", "20"), ("grid", "40"), ("ring", "300"), ("random", "300"), ("random", "1000"), ("areas", "300")]
CHANGES = 200
RUNS = 7


def program():
    return WORDS.program or PROGRAM


def percentiles(recording):
    """Microseconds of the median event among the changes, and of the 90th and the 99th in a hundred, where the program that
    times them is there."""
    speed = WORDS.speed or SPEED
    if not os.access(speed, os.X_OK):
        return ["-"] * 3
    said = subprocess.run([speed, recording, str(CHANGES)], check=True, capture_output=True, text=True).stdout
    found = re.search(r"median (\d+), 90th (\d+), 99th (\d+)", said)
    return [f"{int(time) / 1000:.1f}" for time in found.groups()]


def run(words):
    """Processor seconds of a command, and what it said on standard error."""
    process = subprocess.Popen(words, stdout=subprocess.DEVNULL, stderr=subprocess.PIPE, text=True)
    said = process.stderr.read()
    _, status, usage = os.wait4(process.pid, 0)
    if status != 0:
        sys.exit(f"{' '.join(words)} ended with status {os.waitstatus_to_exitcode(status)}: {said}")
    return usage.ru_utime + usage.ru_stime, said


def least(recording):
    """The least processor seconds of a replay, of some runs."""
    return min(run([program(), "replay", recording])[0] for _ in range(RUNS))


def memory(recording):
    """The greatest memory of a replay in megabytes, where the host has a `time` that tells it."""
    if not os.path.exists(TIME):
        return "-"
    _, said = run([TIME, "-f", "%M", program(), "replay", recording])
    return f"{int(said.split()[-1]) / 1024:.1f}"


def measure(name, lines, folder):
    events = sum(1 for line in lines if line.split()[0] in ("install", "interface", "flush", "purge", "second"))
    whole, front = os.path.join(folder, "whole.rec"), os.path.join(folder, "front.rec")
    with open(whole, "w") as out:
        out.writelines(lines)
    with open(front, "w") as out:
        out.writelines(lines[:-CHANGES])
    seconds = least(whole)
    change = (seconds - least(front)) / CHANGES * 1e6
    lsas = len({line.split()[2][4:24] for line in lines if line.startswith("install")})
    median, ninety, most = percentiles(whole)
    print(
        f"{name:16} {lsas:6} {events:7} {seconds * 1000:9.1f} {events / seconds:10.0f} {change:10.1f}"
        f" {median:>7} {ninety:>7} {most:>7} {memory(whole):>8}"
    )


def main():
    if not os.access(program(), os.X_OK):
        sys.exit(f"measure: {program()} is not there: run `./abr build`")
    print(
        f"{'network':16} {'LSAs':>6} {'events':>7} {'ms':>9} {'events/s':>10} {'us/change':>10}"
        f" {'median':>7} {'90th':>7} {'99th':>7} {'MB':>8}"
    )
    with tempfile.TemporaryDirectory() as folder:
        if WORDS.recordings:
            for name in WORDS.recordings:
                with open(name) as recording:
                    measure(os.path.basename(name), recording.readlines(), folder)
            return
        for shape, size in NETWORKS:
            words = [os.path.join(TOP, "bench", "network.py"), shape, size, "--changes", str(CHANGES)]
            lines = subprocess.run(words, check=True, capture_output=True, text=True).stdout.splitlines(True)
            measure(f"{shape} {size}", lines, folder)


def words():
    parser = argparse.ArgumentParser(usage="measure.py [--program FILE] [--speed FILE] [RECORDING..]")
    parser.add_argument("--program")
    parser.add_argument("--speed")
    parser.add_argument("recordings", nargs="*")
    return parser.parse_args()


if __name__ == "__main__":
    WORDS = words()
    main()
