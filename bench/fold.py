#!/usr/bin/env python3
"""Takes what `abr changes` tells, one change after the other, and compares what comes out with what `abr replay` prints.

    bench/fold.py [--program FILE] [--cuts N] [--follow] RECORDING..

From nothing on, the changes have to give the routing table and what is due in each area: after the recording, and with --cuts
also where it is cut off behind each of N of its lines, spread over it. Each change has to change something, and the numbers
of their lines ascend. A recording that is refused has to be refused alike by both commands. With --follow, `abr follow --strict`
has to tell these changes too, and between them what the replay prints of look-ups and of what was refused.
The program is what `./abr build` built, unless FILE is another. The last line counts, and the status is 1 where any differs.
"""
import argparse
import os
import subprocess
import sys

TOP = os.path.dirname(os.path.dirname(os.path.realpath(__file__)))


def main():
    words = argparse.ArgumentParser()
    words.add_argument("--program", default=f"{TOP}/crates/abr/out/abr")
    words.add_argument("--cuts", type=int, default=0)
    words.add_argument("--follow", action="store_true")
    words.add_argument("recordings", nargs="+")
    given = words.parse_args()
    count = differ = 0
    for file in given.recordings:
        with open(file, "rb") as it:
            lines = it.read().splitlines(keepends=True)
        for end in ends_of(len(lines), given.cuts):
            count += 1
            recording = b"".join(lines[:end])
            fault = fault_of(given.program, recording)
            if not fault and given.follow:
                fault = fault_of_following(given.program, recording)
            if fault:
                differ += 1
                print(f"{file}, {end} lines: {fault}")
    print(f"{count - differ} same, {differ} differ")
    return 1 if differ else 0


def ends_of(length, cuts):
    """Returns behind how many lines to compare: all of them, and so many fewer, spread over the recording."""
    return sorted({length, *(length * it // (cuts + 1) for it in range(1, cuts + 1))})


def fault_of(program, recording):
    """Returns what is wrong with the changes of a recording, or nothing."""
    routes = run(program, recording, "replay", "-")
    changes = run(program, recording, "changes", "-")
    if routes.returncode or changes.returncode:
        is_alike = (routes.returncode, routes.stderr) == (changes.returncode, changes.stderr)
        return "" if is_alike else f"{routes.stderr} is not {changes.stderr}"
    try:
        items, due = folded(changes.stdout.decode().splitlines())
    except ValueError as error:
        return str(error)
    if items != items_of(routes.stdout.decode().splitlines()):
        return "the routing table differs"
    if due != due_of(run(program, recording, "replay", "-", "--show", "due").stdout.decode().splitlines()):
        return "what is due differs"
    return ""


def fault_of_following(program, recording):
    """Returns what is wrong with what is told of a recording as it comes, or nothing."""
    routes = run(program, recording, "replay", "-")
    changes = run(program, recording, "changes", "-")
    followed = run(program, recording, "follow", "--strict")
    if (followed.returncode, followed.stderr) != (changes.returncode, changes.stderr):
        return f"{followed.stderr} is not {changes.stderr}"
    told = followed.stdout.decode().splitlines()
    answers = [line for line in told if line.split(" ")[1] in ("lookup", "refused")]
    if [line for line in told if line not in answers] != changes.stdout.decode().splitlines():
        return "what is told as it comes differs"
    printed = [line for line in routes.stdout.decode().splitlines() if line[:1].isdigit()]
    return "" if routes.returncode or answers == printed else "what is answered as it comes differs"


def run(program, recording, *words):
    return subprocess.run([program, *words], input=recording, capture_output=True, check=False)


def folded(lines):
    """Returns the items of the table and what is due, after all changes."""
    items, due, last = {}, {}, 0
    for line in lines:
        number, kind, *rest = line.split(" ")
        if int(number) < last:
            raise ValueError(f"`{line}` stands behind line {last}")
        last = int(number)
        kept, place = (items, rest[0]) if kind in ("set", "drop") else (due, tuple(rest[:3]))
        now = {"set": rest[1:], "due": rest[3:]}.get(kind)
        if kind not in ("set", "drop", "due", "undue") or kept.get(place) == now:
            raise ValueError(f"`{line}` changes nothing")
        if now is None:
            del kept[place]
        else:
            kept[place] = now
    return items, due


def items_of(lines):
    """Returns the items that a replay prints."""
    found = {}
    for line in lines:
        kind, *rest = line.split(" ")
        if kind in ("route", "discard"):
            found[rest[0]] = rest[1:] if kind == "route" else ["discard"]
    return found


def due_of(lines):
    """Returns what a replay prints to be due."""
    words = [line.split(" ") for line in lines if line.startswith("due ")]
    return {tuple(it[1:4]): it[4:] for it in words}


if __name__ == "__main__":
    sys.exit(main())
