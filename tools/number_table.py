#!/usr/bin/env python3
"""Writes the table of numbers in docs/FORMATS.md from the advice that `abr fault` prints.

    tools/number_table.py           writes the table into the page, between its two marks
    tools/number_table.py --print   prints it

Each function of the source that has texts gives rows of the table, after a row with the function's
comment. `./check --pages` compares the table with the source.
"""
import os
import re
import sys

TOP = os.path.dirname(os.path.dirname(os.path.realpath(__file__)))
SOURCE, PAGE = "crates/cli_queries/src/advising.rt", "docs/FORMATS.md"
BEGIN, END = "<!-- tools/number_table.py writes from here -->", "<!-- to here -->"
# A function with texts: its comment, and its arms.
FUNCTION = re.compile(r"^// Returns the advice for (an? .*?)\.\nfn \w+\(number: u32\).*?^}\n", re.MULTILINE | re.DOTALL)
ARM = re.compile(r'^ +(\d+) => "((?:[^"\\]|\\.)*)",$', re.MULTILINE | re.DOTALL)
# A text: the name, a sentence about the meaning, and one or more about what to do.
ADVICE = re.compile(r"(\d+) (\w+): (.*?)\. ([A-Z].*)\.\n")
HEAD = ["| Number | Meaning | What to do |", "|---|---|---|"]


def main(words):
    if words not in ([], ["--print"]):
        sys.exit("usage: tools/number_table.py [--print]")
    if words:
        print("\n".join(lines()))
        return
    with open(f"{TOP}/{PAGE}", encoding="utf-8") as it:
        page = it.read().splitlines()
    begin, end = page.index(BEGIN), page.index(END)
    with open(f"{TOP}/{PAGE}", "w", encoding="utf-8") as it:
        it.write("\n".join([*page[: begin + 1], *lines(), *page[end:], ""]))


def fault():
    """Returns what is wrong with the table of the page, or nothing."""
    with open(f"{TOP}/{PAGE}", encoding="utf-8") as it:
        page = it.read().splitlines()
    if BEGIN not in page or END not in page[page.index(BEGIN) :]:
        return f"{PAGE} does not have the marks of tools/number_table.py"
    same = page[page.index(BEGIN) + 1 : page.index(END)] == lines()
    return "" if same else f"the numbers of {PAGE} are not those of {SOURCE}: run tools/number_table.py"


def lines():
    """Returns the lines of the table, with an empty one before and after it."""
    with open(f"{TOP}/{SOURCE}", encoding="utf-8") as it:
        source = it.read()
    found = ["", *HEAD]
    for function in FUNCTION.finditer(source):
        title = " ".join(re.sub(r"\n// ?", " ", function[1]).split())
        found += [f"| {title[0].upper()}{title[1:]}: | | |", *map(row, ARM.findall(function[0]))]
    return [*found, ""]


def row(arm):
    number, text = arm[0], text_of(arm[1])
    advice = ADVICE.fullmatch(text)
    if not advice or advice[1] != number:
        sys.exit(f"{SOURCE}: the advice for {number} is not a name and two sentences")
    cells = f"{number} {advice[2]}", advice[3], advice[4]
    return f"| {' | '.join(it.replace('|', chr(92) + '|') for it in cells)} |"


def text_of(literal):
    """Returns the text of a string literal. A backslash at the end of a line joins it with the next."""
    joined = re.sub(r"\\\n\s*", "", literal)
    return joined.replace(r"\n", "\n").replace(r"\"", '"')


if __name__ == "__main__":
    main(sys.argv[1:])
