"""The style of comments and pages: which of their lines and sentences a check refuses.

A line matches if a reader of the Rust standard library's documentation would stumble over it. CONTRIBUTING says how to write it instead.
"""
import os
import re

TOP = os.path.dirname(os.path.dirname(os.path.realpath(__file__)))
# The columns of a line of comment, and of a line `ghost use`.
COMMENT_COLUMNS, IMPORT_COLUMNS = 100, 120
# The columns of a line of a page.
PAGE_COLUMNS, README_COLUMNS = 100, 113
# The words of a sentence of a comment, and of a page. (A list, a table or a sum has no sentences.)
MOST_WORDS, MOST_PAGE_WORDS = 28, 40
# Pages that are not compared with the style: an entry of the changelog stays as it was published.
HISTORY = ("CHANGELOG.md",)
# What a page quotes or lists, and lines that are a picture or one link.
QUOTED, UNBROKEN = ("    ", "|", "#"), re.compile(r"!\[.*|Lines of \[[^\]]*\]\([^)]*\):")
COMMENT = re.compile(r"^\s*//")
IMPORT = re.compile(r"^\s*ghost use ")
# Patterns of comments alone, and of comments and pages.
OPENINGS = [re.compile(it) for it in (
    r"^\s*///? Whether ",
    r"^\s*//[/!]? What (is|are|was|were|it|the|a|an|of|they|each|no|may|has|comes?|stands?|can|could|gives?|follows?)\b",
)]
PATTERNS = [re.compile(it) for it in (
    r"[Tt]he answer (is|tells|was|says)|\b[Aa]nswers (whether|how|the|what|those|which|where|exactly)\b",
    r"\b(is|are|was|were|be|been) told\b|\btells? (of|what|why|how|whether|which|where|them|those|it|that|all|by)\b",
    r"\b[Ii]t is (told|said|shown|asked|known)\b",
    r"\bstands? (at|in|there|behind|under|beside|among|so|alone|twice|once|as|to|on|before|by|above|here|around|where|with)\b",
    r"\b[Ww]hat stands\b|\bstood\b",
    r"\bbehind (the|it|this|that|them|those|these|all|a|an|one|each|its|their|what|which|every)\b",
    r"\b(which|that|what|links|LSAs|those|one|ones|who|vertices|networks) (went|came)\b|\b(went or came|came or went|comes? or goe?s?)\b",
    r"\b[Nn]one (where|if|unless|when)\b",
    r"\b(is|are|stays?|back|everything|all) as (it|they) (was|were)\b",
    r"\bin the place of\b|\btakes? (the|its) place of\b",
    r"\b[Tt]akes? (it|all|what|every|the) .*\bout\b",
    r"\b(hand|hands|handed|handing) (in|on|out|over|back|it|them)\b",
    r"(^|[.;:] |//[/!]? )Of (what|several|those|these|many|a|an|the|each|two|one|more|such|which|all|no|its|it|them)\b",
    r"\b(is|are|was|were) (that|those) of\b",
    r"\b(is|are|was|were) no (recording|capture|LSA|address|network|command|line|digit|prefix|number|member|form|kind|part|word|base|packet|file)s?\b",
    r"\bso many\b",
    r"\beach once\b",
    r"\banew\b|\bwork(s|ed)? out again\b|\bonce more\b",
    r"\bat fault\b",
    r"[Ww]ant of memory",
    r"\b[Ww]hoever\b|\bwho asks\b",
    r"\bfrom (now|then) on\b",
    r"\b(go|goes|gone|went) (over|through)\b",
    r"\bbesides?\b",
    r"\b[Mm]ostly\b",
    r"\b[Ll]ook-ups?\b",
)]
# Where a sentence of a comment ends, or an item of a list or a cell of a table begins.
ENDS = re.compile(r"(?<=[.:;?!])\s+|(?<=[.:;?!]\*\*)\s+|\n\n+|\s\|\s|^\s*[-*] ")


def faults():
    """Yields what is wrong with the comments of all crates, and with the width of their imports."""
    for file in sources():
        with open(f"{TOP}/{file}", encoding="utf-8") as it:
            lines = it.read().splitlines()
        yield from (f"{file}:{number}: {fault}" for number, fault in faults_of(lines))


def sources():
    """Yields the paths of all sources, in order."""
    for folder, folders, files in os.walk(f"{TOP}/crates"):
        folders[:] = sorted(it for it in folders if it not in ("out", "specs", "proofs"))
        yield from (os.path.relpath(f"{folder}/{it}", TOP) for it in sorted(files) if it.endswith(".rt"))


def faults_of(lines):
    """Yields line numbers, counted from 1, and what is wrong there."""
    for number, line in enumerate(lines, 1):
        if IMPORT.match(line) and len(line) > IMPORT_COLUMNS:
            yield number, f"`ghost use` of {len(line)} columns, more than {IMPORT_COLUMNS}"
        if COMMENT.match(line):
            matched = pattern_in(line, OPENINGS + PATTERNS)
            if matched:
                yield number, f"the style of comments has no `{matched}`"
            if len(line) > COMMENT_COLUMNS:
                yield number, f"a comment of {len(line)} columns, more than {COMMENT_COLUMNS}"
    for number, text in comments(lines):
        for sentence in ENDS.split(text) if "```" not in text else []:
            count = len((sentence or "").split())
            if count > MOST_WORDS:
                yield number, f"a sentence of {count} words, more than {MOST_WORDS}: {sentence[:60]}.."


def pattern_in(line, patterns):
    """Returns what a pattern matches in the line, or nothing."""
    found = (it.search(line) for it in patterns)
    return next((it[0].strip() for it in found if it), "")


def comments(lines):
    """Yields for each comment the number of its first line, and its text."""
    first, text = 0, []
    for number, line in enumerate([*lines, ""], 1):
        if COMMENT.match(line):
            first = first or number
            text.append(re.sub(r"^\s*//[/!]? ?", "", line).strip() or "\n\n")
        elif first:
            yield first, " ".join(text)
            first, text = 0, []


def faults_of_pages(pages):
    """Yields what is wrong with the prose of these pages. (Blocks and tables are quoted, or short for a reason.)"""
    for page in pages:
        if page in HISTORY:
            continue
        with open(f"{TOP}/{page}", encoding="utf-8") as it:
            lines = without_drawings(it.read().splitlines())
        columns = README_COLUMNS if page == "README.md" else PAGE_COLUMNS
        yield from (f"{page}:{number}: {fault}" for number, fault in faults_of_prose(lines, columns))


def without_drawings(lines):
    """Returns the lines, with an empty one for each line between two of "```"."""
    found, is_drawing = [], False
    for line in lines:
        is_fence = line.startswith("```")
        found.append("" if is_fence or is_drawing else line)
        is_drawing = is_drawing != is_fence
    return found


def faults_of_prose(lines, columns):
    """Yields line numbers, counted from 1, and what is wrong there."""
    for number, line in enumerate(lines, 1):
        matched = "" if line.startswith(QUOTED) else pattern_in(line, PATTERNS)
        if matched:
            yield number, f"the style of pages has no `{matched}`"
        if len(line) > columns and not line.startswith(QUOTED) and not UNBROKEN.fullmatch(line):
            yield number, f"a line of {len(line)} columns, more than {columns}"
    for number, text in paragraphs(lines):
        for sentence in ENDS.split(text):
            count = len((sentence or "").split())
            if count > MOST_PAGE_WORDS:
                yield number, f"a sentence of {count} words, more than {MOST_PAGE_WORDS}: {sentence[:60]}.."


def paragraphs(lines):
    """Yields for each paragraph, and for each item of a list, the number of its first line, and its text."""
    first, text = 0, []
    for number, line in enumerate([*lines, ""], 1):
        is_prose = line.strip() and not line.startswith(QUOTED)
        if first and (not is_prose or re.match(r"\s*(?:[-*]|\d+\.) ", line)):
            yield first, " ".join(text)
            first, text = 0, []
        if is_prose:
            first = first or number
            text.append(line.strip())
