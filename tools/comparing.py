"""Compares the pages of the repository with the files that they quote, and follows their links. Compares the versions, and numbers.

Each block of a page (lines indented by four spaces, after an empty line or a line that ends in a link and a colon) is one of these:

    $ ./abr WORDS                        a command, and what it prints: a row of crates/abr_rows/data has these words, this
                                         input and this output
    $ ./abr follow < FILE                a command that reads the file as its standard input, as the row does
    $ ./abr capture FILE .. > OUT        a command whose output goes to a file, with what it says on standard error. A command
                                         further down in the block may read that file.
    ./abr WORDS                          a command that a row has, without its output
    ./abr install PREFIX                 a command of the script `abr` itself, which has no row
    ./check                              a script of the repository, as `examples/link.sh WORDS` is one too
    after `.. [NAME](FILE):`             lines of that file, whatever their indents

A line `..` stands for lines that are left out. A picture that a page shows, as `![WORDS](FILE.svg)`, is in the output of a row of
`abr page`, and so are the rules of its style. A drawing is between "```text" and "```".
"""
import collections
import functools
import os
import re

import number_table

TOP = os.path.dirname(os.path.dirname(os.path.realpath(__file__)))
ROWS = "crates/abr_rows/data"
# The commands whose first word is a file that is read.
READING = (["replay"], ["changes"], ["explain"], ["page"], ["capture"])
# The commands of the script `abr` itself.
OWN = {"build", "install", "uninstall", "man", "completions"}
# A line before a block of lines of a file.
QUOTED = re.compile(r".*\[[^\]]*\]\((\S+)\):")
INDENT, LEFT_OUT, FENCE = "    ", "..", "```"
# How many lines each page has at most, and all of them together. (The others are for few, or a history.)
MOST_LINES = {
    "README.md": 130,
    "CONTRIBUTING.md": 150,
    "docs/ARCHITECTURE.md": 150,
    "docs/C.md": 120,
    "docs/COMMANDS.md": 220,
    "docs/DECISIONS.md": 150,
    "docs/FORMATS.md": 450,
    "docs/GLOSSARY.md": 140,
    "docs/LIBRARY.md": 150,
    "docs/PROFILE.md": 60,
    "docs/PROVED.md": 130,
    "docs/THEOREM.md": 200,
}
MOST_IN_ALL = 2050
UNBOUNDED = {"CHANGELOG.md", "bench/README.md", "docs/internal/PROOF_NOTES.md"}
LINK = re.compile(r"\[[^\]]*\]\(([^()\s]+)\)")
PICTURE = re.compile(r"!\[[^\]]*\]\(([^()\s]+[.]svg)\)")
# The table of crates, and a row of it: its crates, and the files of each, crate by crate.
CRATES, CRATE = "docs/ARCHITECTURE.md", re.compile(r"\| [\w ]*\| (`\w+`(?:, `\w+`)*) \|.*\| ([\w,; -]+) \|")
# A file that a row of the table of questions names: its crate, and its path in src/ or specs/ of that.
QUESTION, ANSWER = re.compile(r"\| [^|]*\? \| (.*) \|"), re.compile(r"`(\w+)`: `(specs/)?(\w+)`")
# The table of wrong bodies, the heading above it, and the edits in a row: their crate, and their names.
WRONG, WRONG_HEADING = "docs/internal/PROOF_NOTES.md", "## Wrong bodies, and what refuses them"
EDITS = re.compile(r"\|[^|]*\| `(\w+)`: (`\w+`(?:, `\w+`)*) \|")
# The table of what is proved, and a row of it: the claim, the functions, and links to the files that have them.
PROMISES, PROMISE = "docs/PROVED.md", re.compile(r"\| ([^|]+) \| (`\w+`(?:, `\w+`)*) \| ([^|]+) \|")
# A span of code, in which brackets are no link; and the command in one.
CODE = re.compile(r"`[^`]*`")
COMMAND = re.compile(r"`\./abr (\w+)[^`]*`")
# A link that is named by a word of the file to which it leads.
WORD_LINK = re.compile(r"\[`(\w+)`\]\(([^()\s#]+)\)")
HEADING = re.compile(r"#+ +(.*)")
# Where the version is, in each file that has one.
VERSIONS = {
    "CHANGELOG.md": r"## (\d+\.\d+\.\d+)\b",
    "crates/cli_args/src/command_line.rt": r'const VERSION: &str = "(.*)";',
    "examples/python/abr.py": r'__version__ = "(.*)"',
}


def faults():
    """Returns what is wrong with the pages, and with the versions."""
    found = [f"{page}:{line}: {fault}" for page in pages() for line, fault in faults_of(page)]
    return [
        *found,
        *faults_of_versions(),
        *faults_of_crates(),
        *faults_of_questions(),
        *faults_of_wrong_bodies(),
        *faults_of_lengths(),
        *faults_of_promises(),
        *filter(None, [number_table.fault()]),
    ]


@functools.lru_cache(maxsize=None)
def pages():
    """Returns the paths of all pages, in order. (What git ignores is none of them.)"""
    found = []
    for folder, folders, files in os.walk(TOP):
        folders[:] = sorted(it for it in folders if it not in ("out", ".git"))
        found += [os.path.relpath(f"{folder}/{it}", TOP) for it in files if it.endswith(".md")]
    return sorted(found)


@functools.lru_cache(maxsize=None)
def lines_of(file):
    """Returns the lines of a file of the repository, or `None` if it cannot be read."""
    try:
        with open(f"{TOP}/{file}", encoding="utf-8") as it:
            return it.read().splitlines()
    except (OSError, UnicodeDecodeError):
        return None


def faults_of_versions():
    """Yields a line if the files that have the version do not agree."""
    found = {file: re.search(f"(?m)^{pattern}", "\n".join(lines_of(file) or [])) for file, pattern in VERSIONS.items()}
    if not all(found.values()) or len({it[1] for it in found.values()}) > 1:
        yield f"these have no version, or not the same: {', '.join(found)}"


def faults_of_crates():
    """Yields what is wrong with the table of crates: it has each crate of crates.txt once, in that order, with its files."""
    table = lines_of(CRATES)[lines_of(CRATES).index("## The crates") :]
    shown = [(re.findall(r"\w+", it[1]), it[2].split("; ")) for it in map(CRATE.fullmatch, table) if it]
    crates = [it.partition(":")[0].split()[0] for it in lines_of("crates.txt") if not it.startswith("#")]
    named = [it for row, _ in shown for it in row]
    if named != crates:
        wrong = next((a for a, b in zip([*named, "its end"], [*crates, "its end"]) if a != b), "its end")
        yield f"{CRATES}: the table does not have the crates of crates.txt in their order, at {wrong}"
    for row, cells in shown:
        if len(row) != len(cells):
            yield f"{CRATES}: {', '.join(row)}: files of {len(cells)} crates"
        for crate, files in zip(row, cells):
            wanted = [it[:-3] for it in sorted(os.listdir(f"{TOP}/crates/{crate}/src")) if it.endswith(".rt")]
            wanted = [it for it in wanted if it not in ("lib", "main")] or ["-"]
            if sorted(files.split(", ")) != sorted(wanted):
                yield f"{CRATES}: the files of {crate} are {', '.join(wanted)}"


def faults_of_questions():
    """Yields what is wrong with the table of questions: each file that a row names is there, and they have each other name of the row."""
    for number, line in enumerate(lines_of(CRATES), 1):
        answer = QUESTION.fullmatch(line)
        named = ANSWER.findall(answer[1]) if answer else []
        files = [f"crates/{crate}/specs/{it}.antt" if specs else f"crates/{crate}/src/{it}.rt" for crate, specs, it in named]
        yield from (f"{CRATES}:{number}: there is no {it}" for it in files if lines_of(it) is None)
        text = "\n".join("\n".join(lines_of(it) or []) for it in files)
        known = {*re.findall(r"\w+", text), *os.listdir(f"{TOP}/crates"), *(it for _, _, it in named)}
        words = {it for span in re.findall(r"`([\w: ]+)`", answer[1]) for it in re.findall(r"\w+", span)} if files else set()
        yield from (f"{CRATES}:{number}: no file of the row has `{it}`" for it in sorted(words - known))


def faults_of_wrong_bodies():
    """Yields what is wrong with the table of wrong bodies: it has a row for each edit, and an edit for each row that names one."""
    lines = lines_of(WRONG) or []
    found = map(EDITS.match, lines[lines.index(WRONG_HEADING) :] if WRONG_HEADING in lines else [])
    shown = collections.Counter((it[1], name) for it in found if it for name in re.findall(r"\w+", it[2]))
    folders = [it for it in sorted(os.listdir(f"{TOP}/crates")) if os.path.isdir(f"{TOP}/crates/{it}/wrong_bodies")]
    edits = {(it, file.removesuffix(".edit")) for it in folders for file in os.listdir(f"{TOP}/crates/{it}/wrong_bodies")}
    yield from (f"{WRONG}: no row has crates/{crate}/wrong_bodies/{name}.edit" for crate, name in sorted(edits - {*shown}))
    yield from (f"{WRONG}: there is no crates/{crate}/wrong_bodies/{name}.edit" for crate, name in sorted({*shown} - edits))


def faults_of_lengths():
    """Yields which pages have more lines than they may have, or no bound, and if all of them together have too many."""
    counts = {page: len(lines_of(page) or []) for page in MOST_LINES}
    yield from (f"{page}: {counts[page]} lines, more than {most}" for page, most in MOST_LINES.items() if counts[page] > most)
    yield from (f"{page}: this page has no bound in tools/comparing.py" for page in pages() if page not in {*MOST_LINES, *UNBOUNDED})
    if sum(counts.values()) > MOST_IN_ALL:
        yield f"the pages have {sum(counts.values())} lines, more than {MOST_IN_ALL}"


def faults_of_promises():
    """Yields what is wrong with the table of what is proved: each function is in a file of its row, and each file has one of them."""
    for number, line in enumerate(lines_of(PROMISES), 1):
        row = PROMISE.fullmatch(line)
        if line.startswith("| ") and not row and not line.startswith("| Claim "):
            yield f"{PROMISES}:{number}: this row is not a claim, functions and files"
        names, files = (re.findall(r"\w+", row[2]), LINK.findall(row[3])) if row else ([], [])
        found = {it: defined_in(path_of(PROMISES, it)) & {*names} for it in files}
        yield from (f"{PROMISES}:{number}: no file of the row has `fn {it}`" for it in names if it not in set().union(*found.values()))
        yield from (f"{PROMISES}:{number}: {it} has no function of the row" for it in files if not found[it])


def defined_in(file):
    """Returns the names of the functions of a file."""
    return {*re.findall(r"\bfn (\w+)", "\n".join(lines_of(file) or []))}


def faults_of(page):
    """Yields line numbers, counted from 1, and what is wrong there."""
    lines = without_drawings(lines_of(page))
    for number, file, block in blocks_of(page, lines):
        fault = fault_of_block(block) if not file or block[0].startswith("$ ") else fault_of_lines(block, file)
        if fault:
            yield number, fault
    for number, line in enumerate(lines, 1):
        for fault in faults_of_text(page, line) if not line.startswith(INDENT) else []:
            yield number, fault


def faults_of_text(page, line):
    """Yields what is wrong with a line outside blocks: its links, and the commands that it names."""
    if line.startswith(FENCE):
        yield "what is between such lines is compared with nothing"
    known = {*OWN, *(it.words[0] for it in rows() if it.words)}
    yield from (f"`./abr {it}` is no command" for it in COMMAND.findall(line) if it not in known)
    yield from filter(None, (fault_of_link(page, it) for it in LINK.findall(CODE.sub("", line))))
    yield from filter(None, (fault_of_picture(path_of(page, it)) for it in PICTURE.findall(line)))
    for word, it in WORD_LINK.findall(line):
        if not re.search(rf"\b{word}\b", "\n".join(lines_of(path_of(page, it)) or [])):
            yield f"{it} does not have the word {word}"


def without_drawings(lines):
    """Returns the lines, with an empty one for each line of a drawing."""
    found, is_drawing = [], False
    for line in lines:
        begins, ends = line == FENCE + "text", is_drawing and line == FENCE
        found.append("" if is_drawing or begins else line)
        is_drawing = (is_drawing or begins) and not ends
    return found


def blocks_of(page, lines):
    """Yields for each block the number of its first line, the file that it quotes, or `None`, and its lines without the indent."""
    text, block, first = "", [], 0
    for number, line in enumerate([*lines, "end"], 1):
        before = lines[number - 2].strip() if number > 1 else ""
        if line.startswith(INDENT) and (block or not before or before.startswith("#") or QUOTED.fullmatch(before)):
            first = first or number
            block.append(line[len(INDENT) :])
        elif line.strip():
            if block:
                quoted = QUOTED.fullmatch(text)
                yield first, path_of(page, quoted[1]) if quoted else None, without_empty_end(block)
            text, block, first = line.strip(), [], 0
        elif block:
            block.append("")


def without_empty_end(block):
    return block[: max(at for at, it in enumerate(block, 1) if it)]


def fault_of_lines(block, file):
    """Compares the parts of a block with a file, whatever the indents: each is there whole, after the one before it."""
    return fault_of_parts([it.strip() for it in block], [it.strip() for it in lines_of(file) or []], file)


def fault_of_parts(shown, given, name):
    """Compares the parts that are shown, between lines `..`, with what is given: each is there whole, after the one before it."""
    at, part = 0, []
    for line in [*shown, LEFT_OUT]:
        if line != LEFT_OUT:
            part.append(line)
            continue
        found = [k for k in range(at, len(given) - len(part) + 1) if given[k : k + len(part)] == part]
        if not found:
            missing = [it for it in part if it not in given]
            return f"{name} has no line `{missing[0]}`" if missing else f"{name} does not have this block so"
        at, part = found[0] + len(part), []
    return ""


def fault_of_block(block):
    if block[0].startswith("$ "):
        return fault_of_commands(block)
    for line in block:
        words = line.split() or [""]
        script = f"{TOP}/{words[0]}"
        if words[0] == "./abr":
            if not OWN & {*words[1:2]} and not rows_with(words[1:]):
                return f"no row of {ROWS} has the command `{line}`"
        elif not os.path.isfile(script) or not os.access(script, os.X_OK):
            return "this block is compared with nothing: before it is no line that ends in a link and a colon"
    return ""


def difference(shown, given, name):
    for it, other in zip(shown, given):
        if it != other:
            return f"`{it}` is not `{other}`, as {name} has it"
    return f"{len(shown)} lines are not the {len(given)} of {name}" if len(shown) != len(given) else ""


# Commands


# A row: its words, its input, the lines of its file of `--begin`, and those that are wanted on standard output and standard error.
Row = collections.namedtuple("Row", "words given begin wanted said")


@functools.lru_cache(maxsize=None)
def rows():
    """Returns the rows of all files whose status is 0 and that have no other lines."""
    found, empty = [], lambda words: Row(words, b"", [], [], [])
    for file in sorted(os.listdir(f"{TOP}/{ROWS}")):
        row, before, is_plain = empty([]), b"", True
        for line in lines_of(f"{ROWS}/{file}"):
            if line.startswith("$ "):
                before, row, is_plain = row.given, empty(line[2:].split()), True
            elif line.startswith("< "):
                row = row._replace(given=row.given + line[2:].encode() + b"\n")
            elif line.startswith("<x "):
                row = row._replace(given=row.given + bytes.fromhex(line[3:]))
            elif line == "^":
                row = row._replace(given=row.given + before)
            elif line[:2] in ("b ", "> ", "! "):
                {"b ": row.begin, "> ": row.wanted, "! ": row.said}[line[:2]].append(line[2:])
            elif line == "= 0" and is_plain:
                found.append(row)
            elif line.strip() and not line.startswith("#"):
                is_plain = False
    return found


def rows_with(words, made=None):
    """Returns the rows with these words, and with the file that they name as its input. Files that were made by commands before
    have the bytes that are given."""
    words, file = (words[:-2], words[-1]) if words[-2:-1] == ["<"] else (words, None)
    if not file and words[:1] in READING and len(words) > 1:
        words, file = [words[0], "-", *words[2:]], words[1]
    given = (made or {}).get(file) or bytes_of(file) if file else None
    begin = lines_of(words[words.index("--begin") + 1]) if "--begin" in words else []
    return [it for it in rows() if it.words == words and it.begin == begin and (not file or it.given == given)]


def bytes_of(file):
    """Returns the bytes of a file of the repository, or `None` if it cannot be read."""
    try:
        with open(f"{TOP}/{file}", "rb") as it:
            return it.read()
    except OSError:
        return None


def fault_of_commands(block):
    """Compares each command of a block, with the lines after it, with a row."""
    made, starts = {}, [at for at, it in enumerate(block) if it.startswith("$ ")]
    for at, end in zip(starts, [*starts[1:], len(block)]):
        words, shown = block[at][2:].split(), block[at + 1 : end]
        is_made = words[-2:-1] == [">"]
        found = rows_with(words[1:-2] if is_made else words[1:], made) if words[0] == "./abr" else []
        wanted = [it.said if is_made else it.wanted for it in found if is_made or not it.said]
        if not wanted:
            return f"no row of {ROWS} has the command `{' '.join(words)}`"
        if LEFT_OUT in shown:
            # (the marks hold the first part to the beginning, and the last to the end)
            fault = fault_of_parts(["^", *shown, "$"], ["^", *wanted[0], "$"], f"a row of {ROWS}")
            if fault:
                return fault
        elif shown not in wanted:
            return difference(shown, wanted[0], f"a row of {ROWS}")
        if is_made:
            made[words[-1]] = "".join(f"{it}\n" for it in found[0].wanted).encode()
    return ""


# Links


def path_of(page, target):
    return os.path.normpath(os.path.join(os.path.dirname(page), target))


def fault_of_link(page, target):
    if re.match(r"[a-z]+:", target):
        # (another host's)
        return ""
    path, _, anchor = target.partition("#")
    file = path_of(page, path) if path else page
    if file.startswith("..") or not os.path.exists(f"{TOP}/{file}"):
        return f"the link to {target} leads nowhere"
    return f"the link to {target} leads to no heading" if anchor and anchor not in anchors(file) else ""


def fault_of_picture(file):
    """Returns what is wrong with a picture: apart from its style it is one that a row of `abr page` prints, line by line."""
    lines = lines_of(file) or []
    begin, end = (lines.index(it) if it in lines else 0 for it in ("<style>", "</style>"))
    if not 0 < begin < end:
        return f"the picture {file} has no style"
    picture, rules = lines[:begin] + lines[end + 1 :], lines[begin + 1 : end]
    for row in rows():
        at = [k for k, it in enumerate(row.wanted) if row.words[:1] == ["page"] and it == picture[0]]
        if any(row.wanted[k : k + len(picture)] == picture for k in at):
            missing = [it for it in rules if it not in row.wanted]
            return f"no page has the rule `{missing[0]}` of the picture {file}" if missing else ""
    return f"no row of {ROWS} prints the picture {file}"


@functools.lru_cache(maxsize=None)
def anchors(file):
    """Returns the anchors of a page's headings: small letters, a hyphen for each space, nothing else but letters and digits."""
    texts = [HEADING.fullmatch(it) for it in lines_of(file) or []]
    return {re.sub(r"[^\w\- ]", "", it[1].lower()).replace(" ", "-") for it in texts if it}
