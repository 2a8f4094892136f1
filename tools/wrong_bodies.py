"""Has the prover refuse the wrong bodies of the crates: the edits in crates/NAME/wrong_bodies/.

An edit is a file with a line `file: src/FILE.rt`, and then pairs of lines `old: TEXT` and `new: TEXT`; each TEXT after `old:` stands in
the file once. It changes the function that it is in. One that changes a constant or a type, say, can name the function that is then
wrong, in a line `function: PATH`.

The edits of a crate are made together in one copy of it, and the prover checks the functions that they change, and what these call. An
edit is refused if its function is, for a goal of its own, and not for what it calls. Those that are not refused so are made together
once more, as long as some are, and then alone; what that does not tell is tried as `rt must-fail` does. What an edit came to is kept
where `rt ci` keeps what it proved.
"""
import contextlib
import hashlib
import os
import re
import sys
import tempfile
import time
from collections import namedtuple
from concurrent.futures import ThreadPoolExecutor, as_completed

import proving

# The first line of a function, of an impl or of a trait.
FUNCTION = re.compile(r'^( *)(?:pub(?:\(\w+\))? )?(?:const )?(?:unsafe )?(?:extern "C" )?fn (\w+)', re.M)
IMPL = re.compile(r"^(?:pub )?(?:impl|trait)\b[^{]*", re.M)
# An error that only says that a name of a proof went with the edit, or that rests on another.
BESIDE = re.compile(r"has no field|is not in scope|has no `|was not admitted")

# Raised if something else counts as refused: what is kept of earlier runs is then tried again.
JUDGE = 1

Edit = namedtuple("Edit", "path file pairs functions is_alone")


def folder_of(crate):
    return f"{proving.TOP}/crates/{crate}/wrong_bodies"


def names():
    """Returns the crates that have wrong bodies."""
    return [it for it in proving.uses() if os.path.isdir(folder_of(it))]


def try_all(names, say, jobs):
    """Tries the wrong bodies of these crates, over what `rt ci` kept of the crates below them, so many crates side by side. Returns
    how many were refused, and what is wrong with others. Says a line for each crate."""
    refused, faults = 0, []
    with repository(names) as (rt, crates, kept):
        found = sorted((it for it in crates if it.name in names), key=rt.need, reverse=True)
        with ThreadPoolExecutor(jobs) as pool:
            for done in as_completed([pool.submit(try_crate, rt, it, kept) for it in found]):
                crate, count, wrong, seconds = done.result()
                told = f"{crate}: {count} of {count + len(wrong)} wrong bodies refused, {proving.length_of(seconds)}"
                say("\n".join([*wrong, told]))
                refused, faults = refused + count, faults + wrong
    return refused, faults


@contextlib.contextmanager
def repository(names):
    """Gives `rt` as a module, the crates of a copy of this repository, lowest first, and what `rt ci` keeps. The libraries below these
    crates are built there."""
    rt, here = proving.load_rt(), os.getcwd()
    with tempfile.TemporaryDirectory(prefix="wrong-bodies-") as room:
        rt.copy_crates(proving.TOP, f"{room}/repository")
        os.chdir(f"{room}/repository")
        try:
            rt.rtlib.guarded()
            rt.Crate.cuts_libraries = True
            rt.Crate.allowed = rt.rtlib.Crate.allowed = rt.handles_of(os.getcwd())
            crates = rt.crates_of(os.getcwd())
            kept = rt.Kept(crates)
            below = {it.name for found in crates if found.name in names for it in found.below()}
            for it in crates:
                if it.name in below:
                    build(kept, it)
            yield rt, crates, kept
        finally:
            os.chdir(here)


def build(kept, crate):
    """Takes the library that `rt ci` kept, or proves it once more: nothing is kept where `rt ci` may not write beside the toolchain."""
    if not kept.give(crate, False, kept.key(crate)):
        with tempfile.TemporaryFile("a+", errors="replace") as crate.out:
            if crate.build_rlib(["--jobs", "1"], anew=True):
                sys.exit(f"{crate.name} is not proved, so no wrong body above it can be tried")
    kept.is_built(crate)


def try_crate(rt, crate, kept):
    """Returns the crate's name, how many of its wrong bodies are refused, what is wrong with the others, and how long that took."""
    started = time.time()
    trial = Trial(rt, crate, kept)
    trial.make_together()
    trial.make_alone()
    faults = trial.faults()
    return crate.name, len(trial.edits) - len(faults), faults, time.time() - started


class Trial:
    """The wrong bodies of a crate, and those that are not refused yet."""

    def __init__(self, rt, crate, kept):
        self.rt, self.crate, self.kept = rt, crate, kept
        folder = folder_of(crate.name)
        self.edits = [read_edit(crate, f"{folder}/{it}") for it in sorted(os.listdir(folder))]
        sum = hashlib.sha256(f"{kept.key(crate)} {JUDGE}".encode()).hexdigest()
        self.names = {it.path: kept.of_edit(it.path, sum) for it in self.edits}
        self.left = [it for it in self.edits if not kept.tried(self.names[it.path])]
        self.made = []

    def make(self, edits):
        """Makes these edits. Returns true if one is refused."""
        self.made = edits
        refused = refused_of(self.rt, self.crate, edits)
        for it in refused:
            self.kept.keep_tried(self.names[it.path], self.rt.REFUSED, "refused")
        self.left = [it for it in self.left if it not in refused]
        return bool(refused)

    def make_together(self):
        while self.make(together(self.crate, self.left)):
            pass

    def make_alone(self):
        for it in [*self.left]:
            if self.made != [it]:
                self.make([it])

    def faults(self):
        """Tries what is left by itself, as `rt must-fail` does. Returns what is wrong."""
        found = []
        for it in self.left:
            kind, text = self.rt.must_fail(self.crate, it.path, ["--jobs", "1"])
            if kind in (self.rt.REFUSED, self.rt.AT_LIMIT):
                self.kept.keep_tried(self.names[it.path], kind, text)
            else:
                found.append(text)
        return found


def text_of(path):
    with open(path, encoding="utf-8") as it:
        return it.read()


def read_edit(crate, path):
    file, old, pairs, named = "", "", [], set()
    for line in text_of(path).splitlines():
        word, _, rest = line.partition(": ")
        if word == "file":
            file = rest.strip()
        elif word == "function":
            named.add(rest.strip())
        elif word == "old":
            old = rest
        elif word == "new" or line == "new:":
            pairs.append((old, rest))
    if not os.path.isfile(f"{crate.folder}/{file}"):
        return Edit(path, file, [], set(), True)
    text = text_of(f"{crate.folder}/{file}")
    found = {function_at(file, text, text.find(it)) for it, _ in pairs if it in text}
    return Edit(path, file, pairs, named or found - {""}, bool(named))


def function_at(file, text, place):
    """Returns the function that the place in a file of src/ is in, by the end of the path that the prover prints; "" if it is in none."""
    until = text.find("\n", place)
    before = [*FUNCTION.finditer(text[: until if until > 0 else None])]
    if not before:
        return ""
    indent, name = before[-1].groups()
    head = [*IMPL.finditer(text[: before[-1].start()])][-1:] if indent else []
    if head:
        # (the prover puts a method where its type is declared)
        return f"{type_of(head[0][0])}::{name}"
    return "::".join([*(it for it in file[len("src/") : -len(".rt")].split("/") if it not in ("lib", "main")), name])


def type_of(head):
    """Returns the name by which the prover calls an impl: the type's, and behind it the trait's, with what it is of, if there is one."""
    head = re.sub(r"'\w+", "", re.split(r"\swhere\s", head)[0]).strip()
    for word in ("pub ", "impl", "trait", " "):
        head = head[len(word) :] if head.startswith(word) else head
    if head.startswith("<"):
        # (the parameters, up to the `>` that closes them)
        depths = [head[: it + 1].count("<") - head[: it + 1].count(">") for it in range(len(head))]
        head = head[depths.index(0) + 1 :].strip()
    trait, _, own = head.rpartition(" for ")
    name, _, of = trait.partition("<")
    capital = lambda it: it[:1].upper() + it[1:]
    return last(own.partition("<")[0]) + last(name) + "".join(map(capital, re.findall(r"\w+", of)))


def last(path):
    return path.strip().rpartition("::")[2]


def together(crate, edits):
    """Returns edits that can be made together: no two change one function."""
    some = []
    for edit in edits:
        is_apart = not edit.is_alone and all(edit.functions.isdisjoint(it.functions) for it in some)
        if is_apart and changed(crate, [*some, edit]):
            some.append(edit)
    return some


def changed(crate, edits):
    """Returns the files that these edits change, as they are then; none if an edit cannot be made."""
    texts = {}
    for edit in edits:
        for old, new in edit.pairs:
            text = texts.get(edit.file) or text_of(f"{crate.folder}/{edit.file}")
            if text.count(old) != 1:
                return {}
            texts[edit.file] = text.replace(old, new)
    return texts


def refused_of(rt, crate, edits):
    """Returns those edits of which a function is refused for a goal of its own, if they are all made."""
    functions = sorted({name for it in edits for name in it.functions})
    texts = changed(crate, edits)
    if not functions or not texts:
        return []
    ran = rt.checked(crate, texts, ["--jobs", "1", *(word for it in functions for word in ("--only", it))], None)
    lines = ran.stdout.splitlines()
    if ran.returncode != 1 or not lines or not lines[-1].startswith("only="):
        return []
    return [it for it in edits if any(is_refused(crate.name, name, lines) for name in it.functions)]


def is_refused(crate, function, lines):
    """Returns whether the prover refuses the function for a goal of its own."""
    verdict = re.compile(rf"fn {crate}::(?:\w+::)*{re.escape(function)}: (.*)")
    place = re.compile(rf"(?:\./)?proofs/(?:\w+/)*{re.escape(function.replace('::', '/'))}/\w+\.antt:\d+:\d+: error")
    said = [it[1] for it in map(verdict.match, lines) if it]
    errors = [it for it in lines if place.match(it) and not BESIDE.search(it)]
    return len(said) == 1 and said[0] != "proved" and bool(errors or "`search` did not prove" in said[0])
