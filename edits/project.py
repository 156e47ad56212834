"""What edits/try knows of the repository: its crates, its harmful edits, and the sum of what an edit's verdict is made from."""
import functools
import hashlib
import os
import re
import subprocess
from dataclasses import dataclass

import sources

HERE = os.path.dirname(os.path.realpath(__file__))
TOP = os.path.dirname(HERE)
# The parts of a crate that a check reads.
PARTS = ("src", "specs", "proofs")
# The goals of a loop's invariant and of a type's. That one of them fails says that a proof no longer goes through, and of no clause that it
# refuses the edit.
NO_CLAUSE = re.compile(r"loop-|invariant_of-|.*-(?:preserved|init)\b")


class BadEdit(Exception):
    """Why an edit doesn't apply."""


@functools.lru_cache(maxsize=None)
def uses():
    """Returns the libraries that each crate uses, of the repository and of the kit, by crates.txt."""
    with open(f"{TOP}/crates.txt", encoding="utf-8") as it:
        lines = [line.partition("#")[0].partition(":") for line in it]
    return {name.split()[0]: used.split() for name, colon, used in lines if colon and name.split()}


@functools.lru_cache(maxsize=None)
def below(crate):
    """Returns the repository's crates that this one stands on, each after those that it stands on."""
    found = []
    for it in uses()[crate]:
        if it in uses():
            found += [low for low in (*below(it), it) if low not in found]
    return tuple(found)


def files_of(crate, part):
    """Gives the files of a part of a crate, each by its path in the crate, in a fixed order."""
    for at, folders, names in os.walk(f"{TOP}/crates/{crate}/{part}"):
        folders.sort()
        yield from (os.path.relpath(f"{at}/{name}", f"{TOP}/crates/{crate}") for name in sorted(names))


def read(crate, path):
    with open(f"{TOP}/crates/{crate}/{path}", encoding="utf-8") as it:
        return it.read()


@functools.lru_cache(maxsize=None)
def homes_of(crate):
    """Returns the modules that declare each type of the crate, by its name."""
    found = {}
    for path in files_of(crate, "src"):
        for name in re.findall(r"\b(?:struct|enum)\s+(\w+)", sources.without_comments(read(crate, path))):
            found.setdefault(name, []).append(sources.module_of(path))
    return found


def printed(crate, function):
    """Returns the path under which a check knows a function: a method stands in the module of its type, wherever its impl is."""
    *module, name = function.split("::")
    homes = homes_of(crate).get(module[-1], []) if module else []
    return "::".join([*homes[0], module[-1], name]) if len(homes) == 1 else function


def sum_of(*parts):
    return hashlib.sha256(repr(parts).encode()).hexdigest()[:16]


@functools.lru_cache(maxsize=None)
def kit():
    """Returns the kit's line."""
    return subprocess.run(["rt", "version"], check=True, capture_output=True, text=True).stdout.strip()


@functools.lru_cache(maxsize=None)
def contracts_of(crate):
    """Returns the sum of what the crate states to those above it."""
    stated = [(path, sources.stated(read(crate, path))) for path in files_of(crate, "src")]
    return sum_of(stated, [(path, sources.definitions(read(crate, path))) for path in files_of(crate, "specs")])


@functools.lru_cache(maxsize=None)
def ground_of(crate):
    """Returns the sum of what a verdict on the crate is made from."""
    written = [(path, sources.code(read(crate, path))) for path in files_of(crate, "src")]
    written += [(path, sources.definitions(read(crate, path))) for part in PARTS[1:] for path in files_of(crate, part)]
    return sum_of(kit(), written, [(it, contracts_of(it)) for it in sorted(below(crate))])


@dataclass(frozen=True)
class Edit:
    """An edit of a crate: the file that it stands in, below the repository's top, and its name, CRATE/FILE."""

    file: str
    crate: str

    @property
    def name(self):
        return f"{self.crate}/{os.path.basename(self.file)}"

    @functools.cached_property
    def lines(self):
        with open(f"{TOP}/{self.file}", encoding="utf-8") as it:
            return it.read().split("\n")

    @property
    def goal(self):
        """The goal that must refuse it, or ''."""
        return next((line.removeprefix("must refuse: ").strip() for line in self.lines if line.startswith("must refuse: ")), "")

    @property
    def carries_promise(self):
        """Whether a promise of the whole program rests on it, so that each gate tries it."""
        return "carries: the promise" in self.lines

    def sum(self):
        """Returns the sum of what its verdict is made from: the edit, its crate's files, what the crates below state, and the kit."""
        return sum_of(ground_of(self.crate), self.lines)

    def apply(self, texts):
        """Applies the edit to the texts of its crate's files, by their paths, which it reads where they aren't there yet. Returns the
        functions that it changes, None among them where a change lies in none. Raises BadEdit where it doesn't apply."""
        path, old, found = "", "", set()
        if not self.goal:
            raise BadEdit("no line says what must refuse it")
        if NO_CLAUSE.match(self.goal):
            raise BadEdit(f"its goal is that of a loop or a type, and of no clause: {self.goal}")
        for line in self.lines:
            word, _, text = line.partition(":")
            text = text.removeprefix(" ")
            if word == "file":
                path = text.strip()
            elif word == "old":
                old = text
            elif word == "new":
                found.add(self.change(texts, path, old, text))
                old = ""
        if not found:
            raise BadEdit("it has no pair of an old and a new text")
        return found

    def change(self, texts, path, old, new):
        """Makes one change, and returns the function that it lies in, or None."""
        if not re.fullmatch(r"src/[\w/]+\.rt", path):
            raise BadEdit("it names no file of src/ before a change")
        if path not in texts:
            try:
                texts[path] = read(self.crate, path)
            except OSError:
                raise BadEdit(f"there is no file {path}") from None
        count = texts[path].count(old) if old else 0
        if count != 1:
            raise BadEdit(f"an old text is in {path} {count} times, and not once")
        if old == new:
            raise BadEdit("it changes nothing")
        at = texts[path].index(old)
        function = sources.function_at(texts[path], path, at, at + len(old))
        texts[path] = texts[path].replace(old, new)
        return function


def edits():
    """Returns the harmful edits, which stand here in a folder for each crate."""
    crates = sorted(it for it in os.listdir(HERE) if os.path.isdir(f"{HERE}/{it}") and not it.startswith(("_", ".")))
    names = [(crate, name) for crate in crates for name in sorted(os.listdir(f"{HERE}/{crate}")) if name.endswith(".edit")]
    return [Edit(f"{os.path.basename(HERE)}/{crate}/{name}", crate) for crate, name in names]


def elsewhere():
    """Returns the folders in which `rt ci` would look for edits: it proves each such crate once more for them."""
    return [f"crates/{it}/must-fail" for it in sorted(uses()) if os.path.isdir(f"{TOP}/crates/{it}/must-fail")]


def why_not(edit):
    """Returns why the edit doesn't apply, or None."""
    if edit.crate not in uses():
        return f"crates.txt has no crate {edit.crate}"
    try:
        edit.apply({})
    except (BadEdit, OSError, UnicodeError) as error:
        return str(error)
    return None
