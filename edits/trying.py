"""Tries edits: has the kit prove the crates as they stand, and then check each edited function over their libraries.

The edits of a crate are tried in rounds. In a round each changes another function, and all are made in one copy of the crate,
of which these functions alone are checked, with those that they call. (An edit of a constant has a round of its own, of the whole
crate.) What the prover says of one function rests on the contracts
of the others and not on their bodies, so in a round each edit is judged by what is said of its own function: it is refused where
a message on that function names the goal of its line `must refuse:`. What is said of any other function counts for nothing. An edit of
which nothing is said, since a function that its own one calls is edited too, has another round.

What was checked of a crate is kept between runs, in the folder that EDITS_KEPT names (bin/.build/edits where nothing does): a run over
it checks only what changed since.
"""
import contextlib
import fcntl
import os
import re
import shutil
import signal
import tempfile
import threading
from concurrent.futures import ThreadPoolExecutor
from dataclasses import dataclass, field

import project
import sources
from libraries import KIT, Libraries, copy_crates, processors, run
from project import TOP, BadEdit

KEPT = os.path.abspath(os.environ.get("EDITS_KEPT") or f"{TOP}/bin/.build/edits")
# A message on a goal in a proof file, and what is said of a function at the end of a check.
IN_FILE = re.compile(r"(?:\./)?proofs/(?P<path>\S+)/\w+\.antt:\d+:\d+: error: `(?P<goal>[^`]*)`: (?P<why>.*)")
AT_PLACE = re.compile(r"note: (?P<file>src/\S+\.rt):(?P<line>\d+):\d+: .*?\(`(?P<goal>[^`]*)`\)")
OF_FUNCTION = re.compile(r"fn (?P<crate>\w+)::(?P<path>\S+): (?P<said>.*)")
# A proof file that names what an edit took away shows nothing of the contract.
NAMES = re.compile(r"has no field|is not in scope|has no `|was not admitted")
NO_FUNCTION = re.compile(r"has no function `([^`]*)`")


@dataclass
class Found:
    """What the check said of the functions of a crate, by their paths: the goals that it refused, and how it ended."""

    goals: dict = field(default_factory=dict)
    ended: dict = field(default_factory=dict)
    lines: list = field(default_factory=list)

    def of(self, function, table):
        """Returns what the table has for a function, for closures in it too."""
        *owner, name = function.split("::")
        inside = re.compile(rf"{re.escape(function)}(?:::.*)?|{re.escape('::'.join([*owner, 'fn', name]))}::.*")
        # (a method's path begins with the module of its type, which may be another than that of its impl)
        ending = "::".join(function.split("::")[-2:]) if owner and owner[-1][:1].isupper() else None
        return [it for path, it in table.items() if inside.fullmatch(path) or ending and path.endswith(f"::{ending}")]


def read_messages(crate, text, read):
    """Reads what a check of the crate printed; read gives the text of a file that it checked."""
    found = Found(lines=text.split("\n"))
    for line in found.lines:
        if at := AT_PLACE.match(line):
            function = sources.function_on(read(at["file"]), at["file"], int(at["line"]))
            found.goals.setdefault(function, set()).add(at["goal"])
        elif at := IN_FILE.match(line):
            if not NAMES.search(at["why"]):
                found.goals.setdefault(at["path"].replace("/", "::"), set()).add(at["goal"])
        elif (at := OF_FUNCTION.match(line)) and at["crate"] == crate:
            found.ended[at["path"]] = at["said"]
            _, _, missed = at["said"].partition("did not prove ")
            found.goals.setdefault(at["path"], set()).update(re.findall(r"`([^`]*)`", missed))
    return found


@dataclass
class Result:
    """What an edit's try came to: whether it was refused at its goal, and what to say of it."""

    is_refused: bool
    text: str


def judge(edit, functions, found):
    """Returns what the check says of an edit that changes these functions, or None where it says nothing of them. Where it changes what
    stands in no function, as a constant, the goal may be of any."""
    goals, ended = set(), []
    for function in functions if None not in functions else found.ended:
        goals |= set().union(*found.of(function, found.goals))
        ended += found.of(function, found.ended)
    if edit.goal in goals:
        return Result(True, f"refused by {edit.goal}")
    if not ended:
        return None
    if goals:
        return Result(False, f"REFUSED ELSEWHERE: not by {edit.goal}, but by {', '.join(sorted(goals))}")
    if all(it == "proved" for it in ended):
        return Result(False, "NOT REFUSED: what it changes is still proved")
    return Result(False, f"NOT TRIED: the check could not tell: {'; '.join(ended)[:300]}")


def rounds_of(edits):
    """Returns the rounds in which a crate's edits are tried, each as its edits with their functions and the texts of the changed files,
    and what is wrong with those that don't apply."""
    rounds, wrong = [], {}
    for edit in edits:
        try:
            functions = edit.apply({})
        except (BadEdit, OSError, UnicodeError) as error:
            wrong[edit] = Result(False, f"DOES NOT APPLY: {error}")
            continue
        for members, texts in rounds:
            changed, others = dict(texts), set().union(*[other for _, other in members])
            try:
                is_apart = None not in functions | others and not functions & others and edit.apply(changed) == functions
            except BadEdit:
                is_apart = False
            if is_apart:
                members.append((edit, functions))
                texts.update(changed)
                break
        else:
            texts = {}
            edit.apply(texts)
            rounds.append(([(edit, functions)], texts))
    return rounds, wrong


@contextlib.contextmanager
def kept_of(crate):
    """Gives the folder of what is kept of a crate's checks; another one, for this run alone, while a run elsewhere uses that."""
    os.makedirs(f"{KEPT}/{crate}", exist_ok=True)
    with open(f"{KEPT}/{crate}.lock", "w", encoding="utf-8") as lock, tempfile.TemporaryDirectory(prefix="bridge-kept-") as other:
        try:
            fcntl.flock(lock, fcntl.LOCK_EX | fcntl.LOCK_NB)
        except BlockingIOError:
            yield other
        else:
            yield f"{KEPT}/{crate}"


@dataclass
class Tried:
    """A crate whose edits are tried: its name, the folder of its copy, the libraries that it stands on, and what is kept of its checks."""

    crate: str
    folder: str
    libraries: Libraries
    kept: str

    def check(self, texts, functions):
        """Checks these functions, or all where None is among them, in a copy of the crate with these texts."""
        asked = sorted({project.printed(self.crate, it) for it in functions}) if None not in functions else []
        with tempfile.TemporaryDirectory(prefix="bridge-edit-") as copy:
            shutil.copytree(self.folder, copy, dirs_exist_ok=True)
            for path, text in texts.items():
                with open(f"{copy}/{path}", "w", encoding="utf-8") as it:
                    it.write(text)
            words = [f"{KIT}/bin/rattle", "check", *self.libraries.words(self.crate), "--jobs", "1", "--incremental", self.kept]
            for _ in range(len(asked) + 2):
                ran = run([*words, *[word for it in asked for word in ("--only", it)]], copy)
                missing = NO_FUNCTION.search(ran.stdout)
                if missing and missing[1] in asked and missing[1].count("::") > 1:
                    asked[asked.index(missing[1])] = "::".join(missing[1].split("::")[-2:])
                # (killed for memory, most likely, and tried once more)
                elif ran.returncode != -signal.SIGKILL:
                    break
        return read_messages(self.crate, ran.stdout, lambda path: texts[path] if path in texts else project.read(self.crate, path))

    def try_round(self, members, texts, tell):
        """Tells the result of each edit of a round, and returns those that have none yet."""
        found, untold = self.check(texts, set().union(*[functions for _, functions in members])), []
        for edit, functions in members:
            result = judge(edit, functions, found)
            if result and not result.text.startswith("NOT TRIED"):
                tell(edit, result)
            elif len(members) > 1:
                untold.append(edit)
            else:
                said = [line for line in found.lines if "error" in line or line.startswith("rattle")][:4] or found.lines[:4]
                tell(edit, result or Result(False, "NOT TRIED: the check says nothing of what it changes: " + " / ".join(said)[:600]))
        return untold


def try_crate(tried, edits, tell):
    """Tries the edits of one crate."""
    rounds, wrong = rounds_of(edits)
    for edit, result in wrong.items():
        tell(edit, result)
    while rounds:
        members, texts = rounds.pop(0)
        untold = tried.try_round(members, texts, tell)
        # (together where they are fewer, and else each alone)
        for together in [untold] if len(untold) < len(members) else [[it] for it in untold]:
            rounds += rounds_of(together)[0]


def try_all(edits, say, note, jobs=None):
    """Tries all these edits, says what comes of each, notes each result, and returns whether all were refused at their goals."""
    by_crate, one, results = {}, threading.Lock(), []
    for edit in edits:
        by_crate.setdefault(edit.crate, []).append(edit)

    def tell(edit, result):
        with one:
            results.append(result.is_refused)
            say(f"edits: {edit.name}: {result.text}")
            note(edit, result)

    def work(crate, room, libraries):
        if libraries.is_proved(crate):
            with kept_of(crate) as kept:
                try_crate(Tried(crate, f"{room}/crates/{crate}", libraries, kept), by_crate[crate], tell)
        else:
            for edit in by_crate[crate]:
                tell(edit, Result(False, f"NOT TRIED: {crate} is not proved as it stands"))

    lost = [it for it in by_crate if it not in project.uses()]
    for edit in [edit for crate in lost for edit in by_crate.pop(crate)]:
        tell(edit, Result(False, f"DOES NOT APPLY: crates.txt has no crate {edit.crate}"))
    if by_crate:
        crates = {low for it in by_crate for low in (*project.below(it), it)}
        libraries = Libraries(crates, lambda it: say(f"edits: {it}"))
        with tempfile.TemporaryDirectory(prefix="bridge-edits-") as room, libraries:
            copy_crates(by_crate, room)
            # (those first that take longest)
            order = sorted(by_crate, key=lambda it: -len(project.below(it)) * len(by_crate[it]))
            with ThreadPoolExecutor(jobs or processors()) as pool:
                for done in [pool.submit(work, it, room, libraries) for it in order]:
                    done.result()
    return all(results)
