"""The table edits/tried: for each edit, what refused it and the sum of what that verdict was made from."""
import os

import project

FILE, UNTRIED = f"{project.HERE}/tried", f"{project.HERE}/untried"
HEAD = """\
# What each harmful edit under edits/ came to when it was last tried: its name, the sum of what that verdict was made from, and the
# goal that refused it. Written by edits/try, never by hand.
#
# The sum is of the edit; of the files of its crate, without comments (src/, specs/, proofs/); of what the crates below state, which
# is their specs/ and the source of their src/ without comments, layout, bodies of functions, functions that aren't public and
# imports that only these need; and of the kit's line. So it stays where a body or a proof below changes, and it changes with any
# contract below. It rests on this: the proof of a function reads its own crate and the contracts of the functions that it calls,
# and no other body; the names that it cites of a crate below are proved there, whatever their proofs are; and edits/sources.py
# finds where a function's clauses end and its body begins. An edit whose sum no longer fits the tree is due: edits/try --due.
"""


def load():
    """Returns the sum and the goal of each edit, by its name."""
    if not os.path.isfile(FILE):
        return {}
    with open(FILE, encoding="utf-8") as it:
        rows = [line.split() for line in it if line.strip() and not line.startswith("#")]
    return {name: (sum, goal) for name, sum, goal in rows}


def save(rows):
    with open(f"{FILE}.new", "w", encoding="utf-8") as it:
        it.write(HEAD)
        it.writelines(f"{name} {sum} {goal}\n" for name, (sum, goal) in sorted(rows.items()))
    os.replace(f"{FILE}.new", FILE)


def untried():
    """Returns the names of the edits that have no record yet, since none was tried since the record began; the list only shrinks."""
    if not os.path.isfile(UNTRIED):
        return set()
    with open(UNTRIED, encoding="utf-8") as it:
        return {line.strip() for line in it if line.strip() and not line.startswith("#")}


def drop_untried(rows):
    """Takes from the list of the untried those that have a record now."""
    if os.path.isfile(UNTRIED):
        with open(UNTRIED, encoding="utf-8") as it:
            lines = [line for line in it if line.strip() not in rows]
        with open(f"{UNTRIED}.new", "w", encoding="utf-8") as it:
            it.writelines(lines)
        os.replace(f"{UNTRIED}.new", UNTRIED)


def judged(edits, rows):
    """Returns which of the edits have no record, and which are due: what their record was made from isn't what stands there."""
    new = [it for it in edits if it.name not in rows]
    # (a record of another goal than the edit names is none of this edit)
    return new, [it for it in edits if it.name in rows and rows[it.name] != (it.sum(), it.goal)]
