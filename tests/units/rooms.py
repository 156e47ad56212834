"""A folder in which the kit takes units of tests for crates: crates.txt with their lines, and crates/ with all that they stand on.

The sources of a unit end in .rs where they stand, since the gate lets no .rt file stand outside the crates of crates.txt.
"""
import os
import shutil

HERE = os.path.dirname(os.path.realpath(__file__))
TOP = os.path.dirname(os.path.dirname(HERE))


def lines_of(file):
    """Returns the lines of crates.txt, or of a list in its form, each by the name that it begins with."""
    with open(file, encoding="utf-8") as it:
        lines = [line.partition("#")[0] for line in it]
    return {line.partition(":")[0].split()[0]: line.rstrip() for line in lines if ":" in line}


UNITS, CRATES = lines_of(f"{HERE}/units.txt"), lines_of(f"{TOP}/crates.txt")


def unread():
    """Returns what stands here and would not be run: folders with no line, lines with no folder, and files of another kind than .rs."""
    folders = {it for it in os.listdir(HERE) if os.path.isdir(f"{HERE}/{it}") and it != "__pycache__"}
    files = [f"{at}/{it}" for name in folders for at, _, names in os.walk(f"{HERE}/{name}/src") for it in names]
    return sorted(folders ^ {*UNITS}) + sorted(os.path.relpath(it, HERE) for it in files if not it.endswith(".rs"))


def closed(names):
    """Returns these names and those of the repository's crates that they stand on."""
    lines, found, left = {**CRATES, **UNITS}, [], [*names]
    while left:
        name = left.pop()
        if name in lines and name not in found:
            found.append(name)
            left += lines[name].partition(":")[2].split()
    return found


def make(room, names):
    """Makes the folder for these units."""
    wanted = closed(names)
    os.makedirs(f"{room}/crates")
    with open(f"{room}/crates.txt", "w", encoding="utf-8") as to:
        to.writelines(f"{line}\n" for name, line in {**CRATES, **UNITS}.items() if name in wanted)
    for name in wanted:
        place = HERE if name in UNITS else f"{TOP}/crates"
        shutil.copytree(f"{place}/{name}", f"{room}/crates/{name}", ignore=shutil.ignore_patterns("out", "must-fail"))
    for name in names:
        for _, it in copies(name, room):
            os.rename(f"{it[:-3]}.rs", it)


def copies(name, room):
    """Returns the files of a unit, each with its copy in the room."""
    files = [f"{at}/{it}" for at, _, names in os.walk(f"{HERE}/{name}/src") for it in sorted(names)]
    return [(it, f"{room}/crates/{name}{it.removeprefix(f'{HERE}/{name}')[:-3]}.rt") for it in files]
