"""The crates of this repository, and rooms to check them in: folders with copies of a crate and of what it rests on, in which a
check runs beside those of other crates."""

import os
import re
import shutil

TOP = os.path.dirname(os.path.dirname(os.path.abspath(__file__)))
# What a job takes of memory at most, in bytes.
NEED = 5 << 29
# What each check does first, alone, takes as long as so many lines.
START = 1000
# What a crate is made of.
PARTS = ("src", "specs", "proofs")


def crates():
    """The line of each crate in crates.txt, by its name."""
    with open(f"{TOP}/crates.txt", encoding="utf-8") as file:
        lines = [line for line in file if line.strip() and not line.startswith("#")]
    return {re.match(r"\w+", line)[0]: line for line in lines}


def libraries(lines):
    """The libraries of each crate that are crates of this repository themselves."""
    return {name: [it for it in line.partition(":")[2].split() if it in lines] for name, line in lines.items()}


def all_below(crate, below):
    """The crates that a crate rests on, lowest first."""
    found = []
    for it in below[crate]:
        found += [lower for lower in [*all_below(it, below), it] if lower not in found]
    return found


def works(crates):
    """How long each crate takes to check, by the lines of its code, specifications and proofs."""
    found = dict.fromkeys(crates, START)
    for crate in crates:
        for part in PARTS:
            for folder, _, names in os.walk(f"{TOP}/crates/{crate}/{part}"):
                for name in names:
                    with open(f"{folder}/{name}", "rb") as file:
                        found[crate] += file.read().count(b"\n")
    return found


def lanes():
    """How many jobs may run side by side: twice as many as processors, since a check begins and ends with parts that one
    processor does alone, or as many as memory holds."""
    with open("/proc/meminfo", encoding="ascii") as file:
        free = 1024 * int(re.search(r"MemAvailable:\s+(\d+)", file.read())[1])
    return max(1, min(2 * len(os.sched_getaffinity(0)), free // NEED))


def furnish(room, crate, lower, lines):
    """Puts a crate and those below it into a room, each with what its last check kept, and returns the crate's folder there."""
    with open(f"{room}/crates.txt", "w", encoding="utf-8") as file:
        file.writelines(lines[it] for it in [*lower, crate])
    for it in lower:
        shutil.copytree(f"{TOP}/crates/{it}", f"{room}/crates/{it}", ignore=shutil.ignore_patterns("incremental", "must-fail", "wrong-bodies"))
    shutil.copytree(f"{TOP}/crates/{crate}", f"{room}/crates/{crate}", ignore=shutil.ignore_patterns("must-fail", "wrong-bodies"))
    return f"{room}/crates/{crate}"
