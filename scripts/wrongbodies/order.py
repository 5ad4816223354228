"""The order in which wrong bodies are tried: the rounds of a crate's edits, and which crate is next."""
import os
import re
import sys
from concurrent.futures import ThreadPoolExecutor
from itertools import count
from queue import PriorityQueue
from threading import Semaphore

from wrongbodies.functions import text_of
from wrongbodies.tries import Crate, cost, names_of

# The most memory that a check was seen to take, in bytes.
MEMORY_OF_A_CHECK = 4_000_000_000
# How many edits are tried at once: a crate with more has them tried in parts, side by side, where more than two checks can run so. Each
# part reads all contracts below the crate once more.
MOST_AT_ONCE = 80


# ---- rounds


def refused(crate, edits):
    """Those of these edits of functions that the functions themselves refuse. One check has all of them; what it does not show to be
    refused is tried again, in halves where it shows nothing, and in the end alone."""
    seen = crate.seen_refused(edits)
    left = [it for it in edits if it not in seen]
    if not left or len(edits) == 1:
        return seen
    if seen:
        return seen + refused(crate, left)
    half = len(left) // 2
    return refused(crate, left[:half]) + refused(crate, left[half:])


def refused_without(crate, edits):
    """Those of these edits of functions whose function, or its double for the edit, is refused without the edit too."""
    names = {it.name for it in crate.seen_refused([it.undone() for it in edits])}
    for name in sorted(names):
        print(f"REFUSED WITHOUT IT: {crate.name}/wrong/{name}", flush=True)
    return [it for it in edits if it.name in names]


def accepted(crate, edits, is_proved):
    """Those of the edits that are not refused, or whose refusal says nothing, since the function is refused without them too."""
    of_functions = [it for it in edits if it.function]
    found = [it for it in edits if not it.function and crate.is_refused_by_any(it)]
    if of_functions:
        says_nothing = [] if is_proved else refused_without(crate, of_functions)
        found += refused(crate, [it for it in of_functions if it not in says_nothing])
    return [it for it in edits if it not in found]


def try_crate(crate, is_proved):
    """How many edits of a crate, or of its part, are refused, how many of these are named ones, and how many are not refused."""
    with crate.room:
        edits = crate.edits()
        not_refused = accepted(crate, edits, is_proved)
    well = [it for it in edits if it not in not_refused]
    named = [it for it in well if it.name.startswith("named/")]
    lines = [f"NOT REFUSED: {crate.name}/wrong/{it.name}" for it in not_refused]
    sums = f"{len(well)} of {len(edits)} wrong bodies refused, {len(named)} of them named ones, in {crate.checks} checks"
    print("\n".join([*lines, f"{crate.name}: {sums}"]), flush=True)
    return len(well), len(named), len(not_refused)


# ---- crates


def lanes(memory_of_a_check=MEMORY_OF_A_CHECK):
    """How many checks run side by side."""
    memory = int(re.search(r"MemAvailable:\s+(\d+)", text_of("/proc/meminfo"))[1]) * 1024
    return max(1, min(len(os.sched_getaffinity(0)), memory // memory_of_a_check))


def parts_of(made, rattle, most, is_release=True):
    """A crate, in as many parts as its edits need where so many checks run side by side."""
    parts = -(-len(names_of(made.folder, is_release)) // MOST_AT_ONCE) if most > 2 else 1
    return [Crate(made, rattle, part, parts, is_release) for part in range(parts)]


def dearest_first(crates, try_it, first, most):
    """What `try_it` counts of each of these crates, of which the dearest that has come is always next. They are tried on so many
    processors at first, and on the most once the last crate has come."""
    free, waiting, places = Semaphore(first), PriorityQueue(), count()

    def come():
        for crate in crates:
            waiting.put((-crate.cost, next(places), crate))
            yield crate
        for _ in range(most - first):
            free.release()

    def try_next(_):
        with free:
            return try_it(waiting.get()[-1])

    with ThreadPoolExecutor(most) as pool:
        return list(pool.map(try_next, come()))


def try_named(words, crates, rattle):
    """Tries the edits of the crates that these words of the command line name, or of all: the exit status."""
    made_of = {it.name: it for it in sorted(crates, key=cost, reverse=True) if os.path.isdir(f"{it.folder}/wrong")}
    wanted = [it for it in words if not it.startswith("-")] or [*made_of]
    unknown = [it for it in wanted if it not in made_of]
    most = lanes()
    first = max(1, most // 2) if "-" in words else most
    if "-" in words:
        wanted = map(str.strip, sys.stdin)
    # (each is made when its name comes: it takes the libraries below it as they are then)
    come = (part for it in wanted if it in made_of for part in parts_of(made_of[it], rattle, most, "--change" not in words))
    sums = dearest_first(come, lambda crate: try_crate(crate, "--proved" in words), first, most)
    passed, named, failed = (sum(it) for it in zip(*sums, (0, 0, len(unknown))))
    print(f"wrong bodies refused: {passed}, of them named ones: {named}")
    print(f"{passed} passed, {failed} failed")
    return 1 if failed else 0
