"""What the gate costs: the processor time of each `rattle` that runs below this process, by crate and by kind."""
import collections
import os
import threading

# Proofs; tests; the edits that `rt ci` tries one by one; the other wrong bodies.
KINDS = ("proofs", "tests", "must-fail", "wrong")
TICKS = os.sysconf("SC_CLK_TCK")
Process = collections.namedtuple("Process", "parent started seconds crate kind")


class Clock(threading.Thread):
    """Reads each second how much processor time each check has taken, until it is stopped."""

    def __init__(self):
        super().__init__(daemon=True)
        self.taken, self.ends = {}, threading.Event()

    def run(self):
        while not self.ends.wait(1):
            running = {pid: it for pid in filter(str.isdigit, os.listdir("/proc")) if (it := process(pid))}
            for pid, it in running.items():
                # (a check's own copies are counted with it)
                is_copy = it.parent in running and running[it.parent].crate
                if it.crate and not is_copy and is_below(pid, running):
                    self.taken[pid, it.started] = it

    def stop(self):
        self.ends.set()
        self.join()

    def table(self):
        """A line for each crate, with its processor seconds by kind, and a line of their sums; and these."""
        costs = collections.Counter()
        for it in self.taken.values():
            costs[it.crate, it.kind] += it.seconds
            costs["all", it.kind] += it.seconds
        lines = [f"{'processor seconds':20}" + "".join(f"{kind:>10}" for kind in KINDS)]
        for crate in [*sorted({it.crate for it in self.taken.values()}), "all"]:
            lines.append(f"{crate:20}" + "".join(f"{costs[crate, kind]:10.0f}" for kind in KINDS))
        return "\n".join(lines), {kind: costs["all", kind] for kind in KINDS}


def process(pid):
    """A process, with the crate that it proves, if any, or None where it has ended."""
    try:
        # (words that hostile tests give need be no UTF-8)
        with open(f"/proc/{pid}/stat", errors="replace") as it:
            fields = it.read().rpartition(")")[2].split()
        with open(f"/proc/{pid}/cmdline", errors="replace") as it:
            words = it.read().split("\0")
        folder = os.path.basename(os.readlink(f"/proc/{pid}/cwd"))
    except OSError:
        return None
    is_proof = os.path.basename(words[0]) == "rattle" and "--crate-name" in words
    crate = words[words.index("--crate-name") + 1] if is_proof else None
    return Process(fields[1], fields[19], sum(map(int, fields[11:15])) / TICKS, crate, kind_of(words, folder))


def kind_of(words, folder):
    """What `rattle` is called for with these words in a folder of this name."""
    if folder.startswith("rt-edit-"):
        return "must-fail"
    if folder.startswith("wrong-"):
        return "wrong"
    return "tests" if "--test" in words else "proofs"


def is_below(pid, running):
    while pid in running and pid != str(os.getpid()):
        pid = running[pid].parent
    return pid == str(os.getpid())
