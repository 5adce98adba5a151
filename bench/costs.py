"""What a run of `rt ci` costs, crate by crate, in processor seconds. `rt` tells no times, so the processes below it are looked at twice a second:
a process that ends loses what it did since it was last looked at, a quarter of a second in the mean, which the last line counts with the rest."""
import os
import re
import resource
import threading
import time

KINDS = ("proof", "tests", "edits", "builds", "runs")
PAUSE = 0.5
TICK = os.sysconf("SC_CLK_TCK")


def processes():
    """Each process: the one that started it, its own processor time, that of its children which have ended, and when it began."""
    found = {}
    for name in os.listdir("/proc"):
        if name.isdigit():
            try:
                with open(f"/proc/{name}/stat", encoding="utf-8", errors="replace") as stat:
                    words = stat.read().rpartition(")")[2].split()
            except OSError:
                continue
            own, ended = (sum(map(int, words[at : at + 2])) / TICK for at in (11, 13))
            found[int(name)] = int(words[1]), own, ended, words[19]
    return found


def purpose(process):
    """The crate for which a process below `rt` works, and what it does for it, or None: the proof of a library is a part of its build, a program's is a check."""
    try:
        with open(f"/proc/{process}/cmdline", encoding="utf-8", errors="replace") as text:
            words = text.read().split("\0")
        folder = os.path.basename(os.readlink(f"/proc/{process}/cwd"))
    except OSError:
        return None
    if "--crate-name" in words[:-1]:
        name = words[words.index("--crate-name") + 1]
        if folder.startswith("rt-edit-"):
            return name, "edits"
        if "--crate-checked" in words:
            return name, "builds"
        return name, "tests" if "--test" in words else "proof"
    program = next((found[1] for found in (re.search(r"/rt-run-[^/]+/bin/(\w+)$", word) for word in words) if found), None)
    if program:
        is_tests = any(os.path.basename(word) == "rattle-test" for word in words)
        return re.sub("_tests$", "", program) if is_tests else program, "runs"
    return None


class Costs(threading.Thread):
    """Looks at the processes below a running `rt ci` until it is told to stop."""

    def __init__(self, run):
        super().__init__(daemon=True)
        self.run_id, self.own, self.seen, self.purposes = run, 0.0, {}, {}
        self.began, self.before = time.time(), children()
        self.is_over = threading.Event()

    def run(self):
        while not self.is_over.wait(PAUSE):
            self.look()

    def look(self):
        found, below = processes(), {}
        for process, (parent, _, _, _) in found.items():
            below.setdefault(parent, []).append(process)
        if self.run_id in found:
            self.own = found[self.run_id][1]
        for process in below.get(self.run_id, []):
            key, open_ones, total = (process, found[process][3]), [process], 0.0
            while open_ones:
                it = open_ones.pop()
                total += found[it][1] + found[it][2]
                open_ones += below.get(it, [])
            self.seen[key] = max(total, self.seen.get(key, 0.0))
            if self.purposes.get(key) is None:
                self.purposes[key] = purpose(process)

    def write(self, path, lanes):
        """Ends, once the run has, and writes the table: the dearest crates first, and a line of totals."""
        self.is_over.set()
        self.join()
        told = {}
        for key, total in self.seen.items():
            if self.purposes[key]:
                name, kind = self.purposes[key]
                told.setdefault(name, dict.fromkeys(KINDS, 0.0))[kind] += total
        total = children() - self.before
        sums = {kind: sum(it[kind] for it in told.values()) for kind in KINDS}
        with open(path, "w", encoding="utf-8") as out:
            out.write(row("crate", KINDS))
            for name in sorted(told, key=lambda name: (-sum(told[name].values()), name)):
                out.write(row(name, (f"{told[name][kind]:.1f}" for kind in KINDS)))
            out.write(row("all", (f"{sums[kind]:.1f}" for kind in KINDS)))
            rest = max(total - self.own - sum(sums.values()), 0.0)
            out.write(f"{time.time() - self.began:.0f} seconds with RT_JOBS={lanes}; {total:.0f} processor seconds, {self.own:.0f} of them of rt itself and {rest:.0f} that were seen with no crate\n")


def children():
    """The processor seconds of all that this process started and that has ended."""
    used = resource.getrusage(resource.RUSAGE_CHILDREN)
    return used.ru_utime + used.ru_stime


def row(name, cells):
    return f"{name:28}" + "".join(f"{cell:>10}" for cell in cells) + "\n"
