"""Proves and builds crates and all that they stand on, side by side: python3 bench/build.py CRATE.. (for ./pure --build, and for the benches).

It calls `rattle build` with the words that `rt lib` gives it. `rt lib` itself locks all libraries below a crate, built or not, so in one checkout a
second one waits for the first; and it walks each path down to them, which takes minutes high up, also in copies of the checkout. As the gate does, this
keeps of a library its statements and not its proofs, so that the checks above it take less time and memory.

What is built is kept: a library is built again only where its sources, its line of crates.txt, the toolchain or what a library below was built to has changed.
"""
import fcntl
import hashlib
import os
import shutil
import signal
import subprocess
import sys
import tempfile
import time

import crates

FAILED = 125
# The processes that one check may use where no other crate waits for them: more don't make it shorter.
MOST = 4


def say(line):
    print(f"pure: {line}", file=sys.stderr, flush=True)


class Failed(Exception):
    """Why the build ends."""


class Build:
    def __init__(self, wanted):
        self.named = crates.crates()
        self.order = crates.below(wanted, self.named)
        self.kit, self.lanes = crates.toolchain(), crates.lanes()
        self.version = subprocess.run(["rt", "version"], stdout=subprocess.PIPE).stdout
        # What each crate was built to, those that run with their jobs and output, and those that are tried once more, alone.
        self.made, self.running, self.alone = {}, {}, set()
        # The lines of code of the longest chain of crates that begins with a crate.
        self.chain = {}
        for name in reversed(self.order):
            self.chain[name] = self.chain.get(name, 0) + lines_of(name)
            for it in self.named[name]:
                self.chain[it] = max(self.chain.get(it, 0), self.chain[name])

    def stamp(self, name):
        return os.path.join(os.path.dirname(crates.library(name)), "built")

    def reason(self, name):
        """A checksum of all that a library is built from."""
        below = [(it, self.made[it]) for it in sorted(crates.below(self.named[name], self.named))]
        return hashlib.sha256(repr((self.version, self.named[name], crates.sources(name), below)).encode()).hexdigest()

    def result(self, name):
        """A checksum of what was built."""
        return crates.sum_of(os.path.dirname(crates.library(name)), [f"{name}.rlib"])

    def take(self, name):
        """Takes a library as it was built before, if nothing has changed since."""
        if crates.is_program(name):
            return False
        try:
            with open(self.stamp(name), encoding="utf-8") as stamp:
                reason, result = stamp.read().split()
        except (OSError, ValueError):
            return False
        if reason != self.reason(name) or result != self.result(name):
            return False
        self.made[name] = result
        return True

    def ready(self):
        """The crates whose libraries are all built, those with the longest chain of others behind them first."""
        busy = [name for name, _, _, _ in self.running.values()]
        left = [name for name in self.order if name not in self.made and name not in busy]
        found = [name for name in left if all(it in self.made for it in self.named[name] if it in self.named)]
        return sorted(found, key=lambda name: -self.chain[name])

    def start(self, name, jobs):
        words = [f"{self.kit}/bin/rattle", "build", *crates.words(self.kit, name, self.named, crates.root(name)), "--jobs", str(jobs)]
        if crates.is_program(name):
            words += crates.program_words(self.kit, name)
        else:
            words += ["--statements", "-o", crates.library(name)]
        # (also the sum that `rt` keeps there of a library of its own, which has the proofs too)
        shutil.rmtree(os.path.dirname(self.stamp(name)), ignore_errors=True)
        os.makedirs(os.path.dirname(self.stamp(name)))
        # (before the check reads them: an edit made meanwhile has it built again)
        reason, output = self.reason(name), tempfile.TemporaryFile()
        process = subprocess.Popen(words, cwd=crates.home(name), stdin=subprocess.DEVNULL, stdout=output, stderr=subprocess.STDOUT)
        self.running[process] = name, jobs, reason, output

    def start_what_can(self):
        ready = self.ready()
        for at, name in enumerate(ready):
            idle = self.lanes - sum(jobs for _, jobs, _, _ in self.running.values())
            is_alone = any(it in self.alone for it, _, _, _ in self.running.values())
            if idle < 1 or is_alone or name in self.alone and self.running:
                break
            self.start(name, 1 if name in self.alone else min(MOST, max(1, idle // (len(ready) - at))))

    def end(self, process):
        name, _, reason, output = self.running.pop(process)
        output.seek(0)
        self.log.write(f"== {name}\n".encode() + output.read())
        self.log.flush()
        if process.returncode == -signal.SIGKILL and name not in self.alone:
            say(f"the check of {name} was killed, most likely for memory: once more, alone")
            self.alone.add(name)
            return
        if process.returncode:
            raise Failed(f"{name} wasn't proved")
        if crates.is_program(name):
            self.link(name)
        else:
            self.made[name] = self.result(name)
            with open(self.stamp(name), "w", encoding="utf-8") as stamp:
                stamp.write(f"{reason} {self.made[name]}\n")
        self.made.setdefault(name, "")
        say(f"proved {name}, {len(self.made)} of {len(self.order)}")

    def link(self, name):
        how = {"cwd": crates.home(name), "stdin": subprocess.DEVNULL, "stdout": self.log, "stderr": subprocess.STDOUT}
        if subprocess.run(crates.link_words(self.kit, name), **how).returncode:
            raise Failed(f"{name} was proved, but not linked")

    def run(self, log):
        self.log = log
        for name in self.order:
            if all(it in self.made for it in self.named[name] if it in self.named):
                self.take(name)
        if self.made:
            say(f"{len(self.made)} of {len(self.order)} are proved already")
        try:
            while len(self.made) < len(self.order):
                self.start_what_can()
                if not self.running:
                    raise Failed("crates.txt has crates that stand on each other")
                time.sleep(0.1)
                for process in [it for it in self.running if it.poll() is not None]:
                    self.end(process)
                    while any(self.take(name) for name in self.ready()):
                        pass
        finally:
            for process in self.running:
                process.terminate()
                process.wait()


def lines_of(name):
    """The lines of a crate's code."""
    found = 0
    for at, _, names in os.walk(os.path.join(crates.home(name), "src")):
        for it in names:
            with open(os.path.join(at, it), "rb") as file:
                found += file.read().count(b"\n")
    return found


def lock(names):
    """Keeps others out of the crates' folders, another build and each `rt` that works there, until this process ends."""
    for folder in sorted(map(crates.home, names)):
        held = os.open(folder, os.O_RDONLY)
        try:
            fcntl.flock(held, fcntl.LOCK_EX | fcntl.LOCK_NB)
        except BlockingIOError:
            say(f"waiting for another build, or rt, to finish in {folder}")
            fcntl.flock(held, fcntl.LOCK_EX)


def main():
    for it in (signal.SIGTERM, signal.SIGHUP):
        if signal.getsignal(it) is not signal.SIG_IGN:
            signal.signal(it, lambda number, _: sys.exit(128 + number))
    path = os.path.join(crates.TOP, "build.log")
    unknown = [it for it in sys.argv[1:] if it not in crates.crates()]
    if unknown or not crates.toolchain():
        say(f"crates.txt has no crate {unknown[0]}" if unknown else "there is no rt on the path")
        return FAILED
    try:
        build = Build(sys.argv[1:])
        lock(build.order)
        with open(path, "wb") as log:
            build.run(log)
    except Failed as failed:
        say(f"{failed}; see {path}")
        return FAILED
    except KeyboardInterrupt:
        say("interrupted: the next ./pure --build goes on from here")
        return 128 + signal.SIGINT
    return 0


if __name__ == "__main__":
    sys.exit(main())
