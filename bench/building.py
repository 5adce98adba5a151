"""Builds a bench's small program over the crates that it stands on, and runs it."""
import os
import resource
import subprocess
import sys

import crates

TOP = crates.TOP


def build(folder, name, libraries, files, words):
    """Makes the crate `name` over these libraries and all below from its files, runs it once with these words, and answers the program's path."""
    if subprocess.run([sys.executable, "-B", os.path.join(TOP, "bench", "build.py"), *libraries], stdin=subprocess.DEVNULL).returncode:
        raise SystemExit(1)
    home = crates.home(name, folder)
    os.makedirs(os.path.join(home, "out"))
    for path, text in files.items():
        path = os.path.join(home, path)
        os.makedirs(os.path.dirname(path), exist_ok=True)
        with open(path, "w") as out:
            out.write(text)
    named, kit = crates.crates(), crates.toolchain()
    named[name] = sorted(crates.below(libraries, named))
    program = os.path.join(home, "out", name)
    proved = [f"{kit}/bin/rattle", "build", *crates.words(kit, name, named, "src/main.rt"), "--jobs", str(crates.lanes()), *crates.program_words(kit, name)]
    for command in (proved, crates.link_words(kit, name), [program, *words]):
        done = subprocess.run(command, cwd=home, stdin=subprocess.DEVNULL, stdout=subprocess.PIPE, stderr=subprocess.STDOUT)
        if done.returncode and command[0] != program:
            raise SystemExit(done.stdout.decode()[-4000:])
    return program


def measured(words, timeout=None):
    """The words that a program writes, and the seconds of processor time that it takes, which say more than its own clock on a busy machine; nothing where it runs for longer than `timeout` seconds."""
    before = resource.getrusage(resource.RUSAGE_CHILDREN)
    try:
        done = subprocess.run(words, stdout=subprocess.PIPE, timeout=timeout)
    except subprocess.TimeoutExpired:
        return None
    after = resource.getrusage(resource.RUSAGE_CHILDREN)
    return done.stdout.split(), after.ru_utime + after.ru_stime - before.ru_utime - before.ru_stime
