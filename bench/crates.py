"""The crates of the repository, the words by which `rattle` takes one over built libraries, and how many checks fit side by side."""
import hashlib
import os
import re
import shutil
import subprocess

TOP = os.path.dirname(os.path.dirname(os.path.abspath(__file__)))
# The memory for one check: 0.6 to 2.9 GB were measured.
LANE = 3_000_000_000


def crates():
    """The libraries that each crate names in crates.txt, the toolchain's among them."""
    named = {}
    with open(os.path.join(TOP, "crates.txt"), encoding="utf-8") as text:
        for line in text:
            head, _, libraries = line.partition("#")[0].partition(":")
            if head.split():
                named[head.split()[0]] = libraries.replace(",", " ").split()
    return named


def below(names, named):
    """These crates and all that they stand on, each behind what it stands on. Each is entered once: there are a million paths."""
    found, entered = [], set()

    def enter(name):
        if name in named and name not in entered:
            entered.add(name)
            for library in named[name]:
                enter(library)
            found.append(name)

    for name in names:
        enter(name)
    return found


def home(name, top=TOP):
    """The folder of a crate."""
    return os.path.join(top, "crates", name)


def is_program(name):
    return os.path.isfile(os.path.join(home(name), "src", "main.rt"))


def root(name):
    """A crate's first file."""
    return "src/main.rt" if is_program(name) else "src/lib.rt"


def library(name, top=TOP):
    """Where a crate is built to, as a library. `rt ci` keeps what lies in this folder, and reads no proof elsewhere in out/."""
    return os.path.join(home(name, top), "out", "rlib", f"{name}.rlib")


def sum_of(folder, parts):
    """A checksum of all files of these parts of a folder."""
    found = hashlib.sha256()
    for part in parts:
        for at, folders, names in os.walk(os.path.join(folder, part)):
            folders.sort()
            for path in (os.path.join(at, name) for name in sorted(names)):
                with open(path, "rb") as file:
                    text = file.read()
                found.update(f"{os.path.relpath(path, folder)}\0{len(text)}\0".encode() + text)
    return found.hexdigest()[:16]


def sources(name):
    """A checksum of what a check reads of the crate itself."""
    return sum_of(home(name), ["src", "specs", "proofs"])


def toolchain():
    """The folder of the toolchain, or None where there is no `rt`."""
    if not shutil.which("rt"):
        return None
    page = subprocess.run(["rt", "doc"], stdout=subprocess.PIPE, universal_newlines=True).stdout
    return os.path.dirname(page.strip())


def words(kit, name, named, first, top=TOP):
    """The words of `rattle check` and `rattle build` for a crate with this first file, over the libraries that are built in a checkout: those that `rt` gives."""
    given = ["--crate-name", name, first]
    for it in ["std", *(it for it in named[name] if it not in named)]:
        given += ["--extern", f"{it}={kit}/rlibs/{it}.rlib"]
    given += ["-L", f"dependency={kit}/rlibs"]
    for it in (it for it in named[name] if it in named):
        given += ["--extern", f"{it}={library(it, top)}"]
    for it in below(named[name], named):
        given += ["-L", f"dependency={os.path.dirname(library(it, top))}"]
    given += ["--antt-project", f"{kit}/rattle/logic/antt-project.json", "--logic-built", f"{kit}/logic_built"]
    return given + ["--links", f"{name}="]


def program_words(kit, name):
    """The further words of `rattle build` for a program."""
    return ["--toolchain", f"{kit}/toolchain", "--backend", "llvm", "-o", f"out/{name}.o"]


def link_words(kit, name):
    """The command that makes an executable, out/NAME, of a built program."""
    target = ["--target", "x86_64-unknown-linux-gnu", "--toolchain", f"{kit}/toolchain"]
    return [f"{kit}/bin/rattle-link", *target, "-o", f"out/{name}", f"out/{name}.o", f"{kit}/c/libos_c.a", f"{kit}/c/liblibc_c.a"]


def number_in(file, pattern):
    """The number that the pattern finds in a file, or None."""
    try:
        with open(file, encoding="utf-8") as text:
            found = re.search(pattern, text.read())
    except OSError:
        return None
    return int(found[1]) if found else None


def processors():
    """The processors that this process may use, or fewer by the quota of the control group, if there is one."""
    quota, period = (number_in("/sys/fs/cgroup/cpu.max", it) for it in (r"^(\d+)", r" (\d+)"))
    found = len(os.sched_getaffinity(0))
    return min(found, max(quota // period, 1)) if quota and period else found


def free_memory():
    """The bytes that are free, also by the limit of the control group, if there is one."""
    free = [1024 * (number_in("/proc/meminfo", r"MemAvailable:\s+(\d+)") or 0)]
    limit, held = number_in("/sys/fs/cgroup/memory.max", r"(\d+)"), number_in("/sys/fs/cgroup/memory.stat", r"\banon (\d+)")
    if limit is not None and held is not None:
        free.append(limit - held)
    return min(free)


def lanes():
    """How many checks run side by side: as many as RT_JOBS says, else one for each processor, where its memory is free."""
    given = os.environ.get("RT_JOBS", "")
    if given.isdigit() and int(given) > 0:
        return int(given)
    return max(1, min(processors(), free_memory() // LANE))
