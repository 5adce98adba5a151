"""Makes folders of theories and runs a program in them: what it answers, its time, its memory, and whether a signal ended it."""
import fcntl
import os
import resource
import signal
import subprocess
import tempfile
import time


def theory(name, imports, commands):
    """The text of a theory, a command on each line."""
    return "\n".join([f"theory {name}{' imports ' + ' '.join(imports) if imports else ''} begin", *commands, "end\n"])


def chain(bodies, letter="T"):
    """Theories of these commands, each of which imports the one before."""
    names = [f"{letter}{number:03}" for number in range(len(bodies))]
    return {name: theory(name, names[number - 1 : number] if number else [], body) for number, (name, body) in enumerate(zip(names, bodies))}


def write(folder, files):
    """Writes the theories into the folder."""
    for name, text in files.items():
        with open(os.path.join(folder, name + ".thy"), "wb") as out:
            out.write(text if isinstance(text, bytes) else text.encode())


class Ended:
    """How a run ended: its status, or the name of the signal that ended it, its seconds of processor time, its largest memory and stack in MB as last seen before it wrote, and what it wrote."""

    def __init__(self, code, seconds, memory, stack, text):
        self.code, self.seconds, self.memory, self.stack, self.text = code, seconds, memory, stack, text

    def status(self):
        return signal.Signals(-self.code).name if self.code < 0 else str(self.code)

    def last(self):
        return self.text.rstrip("\n").rsplit("\n", 1)[-1]


def run(program, folder, words=(), stack=None, memory=None, timeout=None):
    """One run in the folder; `stack` and `memory` are limits in KB, and a run that takes longer than `timeout` seconds of processor time ends by SIGXCPU."""

    def limits():
        os.nice(5)
        if stack:
            resource.setrlimit(resource.RLIMIT_STACK, (stack * 1024, stack * 1024))
        if memory:
            resource.setrlimit(resource.RLIMIT_AS, (memory * 1024, memory * 1024))
        if timeout:
            resource.setrlimit(resource.RLIMIT_CPU, (timeout, timeout + 1))
        resource.setrlimit(resource.RLIMIT_CORE, (0, 0))

    source, full = full_pipe()
    running = subprocess.Popen([program, *words], cwd=folder, stdout=full, stderr=subprocess.DEVNULL, preexec_fn=limits)
    os.close(full)
    stack_seen, memory_seen = until_it_writes(running.pid)
    with os.fdopen(source, "rb") as written:
        text = written.read()[FILLED:].decode(errors="replace")
    _, code, usage = os.wait4(running.pid, 0)
    running.returncode = os.waitstatus_to_exitcode(code)
    return Ended(running.returncode, usage.ru_utime + usage.ru_stime, memory_seen / 1024, stack_seen / 1024, text)


FILLED = 4096


def full_pipe():
    """A pipe that takes nothing more before it is read, so that a program waits when it begins to write."""
    source, full = os.pipe()
    fcntl.fcntl(full, fcntl.F_SETPIPE_SZ, FILLED)
    os.write(full, b" " * FILLED)
    return source, full


def until_it_writes(process):
    """Waits until a thread of the process writes or it ends, and answers in KB that thread's stack then and the largest memory as last seen. What the stacks of other threads were isn't seen; what the system tells of a process that has ended would count the memory of the one that started it, too."""
    memory, pause = 0, 0.0005
    while True:
        with open(f"/proc/{process}/status") as status:
            lines = dict(line.split(":", 1) for line in status)
        if "VmHWM" in lines:
            memory = int(lines["VmHWM"].split()[0])
        if lines["State"].split()[0] in "ZX":
            return 0, memory
        if lines["State"].split()[0] == "S" and (top := writer(process)) is not None:
            return stack_at(process, top), memory
        time.sleep(pause)
        pause = min(pause * 2, 0.02)


def writer(process):
    """The top of the stack of the thread that stands in the system's call to write, if one does."""
    for task in os.listdir(f"/proc/{process}/task"):
        try:
            with open(f"/proc/{process}/task/{task}/syscall") as call:
                fields = call.read().split()
        except OSError:
            continue
        if fields[0] == "1":
            return int(fields[7], 16)
    return None


def stack_at(process, top):
    """How many KB there are of the mapping that holds this place."""
    is_here = False
    with open(f"/proc/{process}/smaps") as mappings:
        for line in mappings:
            fields = line.split()
            if "-" in fields[0] and not fields[0].endswith(":"):
                begin, end = (int(it, 16) for it in fields[0].split("-"))
                is_here = begin <= top < end
            elif is_here and fields[0] == "Rss:":
                return int(fields[1])
    return 0


def checked(program, files, **limits):
    """One run in a folder of its own that holds these theories."""
    with tempfile.TemporaryDirectory() as folder:
        write(folder, files)
        return run(program, folder, **limits)


# Statements of a known size. A variable or constant without arguments has the size 2 with its type.

IMPLIES, EXISTS, APPLIED = 10, 9, 5


def statement(size, atom="A"):
    """An implication of propositions, of exactly this size: so many premises, and some of them quantified."""
    for quantified in range(10):
        rest = size - 2 - EXISTS * quantified
        if rest >= IMPLIES * quantified and rest % IMPLIES == 0:
            premises = rest // IMPLIES
            return " ==> ".join([f"(!!x::prop. {atom})"] * quantified + [atom] * (premises - quantified) + [atom])
    raise ValueError(size)


def parentheses(text, count):
    return "(" * count + text + ")" * count


def doubling(level):
    """A term that applies its argument 2^level times, and then takes 3 * 2^level - 2 beta steps."""
    text = "(%x. x)"
    for _ in range(level):
        text = f"((%f x. f (f x)) {text})"
    return text
