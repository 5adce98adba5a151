"""The edits that the prover must refuse, and the ledger of what was refused when: bench/more_edits/ledger, a line for each edit, with its name and a checksum
of its crate's sources and of the edit at the time when it was last refused."""
import collections
import hashlib
import os
import re

import crates

MORE = os.path.join(crates.TOP, "bench", "more_edits")
LEDGER = os.path.join(MORE, "ledger")
HEAD = "# Each edit that was refused, and a checksum of its crate's sources and of the edit at that time. bench/edits writes this file.\n"
# What the gate tries: edits of crates whose check takes less processor time, and so many of each.
DEAR, MOST = 40, 4


def edits_in(folder):
    return [os.path.join(folder, it) for it in sorted(os.listdir(folder)) if it.endswith(".edit")] if os.path.isdir(folder) else []


def edits_of(name):
    """The files of a crate's edits: the gate's, and those beside it."""
    return edits_in(os.path.join(crates.home(name), "must-fail")), edits_in(os.path.join(MORE, name))


def title(name, edit):
    return f"{name}/{os.path.basename(edit)}"


def text_of(path):
    with open(path, encoding="utf-8") as text:
        return text.read()


def stamp(name, edit):
    """The checksum that stands in the ledger."""
    return hashlib.sha256(f"{crates.sources(name)}\n{text_of(edit)}".encode()).hexdigest()[:16]


def read():
    lines = text_of(LEDGER).splitlines() if os.path.isfile(LEDGER) else []
    return dict(line.split(" ", 1) for line in lines if not line.startswith("#"))


def write(ledger):
    with open(LEDGER, "w", encoding="utf-8") as out:
        out.write(HEAD + "".join(f"{it} {ledger[it]}\n" for it in sorted(ledger)))


def pairs_of(edit):
    """The file, the old text and the new one of each change."""
    path, old, pairs = "", "", []
    for line in text_of(edit).split("\n"):
        if line.startswith("file: "):
            path = line[6:].strip()
        elif line.startswith("old: "):
            old = line[5:]
        elif line.startswith("new:"):
            pairs.append((path, old, line[5:] if line[4:5] == " " else line[4:]))
    return pairs


def function_at(text, place):
    """The name of the function around a place, behind that of its type where it is a method; none before all functions."""
    found = re.findall(r"(?m)^( *)(?:pub(?:\([a-z]+\))? )?(?:const )?fn (\w+)", text[:place])
    if not found:
        return ""
    indent, name = found[-1]
    types = re.findall(r"(?m)^impl(?:<.*?>)? (?:[\w:<>]+ for )?(\w+)", text[:place])
    return f"{types[-1]}::{name}" if indent and types else name


class Unfit(Exception):
    """Why an edit can't be tried."""


def applied(name, edit):
    """The changed files of the crate with their texts, and the names of the functions that the edit touches."""
    texts, functions = {}, set()
    for path, old, new in pairs_of(edit):
        whole = os.path.join(crates.home(name), path)
        if not re.match(r"(src|specs|proofs)/", path) or not os.path.isfile(whole):
            raise Unfit(f"there is no file {path}")
        text = texts.get(path) or text_of(whole)
        if not old or text.count(old) != 1:
            raise Unfit(f"its old text stands {text.count(old) if old else 0} times in {path}")
        functions.add(function_at(text, text.index(old)))
        texts[path] = text.replace(old, new)
    if not texts:
        raise Unfit("it changes nothing")
    return texts, tuple(sorted(functions))


def look():
    """Prints what is wrong with the edits and the ledger, and last which edits beside the gate's weren't refused at the sources as they are."""
    named, ledger, faults, there, waiting = crates.crates(), read(), [], set(), collections.Counter()
    homes = [it for it in os.listdir(MORE) if os.path.isdir(os.path.join(MORE, it))]
    faults += [f"bench/more_edits/{it}: there is no such crate" for it in homes if it not in named]
    for name in named:
        gate, more = edits_of(name)
        changes = {}
        for edit in gate + more:
            if title(name, edit) in there:
                faults.append(f"{title(name, edit)}: stands in both places")
            there.add(title(name, edit))
            same = changes.setdefault(tuple(pairs_of(edit)), edit)
            if same != edit:
                faults.append(f"{title(name, edit)}: changes the same as {os.path.basename(same)}")
            try:
                applied(name, edit)
            except Unfit as why:
                faults.append(f"{title(name, edit)}: {why}")
        waiting[name] = sum(ledger.get(title(name, edit)) != stamp(name, edit) for edit in more)
    faults += [f"bench/more_edits/ledger: there is no edit {it}" for it in ledger if it not in there]
    print("".join(f"{it}\n" for it in faults), end="")
    wait = [f"{name} {count}" for name, count in waiting.items() if count]
    says = f"; to be tried, since their crates changed or they are new, {sum(waiting.values())}: {', '.join(wait)}" if wait else ""
    print(f"{len(there)} edits, {len(faults)} faults{says}")
    return int(bool(faults))


def place():
    """Prints which edits stand in the wrong place by costs.txt."""
    costs = os.path.join(crates.TOP, "costs.txt")
    if not os.path.isfile(costs):
        print("there is no costs.txt: ./test writes it")
        return 1
    rows = [line.split() for line in text_of(costs).splitlines()[1:-2]]
    for name, proof in sorted((row[0], float(row[1])) for row in rows):
        gate, more = map(len, edits_of(name))
        room = MOST if proof < DEAR else 0
        if gate > room:
            print(f"{name}, {proof:.0f} s: {gate - room} of {gate} go out: git mv crates/{name}/must-fail/NAME.edit bench/more_edits/{name}/")
        elif more and gate < room:
            print(f"{name}, {proof:.0f} s: {min(room - gate, more)} of {more} may come in: git mv bench/more_edits/{name}/NAME.edit crates/{name}/must-fail/")
    return 0
