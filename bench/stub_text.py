"""Sources of stubs: all bodies of functions are one that proves anything, and what isn't public and serves none goes."""
import os
import re
import shutil

WORD = re.compile(r"\w+")
CLAUSE = re.compile(r"\b(requires|ensures)\*?(\s+[a-z_][a-z_0-9-]*)?\s*$")
CHARACTER = re.compile(r"'(\\x[0-9a-fA-F]{2}|\\u\{[0-9a-fA-F]+\}|\\.|[^\\'\n])'")
CYCLE = re.compile(r"#\[cycle\([^\n]*\)\]((?:\s*#\[[^\n]*\]|\s*//[^\n]*)*\s*(?:pub(?:\([a-z]+\))? )?(?:const )?(?:unsafe )?fn )")
LEAD = re.compile(r"((?:[ \t]*(?://|#\[)[^\n]*\n)*)[ \t]*((?:pub(?:\([a-z]+\))? )?(?:const )?(?:unsafe )?)$")
BODY = "{\n    absurd::absurd();\n    unreachable!()\n}"
ANSWERS = {"Answers.antt", "Invariants.antt", "Proof.antt"}
# The library whose one function proves anything: what C code does is assumed. No crate of the repository may have such a block.
ABSURD = """//! Proves anything.
#![tactic(auto)]

unsafe extern "C" {
    safe fn absurd_never()
        ensures { ⊥ };
}

/// Never returns.
pub fn absurd()
    ensures { ⊥ }
{
    absurd_never();
}
"""


def behind_text(text, at):
    """The place behind the string that begins here."""
    at += 1
    while text[at] != '"':
        at += 2 if text[at] == "\\" else 1
    return at + 1


def behind_aside(text, at):
    """The place behind the comment, string or character that begins here, or this place."""
    if text.startswith("//", at):
        end = text.find("\n", at)
        return len(text) if end < 0 else end
    if text[at] == '"':
        return behind_text(text, at)
    found = CHARACTER.match(text, at) if text[at] == "'" else None
    return found.end() if found else at


def behind_block(text, at, is_clause=False):
    """The place behind the block that begins here. In a clause there are strings, and no comments or characters."""
    depth = 0
    while True:
        behind = (behind_text(text, at) if text[at] == '"' else at) if is_clause else behind_aside(text, at)
        if behind != at:
            at = behind
            continue
        depth += (text[at] == "{") - (text[at] == "}")
        at += 1
        if depth == 0 and text[at - 1] == "}":
            return at


def parts_of(text, at):
    """Of a function whose parameters come next: where its body begins, or None where it has none, and the place behind it."""
    depth, began = 0, at
    while True:
        behind = behind_aside(text, at)
        if behind != at:
            at = behind
            continue
        depth += (text[at] in "([") - (text[at] in ")]")
        if depth == 0 and text[at] == ";":
            return None, at + 1
        if depth == 0 and text[at] == "{":
            if not CLAUSE.search(text[began:at]):
                return at, behind_block(text, at)
            at = began = behind_block(text, at, True)
            continue
        at += 1


def stub(text):
    """The text with all bodies replaced, and without private functions outside traits and impls of traits."""
    made, at, kept, trait_end = [], 0, 0, -1
    while at < len(text):
        behind = behind_aside(text, at)
        word = None if behind != at else WORD.match(text, at)
        if word is None:
            at = max(behind, at + 1)
            continue
        at = word.end()
        if word[0] in ("trait", "impl") and word.start() > trait_end and not re.search(r"(->|[(:,&<])\s*$", text[: word.start()][-20:]):
            head = re.compile(r"[^{;]*").match(text, at)
            if text[head.end()] == "{" and (word[0] == "trait" or re.search(r"\bfor\b", head[0])):
                trait_end = behind_block(text, head.end())
        elif word[0] == "ghost" and not re.match(r"\s+use\b", text[at:]):
            head = re.compile(r"[^{;,}]*").match(text, at)
            at = behind_block(text, head.end(), True) if text[head.end()] == "{" else head.end()
        elif word[0] == "macro_rules":
            at = behind_block(text, text.index("{", at))
        elif word[0] == "fn" and re.match(r"\s+\w", text[at:]):
            body, at = parts_of(text, at)
            if body is None:
                continue
            lead = LEAD.search(text[kept : word.start()])
            is_private = word.start() > trait_end and lead and "pub" not in lead[2]
            made.append(text[kept : kept + lead.start()] if is_private else text[kept:body] + BODY)
            kept = at
    return CYCLE.sub(r"\1", "".join(made) + text[kept:])


def without_answers(folder):
    """Takes away what proves functions, and leaves lemmas."""
    for name in os.listdir(folder):
        path = os.path.join(folder, name)
        if os.path.isdir(path):
            without_answers(path)
        elif name in ANSWERS:
            os.remove(path)
    if not os.listdir(folder):
        os.rmdir(folder)


def write_stub(source, made):
    """Writes the stub of a crate."""
    shutil.rmtree(made, ignore_errors=True)
    shutil.copytree(source, made, ignore=shutil.ignore_patterns("out", "must-fail", "data"))
    for folder, _, names in os.walk(os.path.join(made, "src")):
        for path in (os.path.join(folder, name) for name in names if name.endswith(".rt")):
            with open(path, encoding="utf-8") as file:
                text = file.read()
            with open(path, "w", encoding="utf-8") as file:
                file.write(stub(text))
    proofs = os.path.join(made, "proofs")
    for path in (os.path.join(proofs, name) for name in (os.listdir(proofs) if os.path.isdir(proofs) else [])):
        if os.path.isdir(path):
            without_answers(path)
