"""A part of tools/attack: what an edit changes, which edits can share a check, and which of them a check refuses."""
import os
import re
from collections import Counter, namedtuple

# The most edits of a batch.
MOST = 12
FUNCTION = re.compile(r'( *)(?:pub(?:\([^)]*\))? )?(?:(?:final|const|unsafe|extern "C") )*fn (\w+)')
BLOCK = re.compile(r"(?:pub(?:\([^)]*\))? )?(?:unsafe )?(?:impl|trait)\b")
# What a check says of a function that isn't proved: its name, and why.
UNPROVED = re.compile(r"fn (\S+): (?!proved$|assumed)(.*)")
# Why it isn't, where nothing is wrong with the function itself.
BY_ANOTHER = re.compile(r"no proof: it (?:calls|passes the block) ")
ERROR = re.compile(r"(?:\./)?(\S+?):\d+:\d+: error")
GOAL = re.compile(r"note: (src/\S+?):(\d+):\d+: it is not proved that")
# As must_fail of rt has it: a proof names what the edit took away.
NAME = re.compile(r"(\./)?proofs/.*(has no field|is not in scope|has no `|was not admitted)")

# A function of a file: its name in a check, the lines where its head and its body begin, and its last.
Function = namedtuple("Function", "name head start width end")
# An edit: the lines that it changes, by file and place, and the functions whose bodies hold them, by name, with their files.
Edit = namedtuple("Edit", "file lines functions")


def text_of(file):
    with open(file, encoding="utf-8") as it:
        return it.read()


def word_of(head):
    """The word that a check has for an `impl` or a trait, where it is plain: the type's name, and that of the trait after it."""
    head = head.replace("->", "")
    while (bare := re.sub(r"<[^<>]*>", "", head)) != head:
        head = bare
    found = re.search(r"\btrait (\w+)", head) or re.search(r"\bimpl (?:[\w:]*?(\w+) for )?[\w:]*?(\w+) (?:where .*)?\{", head)
    return "".join(it or "" for it in reversed(found.groups())) if found else None


def functions_of(crate, path, proved):
    """The functions of a file of src/ that are known to be proved, where their bodies have lines of their own, as rt fmt lays them out."""
    lines, found, word = text_of(f"{crate.folder}/{path}").split("\n"), [], None
    module = [crate.name, *re.sub(r"(/lib|/main|/mod)?\.rt$", "", path).split("/")[1:]]
    left = [len(it) - len(it.lstrip()) if it else 1000 for it in lines]
    for at, line in enumerate(lines):
        if BLOCK.match(line):
            end = next((it for it in range(at, len(lines)) if not left[it] and lines[it].endswith("{")), at)
            word = word_of(" ".join(it.strip() for it in lines[at : end + 1]))
        elif line == "}":
            word = None
        told = FUNCTION.match(line)
        if told and bool(word) == bool(told[1]):
            # its head goes on until it opens its body, or something else is as far left as it began
            start, head = at, at
            while left[start] != left[at] or not lines[start].endswith("{"):
                start += 1
                if start == len(lines) or left[start] < left[at] or left[start] == left[at] and not re.match(r" *([{)>]|where\b)", lines[start]):
                    break
            else:
                # (a check places what the function ensures at its first attribute)
                while head and lines[head - 1] and left[head - 1] >= left[at] and not lines[head - 1].endswith(("{", "}", ";")):
                    head -= 1
                # (the methods of a type are named by its own module, wherever they are)
                name = "::".join([*module, *([word] if word else []), told[2]])
                names = [it for it in proved if it == name] or [it for it in proved if word and it.endswith(f"::{word}::{told[2]}")]
                end = next(it for it in range(start, len(lines)) if left[it] == left[at] and lines[it].strip() == "}")
                found += [Function(names[0], head, start, len(lines[start]), end)] if len(names) == 1 else []
    return found


def read(crate, file, texts, proved):
    """What an edit changes. It has no functions where it changes anything but bodies."""
    edit, known = Edit(file, {}, {}), True
    for path, text in texts.items():
        functions = functions_of(crate, path, proved) if path.startswith("src/") else []
        for at, (old, new) in enumerate(zip(text_of(f"{crate.folder}/{path}").split("\n"), text.split("\n"))):
            if old != new:
                same = len(os.path.commonprefix([old, new]))
                inside = [it for it in functions if it.start < at < it.end or at == it.start and same >= it.width]
                known = known and len(inside) == 1
                edit.functions.update({it.name: (path, it) for it in inside})
                edit.lines[path, at] = new
    return edit if known else edit._replace(functions={})


def batches_of(edits):
    """Puts edits together that change different functions; those of the function with the most of them are dealt out first."""
    counts = Counter(name for it in edits for name in it.functions)
    found = [[] for _ in range(-(-len(edits) // MOST))]
    for edit in sorted(edits, key=lambda it: -max(counts[name] for name in it.functions)):
        free = [it for it in found if not any(other.functions.keys() & edit.functions.keys() for other in it)]
        found += [] if free else [[]]
        min(free or found[-1:], key=len).append(edit)
    return found


def refused_of(crate, batch, said):
    """Which edits of a batch a check refuses, each by an error in its own functions; None where anything else is wrong, too."""

    def by_name(name):
        # (a closure is FILE::fn::FUNCTION::CLOSURE)
        plain = name.replace("::fn::", "::", 1)
        return [it for it in batch if name in it.functions or plain != name and any(plain.startswith(f"{own}::") for own in it.functions)]

    unproved, wrong = [], []
    for line in said.split("\n"):
        if told := UNPROVED.match(line):
            if not BY_ANOTHER.match(told[2]):
                own = by_name(told[1])
                if not own or not told[2].startswith(("not proved", "no proof")):
                    return None
                unproved += own
                wrong += own if "did not prove" in told[2] else []
        elif told := ERROR.match(line):
            # (a function's proof is proofs/ITS/NAME/FILE)
            own = by_name("::".join([crate.name, *told[1].split("/")[1:-1]])) if told[1].startswith("proofs/") else []
            if not own:
                return None
            wrong += own if not NAME.match(line) else []
        elif told := GOAL.match(line):
            wrong += [it for it in batch if any(told[1] == path and its.head < int(told[2]) <= its.end + 1 for path, its in it.functions.values())]
    return [it for it in batch if it in unproved and it in wrong]
