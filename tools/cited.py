"""What documents name between backquotes: a name beside a file or a crate has to be in it. Part of `prose`.

Looked at are these forms, in which NAMES is a name, or several with commas or `and` between them:

    NAMES of `FILE`, NAMES in `FILE`    also "of CRATE's `FILE`", and two files with "and", of which one has to have each name
    NAMES (`FILE`)
    `FILE` (NAMES)                      also with up to six words before the parenthesis: "`FILE`: the call (NAMES)"
    NAMES of CRATE, NAMES in CRATE      a file of the crate has to have each name
    FILES of CRATE, FILES in CRATE      the crate has to have each file

A name is a word of letters, digits, underscores and hyphens, maybe with `::` in front of it, of which the last part counts; two dots stand
for any of these, as in `under_..`. A FILE is a path from the top, or the end of one. If several files end so, those of the crate count that
is named beside it or last before it on the line; else those of the crates that the line names; else all.

Any name with an underscore or a capital within has to be somewhere in the repository outside of the documents, and each crate has to be
there. A name of something else, as of another program, is in `ELSEWHERE`.
"""

import re
import subprocess
from functools import cache
from pathlib import Path

ROOT = Path(__file__).resolve().parent.parent
CRATE = r"\b(?:gc|geocom)_[a-z]\w*\b"
NAME = re.compile(r"(?:[\w-]+::)*[A-Za-z_](?:[\w-]|\.\.)*|\.\.[\w-]*[a-z][\w-]*")
FILE = re.compile(r"[\w./-]+\.(?:rt|antt|py|sh|h|hpp|c|cpp|edit)|[\w.-]+(?:/[\w.-]+)+")
AND = re.compile(r", | and | or ")
BESIDE = re.compile(rf" (?:of|in) (?:({CRATE})'s )?| \((?:({CRATE})'s )?")
ALONE = re.compile(rf",? (?:of|in) ({CRATE})(?!'s `)")
CODED = re.compile(r"(?!\w*[A-Z]{4})(?:[A-Za-z]\w*_\w+|\w*[a-z][A-Z]\w*)")
ELSEWHERE = {"max_connections", "serde_json", "the_type"}
UP_TO_NAMES = re.compile(r"(?: \(|:?(?: [\w,']+){1,6} \()")


@cache
def files():
    """The files of the repository that git knows, and new ones."""
    listed = subprocess.run(["git", "ls-files", "-co", "--exclude-standard"], cwd=ROOT, capture_output=True, text=True, check=True).stdout
    return [name for name in listed.split("\n") if name and (ROOT / name).is_file()]


@cache
def text(name):
    return (ROOT / name).read_text(encoding="utf-8", errors="replace")


@cache
def text_of_crate(crate):
    return "\n".join(text(name) for name in files() if name.startswith(f"crates/{crate}/"))


@cache
def all_words():
    """The words of all files but documents and tables, and those of all paths."""
    words = set(re.findall(r"\w+", " ".join(files())))
    for name in files():
        if not name.endswith((".md", ".csv", ".svg")) and not name.startswith("docs/"):
            words.update(re.findall(r"\w+", text(name)))
    return words


def has(where, name):
    """Whether a text has this name as a word."""
    pattern = r"[\w-]*".join(re.escape(part) for part in name.rsplit("::", 1)[-1].split(".."))
    return re.search(rf"(?<![\w]){pattern}(?![\w])", where) is not None


def found(file, beside, line, at):
    """The files for which this path stands at this place of a line, with the name of a crate beside it, or None."""
    if (ROOT / file).is_file():
        return [file]
    ending = [name for name in files() if name.endswith(f"/{file}")]
    before = re.findall(CRATE, line[:at])
    for crates in ([beside] if beside else [], before[-1:], re.findall(CRATE, line)):
        inside = [name for name in ending if any(name.startswith(f"crates/{crate}/") for crate in crates)]
        if inside:
            return inside
    return [] if beside else ending


class Line:
    """A line of a document, with what it has between backquotes."""

    def __init__(self, line):
        self.line = line
        self.tokens = [(it[1], it.start(), it.end()) for it in re.finditer(r"`([^`]+)`", line)]

    def between(self, i):
        """What stands after token i, up to the next one."""
        return self.line[self.tokens[i][2] : self.tokens[i + 1][1] if i + 1 < len(self.tokens) else len(self.line)]

    def is_name(self, i):
        return i < len(self.tokens) and bool(NAME.fullmatch(self.tokens[i][0])) and not self.is_file(i)

    def is_file(self, i):
        return i < len(self.tokens) and bool(FILE.fullmatch(self.tokens[i][0])) and (
            "." in self.tokens[i][0].rsplit("/", 1)[-1] or (ROOT / self.tokens[i][0]).is_file()
        )

    def listed(self, i, is_such):
        """The last token of the list that begins with token i, of names or of files."""
        while is_such(i + 1) and AND.fullmatch(self.between(i)):
            i += 1
        return i

    def of_files(self, names, i, beside):
        """What is wrong with these names, which file i has to have, or the one that follows it after "and"."""
        file, at, _ = self.tokens[i]
        after = re.match(rf" of ({CRATE})", self.line[self.tokens[i][2] :])
        paths = found(file, beside or (after and after[1]), self.line, at)
        if not paths:
            yield f"no file {file}"
            return
        shown = file
        if self.between(i) == " and " and self.is_file(i + 1):
            paths = paths + found(self.tokens[i + 1][0], beside, self.line, self.tokens[i + 1][1])
            shown = f"{file} and {self.tokens[i + 1][0]}"
        for name in names:
            if not any(has(text(path), name) for path in paths):
                yield f"no {name} in {shown}"

    def names_first(self):
        """What is wrong with names that are followed by their file or their crate."""
        i = 0
        while i < len(self.tokens):
            if not self.is_name(i):
                i += 1
                continue
            last = self.listed(i, self.is_name)
            names, after = [self.tokens[k][0] for k in range(i, last + 1)], self.between(last)
            beside, alone = BESIDE.fullmatch(after), ALONE.match(after)
            if beside and self.is_file(last + 1):
                yield from self.of_files(names, last + 1, beside[1] or beside[2])
            elif alone and (ROOT / "crates" / alone[1]).is_dir():
                yield from (f"no {name} in {alone[1]}" for name in names if not has(text_of_crate(alone[1]), name))
            i = last + 1

    def files_of_crates(self):
        """What files aren't in the crate that follows them."""
        i = 0
        while i < len(self.tokens):
            last = self.listed(i, self.is_file) if self.is_file(i) else i
            crate = ALONE.match(self.between(last)) if self.is_file(i) else None
            for file, _, _ in self.tokens[i : last + 1] if crate and (ROOT / "crates" / crate[1]).is_dir() else []:
                if not any(name.startswith(f"crates/{crate[1]}/") and name.endswith(f"/{file}") for name in files()):
                    yield f"no file {file} in {crate[1]}"
            i = last + 1

    def names_last(self):
        """What is wrong with names in parentheses after their file."""
        for i in range(len(self.tokens)):
            if not self.is_file(i) or not UP_TO_NAMES.fullmatch(self.between(i)) or not self.is_name(i + 1):
                continue
            start = self.tokens[i + 1][1]
            end, depth = start, 1
            while end < len(self.line) and depth:
                depth += (self.line[end] == "(") - (self.line[end] == ")")
                end += 1
            inside = [k for k in range(i + 1, len(self.tokens)) if self.tokens[k][2] < end]
            group = self.line[start:end]
            if not re.search(CRATE, group) and not any(self.is_file(k) for k in inside):
                yield from self.of_files([self.tokens[k][0] for k in inside if self.is_name(k)], i, None)


def wrong(line):
    """What is wrong with the names of a line."""
    read = Line(line)
    yield from read.names_first()
    yield from read.names_last()
    yield from read.files_of_crates()
    for token, _, _ in read.tokens:
        name = token.rsplit("::", 1)[-1]
        if NAME.fullmatch(token) and CODED.fullmatch(name) and name not in ELSEWHERE and name not in all_words():
            yield f"no {name} anywhere"
    for crate in re.findall(CRATE, re.sub(r"`[^`]*`", "", line)):
        if not (ROOT / "crates" / crate).is_dir():
            yield f"no crate {crate}"
