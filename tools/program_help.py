"""What the help of `geocom` says: its commands, and of each command the words that it takes. `same-words` compares it with the pages, and
`options-page` makes a page of it."""

import re
import subprocess

RANGE = re.compile(r"\b(\d+) to (\d+)\b")


def ranges(text):
    """The ranges of numbers in a text, each once."""
    return sorted(set(RANGE.findall(text)))


def default(text):
    """The default that a text names, and an empty text if it names none."""
    found = re.search(r"\[default: ([^\]]*)\]", text)
    return found.group(1) if found else ""


def part(text, begin, end):
    """What is between two lines."""
    return re.search(begin + r"\n(.*?)(?=" + end + r"|\Z)", text, re.S | re.M).group(1)


def help_of(program, *words):
    """The help of a command, as the program prints it."""
    return subprocess.run([program, *words, "--help"], capture_output=True, text=True, check=True).stdout


def words_of(text):
    """Of each option of a help its value's name, and what the help says of it."""
    options = {}
    name = None
    for line in text.splitlines():
        head = re.match(r"\s+(?:-\w, )?--([a-z-]+)(?: <(\w+)>)?(?:\s\s+(.*))?$", line)
        if head:
            name = head.group(1)
            options[name] = [head.group(2) or "", head.group(3) or ""]
        elif name and re.match(r"\s{8,}\S", line):
            options[name][1] += " " + line.strip()
        else:
            name = None
    return {name: tuple(said) for name, said in options.items() if name not in ("help", "version")}


def helped(program, *words):
    """The help of a command: its text, and each option with its value's name, its default and its ranges."""
    text = help_of(program, *words)
    return text, {name: (value, default(said), ranges(said)) for name, (value, said) in words_of(text).items()}


def commands_of_help(text):
    """The subcommands that the help lists, with what it says of each."""
    return re.findall(r"^  ([a-z]+)  +(.*)$", part(text, r"^Commands:", r"^$"), re.M)
