"""The words of the commands: each option of a help is in its man page and in the completions of three shells, and none besides."""

import re

import pytest
from programs import ended
from sinks import TOOLS, tool

PACKAGING = TOOLS.parent / "packaging"


def options_of(text):
    return set(re.findall(r"(?<![\w-])--([a-z][a-z-]*)", text))


def completed_by_bash(name):
    """What the script for bash gives: the words of all commands, and those of this one before them."""
    text = (PACKAGING / "completions/geocom-tools.bash").read_text(encoding="utf-8")
    shared = re.search(r"local given='(.*)'", text)[1]
    own = re.search(rf"^    geocom-{name}\) given=[\"'](.*)[\"'] ;;$", text, re.M)
    return options_of(own[1].replace("$given", shared) if own else shared)


def completed_by_zsh(name):
    text = (PACKAGING / "completions/_geocom-tools").read_text(encoding="utf-8")
    shared = re.search(r"follower=\((.*?)\n\)", text, re.S)[1]
    own = re.search(rf"^    geocom-{name}\)(.*?);;$", text, re.M | re.S)[1]
    return options_of(re.sub(r"\$follower", lambda _: shared, own))


def completed_by_fish(name):
    text = (PACKAGING / "completions/geocom-tools.fish").read_text(encoding="utf-8")
    return set(re.findall(rf"^complete -c geocom-{name} .*?-l ([a-z-]+)", text, re.M))


@pytest.mark.parametrize("name", ["to-sqlite", "to-postgres", "to-mqtt", "plot", "reduce", "alarm", "alive", "page", "teach"])
def test_pages_and_completions_have_the_words(name):
    status, output, messages = ended(tool(name, "--help"), patience=20)
    assert (status, messages) == (0, "")
    said = options_of(output.decode().split("options:")[1])
    page = (PACKAGING / f"man/geocom-{name}.1.scd").read_text(encoding="utf-8")
    assert {option for line in page.split("# OPTIONS")[1].split("\n# ")[0].splitlines() if line.startswith(("*-", "*--"))
            for option in options_of(line.replace("*", " "))} == said
    assert completed_by_bash(name) == completed_by_zsh(name) == completed_by_fish(name) == said
