"""The table of procedures of docs/PROTOCOL.md as a list for a man page, in scdoc's form: procedures.py PROTOCOL.md"""

import sys


def rows(text):
    """The cells of each row of the table of procedures."""
    lines = iter(text.splitlines())
    for line in lines:
        if line.startswith("| RPC | "):
            break
    next(lines)
    for line in lines:
        if not line.startswith("| "):
            return
        yield [cell.strip() for cell in line.strip("|").split("|")]


def escaped(text):
    """Stars and low lines as they are."""
    return text.replace("*", "").replace("_", "\\_")


def entry(number, name, parameters, answer, simulated):
    takes = "Takes nothing" if parameters == "none" else f"Takes {parameters}"
    gives = "answers nothing" if answer == "none" else f"answers {answer}"
    return f"*{number}* {escaped(name)}\n\t{takes}; {gives}. The simulated instrument {told(escaped(simulated))}."


def told(simulated):
    """What the simulated instrument makes of it, after `The simulated instrument`."""
    if simulated.startswith("constant"):
        return "has a " + simulated
    return simulated


if __name__ == "__main__":
    with open(sys.argv[1], encoding="utf-8") as file:
        listed = [entry(*row) for row in rows(file.read())]
    if not listed:
        sys.exit("procedures.py: no table of procedures")
    print("\n".join(listed))
