"""What a unit of systemd starts, as a line for sh, where no systemd runs: unit_line.py UNIT INSTANCE

It reads the unit's ExecStart, Environment (one variable), EnvironmentFile, StandardInput, User and SupplementaryGroups, and nothing
else of it. A word ${NAME} is one word, and $NAME as many as the value has, as systemd has it. It wants util-linux's setpriv.
"""

import re
import shlex
import sys


def settings(path, instance):
    """The last value of each setting."""
    found = {}
    with open(path, encoding="utf-8") as file:
        for line in file:
            key, sign, value = line.strip().partition("=")
            if sign and not key.startswith("#"):
                found[key] = value.replace("%i", instance)
    return found


def environment(path):
    """The variables of an environment file."""
    with open(path, encoding="utf-8") as file:
        lines = [line.strip() for line in file]
    return dict(line.split("=", 1) for line in lines if line and line[0] not in "#;")


def words(line, variables):
    """The words of a command line."""
    for word in line.split():
        if re.fullmatch(r"\$\w+", word):
            yield from shlex.split(variables.get(word[1:], ""))
        else:
            yield re.sub(r"\$\{(\w+)\}", lambda name: variables.get(name.group(1), ""), word)


if __name__ == "__main__":
    unit = settings(sys.argv[1], sys.argv[2])
    # What the file says holds in place of what the unit does.
    line = words(unit["ExecStart"], {**dict([unit["Environment"].split("=", 1)]), **environment(unit["EnvironmentFile"])})
    user = ["setpriv", "--reuid", unit["User"], "--regid", unit["User"], "--groups", f"{unit['User']},{unit['SupplementaryGroups']}",
            "--no-new-privs", "--inh-caps=-all", "--bounding-set=-all"]
    print("exec", shlex.join([*user, *line]), "<", shlex.quote(unit["StandardInput"].removeprefix("file:")))
