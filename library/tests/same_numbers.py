"""The numbers of header, wrapper and module are those of the source: the constants of the library, each of which stands in
the law `numbers_are_the_headers`, and the faults of a line, of a call and of a raw request that the law names. From the top of the repository; nothing has to be built."""

import ast
import re
import sys
from pathlib import Path

CONSTANT = re.compile(r"^pub const (\w+): \w+ = (\d+);", re.M)
GROUPS = ["outcome", "reading", "kind", "item_kind", "want", "act"]
# What each group is called in the package.
CLASSES = {"outcome": "Outcome", "reading": "Reading", "kind": "Kind"}


def read(path):
    return Path(path).read_text(encoding="utf-8")


source = read("crates/geocom_c/src/header.rt") + read("crates/geocom_instrument_c/src/header.rt")
constants = {name: int(value) for name, value in CONSTANT.findall(source)}
law = dict(re.findall(r"ensures (\w+) \{ (.*?) \}\n", source, re.S))
clauses = {clause: dict(re.findall(r"\b([A-Z_]+) ≡ (\d+)", text)) for clause, text in law.items()}
told, compared = [], 0


def same(what, want, have):
    """Counts what is compared, and tells a difference."""
    global compared
    compared += len(want)
    if want != have:
        told.append(f"{what}: the source has {want}, and here stands {have}")


# Each constant stands in the law. A fault is a constant of the clause `faults`, or one of a line, or a refusal of a call or of a raw request.
same("the law", constants, {name: int(value) for clause in clauses.values() for name, value in clause.items()})
faults = {constants[name] for clause in ("faults", "instrument_faults") for name in clauses[clause]}
faults |= {int(number) for text in law.values() for number in re.findall(r"(?:line_fault|refusal|raw|run_fault)_number [^≡]*≡ (\d+)", text)}
groups = {group: {name: constants[name] for name in clauses[group + "s"]} for group in GROUPS}
plain = {name: constants[name] for clause in ("version", "rooms", "own", "instrument_rooms") for name in clauses[clause]}
for path, name in [("crates/gc_client/src/window.rt", "WINDOW"), ("crates/gc_values/src/items.rt", "MOST_ITEMS")]:
    plain[name] = int(dict(CONSTANT.findall(read(path)))[name])

header = read("library/include/geocom.h")
defined = re.findall(r"^#define GEOCOM_(\w+) (\d+|UINT32_MAX)$", header, re.M)
same("#define in geocom.h", plain, {name: 2**32 - 1 if value == "UINT32_MAX" else int(value) for name, value in defined})
for group in GROUPS:
    body = re.search(rf"enum geocom_{group} \{{(.*?)\}}", header, re.S).group(1)
    same(f"geocom_{group} in geocom.h", groups[group], {name: int(value) for name, value in re.findall(r"GEOCOM_(\w+) = (\d+)", body)})
listed = set()
for first, last in re.findall(r"^ \*   (\d+)(?: to (\d+))?  ", header, re.M):
    listed |= set(range(int(first), int(last or first) + 1))
same("the faults in geocom.h", faults, listed)

wrapper = read("library/include/geocom.hpp")
for group in ["outcome", "reading"]:
    body = re.search(rf"enum class {group} : [^{{]*\{{(.*?)\}}", wrapper, re.S).group(1)
    same(f"{group} in geocom.hpp", {name.lower(): name for name in groups[group]}, dict(re.findall(r"(\w+) = GEOCOM_(\w+)", body)))

package = Path("library/python/geocom")
modules = {name: ast.parse(read(package / f"{name}.py")) for name in ["_library", "client", "settlement", "errors"]}


def assigned(name):
    """What the lines of a module assign, with or without a type."""
    for node in modules[name].body:
        if isinstance(node, ast.Assign) and isinstance(node.targets[0], ast.Name):
            yield node.targets[0].id, node.value
        if isinstance(node, ast.AnnAssign):
            yield node.target.id, node.value


numbers = {name: node.value for name, node in assigned("_library") if isinstance(node, ast.Constant)}
same("_library.py", plain, numbers)
classes = {node.name: node for name in ["client", "settlement"] for node in modules[name].body if isinstance(node, ast.ClassDef)}
for group, name in CLASSES.items():
    members = [node for node in classes[name].body if isinstance(node, ast.Assign)]
    same(f"{name} in the package", groups[group], {node.targets[0].id: node.value.value for node in members})
raised = set()
for node in ast.walk(dict(assigned("errors"))["_FAULTS"]):
    if isinstance(node, ast.Dict):
        raised |= {key.value for key in node.keys}
    if isinstance(node, ast.Call) and node.func.id == "range":
        raised |= set(range(*(argument.value for argument in node.args)))
raised |= {key.value for key in dict(assigned("errors"))["_SCENE_FAULTS"].keys}
same("the faults in errors.py", faults, raised)
version = re.findall(r'^pub const VERSION: &str = "(.*)";', read("crates/gc_options/src/version.rt"), re.M)
same("_version.py", version, re.findall(r'^__version__ = "(.*)"', read(package / "_version.py"), re.M))

for line in told:
    print(f"numbers: {line}", file=sys.stderr)
if told:
    sys.exit(1)
print(f"numbers: {compared} compared, the same in source, header, wrapper and module")
