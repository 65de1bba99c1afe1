"""Runs the examples in the docstrings of the package, over `geocom exec` of the path: examples_run.py"""

import doctest
import importlib
import importlib.util
import pkgutil
import sys

import geocom

# In a wheel the library is beside the modules, and taken for one. A bare environment has no pytest, for which a module is.
left_out = {"geocom.libgeocom", "geocom.testing" if importlib.util.find_spec("pytest") is None else ""}
names = {"geocom", *(each.name for each in pkgutil.walk_packages(geocom.__path__, "geocom."))} - left_out
tried = failed = 0
for name in sorted(names):
    result = doctest.testmod(importlib.import_module(name), extraglobs={"geocom": geocom}, optionflags=doctest.ELLIPSIS)
    tried, failed = tried + result.attempted, failed + result.failed
print(f"doctest: {tried} examples, {failed} failed")
sys.exit(bool(failed) or not tried)
