"""The package's version: that of the program and the library."""

__version__ = "2.0.0"
