"""How a command `tools/try-NAME` makes the trials of a folder: by Debian's pytest, over a program."""

import os
import signal
import sys
from pathlib import Path

TRIALS = Path(__file__).resolve().parent


def make(folder, **options):
    """Makes the trials, and ends with status 0 where none failed. An option that is None keeps its default."""
    command = os.path.basename(sys.argv[0])
    try:
        import pytest
    except ImportError:
        sys.exit(f"{command}: Debian's package python3-pytest is missing")
    if options.get("program") and not os.access(options["program"], os.X_OK):
        sys.exit(f"{command}: no program at {options['program']}")
    # After a SIGTERM, as after a Ctrl-C, what was begun is ended.
    signal.signal(signal.SIGTERM, signal.default_int_handler)
    words = [f"--{name.replace('_', '-')}={value}" for name, value in options.items() if value is not None]
    status = pytest.main([str(TRIALS / folder), "-c", str(TRIALS / "pytest.ini"), *words])
    if status == pytest.ExitCode.NO_TESTS_COLLECTED:
        sys.exit(f"{command}: no trial has these words")
    sys.exit(1 if status else 0)
