"""The fixture `instrument`, which makes the instrument of a scene within the process."""

pytest_plugins = ["geocom.testing"]
