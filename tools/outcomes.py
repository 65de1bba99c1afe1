"""The outcomes of commands: all that the tools say of one outcome alone. `FORMATS.md` says what each means."""

from dataclasses import dataclass


@dataclass(frozen=True)
class Judged:
    """A reply that came in time, and that a rule of the station's text set aside: how a page counts it (`sort`), and what a page says of
    that sort, and its colours by day and by night, if it has it alone."""

    sort: str
    said: str = ""
    light: str = ""
    dark: str = ""


# In the order of the counts.
JUDGED = {
    "off_target": Judged("unanswered"),
    "unexpected": Judged("unexpected", "not as expected (unexpected)", "#8a5a3c", "#b98563"),
    "disagree": Judged("disagree", "in disagreement (disagree)", "#c2569b", "#d97fb8"),
}
# In the order of the counts, and the one that counts as skipped; those of a reply that came in time, and those of a command that wasn't sent.
COUNTED = ["answered", "late", "lost", "skipped", "unreadable", "missed", *JUDGED]
NO_VALUE = "no_value"
OUTCOMES = [*COUNTED, NO_VALUE]
REPLIED = ["answered", "unreadable", *JUDGED]
UNSENT = ["skipped", "missed", NO_VALUE]
# The judged outcomes that are sorts of their own, from good to worst.
OWN_SORTS = [outcome for outcome in reversed(JUDGED) if JUDGED[outcome].sort == outcome]
# What a command came to, from good to worst, and of which outcomes, or qualities of an answer.
SORTS = {
    "ok": ["ok"], "warning": ["warning"], "unconfirmed": ["unconfirmed"], **{sort: [sort] for sort in OWN_SORTS}, "refused": ["refused"],
    "unanswered": ["late", "lost", "unreadable", *(outcome for outcome, judged in JUDGED.items() if judged.sort == "unanswered")], "unsent": UNSENT,
}
# What a page says of each sort, and its colours by day and by night.
SHOWN = {
    "ok": ("answered well", "#7fbf9b", "#3f8a64"),
    "warning": ("with a warning", "#e5c04b", "#b3922a"),
    "unconfirmed": ("unconfirmed", "#9fb4c4", "#6b8496"),
    **{sort: (JUDGED[sort].said, JUDGED[sort].light, JUDGED[sort].dark) for sort in OWN_SORTS},
    "refused": ("refused", "#c64f43", "#d5665a"),
    "unanswered": ("not answered in time", "#4a4a8c", "#9a9ae8"),
    "unsent": ("not sent", "#b9a3d1", "#6f5c8a"),
}
# What a plot marks in place of good values, or beside those of a warning: the mark and the colour of each, from dark to light.
MARKED = {
    "lost": ("X", "#000000"),
    "late": ("v", "#5e2a8c"),
    "unexpected": ("p", "#7a4a2c"),
    "refused": ("D", "#d13b3b"),
    "warning": ("d", "#8a6d00"),
    "unreadable": ("P", "#3f97ea"),
    "off_target": ("*", "#4f9a55"),
    "disagree": ("X", "#c2569b"),
    "unconfirmed": ("v", "#9aa0a6"),
    "skipped": ("s", "#f0a040"),
    NO_VALUE: ("h", "#b07c28"),
    "missed": ("o", "#c4e8dc"),
}
