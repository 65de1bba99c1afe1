"""Follows files of rows that `geocom station --append FILE` writes, and hands their whole rows over to a sink, each once.

The sink keeps the place that it has come to in the transaction of the rows themselves, so it always knows what it has. A start compares
the file with that place (`followed.py`).
"""

import argparse
import glob
import os
import resource
import sys
import time

import dated
import records
from faulty import Faulty
from followed import Followed, Refused, Unread

# How the names of a folder's files of rows end: tables, and objects of JSON.
ENDINGS = (".csv", ".jsonl")


class Away(Exception):
    """The sink can't be reached: it is tried again."""


class Moved(Exception):
    """The sink has come to another place since it was asked, by a follower beside this one or before it."""


class Sink:
    """What takes the rows. `place(source)` is how far it has come in a source, and `take(source, rows, before, behind)` books rows
    with the place after them, or neither."""

    # Whether it is made of all rows from the first one on, so that no file by date may be missing.
    wants_all = False

    def belongs(self, source, station):
        """Is said, before the place of a source is asked for, of which station's files by date it is: of the only one's where that is none."""

    def look(self):
        """Looks whether it is still there, where that can be known without a row."""

    def finish(self):
        """With `once`: all that is there was taken."""

    def close(self):
        """Ends it; what was not booked is forgotten."""


def tell(text):
    print(f"{os.path.basename(sys.argv[0])}: {text}", file=sys.stderr, flush=True)


class Following:
    """A file, or all files of a folder whose names have one of the endings, of which new ones are looked for in each round."""

    def __init__(self, said):
        self.said = said
        self.is_folder = os.path.isdir(said.file)
        # What is wrong with a file was reported, and may pass; a file that is refused isn't looked at again.
        self.files, self.known, self.told, self.refused = {}, set(), {}, set()
        self.is_away = False

    def paths(self):
        """The files; of a folder also those that were there, so that it is reported where one was taken away."""
        if not self.is_folder:
            return [self.said.file]
        found = glob.glob(os.path.join(glob.escape(self.said.file), "*"))
        return sorted({*self.known, *(path for path in found if path.endswith(ENDINGS))} - self.refused)

    def source(self, path):
        """What the sink calls a file. A name for a folder comes before each of its files' names."""
        name = self.said.source
        name = os.path.abspath(path) if name is None else f"{name}/{os.path.basename(path)}" if self.is_folder else name
        # No sink takes a name that is no UTF-8.
        return os.fsencode(name).decode(errors="backslashreplace")

    def hand_over(self, path, sink):
        """Hands a batch of a file over; whether there was one. A file that wasn't open is compared with what the sink has of it."""
        if path not in self.files:
            # Where it isn't there nothing is asked of the sink.
            os.stat(path)
            self.files[path] = Followed(path, sink.place(self.source(path)))
            self.known.add(path)
        file = self.files[path]
        rows, come = file.next()
        self.told.pop(path, None)
        if come[0].bytes == file.place.bytes:
            return False
        try:
            sink.take(self.source(path), rows, file.place, come[0])
        except Moved:
            # What is there now is read again.
            self.files.pop(path).close()
            return True
        file.took(come)
        return True

    def tell(self, path, why):
        """Reports what is wrong with a file, once."""
        text = why if path in why else f"{path}: {why}"
        if self.told.get(path) != text:
            tell(text)
        self.told[path] = text

    def leave(self, path, why):
        """Reports in a folder what is wrong with a file, and leaves it: for good, where it can be read."""
        if not self.is_folder:
            raise why
        self.tell(path, str(why))
        self.known.discard(path)
        if not isinstance(why, Unread):
            self.refused.add(path)
        if path in self.files:
            self.files.pop(path).close()

    def round(self, sink):
        """A batch of each file; whether there was one. In a folder a file that is refused is reported, and the others go on."""
        came = False
        for path in self.paths():
            try:
                came |= self.hand_over(path, sink)
            except Refused as why:
                self.leave(path, why)
            except FileNotFoundError:
                if path in self.known:
                    self.leave(path, Unread(f"{path} was taken away"))
                elif self.said.once:
                    self.leave(path, Unread(f"{path} isn't there"))
                else:
                    self.tell(path, f"{path} isn't there yet")
            except OSError as why:
                self.leave(path, Unread(f"{path}: {why.strerror}"))
        return came

    def is_told(self):
        """Whether something is wrong with one of several files."""
        return self.is_folder and bool(self.told)

    def close(self):
        for file in self.files.values():
            file.close()
        self.files = {}

    def until_away(self, sink):
        """Hands over what is there, and what comes, until the sink is away."""
        try:
            while True:
                came = self.round(sink)
                if self.is_away:
                    tell("the sink is there again")
                self.is_away = False
                if came:
                    continue
                if self.said.once:
                    sink.finish()
                    if self.is_told():
                        sys.exit(1)
                    return
                sink.look()
                time.sleep(self.said.rest)
        finally:
            self.close()


class FollowingDates(Following):
    """All files of a pattern, as `geocom station --append` makes them by date, as if they were one file. New ones are looked for in each
    round, and an earlier one may go on, as after a clock that was set back."""

    def __init__(self, said, pattern, folder=None, station=None):
        """Of a station's files below a folder, or of the only ones."""
        super().__init__(said)
        self.folder, self.station = folder, station
        try:
            self.dated = dated.Dated(pattern)
        except Faulty as why:
            raise Refused(why) from None
        # The next row of each file, as long as its place is the same.
        self.order, self.heads = dated.Order(), {}

    def source(self, path):
        below = self.dated.name_of(path) if self.folder is None else os.path.relpath(path, self.folder)
        name = os.path.abspath(path) if self.said.source is None else f"{self.said.source}/{below}"
        return os.fsencode(name).decode(errors="backslashreplace")

    def is_told(self):
        return bool(self.told)

    def close(self):
        super().close()
        self.order, self.heads = dated.Order(), {}

    def drop(self, path, sink):
        """Goes on without a file that was taken away, unless all are wanted."""
        if sink.wants_all:
            raise Unread(f"{path} was taken away")
        self.tell(path, f"{path} was taken away")
        self.files.pop(path).close()
        # The numbers of the others change.
        self.order.last = None

    def look(self, sink):
        """Opens what is new, and leaves what is gone: the files in the order of their dates."""
        paths = self.dated.files()
        for path in [path for path in self.files if path not in paths]:
            self.drop(path, sink)
        for path in paths:
            if path not in self.files:
                try:
                    os.stat(path)
                    sink.belongs(self.source(path), self.station)
                    self.files[path] = Followed(path, sink.place(self.source(path)))
                    self.told.pop(path, None)
                except FileNotFoundError:
                    pass
        if not self.files and self.said.once:
            raise Unread(f"{self.dated.pattern}: no such file is there")
        if not self.files:
            self.tell(self.dated.pattern, f"{self.dated.pattern} isn't there yet")
        else:
            self.told.pop(self.dated.pattern, None)
        return [path for path in paths if path in self.files]

    def next_rows(self, paths):
        """The next row of each file that has more, and how long these are. What follows a line that is no row isn't taken."""
        heads, sizes, fault = {}, {}, None
        # The newest first: what it has by then comes after all that the earlier ones have when they are looked at.
        for number, path in reversed([*enumerate(paths)]):
            file = self.files[path]
            try:
                sizes[number] = file.look()
            except Unread:
                # The next round leaves it.
                continue
            try:
                heads[number] = self.head(path, file, sizes[number])
            except Refused as why:
                heads, fault = {}, why
        heads = {number: fields for number, fields in heads.items() if fields is not None}
        if fault and not heads:
            raise fault
        return heads, sizes

    def head(self, path, file, size):
        """The next row of a file; nothing where it has none. That of the set-up may be followed by one in a cycle."""
        place, fields = self.heads.get(path, (None, None))
        if place != file.place or fields is None or records.is_of_setup(fields):
            fields = file.head(size) if size > file.place.bytes else None
            self.heads[path] = file.place, fields
        return fields

    def round(self, sink):
        """A batch of the file whose row is next; whether there was one."""
        paths = self.look(sink)
        heads, sizes = self.next_rows(paths)
        if not heads:
            return False
        number = self.order.first(heads)
        path = paths[number]
        file = self.files[path]
        rows, come = file.next(sizes[number], self.order.goes_on(heads))
        try:
            sink.take(self.source(path), rows, file.place, come[0])
            file.took(come)
        except Moved:
            self.files.pop(path).close()
        return True


class FollowingStations(Following):
    """The stations of a folder by the forms of their files' names, each with its files by date. Where one is refused the others go on."""

    def __init__(self, said):
        super().__init__(said)
        self.stations = {}

    def is_told(self):
        return any(each.told for each in (self, *self.stations.values()))

    def close(self):
        for each in self.stations.values():
            each.close()

    def round(self, sink):
        came = False
        for name, pattern, *_ in dated.stations(self.said.file, self.said.files, ENDINGS):
            if pattern in self.refused:
                continue
            if pattern not in self.stations:
                self.stations[pattern] = FollowingDates(self.said, pattern, self.said.file, name)
            try:
                came |= self.stations[pattern].round(sink)
                self.told.pop(pattern, None)
            except Refused as why:
                self.tell(pattern, str(why))
                self.refused.add(pattern)
                self.stations[pattern].close()
            except OSError as why:
                self.tell(pattern, why.strerror)
        return came


def followed_by(said):
    """What a command line has followed."""
    if getattr(said, "files", None):
        if not os.path.isdir(said.file):
            raise Refused(f"{said.file} is no folder: --files says how the files of one are called")
        return FollowingStations(said)
    return FollowingDates(said, said.file) if dated.has_date(said.file) else Following(said)


def follow(said, connect):
    """Hands each row over once, over restarts of this program and of the station. A sink that is away is reported once, and tried again;
    with `once` it is the end."""
    following = followed_by(said)
    while True:
        sink = None
        try:
            sink = connect()
            return following.until_away(sink)
        except Away as why:
            if said.once:
                raise Refused(f"the sink is away: {why}") from None
            if not following.is_away:
                tell(f"the sink is away: {why}")
            following.is_away = True
            time.sleep(said.rest)
        finally:
            if sink:
                sink.close()


def form(text):
    """A form of names, as a command line has it."""
    try:
        return dated.form_of(text)
    except Faulty as why:
        raise argparse.ArgumentTypeError(str(why)) from None


def words(does, *others, has_folders=False):
    """The words that all followers have, and the others as `argparse` has them: names and help."""
    said = argparse.ArgumentParser(description=does)
    said.add_argument("file", help="the file of rows; files by date, as north-%%Y-%%m.csv; or a folder of files, each NAME.csv or NAME.jsonl")
    for name, help_text in others:
        said.add_argument(name, help=help_text)
    if has_folders:
        said.add_argument("--files", type=form, nargs="+", metavar="FORM",
                          help="how the files of a folder are called, without .csv and .jsonl, as NAME-%%Y-%%m: a station's files by date are followed as one")
    said.add_argument("--as", dest="source", metavar="NAME", help="what the sink calls this file; its full path where nothing is said")
    said.add_argument("--once", action="store_true", help="end after the last whole row, in place of waiting for more")
    said.add_argument("--rest", type=float, default=1.0, metavar="SECONDS", help="how long to wait at the end of the file (1)")
    return said


def main(said, connect):
    """Follows as the options say; what is refused is reported in one line, with status 1."""
    # A folder may have more files than a program may have open at first.
    resource.setrlimit(resource.RLIMIT_NOFILE, [resource.getrlimit(resource.RLIMIT_NOFILE)[1]] * 2)
    try:
        follow(said, connect)
    except Refused as why:
        tell(why)
        sys.exit(1)
    except OSError as why:
        tell(f"{said.file}: {why.strerror}")
        sys.exit(1)
    except KeyboardInterrupt:
        sys.exit(130)


def wants(package):
    """Ends with a line that says which package of Debian is missing."""
    tell(f"Debian's package {package} is missing")
    sys.exit(1)
