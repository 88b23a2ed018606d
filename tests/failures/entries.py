"""The entries of a folder: files with a mode, links, pipes, sockets and folders, to put there and to find there."""
import os
import socket
import stat
from dataclasses import dataclass


@dataclass(frozen=True)
class Link:
    """A link that leads to this path."""

    target: str


@dataclass(frozen=True)
class Hard:
    """One more name of the file of this path, which is put before it."""

    path: str


@dataclass(frozen=True)
class Of:
    """A file of this mode with this text."""

    mode: int
    text: str


@dataclass(frozen=True)
class Odd:
    """What is no file: a pipe, a socket or a device."""

    kind: str


PIPE, SOCKET, DEVICE, FOLDER = Odd("pipe"), Odd("socket"), Odd("device"), Odd("folder")


@dataclass(frozen=True)
class Entry:
    """What is found: the text of a file, a link or what is no file, and its mode and number, by which it is known again."""

    what: object
    mode: int
    number: int

    def is_of(self, wanted):
        """Whether it is what is wanted: an entry, or its text or what it is, whatever its mode."""
        if isinstance(wanted, Entry):
            return self == wanted
        if isinstance(wanted, Of):
            return (self.mode, self.what) == (wanted.mode, as_bytes(wanted.text))
        return self.what == as_bytes(wanted)


def as_bytes(text):
    return text.encode() if isinstance(text, str) else text


def put(room, entries):
    """Puts entries by their paths: a text, one of those above, or, of a path that ends in a slash, a folder."""
    for path, what in entries.items():
        at = os.path.join(room, path)
        os.makedirs(os.path.dirname(at), exist_ok=True)
        put_one(room, at, what)


def put_one(room, at, what):
    if at.endswith("/"):
        return
    if isinstance(what, Link):
        os.symlink(what.target, at)
    elif isinstance(what, Hard):
        os.link(f"{room}/{what.path}", at)
    elif what == PIPE:
        os.mkfifo(at)
    elif what == DEVICE:
        os.mknod(at, 0o600 | stat.S_IFCHR, os.makedev(1, 3))
    elif what == SOCKET:
        with socket.socket(socket.AF_UNIX) as made:
            made.bind(at)
    else:
        put_file(at, what)


def put_file(at, what):
    with open(at, "wb") as file:
        file.write(as_bytes(what.text if isinstance(what, Of) else what))
    if isinstance(what, Of):
        os.chmod(at, what.mode)


def entries_in(room):
    """Every entry below the folder, by its path. A link isn't followed."""
    found = {}
    for at, folders, names in os.walk(room):
        for name in [*folders, *names]:
            path = os.path.join(at, name)
            found[os.path.relpath(path, room)] = entry_at(path)
    return found


def entry_at(path):
    looked = os.lstat(path)
    mode = stat.S_IMODE(looked.st_mode)
    return Entry(what_is(path, looked.st_mode), mode, looked.st_ino)


def what_is(path, mode):
    if stat.S_ISLNK(mode):
        return Link(os.readlink(path))
    kinds = {stat.S_IFDIR: FOLDER, stat.S_IFIFO: PIPE, stat.S_IFSOCK: SOCKET, stat.S_IFCHR: DEVICE}
    if odd := kinds.get(stat.S_IFMT(mode)):
        return odd
    with open(path, "rb") as file:
        return file.read()
