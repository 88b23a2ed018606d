"""Templates by name."""
from __future__ import annotations

import os
import stat
import warnings
from collections.abc import Iterable, Iterator, Mapping
from difflib import get_close_matches
from typing import Any, Union
from typing import Mapping as AnyMapping

from ._library import library
from ._owner import Owner, Shared, checked, utf8
from .errors import NO_TEXT, SHARED_HANDLE, LiquidError, refused
from .language import Language, parse

# what stands for partials in a call
Others = Union["Partials", AnyMapping[str, str], None]


class Partials(Shared):
    """Templates by name, for the tags include and render. Of two with one name the later counts.

    Where pages were rendered with them, one more is inserted into new ones, for which all are parsed again. A page in another thread
    has the old ones or the new ones."""

    def __init__(self, sources: Mapping[str, str] | None = None, language: Language | None = None) -> None:
        super().__init__()
        self._language = None if language is None else checked(language, "a Language is")
        self._sources: dict[str, str] = {}
        self._version = 0
        self._need(library.bikleinu_partials(self._handle))
        for name, source in (sources or {}).items():
            self.insert(name, source)

    @classmethod
    def from_folder(cls, folder: str | os.PathLike[str], language: Language | None = None) -> Partials:
        """The files below a folder, each by its path from there, as parts/line.liquid, and also without its suffix, as parts/line. A
        whole name counts before one that lost its suffix. What has a name that begins with a dot is passed over, and so is a link
        to a folder below this one. Anything else but a regular file, a link that leads out of the folder or nowhere, a file with a
        byte 0 and a name that isn't UTF-8 are left out, each with a warning."""
        found = Found(os.fspath(folder))
        sources = {path: source for path, source in found.texts()}
        stems = {stem: sources[path] for path in sources for stem in [stem_of(path)] if stem}
        for line in found.left_out:
            warnings.warn(line, stacklevel=2)
        return cls({**stems, **sources}, language)

    def insert(self, name: str, source: str) -> None:
        """Puts a template of this source at a name."""
        template = Owner()
        parse(source, self._language, template, name)
        self._take(name, source, template)

    def _take(self, name: str, source: str, template: Owner) -> None:
        """Puts a template, which was parsed of this source, at a name."""
        text = utf8(name)
        with self._lock:
            answer = library.bikleinu_insert(self._handle, text, len(text), template._handle)
            if answer == SHARED_HANDLE:
                self._begin_anew({**self._sources, name: source})
            elif answer:
                raise refused(answer)
            self._sources[name] = source
            self._version += 1

    def _begin_anew(self, sources: Mapping[str, str]) -> None:
        made = Partials(sources, self._language)
        self._handle, made._handle = made._handle, self._handle
        self._spare = []

    @property
    def sources(self) -> Mapping[str, str]:
        """The source of each partial, by its name."""
        with self._lock:
            return dict(self._sources)

    def source(self, name: str) -> str:
        """The source of the partial of this name. LookupError where there is none."""
        try:
            return self._sources[name]
        except KeyError:
            raise self._unknown(name, self._sources) from None

    @staticmethod
    def _unknown(name: str, known: Iterable[str]) -> LookupError:
        similar = get_close_matches(name, known, 1)
        asked = f"; did you mean {similar[0]!r}?" if similar else ""
        return LookupError(f"no partial is named {name!r}{asked}")

    def _for(self, template: Any) -> Partials:
        """Those of a page of a template."""
        return self

    def _explained(self, fault: LiquidError) -> LiquidError:
        """The fault of a page with these partials, with what is known of it here."""
        return fault

    def __reduce__(self) -> Any:
        return Partials, (self.sources, self._language)


class Found:
    """The files below a folder, and a line for each thing that is left out of it."""

    def __init__(self, folder: str) -> None:
        self._folder = folder
        self._real = os.path.realpath(folder)
        self.left_out: list[str] = []

    def texts(self) -> Iterator[tuple[str, str]]:
        """The paths of the files from the folder on, in their order, and their texts."""
        for inner in self.paths():
            path = os.path.join(self._folder, inner)
            with open(path, "rb") as file:
                text = file.read()
            if b"\0" in text:
                self._leave_out(path, "is no text: it has a byte 0")
            else:
                yield inner, _decoded(path, text)

    def paths(self) -> list[str]:
        """The paths of the files from the folder on, in their order."""
        return sorted(self._files(""), key=os.fsencode)

    def _files(self, inner: str) -> Iterator[str]:
        """The paths of the regular files, from the folder on."""
        folder = os.path.join(self._folder, inner)
        with os.scandir(folder) as entries:
            found = sorted(entries, key=lambda entry: os.fsencode(entry.name))
        if not all(_is_utf8(entry.name) for entry in found):
            shown = _shown(folder.rstrip("/") or "/")
            self.left_out.append(f"left out: a name in {shown} isn't UTF-8")
        for entry in found:
            if entry.name.startswith(".") or not _is_utf8(entry.name):
                continue
            if entry.is_dir(follow_symlinks=False):
                yield from self._files(f"{inner}{entry.name}/")
            elif self._is_file(entry):
                yield f"{inner}{entry.name}"

    def _is_file(self, entry: os.DirEntry[str]) -> bool:
        """Whether it is a regular file below the folder. What is neither that nor a link to a folder there is left out."""
        try:
            mode = entry.stat().st_mode
        except OSError as refused:
            if not entry.is_symlink():
                if isinstance(refused, FileNotFoundError):
                    return False
                raise
            barred = isinstance(refused, PermissionError)
            why = "is a link that you have no right to follow" if barred else "is a link that leads nowhere"
        else:
            why = self._leads(entry) or _kind(mode)
            if not why:
                return stat.S_ISREG(mode)
        self._leave_out(entry.path, why)
        return False

    def _leads(self, entry: os.DirEntry[str]) -> str:
        """Where a link leads that doesn't lead below the folder, and else nothing."""
        if not entry.is_symlink():
            return ""
        target = os.path.realpath(entry.path)
        if not _is_utf8(target) or not _is_utf8(self._real):
            return "is a link to a path that isn't UTF-8"
        is_below = os.path.commonpath([self._real, target]) == self._real
        return "" if is_below else "is a link that leads out of the folder"

    def _leave_out(self, path: str, why: str) -> None:
        self.left_out.append(self.line(path, why))

    @staticmethod
    def line(path: str, why: str) -> str:
        """What is reported of a path that is left out."""
        return f"left out: {_shown(path)} {why}"


def _shown(path: str) -> str:
    """The path, in which nothing can be taken for another line."""
    return path if path.isprintable() else repr(path)


def _kind(mode: int) -> str:
    """What is neither a file nor a folder."""
    if stat.S_ISREG(mode) or stat.S_ISDIR(mode):
        return ""
    if stat.S_ISFIFO(mode):
        return "is a pipe"
    return "is a socket" if stat.S_ISSOCK(mode) else "is a device"


def _is_utf8(name: str) -> bool:
    try:
        name.encode()
    except UnicodeEncodeError:
        return False
    return True


def _decoded(path: str, text: bytes) -> str:
    try:
        return text.decode()
    except UnicodeDecodeError as error:
        line = text.count(b"\n", 0, error.start) + 1
        raise LiquidError(NO_TEXT, "NoText", f"the file {path!r} is no UTF-8 in line {line}") from None


def stem_of(path: str) -> str:
    """The path without the suffix of its last part, where it has one."""
    folder, slash, last = path.rpartition("/")
    stem, dot, _ = last.rpartition(".")
    return f"{folder}{slash}{stem}" if dot and stem else ""


def partials_of(partials: Others) -> Owner:
    """The partials of a call, where a handle that holds nothing stands for none."""
    if partials is None:
        return Owner()
    owner: Owner = Partials(partials) if isinstance(partials, Mapping) else checked(partials, "Partials or a mapping are")
    return owner
