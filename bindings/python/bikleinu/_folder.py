"""Partials of a folder that are read and parsed when a template first leads to them."""
from __future__ import annotations

import copy
import errno
import json
import os
import re
import warnings
from collections.abc import Iterable, Iterator, Mapping
from contextlib import contextmanager
from dataclasses import dataclass
from difflib import get_close_matches
from typing import Any, Dict, List, Optional, Tuple, Union
from weakref import WeakValueDictionary

from ._library import library
from ._owner import TEXT, Owner, made_by, new_lock
from .errors import MEMORY, NO_TEXT, UNKNOWN_PARTIAL, LiquidError, Place
from .language import Language, parse
from .partials import Found, Partials, stem_of

# the source of a partial, or why it isn't to be had
Read = Union[str, Exception]
_NAMED = re.compile(r"no partial is named `(.+)`(;.*|$)", re.S)
# how much of a name a message of the library shows, and what a character counts as that doesn't print
_SHOWN, _ESCAPED = 60, 8


def names_of(template: Owner) -> Optional[List[str]]:
    """The names under which a template itself can look up partials, or None where a name is computed."""
    names: Optional[List[str]] = json.loads(made_by(library.bikleinu_partial_names, Owner(), template)._part(TEXT))
    return names


@contextmanager
def _honest() -> Iterator[None]:
    """Raises MemoryError where the system has no memory for a folder or a file."""
    try:
        yield
    except OSError as error:
        if error.errno != errno.ENOMEM:
            raise
        raise MemoryError("no memory to read a folder") from None


@dataclass
class _File:
    """A file that was read: its time and size then, and its text, or why it is none, with the line and the column."""

    stamp: Optional[Tuple[int, int]]
    read: Read
    place: Optional[Tuple[int, int]] = None
    is_left_out: bool = False


class _Files:
    """The files of a folder by the names that they have, of which each is read once."""

    def __init__(self, folder: str) -> None:
        self._folder = folder
        self._reported: set[str] = set()
        self._known: Dict[str, _File] = {}
        self._paths: Dict[str, List[str]] = {}
        self._paths = self._listed()

    def _listed(self) -> Dict[str, List[str]]:
        """The paths of each name, of which the first that is a text counts: a whole name before one that lost its suffix."""
        found = Found(self._folder)
        with _honest():
            inner = found.paths()
        for line in found.left_out:
            self._report(line)
        named: Dict[str, List[str]] = {path: [path] for path in inner}
        for path in reversed(inner):
            if stem_of(path):
                named.setdefault(stem_of(path), []).append(path)
        return named

    def _report(self, line: str) -> None:
        if line not in self._reported:
            warnings.warn(line, stacklevel=2)
            self._reported.add(line)

    def names(self) -> Iterable[str]:
        return self._paths

    def read(self, name: str) -> Optional[Read]:
        """The source of this name, why it isn't to be had, or None where no file has it."""
        first: Optional[Read] = None
        for path in self._paths.get(name, ()):
            file = self._known.get(path)
            if file is None:
                file = self._known[path] = self._file(path)
            read = _placed(file, name)
            if not file.is_left_out:
                return read
            first = first or read
        return first

    def _file(self, inner: str) -> _File:
        path = os.path.join(self._folder, inner)
        try:
            with _honest(), open(path, "rb", buffering=0) as file:
                stamp, text = _stamp(os.fstat(file.fileno())), file.readall()
        except (FileNotFoundError, PermissionError) as error:
            return _File(None, error.with_traceback(None))
        if b"\0" in text:
            why = "is no text: it has a byte 0"
            self._report(Found.line(path, why))
            return _File(stamp, LiquidError(NO_TEXT, "NoText", f"the file {path!r} {why}"), is_left_out=True)
        try:
            return _File(stamp, text.decode())
        except UnicodeDecodeError as error:
            line = text.count(b"\n", 0, error.start) + 1
            column = len(text[text.rfind(b"\n", 0, error.start) + 1 : error.start].decode()) + 1
            return _File(stamp, LiquidError(NO_TEXT, "NoText", f"the file {path!r} is no UTF-8 in line {line}"), (line, column))

    def changed(self) -> Optional[_Files]:
        """The files as they are now, where others are there than before, or one that was read has another time or size: such a one is
        read again."""
        paths = self._listed()
        fresh = {path: file for path, file in self._known.items() if path in paths and not self._is_stale(path, file)}
        if paths == self._paths and len(fresh) == len(self._known):
            return None
        made = copy.copy(self)
        made._paths, made._known = paths, fresh
        return made

    def _is_stale(self, inner: str, file: _File) -> bool:
        try:
            return _stamp(os.stat(os.path.join(self._folder, inner))) != file.stamp
        except OSError:
            return True


def _stamp(known: os.stat_result) -> Tuple[int, int]:
    return known.st_mtime_ns, known.st_size


def _placed(file: _File, name: str) -> Read:
    if file.place is None or not isinstance(file.read, LiquidError):
        return file.read
    fault = file.read
    return LiquidError(fault.number, fault.name, fault.message, Place("partial", *file.place, name))


class _Kept:
    """Sources that were read elsewhere, as a pickle brings them."""

    def __init__(self, read: Mapping[str, Read]) -> None:
        self._read = read

    def names(self) -> Iterable[str]:
        return self._read

    def read(self, name: str) -> Optional[Read]:
        return self._read.get(name)

    def changed(self) -> None:
        return None


@dataclass
class _Entry:
    """A partial that was parsed: its source, or its fault; the names that it leads to; and its template until that is taken."""

    source: str = ""
    fault: Optional[Exception] = None
    names: Optional[List[str]] = None
    ready: Optional[Owner] = None


class _Reached(Partials):
    """The partials that a template leads to, and why others that it leads to are refused."""

    def __init__(self, entries: Mapping[str, Optional[_Entry]], others: Iterable[str], language: Language) -> None:
        super().__init__(None, language)
        self._refused: Dict[str, Exception] = {}
        self._others = others
        for name, entry in entries.items():
            if entry and entry.fault:
                self._refused[name] = entry.fault
            elif entry:
                ready, entry.ready = entry.ready, None
                if ready is None:
                    self.insert(name, entry.source)
                else:
                    self._take(name, entry.source, ready)

    def _explained(self, fault: LiquidError) -> LiquidError:
        """The fault of a page. Where it is about a partial that is refused, its cause is why."""
        named = _NAMED.match(fault.message or "") if fault.number == UNKNOWN_PARTIAL else None
        if not named:
            return fault
        shown, advice = named[1], named[2]
        refused = {_quoted(name): why for name, why in self._refused.items()}
        why = refused.get(shown) or refused.get(f"{shown}.liquid")
        similar = get_close_matches(shown, self._others, 1)
        if why:
            message = f"the partial `{shown}` is refused: {why}"
        elif similar and not advice.startswith("; did you mean"):
            message = f"no partial is named `{shown}`; did you mean `{_quoted(similar[0])}`?"
        else:
            return fault
        made = LiquidError(fault.number, fault.name, message, fault.place, fault.text)
        made.__cause__ = why
        return made


class FolderPartials(Partials):
    """The partials of a folder. It is listed when they are made; a file is read, once, when a template first leads to it, and what
    is refused is a fault of the pages that run it. With auto_reload a page looks at the folder and what was read of it again."""

    def __init__(self, files: Union[_Files, _Kept], language: Language, auto_reload: bool = False) -> None:
        super().__init__(None, language)
        self._files, self._of, self._reloads = files, language, auto_reload
        self._entries: Dict[str, _Entry] = {}
        self._inserted: Dict[str, _Entry] = {}
        self._made: WeakValueDictionary[frozenset[str], _Reached] = WeakValueDictionary()
        self._loading = new_lock()

    @classmethod
    def of(cls, folder: str | os.PathLike[str], language: Language, auto_reload: bool) -> FolderPartials:
        """Those of the folder at a path."""
        return cls(_Files(os.fspath(folder)), language, auto_reload)

    def _for(self, template: Any) -> Partials:
        known: Optional[Tuple[FolderPartials, int, Partials]] = template._reached
        if known and known[0] is self and known[1] == self._version and not self._reloads:
            return known[2]
        names = names_of(template) if template._names is None else template._names[0]
        template._names = (names,)
        with self._loading:
            self._look_again()
            if not known or known[0] is not self or known[1] != self._version:
                template._reached = known = self, self._version, self._reached_from(names)
        return known[2]

    def _look_again(self) -> None:
        changed = self._files.changed() if self._reloads else None
        if changed:
            self._begin()
            self._files = changed

    def _begin(self) -> None:
        """What was parsed is parsed again where a page leads to it."""
        self._entries, self._made = {}, WeakValueDictionary()
        self._version += 1

    def _reached_from(self, names: Optional[List[str]]) -> _Reached:
        found: Dict[str, Optional[_Entry]] = {}
        rest = self._all() if names is None else list(names)
        while rest:
            name = rest.pop()
            if name in found:
                continue
            entry = found[name] = self._entry(name)
            if entry and not entry.fault:
                rest.extend(self._all() if entry.names is None else entry.names)
        key = frozenset(name for name, entry in found.items() if entry)
        made = self._made.get(key)
        if made is None:
            made = self._made[key] = _Reached(found, self._all(), self._of)
        return made

    def _all(self) -> List[str]:
        return [*self._files.names(), *self._inserted]

    def _entry(self, name: str) -> Optional[_Entry]:
        known = self._inserted.get(name) or self._entries.get(name)
        if known:
            return known
        read = self._files.read(name)
        if read is None:
            return None
        made = self._entries[name] = _Entry(fault=read) if isinstance(read, Exception) else self._parsed(name, read)
        return made

    def _parsed(self, name: str, source: str) -> _Entry:
        ready = Owner()
        try:
            parse(source, self._of, ready, name)
        except LiquidError as fault:
            if fault.number == MEMORY:
                raise
            return _Entry(source, fault.with_traceback(None))
        return _Entry(source, None, names_of(ready), ready)

    def insert(self, name: str, source: str) -> None:
        """Puts a template of this source at a name, before a file of that name."""
        made = self._parsed(name, source)
        if made.fault:
            raise made.fault
        with self._loading:
            self._inserted[name] = made
            self._begin()

    @property
    def sources(self) -> Mapping[str, str]:
        """The source of each partial that isn't refused, by its name: all files are read."""
        return {name: entry.source for name, entry in self._each().items() if not entry.fault}

    def _each(self) -> Dict[str, _Entry]:
        with self._loading:
            self._look_again()
            found = {name: self._entry(name) for name in self._all()}
        return {name: entry for name, entry in found.items() if entry}

    def source(self, name: str) -> str:
        """The source of the partial of this name. LookupError where there is none, and its fault where it is refused."""
        with self._loading:
            self._look_again()
            entry = self._entry(name)
            if entry is None:
                raise self._unknown(name, self._all())
        if entry.fault:
            raise copy.copy(entry.fault)
        return entry.source

    def __reduce__(self) -> Any:
        read = {name: entry.fault or entry.source for name, entry in self._each().items()}
        return _kept, (read, self._language)


def _kept(read: Dict[str, Read], language: Language) -> FolderPartials:
    return FolderPartials(_Kept(read), language)


def _quoted(name: str) -> str:
    """The name as a message of the library shows it."""
    shown, left = "", _SHOWN
    for it in name:
        left -= 1 if it.isprintable() else _ESCAPED
        if left < 0:
            return f"{shown}..."
        shown += it if it.isprintable() else {"\n": "\\n", "\r": "\\r", "\t": "\\t"}.get(it, f"\\u{{{ord(it):x}}}")
    return shown
