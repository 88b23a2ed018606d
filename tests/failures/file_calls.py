"""A call of a program whose calls in files fail one by one, or of which one is its last, and the order in which it makes them."""
import errno
import itertools
import os
import re
import signal
import stat
from collections import Counter

from faulty import faulty
from room import Plain, files_in

ERRORS = [errno.ENOSPC, errno.EIO, errno.EDQUOT, errno.EINTR, errno.EAGAIN, errno.EACCES, errno.EMFILE]
SHORT, NEEDED = ("read", "write"), ("open", "write", "fsync", "rename")
FLAGS_OF_NEW, TO_WRITE = os.O_CREAT | os.O_EXCL, os.O_WRONLY | os.O_RDWR
# the mode of a page that was there, and of one that is new
OLD_MODE, NEW_MODE = 0o640, 0o644
COUNTS = re.compile(r"pages (\d+), failed (\d+)")


def notes_of(room):
    return f"{os.path.dirname(room.at)}/notes"


def plain_of(library, path, call, room):
    """What the call comes to where nothing fails, with its calls."""
    room.reset()
    ended = faulty(library, [path, *call.arguments], room.at, room.given, notes=notes_of(room))
    return Plain(ended.page, ended.printed, ended.status, files_in(room.at)), ended.noted


def tried_places(count, every):
    """Which of so many calls of a function fail: the first, one in the middle and the last, or each."""
    return range(1, count + 1) if every else sorted({1, (count + 1) // 2, count})


def faults_of(noted, within, every):
    """What fails, in turn: the N-th call of a function within a folder, alone and with all after it, or it does less than it should, alone
    and before one that fails."""
    for name, count in Counter(it.name for it in noted if within in it.path).items():
        for at in tried_places(count, every):
            yield from ({"call": name, "at": at, "error": error} for error in ERRORS)
            # a call that is interrupted is made again, and for ever where each is
            yield from ({"call": name, "at": at, "error": error, "stays": 1} for error in ERRORS if error != errno.EINTR)
            if name in SHORT:
                yield {"call": name, "at": at, "most": 1}
                yield {"call": name, "at": at, "most": 1, "error": errno.ENOSPC}
                yield {"call": name, "at": 0, "most": 7}


def file_calls(given, path, call, room):
    """What is wrong where a call of a function in files fails."""
    plain, noted = plain_of(given.faults, path, call, room)
    words = [path, *call.arguments]
    if plain.status:
        yield f"alone it ends by status {plain.status}: {plain.printed}"
        return
    yield from (f"{part} stays, of a run that was killed" for part in call.dead if part in plain.left)
    told = Counter()
    for fault in faults_of(noted, call.within, given.every):
        room.reset()
        ended = faulty(given.faults, words, room.at, room.given, path=call.within, **fault)
        told[fault["call"]] += ended.status == 1
        wrong = wrong_end(plain, call, room, ended, fault)
        if not wrong:
            room.given.seek(0)
            faulty(given.faults, words, room.at, room.given)
            # where every page is there, a site has nothing to write, and looks for no part
            unlike = [it for it in room.unlike_files(plain) if ended.status or it not in call.dead]
            wrong = [f"called again it leaves {it}" for it in unlike]
        if wrong:
            yield f"{shown(fault)}: {wrong[0]}"
    yield from (f"no {name} that fails is reported" for name in NEEDED if not told[name])


def kept(given, path, call, room):
    """What is wrong where a call in files fails, of a program whose page would come into a file that it reads: that holds what it held."""
    words = [path, *call.arguments]
    noted = faulty(given.faults, words, room.at, room.given, notes=notes_of(room)).noted
    for fault in [{"call": "none", "at": 1}, *faults_of(noted, "", every=True)]:
        room.reset()
        ended = faulty(given.faults, words, room.at, room.given, **fault)
        if files_in(room.at) != call.files or ended.status not in (1, 2):
            yield f"{shown(fault)}: status {ended.status}, it prints {ended.printed[-2:]} and leaves {files_in(room.at)}"


def ended_at(given, path, call, room):
    """What is wrong where the call is killed at one of its calls in files, each in turn, and in the middle of what it writes: a file is as it
    was or whole, and the same call made again removes the part."""
    plain, noted = plain_of(given.faults, path, call, room)
    words = [path, *call.arguments]
    for name, count in Counter(it.name for it in noted).items():
        for at, more in itertools.product(range(1, count + 1), ({}, {"most": 2}) if name == "write" else ({},)):
            room.reset()
            fault = {"call": name, "at": at, "signal": int(signal.SIGKILL), **more}
            faulty(given.faults, words, room.at, room.given, **fault)
            strange = room.strange_files(plain, parts=1)
            room.given.seek(0)
            faulty(given.faults, words, room.at, room.given)
            if strange or (unlike := room.unlike_files(plain)):
                yield f"{shown(fault)}: it leaves {strange}" if strange else f"{shown(fault)}, and called again: {unlike}"


def shown(fault):
    words = {**fault, "error": errno.errorcode[fault["error"]]} if "error" in fault else fault
    return " ".join(f"{name} {value}" for name, value in words.items())


def wrong_end(plain, call, room, ended, fault):
    """What is wrong with a call of whose calls one or more failed: it tells it or does all that it did without, and no half page stands."""
    if ended.status not in (0, 1):
        return [f"status {ended.status}: {ended.printed[-2:]}"]
    strange = [it for it in room.strange_files(plain) if it not in call.dead]
    if strange:
        return [f"it leaves {strange}"]
    told = told_in(plain, ended)
    if ended.status == plain.status and not told:
        return wrong_without_word(plain, call, room, ended, fault)
    if ended.status != 1 or not told or (len(told) > 1 and is_alone(fault)):
        return [f"status {ended.status}, and it prints {ended.printed[-3:]}"]
    return wrong_merge(plain, room, ended, fault) if call.merges else []


def is_alone(fault):
    """Whether one call alone fails, of which one line tells."""
    return fault["at"] and not fault.get("stays") and not fault.get("most")


def wrong_without_word(plain, call, room, ended, fault):
    """What is wrong with a call that tells nothing."""
    unlike = [it for it in room.unlike_files(plain) if it not in call.dead]
    if unlike or ended.page != plain.page:
        return [f"it tells nothing, and leaves {unlike or ended.page[-80:]!r} otherwise"]
    if fault["call"] == "fsync" and fault.get("error") not in (errno.EINTR, None):
        return ["a flush that failed isn't reported"]
    return []


def wrong_merge(plain, room, ended, fault):
    """What is wrong with a merge in which a call failed: a record stops no other, but for a full disk, and what is counted is there."""
    pages, failed = counts_of(ended.printed)
    if pages is None:
        return [f"it counts nothing: {ended.printed}"] if len(told_in(plain, ended)) > 1 and is_alone(fault) else []
    lacking = [it for it in room.unlike_files(plain) if it not in room.call.dead]
    if pages + failed != sum(counts_of(plain.printed)) or len(lacking) > failed:
        return [f"it counts {ended.printed[-1]}, and leaves {lacking}"]
    return []


def told_in(plain, ended):
    """The faults that the call tells, and that it doesn't tell where nothing fails."""
    return [line for line in ended.printed if line.startswith("error: ") and line not in plain.printed]


def counts_of(printed):
    found = COUNTS.fullmatch(printed[-1]) if printed else None
    return (int(found[1]), int(found[2])) if found else (None, None)


def order(given, path, call, room):
    """What is wrong with the order of the calls: what a page's part has to reach before it takes its place, so that a power cut leaves a whole
    page too, and that no other file is written."""
    for name in call.files:
        os.chmod(f"{room.at}/{name}", OLD_MODE)
    noted = faulty(given.faults, [path, *call.arguments], room.at, room.given, notes=notes_of(room)).noted
    at = os.path.realpath(room.at)
    for it in noted:
        it.path, it.second = (os.path.normpath(os.path.join(at, its)) if its else "" for its in (it.path, it.second))
    renames = [place for place, it in enumerate(noted) if it.name == "rename" and it.of_part and not it.answer]
    if not renames:
        yield "no page takes its place by a new name"
    for place in renames:
        is_old = os.path.relpath(noted[place].second, at) in call.files
        yield from wrong_part(noted[:place], noted[place], OLD_MODE if is_old else NEW_MODE)
    yield from (f"it opens {it.path} to write" for it in noted if it.name == "open" and it.flags & TO_WRITE and it.answer >= 0 and not it.of_part)
    if call.merges:
        yield from wrong_folders(noted, renames)


def wrong_part(noted, rename, mode):
    """What is wrong with the calls of a part before it takes its place: it is made new, gets the mode of an old file before its first byte,
    and is flushed after its last."""
    calls = [it for it in noted if it.path == rename.path and it.answer >= 0]
    names = " ".join(it.name for it in calls if it.name in ("open", "fchmod", "chmod", "write", "fsync", "fdatasync"))
    modes = {it.flags & 0o7777 for it in calls if it.name == "write"}
    found = stat.S_IMODE(os.lstat(rename.second).st_mode)
    if not re.fullmatch(r"open( f?chmod)*( write)*( fsync| fdatasync)", names):
        yield f"{rename.file} is made by: {names}"
    elif calls[0].flags & FLAGS_OF_NEW != FLAGS_OF_NEW:
        yield f"{rename.file} isn't made new: {oct(calls[0].flags)}"
    elif modes - {mode}:
        yield f"{rename.file} has the mode {modes} at its first byte"
    if found != mode:
        yield f"{rename.second} has the mode {found:o}"


def wrong_folders(noted, renames):
    """What is wrong with the flushes of the folders: each that was written to is flushed once, after its last page."""
    last = {os.path.dirname(noted[place].second): place for place in renames}
    for folder, place in last.items():
        flushed = [at for at, it in enumerate(noted) if it.name == "fsync" and it.path == folder and not it.answer]
        if len(flushed) != 1 or flushed[0] < place:
            yield f"{folder} is flushed {len(flushed)} times, and not once after its last page"
