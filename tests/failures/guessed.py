"""Parts of pages whose names somebody guessed, who put something else there before."""
import os

from entries import PIPE, SOCKET, Link, entries_in, put
from faulty import faulty
from room import Plain, files_in

# the number that the program has as a process, which no process has, and how many counts of parts are taken
PROCESS, TAKEN = 999999998, 40
VICTIM, MINE = "../victim", "mine"
PLANTED = {"files": MINE, "links to a file": Link(VICTIM), "links to nowhere": Link("../nowhere"), "pipes": PIPE, "sockets": SOCKET, "folders": None}


def guessed(given, path, call, room):
    """What is wrong where others' entries stand under the names that the parts would get: they are left alone, or removed as parts of a run
    that was killed, nothing is written through them, and every page is written."""
    words = [path, *call.arguments]
    room.reset()
    ended = faulty(given.faults, words, room.at, room.given)
    plain = Plain(ended.page, ended.printed, ended.status, files_in(room.at))
    folders = {os.path.dirname(page) for page, text in plain.left.items() if call.files.get(page) != text}
    victim = os.path.join(room.at, VICTIM)
    for title, what in PLANTED.items():
        room.reset()
        put(room.at, {VICTIM: MINE})
        names = [os.path.join(folder, f".{PROCESS}-{n}.bikleinu-part") for folder in folders for n in range(TAKEN)]
        put(room.at, {f"{name}/" if what is None else name: what for name in names})
        before = entries_in(room.at)
        ended = faulty(given.faults, words, room.at, room.given, pid=PROCESS)
        found = entries_in(room.at)
        for name in names:
            remove(os.path.join(room.at, name))
        wrong = wrong_left(plain, before, found, names) or wrong_victim(victim)
        if wrong or (ended.printed, ended.status) != (plain.printed, plain.status):
            yield f"{title}: status {ended.status}, it prints {ended.printed[-2:]}; {wrong}"


def wrong_left(plain, before, found, names):
    """What isn't a page as it has to be, or was put there by others and is another now."""
    wrong = [path for path, text in plain.left.items() if path not in found or not found[path].is_of(text)]
    wrong += [name for name in names if name in found and found[name] != before[name]]
    return f"{wrong[:3]} aren't as they have to be" if wrong else None


def wrong_victim(victim):
    if os.path.exists(os.path.join(os.path.dirname(victim), "nowhere")):
        return "it makes a file by a link that leads nowhere"
    with open(victim, encoding="utf-8") as file:
        return None if file.read() == MINE else "it writes by a link"


def remove(path):
    if os.path.isdir(path) and not os.path.islink(path):
        os.rmdir(path)
    elif os.path.lexists(path):
        os.remove(path)
