"""Ends `bikleinu merge` by signals at random moments: under a final name stands a whole page, and `--from` goes on with the first that isn't
there.

A page is written beside its final name and then renamed, so what is killed leaves at most one part of a page: a hidden file of the folder,
which the next call removes."""
import os
import random
import shutil
import signal
import subprocess
import tempfile
import time

from faulty import PART

RECORDS, LINES, KILLS = 40, 2500, 200
SIGNALS = (signal.SIGKILL, signal.SIGTERM, signal.SIGINT, signal.SIGHUP)
TEMPLATE = "{% for line in lines %}{{ name }}, {{ line }}\n{% endfor %}"
MERGE = ("merge", "t", "r", "-d", "d", "-o", "mails/{{ id }}.eml")


def killed(program):
    """What went wrong where a merge was killed, or None."""
    with tempfile.TemporaryDirectory() as room:
        with open(f"{room}/t", "w", encoding="utf-8") as file:
            file.write(TEMPLATE)
        with open(f"{room}/d", "w", encoding="utf-8") as file:
            file.write(f'{{"lines": [{", ".join(map(str, range(LINES)))}]}}')
        with open(f"{room}/r", "w", encoding="utf-8") as file:
            file.writelines(f'{{"id": {n}, "name": "Name {n}"}}\n' for n in range(1, RECORDS + 1))
        wanted = {f"{n}.eml": "".join(f"Name {n}, {k}\n" for k in range(LINES)) for n in range(1, RECORDS + 1)}
        whole = min(seconds_of(program, room) for _ in range(3))
        if pages_in(room) != wanted:
            return "a merge that isn't killed writes other pages"
        moments = random.Random(56)
        return next(filter(None, (once(program, room, moments.uniform(0, 1.2 * whole), moments.choice(SIGNALS), wanted) for _ in range(KILLS))), None)


def once(program, room, moment, sent, wanted):
    """What went wrong where a merge was sent a signal after so many seconds, or None."""
    shutil.rmtree(f"{room}/mails", ignore_errors=True)
    with subprocess.Popen([program, *MERGE], cwd=room, stdin=subprocess.DEVNULL, stderr=subprocess.DEVNULL) as running:
        time.sleep(moment)
        running.send_signal(sent)
    left, when = pages_in(room), f"{sent.name} after {moment:.4f} seconds"
    parts = [name for name in left if PART.fullmatch(name)]
    there = {name: text for name, text in left.items() if name not in parts}
    first = len(there) + 1
    if there != {name: wanted[name] for name in (f"{n}.eml" for n in range(1, first))}:
        return f"{when}: {len(there)} pages, of which one is no whole page or comes before its time"
    if len(parts) > 1 or any(not beginnings(left[part], wanted) for part in parts):
        return f"{when}: {parts}, more than one part of a page, or none of one"
    if first <= RECORDS and (status := subprocess.run([program, *MERGE, "--from", str(first)], cwd=room, stderr=subprocess.DEVNULL).returncode):
        return f"from record {first} on: status {status}"
    return None if pages_in(room) == wanted else f"{when}, and from record {first} on: other pages, or a part"


def beginnings(text, pages):
    """The pages of which this is a beginning."""
    return [name for name, page in pages.items() if page.startswith(text)]


def seconds_of(program, room):
    began = time.monotonic()
    subprocess.run([program, *MERGE], cwd=room, stdin=subprocess.DEVNULL, stderr=subprocess.DEVNULL, check=True)
    return time.monotonic() - began


def pages_in(room):
    """The files that the merge left, and their texts."""
    folder, pages = f"{room}/mails", {}
    for name in os.listdir(folder) if os.path.isdir(folder) else ():
        with open(f"{folder}/{name}", encoding="utf-8") as file:
            pages[name] = file.read()
    return pages
