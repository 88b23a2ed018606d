"""Merges where files can't grow, onto a disk that is full, and onto one that can only be read: a page that doesn't fit leaves no part. Each
record whose file would be too large is reported, a full disk and a read-only one end the merge by one line, and `--from` goes on. Where
the signal of a file that grows too large isn't ignored, it ends the program, and the file keeps what it held."""
import errno
import os
import resource
import signal
import subprocess
import tempfile

from faulty import asked_of

MERGE = ("merge", "t", "r", "-o", "mails/{{ id }}")
RECORDS, FIT = 6, 3


def filled_up(program):
    """What went wrong of a merge whose later pages don't fit, and of the merge that goes on once they do, or None."""
    with tempfile.TemporaryDirectory() as room:
        wanted = {str(n): f"{n}: {'x' * 10 * n}" for n in range(1, RECORDS + 1)}
        with open(f"{room}/t", "w", encoding="utf-8") as file:
            file.write("{{ id }}: {{ text }}")
        with open(f"{room}/r", "w", encoding="utf-8") as file:
            file.writelines(f'{{"id": {n}, "text": "{"x" * 10 * n}"}}\n' for n in range(1, RECORDS + 1))
        most = len(wanted[str(FIT)])
        printed, status = merged(program, room, preexec_fn=lambda: resource.setrlimit(resource.RLIMIT_FSIZE, (most, most)))
        refused = [f"error: record {n}: the file `mails/{n}` can't be written: File too large" for n in range(FIT + 1, RECORDS + 1)]
        if (printed, status) != ([*refused, f"pages {FIT}, failed {RECORDS - FIT}"], 1):
            return f"status {status}, and it prints {printed}"
        if (left := pages_in(room)) != {name: text for name, text in wanted.items() if int(name) <= FIT}:
            return f"it leaves {sorted(left)}, or a part"
        printed, status = merged(program, room, "--from", str(FIT + 1))
        return None if status == 0 and pages_in(room) == wanted else f"gone on with: status {status}, and it prints {printed}"


def ended(program):
    """What went wrong of a page that is too large for a file where the signal for that isn't ignored, and of the next call, or None."""
    with tempfile.TemporaryDirectory() as room:
        for name, text in (("t", "x" * 99), ("o", "old")):
            with open(f"{room}/{name}", "w", encoding="utf-8") as file:
                file.write(text)
        call = {"cwd": room, "stdin": subprocess.DEVNULL, "capture_output": True}
        status = subprocess.run([program, "render", "t", "-o", "o"], preexec_fn=bound_files, **call).returncode
        if (status, text_at(f"{room}/o")) != (-signal.SIGXFSZ, "old"):
            return f"too large a page: status {status}, and the file holds {text_at(f'{room}/o')}"
        status = subprocess.run([program, "render", "t", "-o", "o"], **call).returncode
        left = sorted(os.listdir(room))
        return None if (status, left) == (0, ["o", "t"]) else f"the next call: status {status}, and it leaves {left}"


def bound_files():
    resource.setrlimit(resource.RLIMIT_CORE, (0, 0))
    resource.setrlimit(resource.RLIMIT_FSIZE, (50, 50))


def text_at(path):
    with open(path, encoding="utf-8") as file:
        return file.read()


def filled(program, library):
    """What went wrong of a merge onto a disk that is full at its second page, or within it, and of the merge that goes on, or None."""
    for how in ({"at": 2, "stays": 1}, {"at": 2, "most": 1}):
        if wrong := filled_within(program, asked_of(library, {"call": "write", "path": "mails", "error": errno.ENOSPC, **how})):
            return f"{how}: {wrong}"
    return None


def filled_within(program, faults):
    with tempfile.TemporaryDirectory() as room:
        with open(f"{room}/t", "w", encoding="utf-8") as file:
            file.write("page {{ id }}")
        with open(f"{room}/r", "w", encoding="utf-8") as file:
            file.writelines(f'{{"id": {n}}}\n' for n in range(1, 5))
        os.mkdir(f"{room}/mails")
        with open(f"{room}/mails/2", "w", encoding="utf-8") as file:
            file.write("old")
        printed, status = merged(program, room, env=faults)
        if (printed, status) != (["error: record 2: the file `mails/2` can't be written: No space left on device"], 1):
            return f"status {status}, and it prints {printed}"
        if (left := pages_in(room)) != {"1": "page 1", "2": "old"}:
            return f"it leaves {left}"
        printed, status = merged(program, room, "--from", "2")
        wanted = {str(n): f"page {n}" for n in range(1, 5)}
        return None if status == 0 and pages_in(room) == wanted else f"gone on with: status {status}, and it prints {printed}"


# mounts a disk that can only be read, for the call that follows alone
READ_ONLY = ("unshare", "-rm", "sh", "-c", "mount -t tmpfs -o ro none mails || exit 77; exec \"$@\"", "sh")


def read_only(program):
    """What went wrong of a merge onto a disk that can only be read, or None. Where none can be mounted, that is said, and nothing tried."""
    with tempfile.TemporaryDirectory() as room:
        with open(f"{room}/t", "w", encoding="utf-8") as file:
            file.write("{{ id }}")
        with open(f"{room}/r", "w", encoding="utf-8") as file:
            file.writelines(f'{{"id": {n}}}\n' for n in range(1, 5))
        os.mkdir(f"{room}/mails")
        try:
            done = subprocess.run([*READ_ONLY, program, *MERGE], cwd=room, stdin=subprocess.DEVNULL, capture_output=True, text=True)
        except FileNotFoundError:
            done = None
        if done is None or done.returncode == 77 or done.stderr.startswith("unshare: "):
            print("bikleinu: no read-only disk can be mounted on this machine, so a merge onto one isn't tried")
            return None
        wanted = "error: record 1: the file `mails/1` can't be written: Read-only file system\n"
        return None if (done.returncode, done.stderr) == (1, wanted) else f"status {done.returncode}, and it prints {done.stderr}"


def merged(program, room, *words, **how):
    """The lines that a merge prints, and its status. A file that may not grow is a write that fails, since Python ignores the signal."""
    done = subprocess.run([program, *MERGE, *words], cwd=room, stdin=subprocess.DEVNULL, capture_output=True, text=True, restore_signals=False, **how)
    return done.stderr.splitlines(), done.returncode


def pages_in(room):
    pages = {}
    for name in os.listdir(f"{room}/mails"):
        pages[name] = text_at(f"{room}/mails/{name}")
    return pages
