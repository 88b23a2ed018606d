"""Runs examples/cluster on four workers, of which one is killed while it renders: every page is there once, and every fault has its record.

    cluster.py        a line for each thing that isn't well, and at the end "N passed, M failed"; the status is 3 where there is no
                      dask.distributed for this Python; with --there nothing else is asked
"""
import glob
import json
import os
import signal
import sys
import tempfile
import threading
import time

HERE = os.path.dirname(os.path.abspath(__file__))
TOP = os.path.dirname(os.path.dirname(HERE))
sys.dont_write_bytecode = True
sys.path[:0] = [HERE, f"{TOP}/bindings/python", f"{TOP}/examples/cluster"]

try:
    from dask.distributed import Client, LocalCluster
except ImportError:
    sys.exit(3)

import merge
from bikleinu import Environment
from checks import first, report

RECORDS, SIZE, WORKERS = 1200, 50, 4
# each page takes long enough for a worker to be killed on its way
SOURCE = "{% for i in (1..3000) %}{% assign x = i | plus: 1 %}{% endfor %}{{ n }}{% render 'end' %}"
WRONG = {
    7: ('{"n": 1.5}', "", "Float: in the data: line 1, column 7: found `1.5`"),
    600: ('{"m": 1}', "", "UnknownVariable: line 1, column 68: `n` has no value"),
    1200: ('{"n": 1', "", "InvalidInput: in the data: line 1, column 8: "),
}
BLANK = 8


def write_records(path):
    with open(path, "w", encoding="utf-8") as file:
        for number in range(1, RECORDS + 1):
            line = WRONG[number][0] if number in WRONG else json.dumps({"n": number})
            file.write("\n" if number == BLANK else f"{line}\n")


def kill_one(workers, out):
    """Kills a worker when the first pages are there."""
    while not glob.glob(f"{out}/*.jsonl"):
        time.sleep(0.005)
    os.kill(sorted(workers.values())[0], signal.SIGKILL)


def begun_again(dask_scheduler):
    """How many partitions were taken from a worker that was at them."""
    return sum(it[1:3] == ("processing", "released") for it in dask_scheduler.transition_log if str(it[0]).startswith("letters-"))


def merged(room):
    """What merge answers and tells, and how many partitions were begun again."""
    os.mkdir(f"{room}/out")
    write_records(f"{room}/records.jsonl")
    template, lines = Environment(partials={"end": "!"}).from_string(SOURCE), []
    with LocalCluster(n_workers=WORKERS, threads_per_worker=1, dashboard_address=None) as cluster, Client(cluster) as client:
        workers = client.run(os.getpid)
        killer = threading.Thread(target=kill_one, args=(workers, f"{room}/out"))
        killer.start()
        counts = merge.merge(client, template, f"{room}/records.jsonl", f"{room}/out", SIZE, lines.append)
        killer.join()
        again = client.run_on_scheduler(begun_again)
    return counts, lines, again


def answers_of(room):
    """The answers that were written, by their lines, and the lines that were written more than once."""
    found, twice = {}, []
    for path in glob.glob(f"{room}/out/*"):
        with open(path, encoding="utf-8") as file:
            for it in map(json.loads, file):
                twice += [it["line"]] if it["line"] in found else []
                found[it["line"]] = it
    return found, twice


def wrong_answer(number, answer):
    if number in WRONG:
        _, text, fault = WRONG[number]
        well = answer["page"] == text and answer.get("fault", "").startswith(fault)
    else:
        well = answer == {"line": number, "page": f"{number}!"}
    return None if well else f"{answer}"


def whole():
    with tempfile.TemporaryDirectory() as room:
        counts, lines, again = merged(room)
        found, twice = answers_of(room)
    wanted = set(range(1, RECORDS + 1)) - {BLANK}
    starts = {f"line {number}: {fault}" for number, (_, _, fault) in WRONG.items()}
    return first(
        [
            f"pages of the lines {twice[:9]} are there twice" if twice else None,
            f"pages are lost or are none of a record: {sorted(wanted ^ set(found))[:9]}" if wanted != set(found) else None,
            *(wrong_answer(number, answer) for number, answer in found.items()),
            None if counts == (len(wanted), len(WRONG)) else f"the counts {counts}",
            None if all(any(line.startswith(it) for line in lines) for it in starts) and len(lines) == len(WRONG) else f"it prints {lines}",
            None if again else "no partition was begun again, so nothing was tried",
        ]
    )


if __name__ == "__main__" and "--there" not in sys.argv:
    # that a worker was killed is no news, and neither is what others write at their end
    os.dup2(os.open(os.devnull, os.O_WRONLY), 2)
    report([("a worker that is killed", whole)])
