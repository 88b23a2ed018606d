"""Renders a template over each record of a file of JSON lines, on the workers of a cluster of dask.distributed.

    python3 merge.py TEMPLATE PARTIALS RECORDS OUT [--workers N] [--size N] [--scheduler ADDRESS]

The records are cut into partitions of so many lines. A worker renders a partition and writes its pages and faults to OUT, a line of JSON
for each record: {"line": N, "page": TEXT}, and {"line": N, "fault": MESSAGE, "page": TEXT} with the text up to the fault. The file has
its name only when it is whole, so a partition that is rendered twice, since its worker died or couldn't be reached, leaves one file
all the same. The workers read RECORDS and write to OUT under the same paths as this program.
"""
import argparse
import glob
import json
import os
import sys
from dataclasses import dataclass

from bikleinu import Environment, LiquidError
from dask.distributed import Client, LocalCluster, as_completed

# how many faults of a partition are shown; its file has all
SHOWN = 3


@dataclass(frozen=True)
class Partition:
    """Some lines of the records: the number of the first one, from 1, where they begin and end, and the file of their pages."""

    first: int
    begin: int
    end: int
    path: str


def partitions(records, out, size):
    """The partitions of a file, of so many lines each."""
    with open(records, "rb") as file:
        first, begin, at = 1, 0, 0
        for number, line in enumerate(file, 1):
            at += len(line)
            if number % size == 0:
                yield Partition(first, begin, at, f"{out}/letters-{first:09}.jsonl")
                first, begin = number + 1, at
        if begin < at:
            yield Partition(first, begin, at, f"{out}/letters-{first:09}.jsonl")


def lines_of(records, partition):
    """The lines of a partition that aren't blank, with their numbers."""
    with open(records, "rb") as file:
        file.seek(partition.begin)
        text = file.read(partition.end - partition.begin)
    return [(number, line) for number, line in enumerate(text.split(b"\n"), partition.first) if line.strip()]


def answer(template, number, line):
    """What a record comes to. Its line is JSON, which the library reads itself."""
    try:
        page = template.page(line.decode())
    except UnicodeDecodeError:
        return {"line": number, "fault": "the line is no UTF-8", "page": ""}
    except LiquidError as fault:
        return {"line": number, "fault": str(fault), "page": ""}
    return {"line": number, "fault": str(page.fault), "page": page.text} if page.fault else {"line": number, "page": page.text}


def render(template, records, partition):
    """Writes the pages of a partition. The answer is how many there are, how many ended by a fault, and the first of these."""
    answers = [answer(template, number, line) for number, line in lines_of(records, partition)]
    part = f"{partition.path}.{os.getpid()}.part"
    with open(part, "w", encoding="utf-8") as file:
        file.writelines(json.dumps(it, ensure_ascii=False) + "\n" for it in answers)
    os.replace(part, partition.path)
    faults = [f"line {it['line']}: {it['fault']}" for it in answers if "fault" in it]
    return len(answers), len(faults), faults[:SHOWN]


def merge(client, template, records, out, size, tell=print):
    """Renders all records. The answer is how many pages were written, and how many of them ended by a fault."""
    cut = list(partitions(records, out, size))
    futures = [client.submit(render, template, records, it, key=f"letters-{it.first:09}", pure=False) for it in cut]
    written = failed = 0
    for _, (count, faults, first) in as_completed(futures, with_results=True):
        written, failed = written + count, failed + faults
        for line in first:
            tell(line)
    # what workers left that died
    for part in glob.glob(f"{glob.escape(out)}/*.part"):
        os.remove(part)
    return written, failed


def main():
    asking = argparse.ArgumentParser(description="Renders a template over each record of a file, on a cluster.")
    for name in ("template", "partials", "records", "out"):
        asking.add_argument(name)
    asking.add_argument("--workers", type=int, default=4, help="how many processes of this machine, where no scheduler is named")
    asking.add_argument("--size", type=int, default=1000, help="how many records are rendered at a time")
    asking.add_argument("--scheduler", help="the address of a scheduler whose workers have the package and the files")
    asked = asking.parse_args()
    with open(asked.template, encoding="utf-8", newline="") as file:
        template = Environment(partials=asked.partials).from_string(file.read())
    os.makedirs(asked.out, exist_ok=True)
    cluster = asked.scheduler or LocalCluster(n_workers=asked.workers, threads_per_worker=1, dashboard_address=None)
    with Client(cluster) as client:
        written, failed = merge(client, template, os.path.abspath(asked.records), os.path.abspath(asked.out), asked.size)
    if not asked.scheduler:
        cluster.close()
    print(f"{written} pages, {failed} of them ended by a fault", file=sys.stderr)
    return 1 if failed else 0


if __name__ == "__main__":
    sys.exit(main())
