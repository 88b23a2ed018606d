"""Checks templates with many names that nobody has beside many that are set. The time of a core that this takes is a tenth of what it takes
where each name of the one sort is compared with each of the other, letter by letter."""
import json
import os
import resource
import subprocess
import tempfile

TEMPLATES, NAMES = 400, 20
# what a suggestion is made of; and how many are made
SUGGESTED, MOST = "; did you mean `", 100
# seconds of a core: a comparison of each with each takes 19 on a quiet machine, and this less than one
BOUND = 5
# how a name that is set and one that nobody has are spelled: with one edit between them, and with many
SPELLINGS = (("total{}", "totel{}", MOST), ("amount{}", "lesser{}", 0))


def many_names(program):
    """What went wrong of a check of so many names, or None."""
    for of_set, of_unknown, wanted in SPELLINGS:
        with tempfile.TemporaryDirectory() as room:
            os.mkdir(f"{room}/pages")
            for template in range(TEMPLATES):
                numbers = [f"{template:03}_{n:02}" for n in range(NAMES)]
                sets = "".join(f"{{% assign {of_set.format(it)} = 1 %}}{{{{ {of_set.format(it)} }}}}" for it in numbers)
                reads = "".join(f"{{{{ {of_unknown.format(it)} }}}}\n" for it in numbers)
                with open(f"{room}/pages/{template:03}", "w", encoding="utf-8") as file:
                    file.write(f"{sets}\n{reads}")
            with open(f"{room}/d.json", "w", encoding="utf-8") as file:
                file.write("{}")
            began = seconds()
            ran = subprocess.run([program, "check", "pages", "-d", "d.json", "--format", "json"], cwd=room, stdin=subprocess.DEVNULL, capture_output=True, text=True)
            took = seconds() - began
        said = [json.loads(line) for line in ran.stdout.splitlines()]
        unknown = [it["message"] for it in said if it["kind"] == "UnknownName"]
        if len(said) != len(unknown) or len(unknown) != TEMPLATES * NAMES:
            return f"{of_unknown}: {len(unknown)} of {len(said)} warnings are of unknown names: {ran.stderr}"
        suggested = [it for it in unknown if SUGGESTED in it]
        if len(suggested) != wanted:
            return f"{of_unknown}: {len(suggested)} suggestions"
        if took > BOUND:
            return f"{of_unknown}: it takes {took:.1f} seconds of a core, and {BOUND} are allowed"
    return None


def seconds():
    """Of a core, by the programs that were called."""
    used = resource.getrusage(resource.RUSAGE_CHILDREN)
    return used.ru_utime + used.ru_stime
