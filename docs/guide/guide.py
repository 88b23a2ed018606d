"""The entries of the guide: what they hold, how they are read, and how the built program renders them. build and tests/guide/run
stand on it."""
import json
import os
import re
import shlex
import subprocess
import tempfile
from dataclasses import dataclass, field

HERE = os.path.dirname(os.path.abspath(__file__))
TOP = os.path.dirname(os.path.dirname(HERE))
PROGRAM = f"{TOP}/crates/bikleinu/out/bikleinu"
STANDARD = f"{TOP}/crates/liquid_language/specs/Standard.antt"
FILTER_KINDS = f"{TOP}/crates/liquid_filters/specs/Kinds.antt"

# what an entry and its parts must hold, and what they may hold besides
ENTRY = {"name", "kind", "set", "form", "summary", "arguments", "examples", "mistakes"}, {"title", "notes"}
ARGUMENT = {"name", "what"}, {"default"}
EXAMPLE = {"title", "template"}, {"data", "partials", "options", "page", "fault"}
FAULT = {"kind", "comes", "what", "mend"}, {"template", "data", "partials"}
TASK = {"id", "title", "template", "page", "trap"}, {"data", "partials", "options"}
MISTAKE = {"why", "wrong", "right", "page"}, {"data", "partials", "options", "wrong_page", "fault"}
KINDS = ["basics", "tag", "block", "filter"]
# where a text may be a list of its lines
LINES = {"form", "template", "page", "wrong", "wrong_page", "right"}
# the kind of a fault, after the name of the file that it is in
PRINTED = re.compile(r"error: [\w.]+: (\w+): .*\n", re.S)


@dataclass
class Case:
    """A template of an entry, with what it is given and what the program has to answer."""

    entry: str
    title: str
    template: str
    page: str
    fault: str = None
    data: dict = field(default_factory=dict)
    partials: dict = field(default_factory=dict)
    options: list = field(default_factory=list)


def read_json(path):
    with open(path, encoding="utf-8") as file:
        return json.load(file)


def joined(value):
    """A text that may stand as a list of its lines."""
    return "\n".join(value) if isinstance(value, list) else value


def with_whole_texts(part):
    whole = {name: joined(value) if name in LINES else value for name, value in part.items()}
    if "partials" in part:
        whole["partials"] = {name: joined(text) for name, text in part["partials"].items()}
    return whole


def must_hold(part, names, where):
    needed, allowed = names
    strange = set(part) - needed - allowed
    missing = needed - set(part)
    if strange or missing:
        raise SystemExit(f"guide: {where}: missing {sorted(missing)}, unknown {sorted(strange)}")


def must_answer(part, names, where):
    if not names & set(part):
        raise SystemExit(f"guide: {where}: one of {sorted(names)} is missing")


def read_entry(name):
    """The entry of the file, with its identifier and whole texts."""
    entry = read_json(f"{HERE}/entries/{name}.json")
    must_hold(entry, ENTRY, name)
    for argument in entry["arguments"]:
        must_hold(argument, ARGUMENT, f"{name}: an argument")
    for example in entry["examples"]:
        must_hold(example, EXAMPLE, f"{name}: an example")
        must_answer(example, {"page", "fault"}, f"{name}: an example")
    for mistake in entry["mistakes"]:
        must_hold(mistake, MISTAKE, f"{name}: a mistake")
        must_answer(mistake, {"wrong_page", "fault"}, f"{name}: a mistake")
    entry = with_whole_texts(entry) | {"id": name}
    entry["examples"] = [with_whole_texts(example) for example in entry["examples"]]
    entry["mistakes"] = [with_whole_texts(mistake) for mistake in entry["mistakes"]]
    return entry


def read_guide():
    """The groups with their entries, and the faults: the document that the templates are given."""
    guide = read_json(f"{HERE}/guide.json")
    listed = [name for group in guide["groups"] for name in group["entries"]]
    files = sorted(name[:-5] for name in os.listdir(f"{HERE}/entries") if name.endswith(".json"))
    if sorted(listed) != files:
        raise SystemExit(f"guide: not both an entry and in one group of guide.json: {sorted(set(listed) ^ set(files)) or 'a name stands twice'}")
    titles = {one["id"]: one["title"] for one in guide["sets"]}
    for group in guide["groups"]:
        group["entries"] = [read_entry(name) for name in group["entries"]]
        for entry in group["entries"]:
            entry["set_title"] = titles[entry["set"]]
    guide["faults"] = read_json(f"{HERE}/faults.json")["faults"]
    for fault in guide["faults"]:
        must_hold(fault, FAULT, fault["kind"])
    guide["parts"] = read_json(f"{HERE}/howto.json")["parts"]
    for part in guide["parts"]:
        for task in part["tasks"]:
            must_hold(task, TASK, task.get("id"))
        part["tasks"] = [with_whole_texts(task) for task in part["tasks"]]
    guide["words"] = read_json(f"{HERE}/words.json")
    # what a word in a sentence may be a link to
    guide["names"] = [entry["id"] for entry in entries(guide) if entry["kind"] != "basics"] + [one["kind"] for one in guide["faults"]]
    return guide


def entries(guide):
    return [entry for group in guide["groups"] for entry in group["entries"]]


def tasks(guide):
    return [task for part in guide["parts"] for task in part["tasks"]]


def given(part):
    """What the program is given besides the template."""
    return {name: part[name] for name in ("data", "partials", "options") if name in part}


def example_case(name, example):
    return Case(name, example["title"], example["template"], example.get("page", ""), example.get("fault"), **given(example))


def mistake_cases(name, mistake):
    wrong = Case(name, f"wrong: {mistake['why']}", mistake["wrong"], mistake.get("wrong_page", ""), mistake.get("fault"), **given(mistake))
    return [wrong, Case(name, f"right: {mistake['why']}", mistake["right"], mistake["page"], **given(mistake))]


def cases(guide):
    """Every template of the guide but those of faults."""
    found = [example_case(f"how-{task['id']}", task) for task in tasks(guide)]
    for entry in entries(guide):
        found += [example_case(entry["id"], example) for example in entry["examples"]]
        for mistake in entry["mistakes"]:
            found += mistake_cases(entry["id"], mistake)
    return found


def fault_cases(guide):
    """The template of each fault that has one; what it writes before plays no part."""
    return [Case(one["kind"], "its template", one["template"], None, one["kind"], **given(one)) for one in guide["faults"] if "template" in one]


def called(case, program):
    """How a call of the program ended."""
    with tempfile.TemporaryDirectory(prefix="guide-") as room:
        def put(name, text):
            with open(f"{room}/{name}", "w", encoding="utf-8", newline="") as file:
                file.write(text)
            return name

        words = [program, "render", "-q", put("page.liquid", case.template), put("data.json", json.dumps(case.data, ensure_ascii=False))]
        for at, (name, text) in enumerate(case.partials.items()):
            words += ["-p", f"{name}={put(f'partial-{at}', text)}"]
        return subprocess.run(words + case.options, cwd=room, capture_output=True, timeout=60)


def rendered(case, program=PROGRAM):
    """What the program writes, and the kind of the fault that it tells, if any."""
    ran = called(case, program)
    printed = ran.stderr.decode(errors="replace")
    page = ran.stdout.decode(errors="replace")
    if ran.returncode == 0 and not printed:
        return page, None
    fault = PRINTED.fullmatch(printed)
    return page, fault[1] if ran.returncode == 1 and fault else f"status {ran.returncode} and {printed[:200]!r}"


def read_template(name):
    with open(f"{HERE}/templates/{name}.liquid", encoding="utf-8") as file:
        return file.read()


def for_templates(guide, program):
    """The guide with data and options as texts, without missing names, and with what the program tells of each fault."""
    shown = [part for entry in entries(guide) for part in entry["examples"] + entry["mistakes"]]
    for part in shown + tasks(guide) + guide["faults"]:
        part["data_text"] = data_text(part["data"]) if "data" in part else None
        part["options_text"] = shlex.join(part["options"]) if "options" in part else None
        part.update({name: part.get(name, absent) for name, absent in (("page", ""), ("wrong_page", ""), ("fault", None))})
    for case, fault in zip(fault_cases(guide), [one for one in guide["faults"] if "template" in one]):
        fault["printed"] = called(case, program).stderr.decode(errors="replace")
    return guide


def data_text(data):
    flat = json.dumps(data, ensure_ascii=False)
    if len(flat) <= 72:
        return flat
    rows = [f"  {json.dumps(name, ensure_ascii=False)}: {list_text(value)}" for name, value in data.items()]
    return "{\n" + ",\n".join(rows) + "\n}"


def list_text(value):
    """A long list has a line for each item."""
    flat = json.dumps(value, ensure_ascii=False)
    if len(flat) <= 60 or not isinstance(value, list):
        return flat
    return "[\n" + ",\n".join(f"    {json.dumps(item, ensure_ascii=False)}" for item in value) + "\n  ]"


def pages(program=PROGRAM):
    """Each page of the guide by the name of its file, rendered by the program."""
    guide = for_templates(read_guide(), program)
    names = sorted(name.removesuffix(".liquid") for name in os.listdir(f"{HERE}/templates/parts"))
    parts = {name: read_template(f"parts/{name}") for name in names}
    wanted = {"README.md": ("index.md", guide), "guide.html": ("guide.html", guide)}
    wanted |= {f"{name}.md": (f"{name}.md", guide) for name in ("howto", "faults")}
    for group in guide["groups"]:
        wanted[f"{group['id']}.md"] = ("group.md", {"group": group})
    made = {}
    for name, (template, data) in wanted.items():
        page, fault = rendered(Case(name, template, read_template(template), None, None, data, parts, ["--decimals", "text"]), program)
        if fault:
            raise SystemExit(f"guide: {template} ends by {fault}, after {page[-200:]!r}")
        made[name] = page
    return made


def standard_names():
    """The tags, blocks and filters of the standard language, as its definition names them."""
    with open(STANDARD, encoding="utf-8") as file:
        text = file.read()
    parts = re.split(r"^(standard_\w+) =$", text, flags=re.M)[1:]
    bodies = {name: body.split("\n\n")[0] for name, body in zip(parts[::2], parts[1::2])}
    tags, blocks = (re.findall(r'codes "(\w+)"', bodies[name]) for name in ("standard_tags", "standard_blocks"))
    names = names_of_filters()
    return {"tag": tags, "block": blocks, "filter": [names[kind] for kind in re.findall(r"([A-Z]\w*) ∷", bodies["standard_filters"])]}


def names_of_filters():
    """The name of each kind of filter, as its definition has it."""
    with open(FILTER_KINDS, encoding="utf-8") as file:
        return dict(re.findall(r'^kind_name ([A-Z]\w*) = codes "(\w+)"$', file.read(), flags=re.M))


def kinds_of_faults():
    """The kinds of faults, as their definition names them."""
    with open(f"{TOP}/crates/liquid_model/specs/ErrorKinds.antt", encoding="utf-8") as file:
        return re.findall(r'^name_of \w+ = codes "(\w+)"$', file.read(), flags=re.M)
