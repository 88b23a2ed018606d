"""What a check's words come to: whether a function was refused by a goal of its own, and why an edit wasn't refused."""
import re

from answers import ERROR, LOST_NAME, by_hand, handed_on, proves, renames, unread_answers, wants_answer
from edits import function_of, sources, span_of, text_of
from functions import first_line

# whether a goal that may be open for want of an answer by hand counts for nothing (--strict)
strict = {"is_on": False}
# what the prover can't even read
UNREAD = re.compile(r"is not in scope|has no field|is no name|operand is missing|expected the end|cannot continue")
# what the prover says of a function that it doesn't judge at all, and of the one of its cycle of calls for which it doesn't
UNCOVERED = re.compile(r"^ahead of the check: (\S+): the borrow checker does not cover this function yet(?:: in `([^`]+)`)?.*", re.M)
GOALS = re.compile(r"did not prove ((?:`[^`]+`(?:, | and )?)+)")
LEFT = re.compile(r"^note: (?:\./)?(src/\S+?):(\d+):\d+: it is not proved that .*\(`([^`]+)`\)", re.M)


def refused_by(crate, edit, function, said):
    """Whether the check names a goal of this very function, or of a closure in it, that isn't proved and has in its name what the edit
    tells. A goal that may be open for want of an answer by hand doesn't count."""
    answers, unread = answered_of(crate, function, said)

    def counts(goal):
        is_lost = goal in unread or renames(edit, function, unread) and wants_answer(goal, function, answers, unread)
        return not (strict["is_on"] and is_lost)

    return any(has_open_goal(name, function, verdict, said, edit.goal, counts) for name, verdict in verdicts_of(crate, function, said))


def answered_of(crate, function, said):
    """The answers by hand of the function, and those that the check couldn't read."""
    names = [name for name, _ in verdicts_of(crate, function, said)]
    return by_hand(names, function, said.folder), unread_answers(names, function, said)


def answers_for(crate, function, said):
    """Which answers by hand have to go under other names, for the goals of the function that want one."""
    if not strict["is_on"]:
        return ()
    goals = goals_left(function, said)
    for _, (_, why) in verdicts_of(crate, function, said):
        goals += named_goals(why)
    return handed_on(function, *answered_of(crate, function, said), sorted(set(goals)))


def is_left(crate, function, said):
    """Whether the check refuses the function, for whatever reason."""
    return any(kind in ("no proof", "not proved") for _, (kind, _) in verdicts_of(crate, function, said))


def verdicts_of(crate, function, said):
    """What the check says of the function and of the closures in it, by their names."""
    ends = "::" + function.name
    inside = "::" + "::".join([*function.name.split("::")[:-1], "fn", function.name.split("::")[-1]]) + "::"
    return [(name, it) for name, it in said.verdicts.items() if name.startswith(crate + "::") and (name.endswith(ends) or inside in name)]


def unanswered(crate, edit, said):
    """Why a check that refuses the edit says nothing of the contract, where it is open for want of an answer by hand alone."""
    function = None if edit.by or not strict["is_on"] else function_of(edit, crate.folder)
    if not function or refused_by(crate.name, edit, function, said):
        return None
    answered = answered_of(crate.name, function, said)
    if any(wants_answer(goal, function, *answered) for goal in goals_left(function, said)) or answered[1]:
        return "NOT REFUSED by more than an answer by hand that names what the edit took away: an edit keeps what those name"
    return None


def has_open_goal(name, function, verdict, said, part, counts):
    kind, why = verdict
    own = re.compile(rf"(?:\w+::)*{re.escape(function.name.split('::')[-1])}-")
    has_others = bool(function.cycle) and not is_alone(function, said)

    def fits(goal):
        # of a cycle all goals stand together, each under the name of its function, with its module where the cycle has several
        return part in goal and (bool(own.match(goal)) or not has_others)

    if kind == "no proof" and any(fits(goal) and counts(goal) for goal in named_goals(why)):
        return True
    if kind not in ("no proof", "not proved"):
        return False
    refused = any(stands_in(name, function, path, what, fits) for path, _, what in ERROR.findall(said.text) if not LOST_NAME.search(what))
    return refused or any(fits(goal) and counts(goal) for goal in goals_left(function, said))


def named_goals(why):
    """The goals that the words of a verdict name."""
    return [goal for goals in GOALS.findall(why) for goal in re.findall(r"`([^`]+)`", goals)]


def is_alone(function, said):
    """Whether the function is the only one of its cycle of calls: then its goals stand under no name."""
    marked = f"#[cycle({function.cycle})]"
    return sum(text_of(f"{said.folder}/{path}").count(marked) for path in sources(said.folder)) == 1


def goals_left(function, said):
    """The goals of the function that notes name: where an answer is refused, they alone do."""
    text = text_of(f"{said.folder}/{function.path}")
    start, end = (text.count("\n", 0, at) for at in span_of(text, function.path, function.name))
    # a note may name the line of the function's first attribute
    start = first_line(text.split("\n"), start)
    return [goal for path, line, goal in LEFT.findall(said.text) if path == function.path and start < int(line) <= end]


def hidden(chosen, left):
    """Those of the edits left unrefused whose goals another edit of their cycle of calls, which was refused, may have hidden."""
    refused = {function.cycle for edit, function in chosen if function.cycle and (edit, function) not in left}
    return [(edit, function) for edit, function in left if function.cycle in refused]


def stands_in(name, function, path, what, fits):
    """Whether an error of a proof file is one of this function's, at a goal that fits."""
    goal = re.match(r"`([^`]+)`", what)
    if function.cycle:
        return proves(name, function, path) and bool(goal) and fits(goal[1])
    return proves(name, function, path) and (not goal or fits(goal[1]))


def refused_alone(texts, said):
    """None where the check refuses the crate with these texts, and else why that isn't so."""
    if said.status == 0:
        return "NOT REFUSED: it is proved with this edit"
    if not said.judged:
        lines = [line for line in said.text.split("\n") if "error" in line] or said.text.split("\n")[-3:]
        return f"it doesn't reach the prover: {' '.join(lines)[:300]}"
    why = unread(said.text, texts)
    return f"the prover can't read it: {why}" if why else None


def unread(text, texts=()):
    """What the prover could not read in src/, in specs/ or in an edited file, or doesn't judge, if anything."""
    uncovered = UNCOVERED.search(text)
    if uncovered:
        return uncovered[0][:200]
    for line in text.split("\n"):
        at = re.match(r"(?:\./)?(\S+?):\d+:\d+: error: (?:(`[^`]*`): )?(.*)", line)
        if at and (at[1] in texts or at[1].startswith(("src/", "specs/"))):
            if not at[2] or UNREAD.search(re.sub(r"`[^`]*`", "", at[3])):
                return line[:200]
    return None


def blamed(chosen, texts, said):
    """Those of the edits that the compiler's words name: by the line that they changed, or by their function."""
    lines = {(path, int(row)) for path, row, _ in ERROR.findall(said.text)}
    lines |= {(path, int(row)) for path, row in re.findall(r"(src/\S+?\.rt):(\d+)", said.text)}
    uncovered = [it or own for own, it in UNCOVERED.findall(said.text)]
    guilty = []
    for edit, function in chosen:
        changed = {(path, row) for path, _, new in edit.pairs for row in rows_of(texts[path], new)}
        is_uncovered = any(name.endswith("::" + function.name) for name in uncovered)
        if changed & lines or is_uncovered or f"`{function.name}`" in said.text:
            guilty.append((edit, function))
    return guilty


def rows_of(text, part):
    return [row for row, line in enumerate(text.split("\n"), 1) if part and part in line]
